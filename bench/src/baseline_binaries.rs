//! The baseline's reader of offload binaries, and how it recovers them.

use second::model::binaries::{Binary, Cursor, Pair};

#[repr(C)]
#[derive(Clone, Copy, Default)]
struct CPair {
    key_place: u64,
    key_length: u64,
    text_place: u64,
    text_length: u64,
}

#[repr(C)]
#[derive(Default)]
pub struct CBinary {
    number: u64,
    place: u64,
    first: u64,
    size: u64,
    image_kind: u64,
    offload_kind: u64,
    flags: u64,
    image_place: u64,
    image_length: u64,
    count: u64,
    pairs: [CPair; 32],
}

#[repr(C)]
struct CCursor {
    at: u64,
    taken: u64,
}

#[repr(C)]
struct CRecovered {
    number: u64,
    place: u64,
    length: u64,
    spans: u64,
}

extern "C" {
    fn baseline_next(bytes: *const u8, length: usize, cursor: *mut CCursor, read: *mut CBinary);
    fn baseline_recover(
        bytes: *const u8,
        length: usize,
        out: *mut u8,
        room: usize,
        spans: *mut [u64; 2],
        span_room: usize,
    ) -> CRecovered;
}

/// Number, place, length and spans.
pub fn recover(binaries: &[u8], out: &mut [u8], spans: &mut [[u64; 2]]) -> [u64; 4] {
    // SAFETY: the slices are as long as they say, and output and spans share no byte with the others.
    let CRecovered { number, place, length, spans } = unsafe {
        baseline_recover(
            binaries.as_ptr(),
            binaries.len(),
            out.as_mut_ptr(),
            out.len(),
            spans.as_mut_ptr(),
            spans.len(),
        )
    };
    [number, place, length, spans]
}

/// How many binaries there are before the first answer that is none.
pub fn read_all(binaries: &[u8]) -> u64 {
    let mut cursor = CCursor { at: 0, taken: 0 };
    let mut read = CBinary::default();
    loop {
        // SAFETY: the slice is as long as it says; the structs are the baseline's.
        unsafe { baseline_next(binaries.as_ptr(), binaries.len(), &mut cursor, &mut read) };
        if read.number != 0 {
            return cursor.taken;
        }
    }
}

/// One answer as the second program gives it.
pub fn next(binaries: &[u8], cursor: Cursor) -> (Binary, Cursor) {
    let mut after = CCursor { at: cursor.at as u64, taken: cursor.taken };
    let mut read = CBinary::default();
    // SAFETY: as above.
    unsafe { baseline_next(binaries.as_ptr(), binaries.len(), &mut after, &mut read) };
    (answer(&read), Cursor { at: after.at as usize, taken: after.taken })
}

fn answer(read: &CBinary) -> Binary {
    if read.number != 0 {
        return Binary { number: read.number, place: read.place, ..Binary::default() };
    }
    let pair = |pair: &CPair| Pair {
        key_place: pair.key_place,
        key_length: pair.key_length,
        text_place: pair.text_place,
        text_length: pair.text_length,
    };
    Binary {
        number: 0,
        place: 0,
        first: read.first,
        size: read.size,
        image_kind: read.image_kind,
        offload_kind: read.offload_kind,
        flags: read.flags,
        image_place: read.image_place,
        image_length: read.image_length,
        pairs: read.pairs[..read.count as usize].iter().map(pair).collect(),
    }
}
