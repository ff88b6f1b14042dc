//! The library's calls: those of include/offload.h, and those of crate `harness`, which has the reader and the two writers. A slice is a
//! pointer and a length.

use second::calls::{
    BundleCalls, DifferencesCalls, EachCalls, EachField, Field, LookupCalls, ReadingCalls, RecoverCalls, RecoverField,
};
use second::model::binaries::{Binary, Cursor, Pair};
use second::model::binary_writer::Content;
use second::model::bundle::{Checked, Located, Picked};
use second::model::bundle_writer::Record;
use second::model::each::{Part, Slot};
use second::model::lookup::LookedUp;

#[link(name = "offload", kind = "static")]
extern "C" {
    fn offload_check_number(bundle: *const u8, length: usize) -> u64;
    fn offload_check_place(bundle: *const u8, length: usize) -> u64;
    fn offload_check_count(bundle: *const u8, length: usize) -> u64;
    fn offload_pick_number(bundle: *const u8, length: usize, device: *const u8, device_length: usize) -> u64;
    fn offload_pick_place(bundle: *const u8, length: usize, device: *const u8, device_length: usize) -> u64;
    fn offload_pick_index(bundle: *const u8, length: usize, device: *const u8, device_length: usize) -> u64;
    fn offload_pick_position(bundle: *const u8, length: usize, device: *const u8, device_length: usize) -> u64;
    fn offload_pick_size(bundle: *const u8, length: usize, device: *const u8, device_length: usize) -> u64;
    fn offload_entry_number(bundle: *const u8, length: usize, index: usize) -> u64;
    fn offload_entry_place(bundle: *const u8, length: usize, index: usize) -> u64;
    fn offload_entry_position(bundle: *const u8, length: usize, index: usize) -> u64;
    fn offload_entry_size(bundle: *const u8, length: usize, index: usize) -> u64;
    fn offload_entry_id_position(bundle: *const u8, length: usize, index: usize) -> u64;
    fn offload_entry_id_length(bundle: *const u8, length: usize, index: usize) -> u64;
    fn offload_normalise_number(bundle: *const u8, length: usize, out: *mut u8, room: usize) -> u64;
    fn offload_normalise_place(bundle: *const u8, length: usize, out: *mut u8, room: usize) -> u64;
    fn offload_normalise_length(bundle: *const u8, length: usize, out: *mut u8, room: usize) -> u64;
    fn offload_amdgpu_check_number(bundle: *const u8, length: usize) -> u64;
    fn offload_amdgpu_check_place(bundle: *const u8, length: usize) -> u64;
    fn offload_amdgpu_check_count(bundle: *const u8, length: usize) -> u64;
    fn offload_amdgpu_pick_number(bundle: *const u8, length: usize, device: *const u8, device_length: usize) -> u64;
    fn offload_amdgpu_pick_place(bundle: *const u8, length: usize, device: *const u8, device_length: usize) -> u64;
    fn offload_amdgpu_pick_index(bundle: *const u8, length: usize, device: *const u8, device_length: usize) -> u64;
    fn offload_amdgpu_pick_position(bundle: *const u8, length: usize, device: *const u8, device_length: usize) -> u64;
    fn offload_amdgpu_pick_size(bundle: *const u8, length: usize, device: *const u8, device_length: usize) -> u64;
    fn offload_amdgpu_normalise_number(bundle: *const u8, length: usize, out: *mut u8, room: usize) -> u64;
    fn offload_amdgpu_normalise_place(bundle: *const u8, length: usize, out: *mut u8, room: usize) -> u64;
    fn offload_amdgpu_normalise_length(bundle: *const u8, length: usize, out: *mut u8, room: usize) -> u64;
}

/// Calls that are given the same, one for each number that is returned.
macro_rules! numbers {
    ($given:tt: $($name:ident)*) => {
        #[link(name = "offload", kind = "static")]
        extern "C" {
            $(fn $name $given -> u64;)*
        }
    };
}

numbers! {
    (
        bundle: *const u8,
        length: usize,
        buffer: *const u8,
        buffer_length: usize,
        names: *const Part,
        name_count: usize,
        slots: *mut Slot,
        slot_count: usize,
    ):
    offload_pick_each_number offload_pick_each_place offload_pick_each_slots offload_pick_each_word
    offload_pick_each_taken
}

numbers! {
    (
        patch: *const u8,
        patch_length: usize,
        main: *const u8,
        main_length: usize,
        device: *const u8,
        device_length: usize,
    ):
    offload_lookup_number offload_lookup_place offload_lookup_bundle offload_lookup_position offload_lookup_size
}

numbers! {
    (
        left: *const u8,
        left_length: usize,
        right: *const u8,
        right_length: usize,
        out: *mut u8,
        room: usize,
    ):
    offload_compare_length
}

numbers! {
    (
        binaries: *const u8,
        length: usize,
        out: *mut u8,
        room: usize,
        spans: *mut Part,
        span_count: usize,
    ):
    offload_recover_number offload_recover_place offload_recover_length offload_recover_spans
}

#[link(name = "harness", kind = "static")]
extern "C" {
    fn offload_write_bundle_field(
        records: *const EntryRecord,
        record_count: usize,
        ids: *const u8,
        ids_length: usize,
        images: *const u8,
        images_length: usize,
        out: *mut u8,
        room: usize,
        field: usize,
    ) -> u64;
    fn offload_write_binary_field(
        image_kind: u64,
        offload_kind: u64,
        flags: u32,
        image: *const u8,
        image_length: usize,
        pairs: *const StringPair,
        pair_count: usize,
        strings: *const u8,
        strings_length: usize,
        out: *mut u8,
        room: usize,
        field: usize,
    ) -> u64;
    fn offload_binaries_next(
        binaries: *const u8,
        length: usize,
        position: usize,
        taken: usize,
        pair: usize,
        numbers: *mut [u64; 16],
    );
}

// The records of the two writers, as the library declares them.
#[repr(C)]
struct EntryRecord {
    id_start: u64,
    id_len: u64,
    image_start: u64,
    image_len: u64,
}

#[repr(C)]
struct StringPair {
    key_start: u64,
    key_len: u64,
    text_start: u64,
    text_len: u64,
}

type CheckNumber = unsafe extern "C" fn(*const u8, usize) -> u64;
type PickNumber = unsafe extern "C" fn(*const u8, usize, *const u8, usize) -> u64;
type NormaliseNumber = unsafe extern "C" fn(*const u8, usize, *mut u8, usize) -> u64;
type LookupNumber = unsafe extern "C" fn(*const u8, usize, *const u8, usize, *const u8, usize) -> u64;

/// The C calls of one reading, one for each number that is returned.
struct Numbers {
    check: [CheckNumber; 3],
    pick: [PickNumber; 5],
    normalise: [NormaliseNumber; 3],
}

const GENERAL: Numbers = Numbers {
    check: [offload_check_number, offload_check_place, offload_check_count],
    pick: [offload_pick_number, offload_pick_place, offload_pick_index, offload_pick_position, offload_pick_size],
    normalise: [offload_normalise_number, offload_normalise_place, offload_normalise_length],
};

const AMDGPU: Numbers = Numbers {
    check: [offload_amdgpu_check_number, offload_amdgpu_check_place, offload_amdgpu_check_count],
    pick: [
        offload_amdgpu_pick_number,
        offload_amdgpu_pick_place,
        offload_amdgpu_pick_index,
        offload_amdgpu_pick_position,
        offload_amdgpu_pick_size,
    ],
    normalise: [offload_amdgpu_normalise_number, offload_amdgpu_normalise_place, offload_amdgpu_normalise_length],
};

pub const BUNDLES: BundleCalls = BundleCalls {
    check: |bundle| check(&GENERAL, bundle),
    pick: |bundle, device| pick(&GENERAL, bundle, device),
    entry,
    normalise: |bundle, out, field| normalise(&GENERAL, bundle, out, field),
};

pub const PROFILE: ReadingCalls = ReadingCalls {
    check: |bundle| check(&AMDGPU, bundle),
    pick: |bundle, device| pick(&AMDGPU, bundle, device),
    normalise: |bundle, out, field| normalise(&AMDGPU, bundle, out, field),
};

pub const EACH: EachCalls = EachCalls { each: pick_each, pick: BUNDLES.pick };

pub const LOOKUP: LookupCalls = LookupCalls { lookup, check: BUNDLES.check, pick: BUNDLES.pick };

pub const DIFFERENCES: DifferencesCalls =
    DifferencesCalls { compare, check: BUNDLES.check, normalise: BUNDLES.normalise };

pub const RECOVER: RecoverCalls = RecoverCalls { recover, read: next };

const LOOKUP_NUMBERS: [LookupNumber; 5] =
    [offload_lookup_number, offload_lookup_place, offload_lookup_bundle, offload_lookup_position, offload_lookup_size];

fn check(calls: &Numbers, bundle: &[u8]) -> Checked {
    // SAFETY: the slice is as long as it says.
    let [number, place, count] = calls.check.map(|call| unsafe { call(bundle.as_ptr(), bundle.len()) });
    Checked { number, place, count }
}

fn pick(calls: &Numbers, bundle: &[u8], device: &[u8]) -> Picked {
    // SAFETY: the slices are as long as they say.
    let number = |call: PickNumber| unsafe { call(bundle.as_ptr(), bundle.len(), device.as_ptr(), device.len()) };
    let [number, place, index, position, size] = calls.pick.map(number);
    Picked { number, place, index, position, size }
}

fn pick_each(bundle: &[u8], buffer: &[u8], names: &[Part], slots: &mut [Slot], field: EachField) -> u64 {
    let call = match field {
        EachField::Number => offload_pick_each_number,
        EachField::Place => offload_pick_each_place,
        EachField::Slots => offload_pick_each_slots,
        EachField::Word => offload_pick_each_word,
        EachField::Taken => offload_pick_each_taken,
    };
    // SAFETY: the slices are as long as they say, and the slots share no byte with another.
    unsafe {
        call(
            bundle.as_ptr(),
            bundle.len(),
            buffer.as_ptr(),
            buffer.len(),
            names.as_ptr(),
            names.len(),
            slots.as_mut_ptr(),
            slots.len(),
        )
    }
}

fn lookup(patch: &[u8], main: &[u8], device: &[u8]) -> LookedUp {
    // SAFETY: the slices are as long as they say.
    let number = |call: LookupNumber| unsafe {
        call(patch.as_ptr(), patch.len(), main.as_ptr(), main.len(), device.as_ptr(), device.len())
    };
    let [number, place, bundle, position, size] = LOOKUP_NUMBERS.map(number);
    LookedUp { number, place, bundle, position, size }
}

fn compare(left: &[u8], right: &[u8], out: &mut [u8]) -> u64 {
    let room = out.len();
    // SAFETY: the slices are as long as they say, and the output shares no byte with another.
    unsafe { offload_compare_length(left.as_ptr(), left.len(), right.as_ptr(), right.len(), out.as_mut_ptr(), room) }
}

fn recover(binaries: &[u8], out: &mut [u8], spans: &mut [Part], field: RecoverField) -> u64 {
    let call = match field {
        RecoverField::Number => offload_recover_number,
        RecoverField::Place => offload_recover_place,
        RecoverField::Length => offload_recover_length,
        RecoverField::Spans => offload_recover_spans,
    };
    // SAFETY: the slices are as long as they say, and output and spans share no byte with another.
    unsafe { call(binaries.as_ptr(), binaries.len(), out.as_mut_ptr(), out.len(), spans.as_mut_ptr(), spans.len()) }
}

fn entry(bundle: &[u8], index: u64) -> Located {
    let (start, length, index) = (bundle.as_ptr(), bundle.len(), index as usize);
    // SAFETY: the slice is as long as it says.
    unsafe {
        Located {
            number: offload_entry_number(start, length, index),
            place: offload_entry_place(start, length, index),
            position: offload_entry_position(start, length, index),
            size: offload_entry_size(start, length, index),
            id_position: offload_entry_id_position(start, length, index),
            id_length: offload_entry_id_length(start, length, index),
        }
    }
}

fn normalise(calls: &Numbers, bundle: &[u8], out: &mut [u8], field: Field) -> u64 {
    let call = calls.normalise[field as usize];
    // SAFETY: the slices are as long as they say, and the output shares no byte with the bundle.
    unsafe { call(bundle.as_ptr(), bundle.len(), out.as_mut_ptr(), out.len()) }
}

pub fn write_bundle(records: &[Record], ids: &[u8], images: &[u8], out: &mut [u8], field: Field) -> u64 {
    let records: Vec<EntryRecord> = records
        .iter()
        .map(|record| EntryRecord {
            id_start: record.id_start,
            id_len: record.id_length,
            image_start: record.image_start,
            image_len: record.image_length,
        })
        .collect();
    // SAFETY: the slices are as long as they say, and the output shares no byte with another.
    unsafe {
        offload_write_bundle_field(
            records.as_ptr(),
            records.len(),
            ids.as_ptr(),
            ids.len(),
            images.as_ptr(),
            images.len(),
            out.as_mut_ptr(),
            out.len(),
            field as usize,
        )
    }
}

pub fn write_binary(content: &Content, strings: &[u8], image: &[u8], out: &mut [u8], field: Field) -> u64 {
    let pairs: Vec<StringPair> = content
        .pairs
        .iter()
        .map(|pair| StringPair {
            key_start: pair.key_start,
            key_len: pair.key_length,
            text_start: pair.text_start,
            text_len: pair.text_length,
        })
        .collect();
    // SAFETY: the slices are as long as they say, and the output shares no byte with another.
    unsafe {
        offload_write_binary_field(
            content.image_kind,
            content.offload_kind,
            content.flags,
            image.as_ptr(),
            image.len(),
            pairs.as_ptr(),
            pairs.len(),
            strings.as_ptr(),
            strings.len(),
            out.as_mut_ptr(),
            out.len(),
            field as usize,
        )
    }
}

/// What a reader of the library answers that stands at the cursor, and its cursor afterwards. A call gives one string pair.
pub fn next(binaries: &[u8], cursor: Cursor) -> (Binary, Cursor) {
    let call = |pair: u64| {
        let mut numbers = [0; 16];
        let (start, length, taken) = (binaries.as_ptr(), binaries.len(), cursor.taken as usize);
        // SAFETY: the slice is as long as it says, and there is room for sixteen numbers.
        unsafe { offload_binaries_next(start, length, cursor.at, taken, pair as usize, &mut numbers) };
        numbers
    };
    let numbers = call(0);
    let pair = |k: u64| {
        let numbers = if k == 0 { numbers } else { call(k) };
        Pair { key_place: numbers[10], key_length: numbers[11], text_place: numbers[12], text_length: numbers[13] }
    };
    let binary = Binary {
        number: numbers[0],
        place: numbers[1],
        first: numbers[2],
        size: numbers[3],
        image_kind: numbers[4],
        offload_kind: numbers[5],
        flags: numbers[6],
        image_place: numbers[7],
        image_length: numbers[8],
        // The model has 32 at most.
        pairs: (0..numbers[9].min(33)).map(pair).collect(),
    };
    (binary, Cursor { at: numbers[14] as usize, taken: numbers[15] })
}
