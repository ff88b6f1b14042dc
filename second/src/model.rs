//! The rules written a second time, sentence by sentence, from the requirements alone, which docs/RULES.md restates: words in quotation
//! marks are theirs. Sums are made in 128 bits, so none wraps.

pub mod binaries;
pub mod binary_writer;
pub mod bundle;
pub mod bundle_writer;
pub mod differences;
pub mod each;
#[cfg(test)]
mod examples;
pub mod id;
pub mod lookup;
pub mod processors;
#[cfg(test)]
mod properties;
pub mod recover;

// "Numbers that come back".
pub const OK: u64 = 0;
pub const LENGTH: u64 = 1;
pub const MAGIC: u64 = 2;
pub const COUNT: u64 = 3;
pub const TABLE: u64 = 4;
pub const ID: u64 = 5;
pub const RANGE: u64 = 6;
pub const TWICE: u64 = 7;
pub const MIXED: u64 = 8;
pub const QUERY: u64 = 9;
pub const NONE: u64 = 10;
pub const BIG: u64 = 11;
pub const ROOM: u64 = 12;
pub const HEAD: u64 = 13;
pub const SPAN: u64 = 14;
pub const KIND: u64 = 15;
pub const STRINGS: u64 = 16;
pub const IMAGE: u64 = 17;
pub const MANY: u64 = 18;
pub const END: u64 = 19;
pub const OVERLAP: u64 = 21;
pub const RACK: u64 = 23;
/// How many numbers a tally has room for: RACK is the highest.
pub const NUMBERS: usize = 24;

// "Sizes".
pub const SIZE_LIMIT: u128 = 1_073_741_824;
pub const ENTRY_LIMIT: u64 = 64;
pub const BINARY_LIMIT: u64 = 64;
pub const ID_LIMIT: u64 = 256;
pub const DEVICE_LIMIT: u64 = 16;
pub const FEATURE_LIMIT: usize = 8;
pub const PAIR_LIMIT: u64 = 32;
pub const STRING_LIMIT: u64 = 256;

/// A refusal: "its number and a place (0 where none is named)".
#[derive(Clone, Copy, Debug, PartialEq, Eq)]
pub struct Refusal {
    pub number: u64,
    pub place: u64,
}

/// The refusal with a number, if it applies, with place 0.
pub fn refuse_if(applies: bool, number: u64) -> Result<(), Refusal> {
    if applies {
        return Err(Refusal { number, place: 0 });
    }
    Ok(())
}

/// The refusal with a number at "the lowest index it applies to".
pub fn refuse_at(count: usize, number: u64, applies: impl Fn(usize) -> bool) -> Result<(), Refusal> {
    for index in 0..count {
        if applies(index) {
            return Err(Refusal { number, place: index as u64 });
        }
    }
    Ok(())
}

/// What a call that writes returns.
#[derive(Clone, Copy, Debug, Default, PartialEq, Eq)]
pub struct Written {
    pub number: u64,
    pub place: u64,
    pub length: u64,
}

/// "A refusal .. writes no output"; what lies beyond the length written stays as it was.
pub fn write_or_refuse(output: Result<Vec<u8>, Refusal>, out: &mut [u8]) -> Written {
    match output {
        Err(refusal) => Written { number: refusal.number, place: refusal.place, length: 0 },
        Ok(bytes) => {
            out[..bytes.len()].copy_from_slice(&bytes);
            Written { number: OK, place: 0, length: bytes.len() as u64 }
        }
    }
}

/// BIG and ROOM: "the output would be above the size limit", "the lent output is shorter than the output".
pub fn big_or_room(length: u128, room: usize) -> Result<(), Refusal> {
    refuse_if(length > SIZE_LIMIT, BIG)?;
    refuse_if((room as u128) < length, ROOM)
}

/// The `width` bytes at `at` as a number: "all integers are little-endian".
pub fn integer(bytes: &[u8], at: usize, width: usize) -> u64 {
    let mut value = 0;
    for k in 0..width {
        value += (bytes[at + k] as u64) << (8 * k);
    }
    value
}

/// A part of a buffer, if it lies inside: start + length is at most the buffer's length.
pub fn part(buffer: &[u8], start: u64, length: u64) -> Option<&[u8]> {
    let end = start as u128 + length as u128;
    if end > buffer.len() as u128 {
        return None;
    }
    Some(&buffer[start as usize..end as usize])
}
