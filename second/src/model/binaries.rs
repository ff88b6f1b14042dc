//! The reader of offload binaries laid end to end (RULES 12, 13).

use super::*;
use std::collections::BTreeSet;

pub const MAGIC_BYTES: [u8; 4] = [0x10, 0xFF, 0x10, 0xAD];

/// Where a reader stands: the first byte not yet read, and how many binaries it has handed back.
#[derive(Clone, Copy, Debug, Default, PartialEq, Eq)]
pub struct Cursor {
    pub at: usize,
    pub taken: u64,
}

/// "place and length .. of each key and text".
#[derive(Clone, Copy, Debug, Default, PartialEq, Eq)]
pub struct Pair {
    pub key_place: u64,
    pub key_length: u64,
    pub text_place: u64,
    pub text_length: u64,
}

/// An answer of the reader: a binary where the number is OK, else a refusal or END. "places counted from the strip's first byte".
#[derive(Clone, Debug, Default, PartialEq, Eq)]
pub struct Binary {
    pub number: u64,
    pub place: u64,
    pub first: u64,
    pub size: u64,
    pub image_kind: u64,
    pub offload_kind: u64,
    pub flags: u64,
    pub image_place: u64,
    pub image_length: u64,
    pub pairs: Vec<Pair>,
}

/// "hands back its binaries one after another"; "After a refusal (LENGTH at opening too) or END it stays where it is, and asking again
/// gives the same."
pub fn next(binaries: &[u8], cursor: Cursor) -> (Binary, Cursor) {
    match read(binaries, cursor) {
        Err(refusal) => (Binary { number: refusal.number, place: refusal.place, ..Binary::default() }, cursor),
        Ok(binary) => {
            let after = Cursor { at: cursor.at + binary.size as usize, taken: cursor.taken + 1 };
            (binary, after)
        }
    }
}

/// "1 at opening; then for each binary END, 18, and 13 to 17; the place is the first byte not yet read (END: the length)."
fn read(binaries: &[u8], cursor: Cursor) -> Result<Binary, Refusal> {
    refuse_if(binaries.len() as u128 > SIZE_LIMIT, LENGTH)?;
    let stop = |applies: bool, number: u64| {
        if applies {
            return Err(Refusal { number, place: cursor.at as u64 });
        }
        Ok(())
    };
    stop(cursor.at == binaries.len(), END)?;
    stop(cursor.taken == BINARY_LIMIT, MANY)?;
    let left = &binaries[cursor.at..];
    stop(bad_head(left), HEAD)?;
    stop(bad_span(left), SPAN)?;
    let binary = &left[..integer(left, 8, 8) as usize];
    let entry = &binary[integer(binary, 16, 8) as usize..][..40];
    stop(bad_kind(entry), KIND)?;
    let pairs = strings(binary, entry);
    stop(pairs.is_none(), STRINGS)?;
    stop(bad_image(binary, entry), IMAGE)?;
    Ok(answer(binary, entry, pairs.unwrap_or_default(), cursor.at as u64))
}

/// "under 32 bytes left, wrong first four, version not 1".
fn bad_head(left: &[u8]) -> bool {
    left.len() < 32 || left[..4] != MAGIC_BYTES || integer(left, 4, 4) != 1
}

/// "size under 72 or above what is left; entry size not 40; entry offset under 32, or its 40 bytes pass the size".
fn bad_span(left: &[u8]) -> bool {
    let size = integer(left, 8, 8) as u128;
    let entry_offset = integer(left, 16, 8) as u128;
    let entry_size = integer(left, 24, 8);
    size < 72 || size > left.len() as u128 || entry_size != 40 || entry_offset < 32 || entry_offset + 40 > size
}

/// "image kind above 5 or offload kind above 3".
fn bad_kind(entry: &[u8]) -> bool {
    integer(entry, 0, 2) > 5 || integer(entry, 2, 2) > 3
}

/// The pairs with places counted from the binary's first byte, or nothing: "more than 32; with at least one, pairs not between 32 and
/// the size; .. empty key; equal keys".
fn strings(binary: &[u8], entry: &[u8]) -> Option<Vec<Pair>> {
    let table = integer(entry, 8, 8);
    let count = integer(entry, 16, 8);
    if count > PAIR_LIMIT {
        return None;
    }
    if count >= 1 && (table < 32 || table as u128 + 16 * count as u128 > binary.len() as u128) {
        return None;
    }
    let mut pairs = Vec::new();
    let mut keys = BTreeSet::new();
    for k in 0..count {
        let at = (table + 16 * k) as usize;
        let key = string(binary, integer(binary, at, 8))?;
        let text = string(binary, integer(binary, at + 8, 8))?;
        if key.1 == 0 || !keys.insert(part(binary, key.0, key.1)) {
            return None;
        }
        pairs.push(Pair { key_place: key.0, key_length: key.1, text_place: text.0, text_length: text.1 });
    }
    Some(pairs)
}

/// The place and length of the string at an offset, or nothing: "an offset under 32 or with no zero byte from it to the end; over 256
/// bytes".
fn string(binary: &[u8], offset: u64) -> Option<(u64, u64)> {
    if offset < 32 || offset >= binary.len() as u64 {
        return None;
    }
    let length = binary[offset as usize..].iter().position(|byte| *byte == 0)? as u64;
    (length <= STRING_LIMIT).then_some((offset, length))
}

/// "image offset under 32, or offset + size above the binary's size".
fn bad_image(binary: &[u8], entry: &[u8]) -> bool {
    let offset = integer(entry, 24, 8) as u128;
    let size = integer(entry, 32, 8) as u128;
    offset < 32 || offset + size > binary.len() as u128
}

/// The accepted binary, its places counted from the container's first byte.
fn answer(binary: &[u8], entry: &[u8], pairs: Vec<Pair>, first: u64) -> Binary {
    let moved = |pair: Pair| Pair { key_place: first + pair.key_place, text_place: first + pair.text_place, ..pair };
    Binary {
        number: OK,
        place: 0,
        first,
        size: binary.len() as u64,
        image_kind: integer(entry, 0, 2),
        offload_kind: integer(entry, 2, 2),
        flags: integer(entry, 4, 4),
        image_place: first + integer(entry, 24, 8),
        image_length: integer(entry, 32, 8),
        pairs: pairs.into_iter().map(moved).collect(),
    }
}

/// Every answer from the container's first byte on, the last one a refusal or END.
pub fn read_all(binaries: &[u8]) -> Vec<Binary> {
    let mut answers = Vec::new();
    let mut cursor = Cursor::default();
    loop {
        let (answer, after) = next(binaries, cursor);
        cursor = after;
        let last = answer.number != OK;
        answers.push(answer);
        if last {
            return answers;
        }
    }
}
