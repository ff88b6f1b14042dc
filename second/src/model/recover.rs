//! "Rescue a damaged strip": the binaries of it that are whole, and the spans that are skipped.

use super::binaries::{next, Cursor, MAGIC_BYTES};
use super::each::Part;
use super::*;

/// What the call returns: how many bytes it copied, and how many spans it reported.
#[derive(Clone, Copy, Debug, Default, PartialEq, Eq)]
pub struct Recovered {
    pub number: u64,
    pub place: u64,
    pub length: u64,
    pub spans: u64,
}

/// The binaries that are found, as parts of the sequence; there are 65 where the call stops at the 65th.
pub type Found = Result<Vec<Part>, Refusal>;

pub fn recover(sequence: &[u8], out: &mut [u8], spans: &mut [Part]) -> Recovered {
    recover_of(sequence, &found(sequence), out, spans)
}

/// The same for a sequence in which this is found. "1, 18 and 12 .. are the only refusals, in that order, and then nothing is written."
pub fn recover_of(sequence: &[u8], found: &Found, out: &mut [u8], spans: &mut [Part]) -> Recovered {
    match room_for(sequence, found, out.len(), spans.len()) {
        Err(Refusal { number, place }) => Recovered { number, place, ..Recovered::default() },
        Ok((found, skipped)) => {
            let copies = copies(sequence, found);
            out[..copies.len()].copy_from_slice(&copies);
            spans[..skipped.len()].copy_from_slice(&skipped);
            Recovered { number: OK, place: 0, length: copies.len() as u64, spans: skipped.len() as u64 }
        }
    }
}

/// "A 65th found binary gives 18 with its first byte as place"; "12 (for the copies or the list of spans)".
fn room_for<'a>(
    sequence: &[u8],
    found: &'a Found,
    room: usize,
    span_room: usize,
) -> Result<(&'a [Part], Vec<Part>), Refusal> {
    let found = found.as_ref().map_err(|refusal| *refusal)?;
    if let Some(binary) = found.get(BINARY_LIMIT as usize) {
        return Err(Refusal { number: MANY, place: binary.start });
    }
    let skipped = skipped(sequence.len() as u64, found);
    refuse_if(copied(found) > room as u64 || skipped.len() > span_room, ROOM)?;
    Ok((found, skipped))
}

/// "from the cursor, at first the strip's first byte, take the lowest position at which a binary passes 13 to 17, copy it out, go on after
/// it."
pub fn found(sequence: &[u8]) -> Found {
    refuse_if(sequence.len() as u128 > SIZE_LIMIT, LENGTH)?;
    let mut found = Vec::new();
    let mut cursor = 0;
    while let Some(binary) = lowest(sequence, cursor) {
        cursor = end(binary) as usize;
        found.push(binary);
        if found.len() as u64 > BINARY_LIMIT {
            break;
        }
    }
    Ok(found)
}

fn lowest(sequence: &[u8], cursor: usize) -> Option<Part> {
    (cursor..sequence.len()).find_map(|at| passing(sequence, at))
}

/// The binary at a position, if it "passes 13 to 17". Most positions break 13 by the first four bytes.
fn passing(sequence: &[u8], at: usize) -> Option<Part> {
    if !sequence[at..].starts_with(&MAGIC_BYTES) {
        return None;
    }
    let (binary, _) = next(sequence, Cursor { at, taken: 0 });
    (binary.number == OK).then_some(Part { start: binary.first, length: binary.size })
}

/// The byte after a part.
pub fn end(part: Part) -> u64 {
    part.start + part.length
}

/// How many bytes the copies have.
pub fn copied(found: &[Part]) -> u64 {
    found.iter().map(|binary| binary.length).sum()
}

/// The copies, one directly after another.
pub fn copies(sequence: &[u8], found: &[Part]) -> Vec<u8> {
    let copies: Vec<&[u8]> = found.iter().filter_map(|binary| part(sequence, binary.start, binary.length)).collect();
    copies.concat()
}

/// "each unbroken skipped span as start and length, in rising order, so that copied and skipped spans together are the whole strip."
pub fn skipped(length: u64, found: &[Part]) -> Vec<Part> {
    let mut skipped = Vec::new();
    let mut start = 0;
    for next in found.iter().copied().chain([Part { start: length, length: 0 }]) {
        if start < next.start {
            skipped.push(Part { start, length: next.start - start });
        }
        start = end(next);
    }
    skipped
}
