//! "One call for the whole rack": a pick for each of several device names, by the general reading.

use super::bundle::{entries, pick_of, Entries, Picked};
use super::id::Reading;
use super::*;
use std::collections::BTreeSet;

/// Where a device name stands: names are "parts of one buffer". As C lays it out, and so is `Slot`: lists of both are lent.
#[repr(C)]
#[derive(Clone, Copy, Debug, Default, PartialEq, Eq)]
pub struct Part {
    pub start: u64,
    pub length: u64,
}

/// "one slot per name with number, entry index, position and size".
#[repr(C)]
#[derive(Clone, Copy, Debug, Default, PartialEq, Eq)]
pub struct Slot {
    pub number: u64,
    pub index: u64,
    pub position: u64,
    pub size: u64,
}

/// What the call returns: how many slots were written, "a 64-bit word with bit i set exactly when some card took entry i, and how many
/// entries are taken".
#[derive(Clone, Copy, Debug, Default, PartialEq, Eq)]
pub struct PickedEach {
    pub number: u64,
    pub place: u64,
    pub slots: u64,
    pub word: u64,
    pub taken: u64,
}

/// "Take a lent list of up to 16 device names, parts of one buffer, and fill one slot per name".
pub fn pick_each(bundle: &[u8], buffer: &[u8], names: &[Part], slots: &mut [Slot]) -> PickedEach {
    pick_each_of(&entries(Reading::General, bundle), buffer, names, slots)
}

/// The same for a bundle of which this was read. "what lies past a length written stays as it was".
pub fn pick_each_of(entries: &Entries, buffer: &[u8], names: &[Part], slots: &mut [Slot]) -> PickedEach {
    match filled(entries, buffer, names, slots.len()) {
        Err(refusal) => PickedEach { number: refusal.number, place: refusal.place, ..PickedEach::default() },
        Ok(filled) => {
            slots[..filled.len()].copy_from_slice(&filled);
            let (slots, taken) = (filled.len() as u64, taken(&filled));
            PickedEach { number: OK, place: 0, slots, word: word(&taken), taken: taken.len() as u64 }
        }
    }
}

/// "A container refusal (1 to 8) refuses the whole call and writes no slot". "After 1 to 8 come new number 23, RACK, for more than 16
/// names, then ROOM for fewer slots than names."
fn filled(entries: &Entries, buffer: &[u8], names: &[Part], room: usize) -> Result<Vec<Slot>, Refusal> {
    entries.as_ref().map_err(|refusal| *refusal)?;
    refuse_if(names.len() as u64 > DEVICE_LIMIT, RACK)?;
    refuse_if(room < names.len(), ROOM)?;
    Ok(names.iter().map(|name| slot(entries, buffer, *name)).collect())
}

/// "Each slot equals what the single pick gives for that name." "QUERY (also for a part outside the buffer) and NONE stay in their own
/// slot."
fn slot(entries: &Entries, buffer: &[u8], name: Part) -> Slot {
    match part(buffer, name.start, name.length) {
        None => Slot { number: QUERY, ..Slot::default() },
        Some(device) => {
            let Picked { number, index, position, size, .. } = pick_of(Reading::General, entries, device);
            Slot { number, index, position, size }
        }
    }
}

/// The entries that "some card took".
fn taken(slots: &[Slot]) -> BTreeSet<u64> {
    slots.iter().filter(|slot| slot.number == OK).map(|slot| slot.index).collect()
}

/// "bit i set exactly when some card took entry i".
fn word(taken: &BTreeSet<u64>) -> u64 {
    taken.iter().map(|index| 1u64 << index).sum()
}
