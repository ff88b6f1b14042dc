//! Several device names: libraries with a slip.

use super::*;
use crate::calls::{EachCalls, EachField, Pick, PickEach, MODEL_EACH};
use crate::families::each::Each;
use crate::model::bundle::pick_of;
use crate::model::each::{pick_each, Part, PickedEach, Slot};
use crate::model::id::meaning_by;
use crate::model::id::Reading::Profile;
use crate::model::{DEVICE_LIMIT, RACK};
use std::collections::BTreeSet;

#[test]
fn several_names_meet_every_line_in_any_run_and_nearly_each_time() {
    meets_every_line_in_any_run(Each::new(MODEL_EACH));
}

#[test]
fn half_of_the_generated_calls_are_accepted_and_slots_have_every_answer() {
    let mut family = Each::new(MODEL_EACH);
    run_generated(&mut family, 4000).unwrap();
    let [calls, slots] = [0, 1].map(|tally| family.report().tallies[tally].seen);
    assert!(calls[OK as usize] > 1800, "{calls:?}");
    assert!([OK, QUERY, NONE].iter().all(|number| slots[*number as usize] > 1000), "{slots:?}");
}

/// What a library is given to read.
struct Given<'a> {
    bundle: &'a [u8],
    buffer: &'a [u8],
    names: &'a [Part],
}

impl Given<'_> {
    fn has_refused_container(&self) -> bool {
        check(self.bundle).number != OK
    }

    fn is_accepted(&self, slots: usize) -> bool {
        !self.has_refused_container() && self.names.len() <= slots.min(DEVICE_LIMIT as usize)
    }

    /// The bytes of a name, if they lie inside the buffer.
    fn device(&self, at: usize) -> Option<&[u8]> {
        part(self.buffer, self.names[at].start, self.names[at].length)
    }

    /// The lawful slot of a part.
    fn slot(&self, name: Part) -> Slot {
        let mut slot = [Slot::default()];
        pick_each(self.bundle, self.buffer, &[name], &mut slot);
        slot[0]
    }

    fn slot_at(&self, at: usize) -> Slot {
        self.slot(self.names[at])
    }
}

fn lawful(given: &Given, slots: &mut [Slot]) -> PickedEach {
    pick_each(given.bundle, given.buffer, given.names, slots)
}

fn refusal(number: u64) -> PickedEach {
    PickedEach { number, ..PickedEach::default() }
}

/// Libraries that take these steps.
macro_rules! slips {
    ($library:ident: $(($name:literal, $($step:expr),+),)*) => {
        &[$((
            $name,
            |bundle, buffer, names, slots, field| {
                field.of($library(&Given { bundle, buffer, names }, slots, $($step),+))
            },
        ),)*]
    };
}

type Slips = &'static [(&'static str, PickEach)];

/// Each slot, from the index of its name.
fn filled(given: &Given, slots: &mut [Slot], make: impl Fn(usize) -> Slot) -> PickedEach {
    let picked = lawful(given, slots);
    slots.iter_mut().take(picked.slots as usize).enumerate().for_each(|(at, slot)| *slot = make(at));
    picked
}

fn by_name(given: &Given, slots: &mut [Slot], make: fn(&Given, usize) -> Slot) -> PickedEach {
    filled(given, slots, |at| make(given, at))
}

/// The slot that a pick gives.
fn by(picked: Picked) -> Slot {
    let Picked { number, index, position, size, .. } = picked;
    Slot { number, index, position, size }
}

/// Memory is read where the sum of start and length wraps, as a C library would do it.
fn wrapped(given: &Given, at: usize) -> Slot {
    let Part { start, length } = given.names[at];
    let sum = start.wrapping_add(length);
    if sum > given.buffer.len() as u64 || length > 256 || sum >= start {
        return given.slot_at(at);
    }
    // SAFETY: before the buffer lie pages of its own memory, far more than 256 bytes of them.
    let device =
        unsafe { std::slice::from_raw_parts(given.buffer.as_ptr().wrapping_add(start as usize), length as usize) };
    by(pick(given.bundle, device))
}

const NOTHING: Slot = Slot { number: NONE, index: 0, position: 0, size: 0 };
const NO_NAME: Slot = Slot { number: QUERY, ..NOTHING };

const NAME_SLIPS: Slips = slips![by_name:
    ("each slot from the first name", |given, _| given.slot_at(0)),
    ("each slot from the last name", |given, _| given.slot_at(given.names.len() - 1)),
    ("slots in reverse", |given, at| given.slot_at(given.names.len() - 1 - at)),
    ("slot of the name before", |given, at| given.slot_at(at.saturating_sub(1))),
    ("an entry is taken by one name alone", |given, at| {
        let slot = given.slot_at(at);
        let is_first = slot.number != OK || (0..at).all(|earlier| given.slot_at(earlier) != slot);
        if is_first { slot } else { NOTHING }
    }),
    ("hip and hipv4 apart", |given, at| {
        given.device(at).map_or(NO_NAME, |device| by(pick_taken(AS_SPELLED, given.bundle, device)))
    }),
    ("names by the profile", |given, at| {
        let known = given.device(at).and_then(|device| meaning_by(Profile, device)).is_some();
        if known { given.slot_at(at) } else { NO_NAME }
    }),
    ("all by the profile", |given, at| {
        given.device(at).map_or(NO_NAME, |device| by(pick_of(Profile, &entries(Profile, given.bundle), device)))
    }),
    ("outside is NONE", |given, at| given.device(at).map_or(NOTHING, |_| given.slot_at(at))),
    ("empty is NONE", |given, at| if given.names[at].length == 0 { NOTHING } else { given.slot_at(at) }),
    ("the sum wraps", wrapped),
];

fn changed(given: &Given, slots: &mut [Slot], change: fn(Slot) -> Slot) -> PickedEach {
    filled(given, slots, |at| change(given.slot_at(at)))
}

const SLOT_SLIPS: Slips = slips![changed:
    ("position and size exchanged", |slot| Slot { position: slot.size, size: slot.position, ..slot }),
    ("index and position exchanged", |slot| Slot { index: slot.position, position: slot.index, ..slot }),
    ("NONE for QUERY", |slot| if slot.number == QUERY { NOTHING } else { slot }),
    ("QUERY for NONE", |slot| if slot.number == NONE { NO_NAME } else { slot }),
    ("ID for QUERY", |slot| if slot.number == QUERY { Slot { number: ID, ..slot } } else { slot }),
    ("index 64 for none", |slot| if slot.number == OK { slot } else { Slot { index: 64, ..slot } }),
    ("an image of size 0 is NONE", |slot| if slot.size == 0 && slot.number == OK { NOTHING } else { slot }),
    ("an index from 1 on", |slot| if slot.number == OK { Slot { index: slot.index + 1, ..slot } } else { slot }),
];

/// Names are read as if they were others.
fn renamed(given: &Given, slots: &mut [Slot], change: fn(u64, Part) -> Part) -> PickedEach {
    filled(given, slots, |at| given.slot(change(given.buffer.len() as u64, given.names[at])))
}

const NOWHERE: Part = Part { start: 0, length: 0 };

const PART_SLIPS: Slips = slips![renamed:
    ("a part past the buffer is cut short", |end, name| {
        Part { length: name.length.min(end.saturating_sub(name.start)), ..name }
    }),
    ("starts in 32 bits", |_, name| Part { start: name.start as u32 as u64, ..name }),
    ("lengths in 32 bits", |_, name| Part { length: name.length as u32 as u64, ..name }),
    ("lengths in 16 bits", |_, name| Part { length: name.length as u16 as u64, ..name }),
    ("lengths in 8 bits, 256 apart", |_, name| {
        if name.length == 256 { name } else { Part { length: name.length as u8 as u64, ..name } }
    }),
    ("256 bytes of a longer name", |_, name| Part { length: name.length.min(256), ..name }),
    ("no name of 256 bytes", |_, name| if name.length == 256 { NOWHERE } else { name }),
    ("no name at the buffer's end", |end, name| {
        if name.start.wrapping_add(name.length) == end { NOWHERE } else { name }
    }),
    ("no name at the buffer's start", |_, name| if name.start == 0 { NOWHERE } else { name }),
    ("an end in place of a length", |_, name| Part { length: name.length.wrapping_sub(name.start), ..name }),
    ("a length in place of a start", |_, name| Part { start: name.length, length: name.start }),
];

/// So many names are looked at, from the numbers of names and of slots.
fn counted(given: &Given, slots: &mut [Slot], count: fn(usize, usize) -> usize) -> PickedEach {
    lawful(&Given { names: &given.names[..count(given.names.len(), slots.len())], ..*given }, slots)
}

const COUNT_SLIPS: Slips = slips![counted:
    ("the first 16 of more", |names, _| names.min(16)),
    ("names counted in 8 bits", |names, _| names % 256),
    ("names counted in 16 bits", |names, _| names % 65_536),
    ("as many names as slots", |names, slots| if names > 16 { names } else { names.min(slots) }),
];

/// This refusal comes first, where it applies, from the number of slots.
fn refused_first(given: &Given, slots: &mut [Slot], number: u64, applies: fn(&Given, usize) -> bool) -> PickedEach {
    if applies(given, slots.len()) {
        return refusal(number);
    }
    lawful(given, slots)
}

const FIRST_SLIPS: Slips = slips![refused_first:
    ("16 names refused", RACK, |given, _| given.names.len() == 16 && !given.has_refused_container()),
    ("no names refused", ROOM, |given, _| given.names.is_empty() && !given.has_refused_container()),
    ("as many slots refused", ROOM, |given, slots| {
        slots > 0 && slots == given.names.len() && given.is_accepted(slots)
    }),
    ("more slots refused", ROOM, |given, slots| slots > given.names.len() && given.is_accepted(slots)),
    ("a buffer above the size limit refused", LENGTH, |given, _| given.buffer.len() as u128 > SIZE_LIMIT),
    ("QUERY refuses the call", QUERY, |given, slots| {
        given.is_accepted(slots) && given.names.iter().any(|name| given.slot(*name).number == QUERY)
    }),
    ("NONE refuses the call", NONE, |given, slots| {
        given.is_accepted(slots) && given.names.iter().any(|name| given.slot(*name).number == NONE)
    }),
    ("12 before 23", ROOM, |given, slots| slots < given.names.len() && !given.has_refused_container()),
    ("23 before the container's", RACK, |given, _| given.names.len() > 16),
    ("12 before the container's", ROOM, |given, slots| slots < given.names.len() && given.names.len() <= 16),
    ("23 before 21", RACK, |given, _| given.names.len() > 16 && check(given.bundle).number == OVERLAP),
    ("OK before the container's, with no names", OK, |given, _| given.names.is_empty()),
    ("OK before 12, with no slots", OK, |given, slots| slots == 0 && !given.has_refused_container()),
];

/// Other numbers where the call is refused by this one, from the number of slots.
fn refused(
    given: &Given,
    slots: &mut [Slot],
    number: u64,
    change: fn(&Given, usize, PickedEach) -> PickedEach,
) -> PickedEach {
    match lawful(given, slots) {
        picked if picked.number == number => change(given, slots.len(), picked),
        picked => picked,
    }
}

const REFUSAL_SLIPS: Slips = slips![refused:
    ("12 for 23", RACK, |_, _, _| refusal(ROOM)),
    ("23 for 12", ROOM, |_, _, _| refusal(RACK)),
    ("3 for 23", RACK, |_, _, _| refusal(COUNT)),
    ("no 21", OVERLAP, |_, _, _| PickedEach::default()),
    ("no place of 5", ID, |_, _, _| refusal(ID)),
    ("no place of 21", OVERLAP, |_, _, _| refusal(OVERLAP)),
    ("a place of 23", RACK, |_, _, picked| PickedEach { place: 16, ..picked }),
    ("a place of 12", ROOM, |_, slots, picked| PickedEach { place: slots as u64, ..picked }),
    ("slots counted by 23", RACK, |given, _, picked| PickedEach { slots: given.names.len() as u64, ..picked }),
    ("slots counted by 12", ROOM, |_, slots, picked| PickedEach { slots: slots as u64, ..picked }),
    ("a word beside 12", ROOM, |given, _, picked| PickedEach { word: word_of(&all_slots(given)), ..picked }),
    ("a count beside 12", ROOM, |given, _, picked| {
        PickedEach { taken: word_of(&all_slots(given)).count_ones() as u64, ..picked }
    }),
    ("a word beside 23", RACK, |given, _, picked| PickedEach { word: word_of(&all_slots(given)), ..picked }),
];

fn all_slots(given: &Given) -> Vec<Slot> {
    given.names.iter().take(20).map(|name| given.slot(*name)).collect()
}

fn with_image(slots: &[Slot]) -> impl Iterator<Item = &Slot> {
    slots.iter().filter(|slot| slot.number == OK)
}

fn word_of(slots: &[Slot]) -> u64 {
    with_image(slots).fold(0, |word: u64, slot| word | 1 << slot.index)
}

/// Something is written where the call is refused by this number.
fn refused_writing(given: &Given, slots: &mut [Slot], number: u64, write: fn(&Given, &mut [Slot])) -> PickedEach {
    let picked = lawful(given, slots);
    if picked.number == number {
        write(given, slots);
    }
    picked
}

fn write_first(given: &Given, slots: &mut [Slot]) {
    slots.iter_mut().zip(given.names).take(1).for_each(|(slot, name)| *slot = given.slot(*name));
}

fn write_all(given: &Given, slots: &mut [Slot]) {
    slots.iter_mut().zip(given.names).for_each(|(slot, name)| *slot = given.slot(*name));
}

fn clear(_: &Given, slots: &mut [Slot]) {
    slots.fill(Slot::default());
}

const WRITING_SLIPS: Slips = slips![refused_writing:
    ("slots written by 23", RACK, write_all),
    ("slots cleared by 23", RACK, clear),
    ("a slot written by 23", RACK, write_first),
    ("a slot written by 12", ROOM, write_first),
    ("slots written by 12", ROOM, write_all),
    ("slots cleared by 12", ROOM, clear),
    ("slots cleared by 1", LENGTH, clear),
    ("slots cleared by 2", MAGIC, clear),
    ("slots written by 21", OVERLAP, write_all),
    ("slots written by 8", MIXED, write_all),
    ("slots past the names cleared", OK, |given, slots| clear(given, &mut slots[given.names.len()..])),
    ("the slot past the names cleared", OK, |given, slots| {
        slots.iter_mut().skip(given.names.len()).take(1).for_each(|slot| *slot = Slot::default());
    }),
    ("slots up to 16 cleared", OK, |given, slots| {
        slots.iter_mut().take(16).skip(given.names.len()).for_each(|slot| *slot = Slot::default());
    }),
    ("the last slot cleared", OK, |given, slots| {
        slots.iter_mut().skip(given.names.len()).last().into_iter().for_each(|slot| *slot = Slot::default());
    }),
];

/// Other numbers beside the lawful slots, from those that were written.
fn accepted(given: &Given, slots: &mut [Slot], change: fn(&Given, &[Slot], PickedEach) -> PickedEach) -> PickedEach {
    let picked = lawful(given, slots);
    if picked.number != OK {
        return picked;
    }
    change(given, &slots[..picked.slots as usize], picked)
}

const NUMBER_SLIPS: Slips = slips![accepted:
    ("a place of OK", |_, slots, picked| {
        let first = slots.iter().position(|slot| slot.number != OK);
        PickedEach { place: first.unwrap_or(0) as u64, ..picked }
    }),
    ("the last slot's number", |_, slots, picked| {
        PickedEach { number: slots.last().map_or(OK, |slot| slot.number), ..picked }
    }),
    ("slots count 0", |_, _, picked| PickedEach { slots: 0, ..picked }),
    ("slots count 16", |_, _, picked| PickedEach { slots: 16, ..picked }),
    ("slots counted in bytes", |_, _, picked| PickedEach { slots: 32 * picked.slots, ..picked }),
    ("slots with an image counted", |_, slots, picked| {
        PickedEach { slots: with_image(slots).count() as u64, ..picked }
    }),
    ("names with an image counted", |_, slots, picked| {
        PickedEach { taken: with_image(slots).count() as u64, ..picked }
    }),
    ("names counted", |_, slots, picked| PickedEach { taken: slots.len() as u64, ..picked }),
    ("entries counted", |given, _, picked| PickedEach { taken: check(given.bundle).count, ..picked }),
    ("changes of entry counted", |_, slots, picked| {
        let mut taken: Vec<u64> = with_image(slots).map(|slot| slot.index).collect();
        taken.dedup();
        PickedEach { taken: taken.len() as u64, ..picked }
    }),
    ("images counted", |_, slots, picked| {
        let images: BTreeSet<_> = with_image(slots).map(|slot| (slot.position, slot.size)).collect();
        PickedEach { taken: images.len() as u64, ..picked }
    }),
    ("highest entry for the count", |_, _, picked| {
        PickedEach { taken: 64 - picked.word.leading_zeros() as u64, ..picked }
    }),
    ("an image of size 0 is not taken", |_, slots, picked| {
        let full: Vec<Slot> = slots.iter().copied().filter(|slot| slot.size > 0).collect();
        PickedEach { word: word_of(&full), taken: word_of(&full).count_ones() as u64, ..picked }
    }),
    ("bits whatever the number is", |_, slots, picked| {
        let word = slots.iter().fold(0, |word: u64, slot| word | 1 << slot.index);
        PickedEach { word, taken: word.count_ones() as u64, ..picked }
    }),
    ("bits of NONE", |_, slots, picked| {
        let others = slots.iter().filter(|slot| slot.number != QUERY);
        PickedEach { word: others.fold(0, |word: u64, slot| word | 1 << slot.index), ..picked }
    }),
    ("bits of QUERY", |_, slots, picked| {
        let others = slots.iter().filter(|slot| slot.number != NONE);
        PickedEach { word: others.fold(0, |word: u64, slot| word | 1 << slot.index), ..picked }
    }),
    ("bits of names", |_, slots, picked| {
        let found = slots.iter().enumerate().filter(|(_, slot)| slot.number == OK);
        PickedEach { word: found.fold(0, |word: u64, (at, _)| word | 1 << at), ..picked }
    }),
    ("bits added", |_, slots, picked| {
        let sum = with_image(slots).fold(0, |word: u64, slot| word.wrapping_add(1 << slot.index));
        PickedEach { word: sum, ..picked }
    }),
    ("bits turned over", |_, slots, picked| {
        PickedEach { word: with_image(slots).fold(0, |word: u64, slot| word ^ 1 << slot.index), ..picked }
    }),
    ("the word shifted by one", |_, _, picked| PickedEach { word: picked.word << 1, ..picked }),
    ("the word in 32 bits", |_, _, picked| PickedEach { word: picked.word as u32 as u64, ..picked }),
    ("the word in 63 bits", |_, _, picked| PickedEach { word: picked.word & u64::MAX >> 1, ..picked }),
    ("the first bit last", |_, _, picked| PickedEach { word: picked.word.reverse_bits(), ..picked }),
    ("the last name's bit alone", |_, slots, picked| {
        PickedEach { word: word_of(&slots[slots.len().saturating_sub(1)..]), ..picked }
    }),
    ("no bit of the last name", |_, slots, picked| {
        PickedEach { word: word_of(&slots[..slots.len().saturating_sub(1)]), ..picked }
    }),
];

/// A library that has its own way.
fn whole(given: &Given, slots: &mut [Slot], slip: fn(&Given, &mut [Slot]) -> PickedEach) -> PickedEach {
    slip(given, slots)
}

const OTHER_SLIPS: Slips = slips![whole:
    ("17 allowed", |given, slots| {
        if given.names.len() != 17 || slots.len() < 17 || given.has_refused_container() {
            return lawful(given, slots);
        }
        write_all(given, slots);
        let word = word_of(&slots[..17]);
        PickedEach { number: OK, place: 0, slots: 17, word, taken: word.count_ones() as u64 }
    }),
    ("all lent slots counted", |given, slots| match lawful(given, slots) {
        picked if picked.number == OK => PickedEach { slots: slots.len() as u64, ..picked },
        picked => picked,
    }),
    ("a lost place", |given, slots| PickedEach { place: 0, ..lawful(given, slots) }),
    ("a container's refusal in every slot", |given, slots| match lawful(given, slots) {
        picked if given.has_refused_container() && given.names.len() <= 16.min(slots.len()) => {
            slots[..given.names.len()].fill(Slot { number: picked.number, ..NOTHING });
            PickedEach { slots: given.names.len() as u64, ..PickedEach::default() }
        }
        picked => picked,
    }),
    ("three numbers stay in a slot of NONE", |given, slots| keep_but_number(given, slots, NONE)),
    ("three numbers stay in a slot of QUERY", |given, slots| keep_but_number(given, slots, QUERY)),
    ("QUERY ends the call", |given, slots| end_at(given, slots, QUERY)),
    ("NONE ends the call", |given, slots| end_at(given, slots, NONE)),
    ("the 16th slot stays", |given, slots| {
        let before = slots.to_vec();
        let picked = lawful(given, slots);
        slots.iter_mut().zip(before).skip(15).for_each(|(slot, before)| *slot = before);
        picked
    }),
];

/// In slots of this number, index, position and size stay as they were.
fn keep_but_number(given: &Given, slots: &mut [Slot], number: u64) -> PickedEach {
    let before = slots.to_vec();
    filled(given, slots, |at| match given.slot_at(at) {
        slot if slot.number == number => Slot { number, ..before[at] },
        slot => slot,
    })
}

/// Names are looked at up to the first with this number.
fn end_at(given: &Given, slots: &mut [Slot], number: u64) -> PickedEach {
    let end = given.names.iter().position(|name| given.slot(*name).number == number);
    match end {
        Some(at) if given.is_accepted(slots.len()) => lawful(&Given { names: &given.names[..=at], ..*given }, slots),
        _ => lawful(given, slots),
    }
}

fn found_in_each(calls: EachCalls) -> &'static str {
    found(Each::new(calls))
}

const SLIPS: &[Slips] = &[
    NAME_SLIPS,
    SLOT_SLIPS,
    PART_SLIPS,
    COUNT_SLIPS,
    FIRST_SLIPS,
    REFUSAL_SLIPS,
    WRITING_SLIPS,
    NUMBER_SLIPS,
    OTHER_SLIPS,
];

#[test]
fn slips_of_several_names_are_found() {
    for &(name, each) in SLIPS.iter().flat_map(|slips| slips.iter()) {
        assert_eq!(found_in_each(EachCalls { each, ..MODEL_EACH }), "pick each", "{name}");
    }
}

/// The same steps, where they change nothing.
const SOUND: &[Slips] = &[
    slips![by_name: ("by name", |given, at| given.slot_at(at)),],
    slips![changed: ("changed", |slot| slot),],
    slips![renamed: ("renamed", |_, name| name),],
    slips![counted: ("counted", |names, _| names),],
    slips![refused_first: ("refused first", ROOM, |given, slots| {
        !given.has_refused_container() && given.names.len() <= 16 && given.names.len() > slots
    }),],
    slips![refused: ("refused", ROOM, |_, _, _| refusal(ROOM)),],
    slips![refused_writing: ("refused, writing", OK, write_all),],
    slips![accepted: ("accepted", |_, slots, picked| PickedEach { word: word_of(slots), ..picked }),],
];

#[test]
fn steps_that_change_nothing_are_no_slip() {
    for &(name, each) in SOUND.iter().flat_map(|slips| slips.iter()) {
        let result = run_generated(&mut Each::new(EachCalls { each, ..MODEL_EACH }), 1500);
        assert!(result.is_ok(), "{name}: {result:?}");
    }
}

/// The call for one of the numbers writes nothing.
macro_rules! silent {
    ($($field:ident)*) => {
        [$(|bundle, buffer, names, slots, field| {
            let mut unwritten = slots.to_vec();
            let out = if field == EachField::$field { &mut unwritten[..] } else { slots };
            field.of(pick_each(bundle, buffer, names, out))
        },)*]
    };
}

const SILENT: [PickEach; 5] = silent![Number Place Slots Word Taken];

#[test]
fn a_call_for_one_number_that_writes_nothing_is_found() {
    for each in SILENT {
        assert_eq!(found_in_each(EachCalls { each, ..MODEL_EACH }), "pick each");
    }
}

#[test]
fn a_single_pick_that_differs_is_found() {
    const PICKS: [Pick; 5] = [
        |bundle, device| Picked { number: pick(bundle, device).number ^ 1, ..pick(bundle, device) },
        |bundle, device| Picked { index: pick(bundle, device).index ^ 1, ..pick(bundle, device) },
        |bundle, device| Picked { position: pick(bundle, device).position ^ 1, ..pick(bundle, device) },
        |bundle, device| Picked { size: pick(bundle, device).size ^ 1, ..pick(bundle, device) },
        |bundle, device| pick_taken(AS_SPELLED, bundle, device),
    ];
    for pick in PICKS {
        assert_eq!(found_in_each(EachCalls { pick, ..MODEL_EACH }), "pick each");
    }
}
