//! A bundle with several device names, which are parts of a buffer, and slots for what each of them gets.

mod parts;
pub mod taken;

use super::bundles;
use super::ids;
use super::random::Random;
use super::{Aim, Room};
use crate::model::each::Part;
use crate::model::id::{same_target, Reading};
use crate::model::*;
use crate::samples;
use std::rc::Rc;

/// What is being made. As long as nothing damages the bundle, the call is accepted.
#[derive(Clone, Debug)]
pub struct Draft {
    pub bundle: bundles::Draft,
    /// What stands directly before the buffer.
    pub before: Vec<u8>,
    pub buffer: Vec<u8>,
    /// So many zero bytes follow in the buffer.
    pub zeros: usize,
    pub names: Vec<Part>,
    /// How many slots are lent, seen from the number of names.
    pub room: Room,
    /// The index of the name that the case is about.
    pub aimed: usize,
}

/// What is lent: the bytes of the bundle and of the buffer are followed by zero bytes.
#[derive(Clone, Debug, Default)]
pub struct Case {
    pub bundle: Vec<u8>,
    pub bundle_zeros: usize,
    pub before: Vec<u8>,
    pub buffer: Vec<u8>,
    pub buffer_zeros: usize,
    pub names: Vec<Part>,
    pub slots: usize,
    pub aimed: usize,
}

/// More slots are never lent.
const MOST_SLOTS: usize = 2000;

impl Draft {
    /// A call that is accepted, on a bundle with so many entries.
    pub fn good(random: &mut Random, entries: usize) -> Draft {
        let mut draft = Draft::without_names(random, entries);
        let count = some_name_count(random);
        draft.resize(random, count);
        draft
    }

    /// The same with no names.
    fn without_names(random: &mut Random, entries: usize) -> Draft {
        let bundle = bundles::Draft::good(Reading::General, random, entries);
        let room = if random.one_in(2) { Room::Exact } else { Room::Spare(random.between(1, 20)) };
        Draft { bundle, before: Vec::new(), buffer: Vec::new(), zeros: 0, names: Vec::new(), room, aimed: 0 }
    }

    pub fn case(&self) -> Case {
        let bundles::Case { bundle, zeros, .. } = self.bundle.case();
        Case {
            bundle,
            bundle_zeros: zeros,
            before: self.before.clone(),
            buffer: self.buffer.clone(),
            buffer_zeros: self.zeros,
            names: self.names.clone(),
            slots: self.room.lent(self.names.len() as u128).min(MOST_SLOTS),
            aimed: self.aimed,
        }
    }

    fn buffer_length(&self) -> u64 {
        (self.buffer.len() + self.zeros) as u64
    }

    /// So many names. Where there are many, they come again and again.
    fn resize(&mut self, random: &mut Random, count: usize) {
        self.names.truncate(count);
        while self.names.len() < count.min(20) {
            let part = self.some_part(random);
            self.names.push(part);
        }
        if count > self.names.len() {
            self.names = self.names.iter().copied().cycle().take(count).collect();
        }
    }

    /// Any name, mostly one for which there is an entry.
    fn some_part(&mut self, random: &mut Random) -> Part {
        match random.below(12) {
            0 => self.part_with(random, QUERY),
            1 => self.part_with(random, NONE),
            2 => Part { start: random.between(0, self.buffer.len()) as u64, length: random.between(0, 60) as u64 },
            3 | 4 if !self.names.is_empty() => *random.choose(&self.names),
            _ => {
                let device = self.bundle.likely_device(random);
                self.put_text(random, &device)
            }
        }
    }

    /// A name that gets this number.
    fn part_with(&mut self, random: &mut Random, number: u64) -> Part {
        let text = match number {
            OK => {
                let entry = self.bundle.some_row(random);
                self.bundle.device_for(random, entry)
            }
            NONE => self.unknown(random),
            _ if random.one_in(4) => return parts::some_outside(random, self.buffer_length()),
            _ => ids::some_broken(random),
        };
        self.put_text(random, &text)
    }

    /// A name for which this entry is.
    fn part_for(&mut self, random: &mut Random, entry: usize) -> Part {
        let text = self.bundle.device_for(random, entry);
        self.put_text(random, &text)
    }

    /// A name that keeps the rules, and for which there is no entry.
    fn unknown(&self, random: &mut Random) -> Vec<u8> {
        loop {
            let meaning = ids::some_meaning(random);
            if !self.bundle.rows.iter().any(|row| same_target(&row.meaning, &meaning)) {
                return ids::as_named(random, &meaning);
            }
        }
    }

    /// Puts a text at the end of the buffer; a gap stands before it now and then.
    fn put_text(&mut self, random: &mut Random, text: &[u8]) -> Part {
        if random.one_in(4) {
            let gap = random.between(1, 9);
            self.buffer.extend(random.bytes(gap));
        }
        let start = self.buffer.len() as u64;
        self.buffer.extend(text);
        Part { start, length: text.len() as u64 }
    }

    /// A name anywhere in the list, which the case is about; where 16 stand already, it takes the place of one.
    fn ask(&mut self, random: &mut Random, part: Part) {
        if self.names.len() >= 16 {
            self.aimed = random.below(self.names.len());
            self.names[self.aimed] = part;
        } else {
            self.aimed = random.between(0, self.names.len());
            self.names.insert(self.aimed, part);
        }
    }

    /// A name that gets this number, anywhere in the list.
    fn ask_with(&mut self, random: &mut Random, number: u64) {
        let part = self.part_with(random, number);
        self.ask(random, part);
    }

    /// Names that get these numbers, and no other.
    fn ask_only(&mut self, random: &mut Random, numbers: &[u64]) {
        self.names = numbers.iter().map(|number| self.part_with(random, *number)).collect();
    }
}

/// 0 to 16 names, mostly few.
fn some_name_count(random: &mut Random) -> usize {
    match random.below(20) {
        0..=14 => random.between(1, 4),
        15..=18 => random.between(5, 10),
        _ => random.between(0, 16),
    }
}

pub fn some_draft(random: &mut Random) -> Draft {
    let entries = bundles::some_count(random);
    Draft::good(random, entries)
}

/// A real bundle, sometimes with damage in its table, and some device names.
pub fn sample_case(random: &mut Random) -> Case {
    let (bundle, _) = bundles::sample_bundle(random);
    let count = some_name_count(random);
    let devices: Vec<&[u8]> = (0..count).map(|_| random.choose(samples::DEVICES).as_bytes()).collect();
    case_of(bundle, &devices)
}

/// A bundle and device names, one after another in the buffer, each with its slot.
pub fn case_of(bundle: Vec<u8>, devices: &[&[u8]]) -> Case {
    let mut buffer = Vec::new();
    let mut put = |device: &&[u8]| {
        buffer.extend(*device);
        Part { start: (buffer.len() - device.len()) as u64, length: device.len() as u64 }
    };
    let names: Vec<Part> = devices.iter().map(&mut put).collect();
    Case { bundle, buffer, slots: names.len(), names, ..Case::default() }
}

pub const CALL: &str = "pick each";
/// The number in the slot of the name that the case is about.
pub const SLOT: &str = "slot";

type EachAim = Aim<Draft>;

pub fn aims() -> Vec<EachAim> {
    let mut aims = Vec::new();
    aims.push(Aim::new(CALL, OK, "any names", |_: &mut Draft, _| {}));
    aims.extend(COUNTS.iter().map(so_many));
    aims.push(so_many(&(RACK, 65_536, Room::Nothing)).large());
    aims.push(Aim::new(CALL, ROOM, "no name keeps the rules, 1 slot short", |draft: &mut Draft, random| {
        draft.ask_only(random, &[QUERY; 4]);
        draft.room = Room::Short(1);
    }));
    aims.extend(bundles::REFUSALS.iter().flat_map(|number| refused_container(*number)));
    aims.extend([OK, QUERY, NONE].map(as_single));
    aims.extend(parts::aims());
    aims.extend(taken::aims());
    aims
}

/// A number, the names that give it, and the slots. On both sides of 16 names, of as many slots, and of both; 256 and 272 are 0 and 16 in
/// a byte.
const COUNTS: &[(u64, usize, Room)] = &[
    (OK, 0, Room::Nothing),
    (OK, 0, Room::Spare(1)),
    (OK, 0, Room::Spare(20)),
    (OK, 1, Room::Exact),
    (OK, 1, Room::Spare(1)),
    (ROOM, 1, Room::Nothing),
    (OK, 2, Room::Exact),
    (ROOM, 2, Room::Short(1)),
    (OK, 15, Room::Exact),
    (OK, 15, Room::Spare(1)),
    (ROOM, 15, Room::Short(1)),
    (OK, 16, Room::Exact),
    (OK, 16, Room::Spare(1)),
    (OK, 16, Room::Spare(1000)),
    (ROOM, 16, Room::Short(1)),
    (ROOM, 16, Room::Short(15)),
    (ROOM, 16, Room::Nothing),
    (RACK, 17, Room::Exact),
    (RACK, 17, Room::Spare(1)),
    (RACK, 17, Room::Spare(1000)),
    (RACK, 17, Room::Short(1)),
    (RACK, 17, Room::Short(16)),
    (RACK, 17, Room::Nothing),
    (RACK, 18, Room::Exact),
    (RACK, 32, Room::Short(16)),
    (RACK, 64, Room::Exact),
    (RACK, 65, Room::Short(1)),
    (RACK, 256, Room::Exact),
    (RACK, 272, Room::Short(256)),
    (RACK, 1000, Room::Exact),
    (RACK, 1000, Room::Short(984)),
    (RACK, 1000, Room::Nothing),
];

fn so_many(&(number, names, room): &(u64, usize, Room)) -> EachAim {
    let name = format!("{names} names, {} slots", room.lent(names as u128));
    Aim::new(CALL, number, &name, move |draft: &mut Draft, random| {
        draft.resize(random, names);
        draft.room = room;
    })
}

type Change = fn(&mut Draft, &mut Random);

/// What would be refused too, if the container were not.
const BESIDE: &[(&str, Change)] = &[
    ("", |_, _| {}),
    (", and no names", |draft, _| draft.names.clear()),
    (", and 17 names", |draft, random| draft.resize(random, 17)),
    (", and no slots", |draft, random| {
        draft.ask_with(random, OK);
        draft.room = Room::Nothing;
    }),
    (", and 17 names, 16 slots", |draft, random| {
        draft.resize(random, 17);
        draft.room = Room::Short(1);
    }),
];

/// A container at any line that gives this refusal, alone and with what comes after it.
fn refused_container(number: u64) -> Vec<EachAim> {
    let damages = Rc::new(bundles::aims_at("check", number));
    let beside = |&(name, change): &(&str, Change)| {
        let damages = Rc::clone(&damages);
        Aim::new(CALL, number, &format!("container of number {number}{name}"), move |draft: &mut Draft, random| {
            change(draft, random);
            (random.choose(&damages).make)(&mut draft.bundle, random);
        })
    };
    BESIDE.iter().map(beside).collect()
}

/// A name at any line of the single pick that gives this number.
fn as_single(number: u64) -> EachAim {
    let lines = bundles::aims_at("pick", number);
    let name = format!("any line of the single pick, number {number}");
    Aim::new(SLOT, number, &name, move |draft: &mut Draft, random| {
        (random.choose(&lines).make)(&mut draft.bundle, random);
        let device = draft.bundle.device.clone();
        let part = draft.put_text(random, &device);
        draft.ask(random, part);
    })
}
