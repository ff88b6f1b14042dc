//! Records for the bundle writer, with the two buffers they name parts of.

use super::bundles::{some_count, FAR_ABOVE};
use super::ids::{self, IdMaker, Meaning};
use super::images::{self, Span};
use super::pairs::{self, Pair};
use super::random::Random;
use super::{Aim, Room, LIMIT};
use crate::model::bundle_writer::Record;
use crate::model::id::Reading;
use crate::model::*;

/// What the bundle writer is given: the image buffer is followed by `zeros` zero bytes.
#[derive(Clone, Debug)]
pub struct Case {
    pub records: Vec<Record>,
    pub ids: Vec<u8>,
    pub images: Vec<u8>,
    pub zeros: usize,
    pub room: Room,
}

impl Case {
    /// What the writer accepts, with so many records.
    pub fn good(random: &mut Random, count: usize) -> Case {
        let image_length = random.between(0, 100);
        let mut case = Case {
            records: Vec::new(),
            ids: Vec::new(),
            images: random.bytes(image_length),
            zeros: 0,
            room: Room::any(random),
        };
        for meaning in ids::composed(Reading::General, random, count) {
            case.put_meaning(random, &meaning);
        }
        random.shuffle(&mut case.records);
        case
    }

    fn image_length(&self) -> u64 {
        (self.images.len() + self.zeros) as u64
    }

    /// A record with this ID; a gap stands before it in the buffer now and then.
    fn put_id(&mut self, random: &mut Random, id: &[u8]) {
        if random.one_in(4) {
            let gap = random.between(1, 9);
            self.ids.extend(random.bytes(gap));
        }
        let image_start = random.between(0, self.images.len());
        let image_length = random.between(0, self.images.len() - image_start);
        let record = Record {
            id_start: self.ids.len() as u64,
            id_length: id.len() as u64,
            image_start: image_start as u64,
            image_length: image_length as u64,
        };
        self.ids.extend(id);
        if self.records.len() >= 64 {
            let at = random.below(self.records.len());
            self.records[at] = record;
        } else {
            let at = random.between(0, self.records.len());
            self.records.insert(at, record);
        }
    }

    fn put_meaning(&mut self, random: &mut Random, meaning: &Meaning) {
        let id = ids::as_named(random, meaning);
        self.put_id(random, &id);
    }

    fn some_record(&mut self, random: &mut Random) -> usize {
        if self.records.is_empty() {
            let meaning = ids::some_meaning(random);
            self.put_meaning(random, &meaning);
        }
        random.below(self.records.len())
    }
}

pub fn some_case(random: &mut Random) -> Case {
    let count = some_count(random);
    Case::good(random, count)
}

type WriterAim = Aim<Case>;

const CALL: &str = "bundle writer";

fn write(number: u64, name: &str, make: fn(&mut Case, &mut Random)) -> WriterAim {
    Aim::new(CALL, number, name, make)
}

pub fn aims() -> Vec<WriterAim> {
    let mut aims = Vec::new();
    aims.extend(count_aims());
    aims.extend(id_part_aims());
    aims.extend(id_aims());
    aims.extend(image_part_aims());
    aims.extend(composition_aims());
    aims.extend(output_aims());
    aims
}

fn count_aims() -> Vec<WriterAim> {
    vec![
        write(OK, "any records", |case, _| case.room = Room::Exact),
        write(OK, "no records", |case, random| with_count(case, random, 0)),
        write(OK, "64 records", |case, random| with_count(case, random, 64)).large(),
        write(COUNT, "65 records", |case, random| {
            with_count(case, random, 64);
            case.records.push(case.records[0]);
        })
        .large(),
    ]
}

fn with_count(case: &mut Case, random: &mut Random, count: usize) {
    *case = Case::good(random, count);
    case.room = Room::Exact;
}

/// Another ID part in some record, from the length of the ID buffer.
fn id_part(number: u64, name: &str, part: fn(u64, &Record, &mut Random) -> (u64, u64)) -> WriterAim {
    Aim::new(CALL, number, name, move |case: &mut Case, random| {
        let at = case.some_record(random);
        let (start, length) = part(case.ids.len() as u64, &case.records[at], random);
        case.records[at].id_start = start;
        case.records[at].id_length = length;
    })
}

fn id_part_aims() -> Vec<WriterAim> {
    vec![
        id_part(TABLE, "ID length of 0", |_, record, _| (record.id_start, 0)),
        id_part(TABLE, "ID length of 257 or more", |_, record, random| {
            (record.id_start, random.between(257, 300) as u64)
        }),
        id_part(TABLE, "ID length of 2^64 - 1", |_, record, _| (record.id_start, u64::MAX)),
        id_part(TABLE, "ID part that wraps", |_, record, random| {
            let length = record.id_length.max(1);
            (length.wrapping_neg() + random.below(length as usize) as u64, length)
        }),
        id_part(TABLE, "ID part 1 past the end", |end, record, _| {
            ((end + 1).wrapping_sub(record.id_length), record.id_length)
        }),
        id_part(TABLE, "ID start of 2^64 - 1", |_, record, _| (u64::MAX, record.id_length)),
        id_part(TABLE, "ID start with one high bit more", |_, record, random| {
            (record.id_start ^ (1 << random.between(32, 63)), record.id_length)
        }),
    ]
}

/// 5, IDs at the limits, and IDs that are too long.
fn id_aims() -> Vec<WriterAim> {
    let put = |number: u64, maker: &IdMaker| {
        let make = maker.make;
        Aim::new(CALL, number, &format!("record: {}", maker.name), move |case: &mut Case, random| {
            let id = make(random);
            case.put_id(random, &id);
            case.room = Room::Exact;
        })
    };
    let mut aims = Vec::new();
    aims.extend(ids::edges().map(|maker| put(OK, maker)));
    aims.extend(ids::broken().map(|maker| put(ID, maker)));
    aims.extend(ids::too_long().map(|maker| put(TABLE, maker)));
    aims
}

/// Another image part in some record, from the length of the image buffer.
fn image_part(number: u64, name: &str, part: fn(u64, &mut Random) -> (u64, u64)) -> WriterAim {
    Aim::new(CALL, number, name, move |case: &mut Case, random| {
        let at = case.some_record(random);
        let (start, length) = part(case.image_length(), random);
        case.records[at].image_start = start;
        case.records[at].image_length = length;
        case.room = Room::Exact;
    })
}

fn image_part_aims() -> Vec<WriterAim> {
    vec![
        image_part(OK, "whole image buffer", |end, _| (0, end)),
        image_part(OK, "empty image at the end", |end, _| (end, 0)),
        image_part(RANGE, "empty image past the end", |end, _| (end + 1, 0)),
        image_part(RANGE, "image 1 past the end", |end, random| {
            let start = random.between(0, end as usize) as u64;
            (start, end - start + 1)
        }),
        image_part(RANGE, "image start of 2^64 - 1", |_, random| (u64::MAX, random.below(3) as u64)),
        image_part(RANGE, "image length of 2^64 - 1", |end, random| (random.between(0, end as usize) as u64, u64::MAX)),
        image_part(RANGE, "image part that wraps", |end, random| {
            let length = end + 1;
            (length.wrapping_neg() + random.below(length as usize) as u64, length)
        }),
        image_part(RANGE, "image start with one high bit more", |_, random| (1 << random.between(32, 63), 0)),
        write(OK, "images that overlap", |case, random| {
            let count = random.between(2, 6);
            with_count(case, random, count);
            let spans = images::overlapping(random);
            case.images = random.bytes(images::end_of(&spans));
            for record in &mut case.records {
                let Span { start, size } = *random.choose(&spans);
                record.image_start = start;
                record.image_length = size;
            }
        }),
    ]
}

fn composition_aims() -> Vec<WriterAim> {
    let mut aims = vec![write(TWICE, "a record twice", |case, random| {
        let at = case.some_record(random);
        case.records.truncate(63);
        case.records.push(case.records[at.min(62)]);
    })];
    aims.extend(pairs::entries().into_iter().map(stand_together));
    aims
}

/// The two entries stand among the records.
fn stand_together(pair: Pair) -> WriterAim {
    Aim::new(CALL, pair.number, &pair.name, move |case: &mut Case, random| {
        case.records.truncate(60);
        for meaning in (pair.make)(random) {
            case.put_meaning(random, &meaning);
        }
        case.room = Room::Exact;
    })
}

fn output_aims() -> Vec<WriterAim> {
    vec![
        write(OK, "room to spare", |case, random| case.room = Room::Spare(random.between(1, 300))),
        write(ROOM, "room 1 byte short", |case, _| case.room = Room::Short(1)),
        write(ROOM, "no room", |case, _| case.room = Room::Nothing),
        write(ROOM, "output of the size limit", |case, random| output_length(case, random, LIMIT)),
        write(BIG, "output 1 above the size limit", |case, random| output_length(case, random, LIMIT + 1)),
        write(BIG, "output far above the size limit", |case, random| {
            let count = *random.choose(FAR_ABOVE);
            *case = Case::good(random, count);
            case.zeros = LIMIT;
            let length = case.image_length();
            for record in &mut case.records {
                record.image_start = 0;
                record.image_length = length;
            }
        }),
    ]
}

/// Two records that share bytes, so that the output has this length.
fn output_length(case: &mut Case, random: &mut Random, length: usize) {
    *case = Case::good(random, 0);
    case.put_id(random, b"hip-a-b-c-d-");
    case.put_id(random, b"hip-a-b-c-e-");
    let images = length as u64 - 32 - 2 * (24 + 12);
    let first = images / 2 + random.between(0, 1000) as u64;
    case.zeros = first as usize - case.images.len();
    case.records[0].image_start = 0;
    case.records[0].image_length = first;
    case.records[1].image_start = 0;
    case.records[1].image_length = images - first;
}
