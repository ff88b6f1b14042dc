//! Bundles with a device name, an index and a length for the lent output.

mod cards;
mod overlaps;
mod remade;

use super::ids::{self, IdMaker, Meaning};
use super::images::{self, Span};
use super::pairs::{self, Pair};
use super::random::Random;
use super::{Aim, Room, LIMIT};
use crate::model::bundle::MAGIC_BYTES;
use crate::model::id::{canonical, meaning_by, same_target, Reading};
use crate::model::*;
use crate::samples;
use std::rc::Rc;

pub(super) use remade::{Lay, Remaking, REMAKINGS};

#[derive(Clone, Copy, Debug)]
pub enum Offset {
    /// Counted from the table end, so that it stays right when an ID changes.
    AfterTable(u64),
    Exactly(u64),
}

impl Offset {
    fn of(self, table_end: u64) -> u64 {
        match self {
            Offset::AfterTable(start) => table_end + start,
            Offset::Exactly(offset) => offset,
        }
    }

    /// So many bytes later, where it counts from the table end.
    pub(super) fn later(self, count: u64) -> Offset {
        match self {
            Offset::AfterTable(start) => Offset::AfterTable(start + count),
            exactly => exactly,
        }
    }
}

#[derive(Clone, Debug)]
pub struct Row {
    pub meaning: Meaning,
    pub id: Vec<u8>,
    pub id_length: u64,
    pub offset: Offset,
    pub size: u64,
}

/// A bundle while it is made.
#[derive(Clone, Debug)]
pub struct Draft {
    pub magic: Vec<u8>,
    pub count: u64,
    pub rows: Vec<Row>,
    /// What follows the table.
    pub body: Vec<u8>,
    /// So many zero bytes follow the body.
    pub zeros: usize,
    /// The bundle ends here, if it is cut short.
    pub cut: Option<usize>,
    pub device: Vec<u8>,
    pub index: u64,
    pub room: Room,
    /// It is accepted by this reading, as long as nothing damages it.
    pub reading: Reading,
}

/// What is lent: the bytes are followed by `zeros` zero bytes.
#[derive(Clone, Debug)]
pub struct Case {
    pub bundle: Vec<u8>,
    pub zeros: usize,
    pub device: Vec<u8>,
    pub index: u64,
    pub room: Room,
}

impl Row {
    /// A row whose image lies there, from the table end on.
    fn new(reading: Reading, random: &mut Random, meaning: Meaning, image: Span) -> Row {
        let id = ids::spelled(reading, random, &meaning);
        Row { meaning, id_length: id.len() as u64, id, offset: Offset::AfterTable(image.start), size: image.size }
    }

    pub(super) fn set_id(&mut self, id: Vec<u8>) {
        self.id_length = id.len() as u64;
        self.id = id;
    }

    pub(super) fn set_image(&mut self, offset: u64, size: u64) {
        self.offset = Offset::Exactly(offset);
        self.size = size;
    }

    pub(super) fn set_span(&mut self, span: Span) {
        self.offset = Offset::AfterTable(span.start);
        self.size = span.size;
    }
}

impl Draft {
    /// A bundle that is accepted, with so many entries.
    pub fn good(reading: Reading, random: &mut Random, count: usize) -> Draft {
        let usual = 80.max(6 * count);
        let body_length = if random.one_in(20) { random.between(0, 2000) } else { random.between(0, usual) };
        let body = random.bytes(body_length);
        let meanings = ids::composed(reading, random, count);
        let spans = images::accepted(random, count, body_length);
        let row = |(meaning, span)| Row::new(reading, random, meaning, span);
        let rows = meanings.into_iter().zip(spans).map(row).collect();
        let mut draft = Draft {
            magic: MAGIC_BYTES.to_vec(),
            count: count as u64,
            rows,
            body,
            zeros: 0,
            cut: None,
            device: Vec::new(),
            index: some_index(random, count),
            room: Room::any(random),
            reading,
        };
        draft.device = draft.likely_device(random);
        draft
    }

    /// Another bundle that is accepted, with so many entries.
    fn remake(&mut self, random: &mut Random, count: usize) {
        *self = Draft::good(self.reading, random, count);
    }

    /// A device name that has often a compatible entry.
    pub(super) fn likely_device(&self, random: &mut Random) -> Vec<u8> {
        if self.rows.is_empty() || random.one_in(8) {
            let meaning = ids::some_meaning_by(self.reading, random);
            return ids::spelled(self.reading, random, &meaning);
        }
        let at = random.below(self.rows.len());
        self.device_for(random, at)
    }

    /// A device name for which the entry of this row is, as long as nothing damages the bundle.
    pub(super) fn device_for(&self, random: &mut Random, at: usize) -> Vec<u8> {
        let device = ids::with_more_features(self.reading, random, &self.rows[at].meaning);
        let device = ids::either_spelling(random, device);
        ids::spelled(self.reading, random, &device)
    }

    pub fn table_end(&self) -> u64 {
        self.row_at(self.rows.len())
    }

    /// The first byte of a row.
    fn row_at(&self, index: usize) -> u64 {
        32 + self.rows[..index].iter().map(|row| 24 + row.id.len() as u64).sum::<u64>()
    }

    pub fn length(&self) -> u64 {
        self.table_end() + self.body.len() as u64 + self.zeros as u64
    }

    pub fn bytes(&self) -> Vec<u8> {
        let table_end = self.table_end();
        let mut bytes = Vec::with_capacity(table_end as usize + self.body.len());
        bytes.extend(&self.magic);
        bytes.extend(self.count.to_le_bytes());
        for row in &self.rows {
            bytes.extend(row.offset.of(table_end).to_le_bytes());
            bytes.extend(row.size.to_le_bytes());
            bytes.extend(row.id_length.to_le_bytes());
            bytes.extend(&row.id);
        }
        bytes.extend(&self.body);
        bytes.truncate(self.cut.unwrap_or(bytes.len()));
        bytes
    }

    pub fn case(&self) -> Case {
        let zeros = if self.cut.is_some() { 0 } else { self.zeros };
        Case { bundle: self.bytes(), zeros, device: self.device.clone(), index: self.index, room: self.room }
    }

    /// A row anywhere; where 64 stand already, it takes the place of one.
    fn put_row(&mut self, random: &mut Random, row: Row) -> usize {
        if self.rows.len() >= 64 {
            let at = random.below(self.rows.len());
            self.rows[at] = row;
            return at;
        }
        let at = random.between(0, self.rows.len());
        self.rows.insert(at, row);
        self.count = self.rows.len() as u64;
        at
    }

    /// The index of some row; one is put in if there is none.
    pub(super) fn some_row(&mut self, random: &mut Random) -> usize {
        if self.rows.is_empty() {
            let meaning = ids::some_meaning_by(self.reading, random);
            self.put_meaning(random, meaning);
        }
        random.below(self.rows.len())
    }

    pub(super) fn put_meaning(&mut self, random: &mut Random, meaning: Meaning) -> usize {
        let image = images::anywhere(random, self.body.len());
        let row = Row::new(self.reading, random, meaning, image);
        let at = self.put_row(random, row);
        self.share_image(at);
        at
    }

    /// Images that share a byte with this row's become the same as it, so that it may lie where it does.
    fn share_image(&mut self, at: usize) {
        let table_end = self.table_end();
        let span = |row: &Row| Span { start: row.offset.of(table_end), size: row.size };
        let Row { offset, size, .. } = self.rows[at];
        let image = span(&self.rows[at]);
        for row in self.rows.iter_mut().filter(|row| span(row).shares_a_byte(image)) {
            row.offset = offset;
            row.size = size;
        }
    }

    fn put_pair(&mut self, random: &mut Random, pair: [Meaning; 2]) {
        self.rows.truncate(60);
        for meaning in pair {
            self.put_meaning(random, meaning);
        }
    }

    /// An entry at the limits, with this ID as spelled; its meaning is there once.
    pub(super) fn put_id(&mut self, random: &mut Random, id: Vec<u8>) {
        let at = self.put_meaning(random, ids::meaning_of(&id));
        self.rows[at].set_id(id);
    }

    /// No entry for this kind, triple and processor.
    pub(super) fn drop_target(&mut self, meaning: &Meaning) {
        self.rows.retain(|row| !same_target(&row.meaning, meaning));
        self.count = self.rows.len() as u64;
    }

    /// Each ID in any spelling of its meaning.
    pub fn respell(&mut self, random: &mut Random) {
        for row in &mut self.rows {
            row.set_id(ids::spelled(self.reading, random, &row.meaning));
        }
    }

    /// Each meaning with its kind in either spelling.
    pub fn respell_kinds(&mut self, random: &mut Random) {
        for row in &mut self.rows {
            row.meaning = ids::either_spelling(random, row.meaning.clone());
        }
    }

    /// No image, and nothing after the table.
    fn drop_images(&mut self) {
        self.body.clear();
        for row in &mut self.rows {
            row.offset = Offset::AfterTable(0);
            row.size = 0;
        }
    }
}

/// 0 to 64 entries, mostly few.
pub fn some_count(random: &mut Random) -> usize {
    match random.below(80) {
        0..=1 => 0,
        2..=61 => random.between(1, 4),
        62..=77 => random.between(5, 12),
        _ => random.between(13, 64),
    }
}

/// An index up to the count, or any number.
fn some_index(random: &mut Random, count: usize) -> u64 {
    if random.one_in(8) {
        return random.word();
    }
    random.between(0, count) as u64
}

/// How many images of the size limit make an output far above it: above 2^31, above 2^32, and the most there can be.
pub const FAR_ABOVE: &[usize] = &[3, 5, 64];

/// A real bundle, sometimes with damage in its table, and some device name.
pub fn sample_case(random: &mut Random) -> Case {
    let (bundle, count) = sample_bundle(random);
    let device = random.choose(samples::DEVICES).as_bytes().to_vec();
    let index = some_index(random, count);
    Case { bundle, zeros: 0, device, index, room: Room::any(random) }
}

/// A real bundle, sometimes with damage in its table, and how many entries it had.
pub fn sample_bundle(random: &mut Random) -> (Vec<u8>, usize) {
    let sample = random.choose(samples::BUNDLES);
    let mut bundle = sample.bytes.to_vec();
    let table_end = 32 + sample.entries.iter().map(|(id, _)| 24 + id.len()).sum::<usize>();
    match random.below(4) {
        0 => {}
        1 => bundle.truncate(random.below(sample.bytes.len())),
        2 => bundle.truncate(random.below(table_end)),
        _ => {
            let at = random.below(table_end.min(bundle.len()));
            bundle[at] = random.byte();
        }
    }
    (bundle, sample.entries.len())
}

/// Bytes of a bundle changed, put in or taken out, anywhere in it.
pub fn shake(bundle: &mut Vec<u8>, random: &mut Random) {
    for _ in 0..random.between(1, 3) {
        let at = random.below(bundle.len().max(1)).min(bundle.len());
        match random.below(3) {
            0 if at < bundle.len() => bundle[at] = random.byte(),
            1 if at < bundle.len() => drop(bundle.remove(at)),
            _ => bundle.insert(at, random.byte()),
        }
    }
}

/// Lines of the calls that a reading has.
pub fn aims(reading: Reading) -> Vec<Aim<Draft>> {
    let mut aims = Vec::new();
    aims.extend(shape_aims());
    aims.extend(head_aims());
    aims.extend(table_aims());
    aims.extend(id_aims());
    aims.extend(range_aims());
    aims.extend(overlaps::aims());
    aims.extend(composition_aims());
    aims.extend(device_aims());
    aims.extend(index_aims());
    aims.extend(normal_form_aims());
    if reading == Reading::Profile {
        aims.retain(|aim| aim.call != "entry");
        aims.extend(cards::aims());
    }
    aims
}

/// What the check refuses by.
pub const REFUSALS: &[u64] = &[LENGTH, MAGIC, COUNT, TABLE, ID, RANGE, OVERLAP, TWICE, MIXED];

/// Lines of a call that give this number, but for large ones.
pub fn aims_at(call: &str, number: u64) -> Vec<Aim<Draft>> {
    let mut aims = aims(Reading::General);
    aims.retain(|aim| aim.call == call && aim.number == number && !aim.large);
    aims
}

/// Each number that the check refuses by, with its lines.
pub type Damages = Rc<[(u64, Vec<Aim<Draft>>)]>;

pub fn damages() -> Damages {
    REFUSALS.iter().map(|number| (*number, aims_at("check", *number))).collect()
}

/// Some line of one of these numbers.
pub fn damage(damages: &Damages, at: usize, bundle: &mut Draft, random: &mut Random) {
    let (_, lines) = &damages[at];
    (random.choose(lines).make)(bundle, random);
}

type BundleAim = Aim<Draft>;

fn check(number: u64, name: &str, make: fn(&mut Draft, &mut Random)) -> BundleAim {
    Aim::new("check", number, name, make)
}

fn pick(number: u64, name: &str, make: fn(&mut Draft, &mut Random)) -> BundleAim {
    Aim::new("pick", number, name, make)
}

fn entry(number: u64, name: &str, make: fn(&mut Draft, &mut Random)) -> BundleAim {
    Aim::new("entry", number, name, make)
}

fn normalise(number: u64, name: &str, make: fn(&mut Draft, &mut Random)) -> BundleAim {
    Aim::new("normalise", number, name, make)
}

/// Accepted bundles of every shape.
fn shape_aims() -> Vec<BundleAim> {
    vec![
        check(OK, "any entries", |_, _| {}),
        check(OK, "0 to 64 entries", |draft, random| {
            let count = random.between(0, 64);
            draft.remake(random, count);
        }),
        check(OK, "no entries", |draft, random| draft.remake(random, 0)),
        check(OK, "1 entry", |draft, random| draft.remake(random, 1)),
        check(OK, "63 entries", |draft, random| draft.remake(random, 63)).large(),
        check(OK, "64 entries", |draft, random| draft.remake(random, 64)).large(),
        check(OK, "nothing after the table", |draft, _| draft.drop_images()),
        check(OK, "fewer counted than stand there", |draft, random| {
            draft.some_row(random);
            draft.count = draft.count.wrapping_sub(1);
        }),
        check(OK, "container of the size limit", |draft, _| fill_to(draft, LIMIT)),
    ]
}

/// Zero bytes up to a length of the container, where it is not longer already.
pub(super) fn fill_to(draft: &mut Draft, length: usize) {
    draft.zeros = length.saturating_sub(draft.table_end() as usize + draft.body.len());
}

/// 1, 2 and 3.
fn head_aims() -> Vec<BundleAim> {
    vec![
        check(LENGTH, "container 1 above the size limit", |draft, _| fill_to(draft, LIMIT + 1)),
        check(LENGTH, "container above the size limit", |draft, random| {
            fill_to(draft, LIMIT + random.between(2, 4096))
        }),
        check(LENGTH, "above the size limit, wrong magic", |draft, random| {
            fill_to(draft, LIMIT + 1);
            change_magic(draft, random);
        }),
        check(MAGIC, "no bytes", |draft, _| draft.cut = Some(0)),
        check(MAGIC, "under 24 bytes", |draft, random| draft.cut = Some(random.below(24))),
        check(MAGIC, "23 bytes", |draft, _| draft.cut = Some(23)),
        check(MAGIC, "wrong magic", change_magic),
        check(COUNT, "24 bytes", |draft, _| draft.cut = Some(24)),
        check(COUNT, "under 32 bytes", |draft, random| draft.cut = Some(random.between(24, 31))),
        check(COUNT, "31 bytes", |draft, _| draft.cut = Some(31)),
        check(COUNT, "65 entries", |draft, random| {
            draft.remake(random, 65);
        })
        .large(),
        check(COUNT, "count of 65 before fewer entries", |draft, _| draft.count = 65),
        check(COUNT, "count of 2^64 - 1", |draft, _| draft.count = u64::MAX),
        check(COUNT, "count with one high bit more", |draft, random| draft.count ^= 1 << random.between(7, 63)),
    ]
}

fn change_magic(draft: &mut Draft, random: &mut Random) {
    let at = random.below(24);
    draft.magic[at] ^= 1 << random.below(8);
}

/// 4.
fn table_aims() -> Vec<BundleAim> {
    let mut aims = vec![
        check(TABLE, "cut inside the table", |draft, random| {
            draft.some_row(random);
            draft.cut = Some(random.between(32, draft.table_end() as usize - 1));
        }),
        check(TABLE, "last ID 1 byte short", |draft, random| {
            draft.some_row(random);
            draft.cut = Some(draft.table_end() as usize - 1);
        }),
        check(TABLE, "last entry's 24 bytes 1 byte short", |draft, random| {
            draft.some_row(random);
            draft.cut = Some(draft.row_at(draft.rows.len() - 1) as usize + 23);
        }),
        check(TABLE, "last entry with no byte of its ID", |draft, random| {
            draft.some_row(random);
            draft.cut = Some(draft.row_at(draft.rows.len() - 1) as usize + 24);
        }),
        check(TABLE, "one more counted than stands there", |draft, random| {
            if draft.rows.len() < 64 {
                draft.drop_images();
                draft.count = draft.count.wrapping_add(1);
                draft.body = random.bytes(draft.rows.len() % 24);
            }
        }),
        id_length(TABLE, "ID length of 0", |_, _, _| 0),
        id_length(TABLE, "ID length of 257", |_, _, _| 257),
        id_length(TABLE, "ID length of 2^64 - 1", |_, _, _| u64::MAX),
        id_length(TABLE, "ID length that wraps", |draft, at, random| {
            let id_at = draft.row_at(at) + 24;
            id_at.wrapping_neg() + random.below(id_at as usize) as u64
        }),
        id_length(TABLE, "ID length with one high bit more", |draft, at, random| {
            draft.rows[at].id_length ^ (1 << random.between(9, 63))
        }),
        check(TABLE, "ID length 1 past the end", |draft, random| {
            draft.some_row(random);
            draft.drop_images();
            let row = draft.rows.last_mut().expect("a row");
            row.id_length = row.id.len() as u64 + 1;
        }),
    ];
    aims.extend(ids::too_long().map(|maker| refused_id(TABLE, maker)));
    aims
}

/// Another ID length in some row.
fn id_length(number: u64, name: &str, length: fn(&Draft, usize, &mut Random) -> u64) -> BundleAim {
    Aim::new("check", number, name, move |draft: &mut Draft, random| {
        let at = draft.some_row(random);
        draft.rows[at].id_length = length(draft, at, random);
    })
}

/// Some row has an ID that is refused by this number.
fn refused_id(number: u64, maker: &IdMaker) -> BundleAim {
    let make = maker.make;
    Aim::new("check", number, &format!("entry: {}", maker.name), move |draft: &mut Draft, random| {
        let at = draft.some_row(random);
        draft.rows[at].set_id(make(random));
    })
}

/// 5, and IDs at the limits.
fn id_aims() -> Vec<BundleAim> {
    let edge = |maker: &IdMaker| {
        let make = maker.make;
        Aim::new("check", OK, &format!("entry: {}", maker.name), move |draft: &mut Draft, random| {
            let id = make(random);
            draft.put_id(random, id);
        })
    };
    ids::edges().map(edge).chain(ids::broken().map(|maker| refused_id(ID, maker))).collect()
}

/// 6, with the container's length and table end as they will be.
fn range_aims() -> Vec<BundleAim> {
    vec![
        image(OK, "offset at the table end", |end, length, random| {
            (end, random.between(0, (length - end) as usize) as u64)
        }),
        image(OK, "image to the last byte", |end, length, random| {
            let offset = random.between(end as usize, length as usize) as u64;
            (offset, length - offset)
        }),
        image(OK, "offset at the length, size 0", |_, length, _| (length, 0)),
        image(RANGE, "offset at the length, size 1", |_, length, _| (length, 1)),
        image(RANGE, "offset 1 past the length, size 0", |_, length, _| (length + 1, 0)),
        image(RANGE, "end 1 past the length", |end, length, random| {
            let offset = random.between(end as usize, length as usize) as u64;
            (offset, length - offset + 1)
        }),
        image(RANGE, "offset 1 before the table end", |end, _, random| (end - 1, random.below(2) as u64)),
        image(RANGE, "offset inside the table", |end, length, random| {
            let offset = random.below(end as usize);
            (offset as u64, random.between(0, length as usize - offset) as u64)
        }),
        image(RANGE, "offset of 2^64 - 1, size 0", |_, _, _| (u64::MAX, 0)),
        image(RANGE, "offset of 2^64 - 1, size 1", |_, _, _| (u64::MAX, 1)),
        image(RANGE, "offset of 2^64 - 1, sum wraps", |_, length, random| {
            (u64::MAX, random.between(1, length as usize + 1) as u64)
        }),
        image(RANGE, "offset and size of 2^64 - 1", |_, _, _| (u64::MAX, u64::MAX)),
        image(RANGE, "size of 2^64 - 1", |end, length, random| {
            (random.between(end as usize, length as usize) as u64, u64::MAX)
        }),
        image(RANGE, "size that wraps", |end, length, random| {
            let offset = random.between(end as usize, length as usize) as u64;
            (offset, offset.wrapping_neg() + random.below(offset as usize) as u64)
        }),
        image(RANGE, "offset that wraps", |_, length, random| {
            let size = random.between(1, length as usize) as u64;
            (size.wrapping_neg() + random.below(size as usize) as u64, size)
        }),
        image(RANGE, "offset and size of 2^63", |_, _, _| (1 << 63, 1 << 63)),
        image(RANGE, "offset with one high bit more", |end, _, random| (end + (1 << random.between(32, 63)), 0)),
        image(RANGE, "size with one high bit more", |end, _, random| (end, 1 << random.between(32, 63))),
        check(OK, "container of the size limit, offset at the length, size 0", |draft, random| {
            at_limit(draft, random, 0)
        }),
        check(RANGE, "container of the size limit, offset at the length, size 1", |draft, random| {
            at_limit(draft, random, 1)
        }),
    ]
}

/// Another offset and size in some row, from the table end and the length.
fn image(number: u64, name: &str, place: fn(u64, u64, &mut Random) -> (u64, u64)) -> BundleAim {
    Aim::new("check", number, name, move |draft: &mut Draft, random| {
        let at = draft.some_row(random);
        let (offset, size) = place(draft.table_end(), draft.length(), random);
        draft.rows[at].set_image(offset, size);
        if number == OK {
            draft.share_image(at);
        }
    })
}

fn at_limit(draft: &mut Draft, random: &mut Random, size: u64) {
    let at = draft.some_row(random);
    fill_to(draft, LIMIT);
    draft.rows[at].set_image(LIMIT as u64, size);
}

/// 7 and 8, and neighbours of them that are accepted.
fn composition_aims() -> Vec<BundleAim> {
    let mut aims = vec![
        check(TWICE, "a meaning twice", |draft, random| {
            let at = draft.some_row(random);
            let meaning = draft.rows[at].meaning.clone();
            draft.put_meaning(random, meaning);
        }),
        check(TWICE, "an ID twice", |draft, random| {
            let at = draft.some_row(random);
            let row = draft.rows[at].clone();
            draft.put_row(random, row);
        }),
    ];
    aims.extend(pairs::entries().into_iter().map(stand_together));
    aims
}

/// The two entries stand in the bundle.
fn stand_together(pair: Pair) -> BundleAim {
    Aim::new("check", pair.number, &pair.name, move |draft: &mut Draft, random| {
        let pair = (pair.make)(random);
        draft.put_pair(random, pair);
    })
}

/// 9 and 10, and device names that get an image.
fn device_aims() -> Vec<BundleAim> {
    let mut aims = vec![
        pick(OK, "device: an entry's ID", |draft, random| {
            let at = draft.some_row(random);
            draft.device = draft.rows[at].id.clone();
        }),
        pick(OK, "device: an entry's meaning", |draft, random| {
            let at = draft.some_row(random);
            draft.device = ids::spelled(draft.reading, random, &draft.rows[at].meaning);
        }),
        pick(OK, "device: an entry's meaning and more features", |draft, random| {
            let at = draft.some_row(random);
            let device = ids::with_more_features(draft.reading, random, &draft.rows[at].meaning);
            draft.device = ids::spelled(draft.reading, random, &device);
        }),
        pick(OK, "device: one of 64 entries", |draft, random| draft.remake(random, 64)).large(),
        pick(NONE, "device: no entries", |draft, random| draft.remake(random, 0)),
        pick(QUERY, "device: no bytes", |draft, _| draft.device.clear()),
        pick(QUERY, "device: above 257 bytes", |draft, random| {
            let length = random.between(258, 2000);
            draft.device = ids::of_length(random, 6, length);
        }),
        pick(QUERY, "device: a byte put in", |draft, random| {
            let at = random.between(0, draft.device.len());
            draft.device.insert(at, *random.choose(b"-:+. /\0\xff"));
        }),
        pick(NONE, "device: an environment as processor", |draft, random| {
            draft.put_id(random, b"hip-a-b-c-gf-".to_vec());
            draft.device = b"hip-a-b-c--gf".to_vec();
        }),
    ];
    aims.extend(pairs::devices().into_iter().map(asks));
    aims.extend(ids::edges().map(device_at_edge));
    aims.extend(ids::broken().chain(ids::too_long()).map(broken_device));
    aims
}

/// The first is an entry, and the second the device name.
fn asks(pair: Pair) -> BundleAim {
    Aim::new("pick", pair.number, &format!("device: {}", pair.name), move |draft: &mut Draft, random| {
        let [entry, device] = (pair.make)(random);
        draft.put_meaning(random, entry);
        draft.device = ids::spelled(draft.reading, random, &device);
    })
}

fn device_at_edge(maker: &IdMaker) -> BundleAim {
    let make = maker.make;
    Aim::new("pick", OK, &format!("device: {}", maker.name), move |draft: &mut Draft, random| {
        let id = make(random);
        draft.put_id(random, id.clone());
        draft.device = id;
    })
}

fn broken_device(maker: &IdMaker) -> BundleAim {
    let make = maker.make;
    Aim::new("pick", QUERY, &format!("device: {}", maker.name), move |draft: &mut Draft, random| {
        draft.device = make(random)
    })
}

/// 10 of an index, and indices that get an entry.
fn index_aims() -> Vec<BundleAim> {
    vec![
        entry(OK, "index 0", |draft, random| {
            draft.some_row(random);
            draft.index = 0;
        }),
        entry(OK, "index of the last entry", |draft, random| {
            draft.some_row(random);
            draft.index = draft.count.wrapping_sub(1);
        }),
        entry(OK, "index of any entry", |draft, random| draft.index = draft.some_row(random) as u64),
        entry(OK, "index of the last of 64 entries", |draft, random| {
            draft.remake(random, 64);
            draft.index = 63;
        })
        .large(),
        entry(NONE, "index of the count", |draft, _| draft.index = draft.count),
        entry(NONE, "index of the count, 64 entries", |draft, random| {
            draft.remake(random, 64);
            draft.index = 64;
        })
        .large(),
        entry(NONE, "index 0, no entries", |draft, random| {
            draft.remake(random, 0);
            draft.index = 0;
        }),
        entry(NONE, "index of a row that is not counted", |draft, random| {
            draft.some_row(random);
            draft.count = draft.count.wrapping_sub(1);
            draft.index = draft.count;
        }),
        entry(NONE, "index above the count", |draft, random| {
            draft.index = draft.count.saturating_add(random.between(1, 1000) as u64);
        }),
        entry(NONE, "index of 2^64 - 1", |draft, _| draft.index = u64::MAX),
        entry(NONE, "index with one high bit more", |draft, random| {
            draft.index = draft.some_row(random) as u64 | 1 << random.between(6, 63);
        }),
    ]
}

/// 11 and 12.
fn normal_form_aims() -> Vec<BundleAim> {
    vec![
        normalise(OK, "room exactly", |draft, _| draft.room = Room::Exact),
        normalise(OK, "room to spare", |draft, random| draft.room = Room::Spare(random.between(1, 300))),
        normalise(OK, "64 entries in normal form", |draft, random| {
            draft.remake(random, 64);
            draft.room = Room::Exact;
        })
        .large(),
        normalise(OK, "hip before hipv4", |draft, random| {
            let pair = pairs::ordered_by_kind(random);
            draft.put_pair(random, pair);
            draft.room = Room::Exact;
        }),
        normalise(OK, "hyphen before colon", |draft, random| {
            let pair = pairs::ordered_by_hyphen(random);
            draft.put_pair(random, pair);
            draft.room = Room::Exact;
        }),
        normalise(ROOM, "room 1 byte short", |draft, _| draft.room = Room::Short(1)),
        normalise(ROOM, "no room", |draft, _| draft.room = Room::Nothing),
        normalise(ROOM, "normal form of the size limit", |draft, random| {
            normal_length(draft, random, CANONICAL, LIMIT)
        }),
        normalise(BIG, "normal form 1 above the size limit", |draft, random| {
            normal_length(draft, random, CANONICAL, LIMIT + 1)
        }),
        normalise(BIG, "normal form far above the size limit", |draft, random| {
            let count = *random.choose(FAR_ABOVE);
            draft.remake(random, count);
            fill_to(draft, LIMIT);
            let (start, length) = (draft.table_end(), draft.length());
            draft.rows.iter_mut().for_each(|row| row.set_image(start, length - start));
        }),
    ]
}

/// IDs of the three entries of `normal_length`.
const CANONICAL: [&[u8]; 3] = [b"hip-a-b-c-d-", b"hip-a-b-c-e-", b"hip-a-b-c-f-"];

/// A bundle of entries with these IDs.
fn remake_of(draft: &mut Draft, random: &mut Random, ids: [&[u8]; 3]) {
    draft.remake(random, 0);
    for id in ids {
        draft.put_id(random, id.to_vec());
    }
}

/// Two entries that share an image, and one with an image of its own, so that the normal form has this length in a container half as long.
fn normal_length(draft: &mut Draft, random: &mut Random, ids: [&[u8]; 3], length: usize) {
    remake_of(draft, random, ids);
    let start = draft.table_end();
    let table: usize = ids.iter().map(|id| 24 + form_length(draft.reading, id)).sum();
    let images = (length - 32 - table) as u64;
    let own = 2 * random.between(0, 500) as u64 + images % 2;
    let shared = (images - own) / 2;
    fill_to(draft, (start + shared + own) as usize);
    draft.rows[0].set_image(start, shared);
    draft.rows[1].set_image(start + shared, own);
    draft.rows[2].set_image(start, shared);
}

/// How long the canonical form of an ID is that keeps the rules.
fn form_length(reading: Reading, id: &[u8]) -> usize {
    meaning_by(reading, id).map(|meaning| canonical(&meaning).len()).expect("an ID that keeps the rules")
}
