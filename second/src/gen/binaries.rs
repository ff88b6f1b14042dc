//! Offload binaries laid end to end.

use super::random::Random;
use super::{Aim, LIMIT};
use crate::model::binaries::MAGIC_BYTES;
use crate::model::*;
use crate::samples;

/// A binary while it is made. `entry_at` and `pairs_at` are where entry and pairs stand, whatever the fields say.
#[derive(Clone, Debug)]
pub struct BinaryDraft {
    pub magic: [u8; 4],
    pub version: u32,
    pub size: Option<u64>,
    pub entry_offset: u64,
    pub entry_size: u64,
    pub image_kind: u16,
    pub offload_kind: u16,
    pub flags: u32,
    pub table: u64,
    pub count: u64,
    pub image_offset: u64,
    pub image_size: u64,
    pub pairs: Vec<(u64, u64)>,
    entry_at: usize,
    pairs_at: usize,
    bytes: Vec<u8>,
}

#[derive(Clone, Debug)]
pub struct Draft {
    pub binaries: Vec<BinaryDraft>,
    /// What follows the last binary.
    pub tail: Vec<u8>,
    pub cut: Option<usize>,
    /// So many zero bytes follow.
    pub zeros: usize,
}

/// What is lent: the bytes are followed by `zeros` zero bytes.
#[derive(Clone, Debug)]
pub struct Case {
    pub binaries: Vec<u8>,
    pub zeros: usize,
}

impl BinaryDraft {
    /// A binary that is accepted, with so many pairs: entry, pairs, strings and image in any order, with gaps.
    pub fn good(random: &mut Random, count: usize) -> BinaryDraft {
        let (strings, offsets) = strings(random, count);
        let image_length = if random.one_in(3) { 0 } else { random.between(1, 40) };
        let image = random.bytes(image_length);
        let blocks = [vec![0; 40], vec![0; 16 * count], strings, image];
        let mut bytes = vec![0; 32];
        let places = lay(random, &blocks, &mut bytes);
        let moved = |(key, text): (usize, usize)| ((places[2] + key) as u64, (places[2] + text) as u64);
        BinaryDraft {
            magic: MAGIC_BYTES,
            version: 1,
            size: None,
            entry_offset: places[0] as u64,
            entry_size: 40,
            image_kind: random.below(6) as u16,
            offload_kind: random.below(4) as u16,
            flags: random.word() as u32,
            table: places[1] as u64,
            count: count as u64,
            image_offset: places[3] as u64,
            image_size: image_length as u64,
            pairs: offsets.into_iter().map(moved).collect(),
            entry_at: places[0],
            pairs_at: places[1],
            bytes,
        }
    }

    /// A binary that is accepted, with any number of pairs.
    pub fn some(random: &mut Random) -> BinaryDraft {
        let pairs = some_pair_count(random);
        BinaryDraft::good(random, pairs)
    }

    /// The same with these bytes as its image, behind all others.
    pub fn around(random: &mut Random, image: &[u8]) -> BinaryDraft {
        let mut binary = BinaryDraft::some(random);
        binary.image_offset = binary.append(image);
        binary.image_size = image.len() as u64;
        binary
    }

    /// A binary of 72 bytes.
    pub fn smallest(random: &mut Random) -> BinaryDraft {
        let mut binary = BinaryDraft::good(random, 0);
        binary.bytes = vec![0; 72];
        (binary.entry_at, binary.entry_offset) = (32, 32);
        (binary.pairs_at, binary.table) = (72, 72);
        (binary.image_offset, binary.image_size) = (random.between(32, 72) as u64, 0);
        binary
    }

    pub fn length(&self) -> u64 {
        self.bytes.len() as u64
    }

    pub fn bytes(&self) -> Vec<u8> {
        let mut bytes = self.bytes.clone();
        let mut put = |at: usize, field: &[u8]| bytes[at..][..field.len()].copy_from_slice(field);
        put(0, &self.magic);
        put(4, &self.version.to_le_bytes());
        put(8, &self.size.unwrap_or(self.length()).to_le_bytes());
        put(16, &self.entry_offset.to_le_bytes());
        put(24, &self.entry_size.to_le_bytes());
        put(self.entry_at, &self.image_kind.to_le_bytes());
        put(self.entry_at + 2, &self.offload_kind.to_le_bytes());
        put(self.entry_at + 4, &self.flags.to_le_bytes());
        put(self.entry_at + 8, &self.table.to_le_bytes());
        put(self.entry_at + 16, &self.count.to_le_bytes());
        put(self.entry_at + 24, &self.image_offset.to_le_bytes());
        put(self.entry_at + 32, &self.image_size.to_le_bytes());
        for (k, (key, text)) in self.pairs.iter().enumerate() {
            put(self.pairs_at + 16 * k, &key.to_le_bytes());
            put(self.pairs_at + 16 * k + 8, &text.to_le_bytes());
        }
        bytes
    }

    /// The place of bytes put at the end of the binary.
    fn append(&mut self, bytes: &[u8]) -> u64 {
        let at = self.length();
        self.bytes.extend(bytes);
        at
    }
}

/// Blocks in any order, with gaps of any bytes; where each block went.
fn lay(random: &mut Random, blocks: &[Vec<u8>; 4], bytes: &mut Vec<u8>) -> [usize; 4] {
    let mut order = [0, 1, 2, 3];
    random.shuffle(&mut order);
    let mut places = [0; 4];
    for which in order {
        if random.one_in(3) {
            let gap = random.between(1, 9);
            bytes.extend(random.bytes(gap));
        }
        places[which] = bytes.len();
        bytes.extend(&blocks[which]);
    }
    places
}

/// Strings with their zeros, and the offsets of so many keys and texts among them. Keys differ, since each begins with its number;
/// some are the end of a longer text, and some texts are shared.
fn strings(random: &mut Random, count: usize) -> (Vec<u8>, Vec<(usize, usize)>) {
    let mut bytes = Vec::new();
    let mut offsets: Vec<(usize, usize)> = Vec::new();
    for number in 0..count {
        let whole_at = bytes.len();
        if random.one_in(3) {
            add_letters(random, &mut bytes);
        }
        let key_at = bytes.len();
        bytes.push(b'A' + number as u8);
        add_string(random, &mut bytes);
        let text_at = match random.below(4) {
            0 => whole_at,
            1 => offsets.first().map_or(key_at, |first| first.1),
            _ => add_string(random, &mut bytes),
        };
        offsets.push((key_at, text_at));
    }
    (bytes, offsets)
}

/// Some string with its zero at the end of the bytes, and where it begins.
fn add_string(random: &mut Random, bytes: &mut Vec<u8>) -> usize {
    let at = bytes.len();
    add_letters(random, bytes);
    bytes.push(0);
    at
}

/// The bytes of some string, without its zero.
fn add_letters(random: &mut Random, bytes: &mut Vec<u8>) {
    let longest = if random.one_in(30) { 120 } else { 8 };
    let length = random.between(0, longest);
    bytes.extend((0..length).map(|_| random.between(1, 255) as u8));
}

fn string_of(random: &mut Random, length: usize) -> Vec<u8> {
    (0..length).map(|_| random.between(1, 255) as u8).collect()
}

fn some_pair_count(random: &mut Random) -> usize {
    match random.below(12) {
        0..=3 => 0,
        4..=10 => random.between(1, 4),
        _ => random.between(5, 32),
    }
}

impl Draft {
    pub fn good(random: &mut Random, count: usize) -> Draft {
        let binaries = (0..count)
            .map(|_| {
                let pairs = if count > 8 { random.below(2) } else { some_pair_count(random) };
                BinaryDraft::good(random, pairs)
            })
            .collect();
        Draft { binaries, tail: Vec::new(), cut: None, zeros: 0 }
    }

    pub fn case(&self) -> Case {
        let mut binaries = Vec::new();
        for binary in &self.binaries {
            binaries.extend(binary.bytes());
        }
        binaries.extend(&self.tail);
        binaries.truncate(self.cut.unwrap_or(binaries.len()));
        Case { binaries, zeros: self.zeros }
    }

    fn some_binary(&mut self, random: &mut Random) -> &mut BinaryDraft {
        if self.binaries.is_empty() {
            self.binaries.push(BinaryDraft::good(random, 1));
        }
        let at = random.below(self.binaries.len());
        &mut self.binaries[at]
    }

    /// Puts a binary in the place of some other.
    fn replace_some(&mut self, random: &mut Random, binary: BinaryDraft) {
        *self.some_binary(random) = binary;
    }

    fn last(&mut self, random: &mut Random) -> &mut BinaryDraft {
        self.some_binary(random);
        self.binaries.last_mut().expect("a binary")
    }
}

/// How many binaries: mostly few.
pub(super) fn some_count(random: &mut Random) -> usize {
    match random.below(20) {
        0 => 0,
        1..=17 => random.between(1, 4),
        _ => random.between(5, 12),
    }
}

pub fn some_draft(random: &mut Random) -> Draft {
    let count = some_count(random);
    Draft::good(random, count)
}

/// A real container, sometimes with damage.
pub fn sample_case(random: &mut Random) -> Case {
    let mut binaries = random.choose(samples::BINARIES).bytes.to_vec();
    match random.below(4) {
        0 => {}
        1 => binaries.truncate(random.below(binaries.len())),
        _ => {
            let at = random.below(200);
            binaries[at] = random.byte();
        }
    }
    Case { binaries, zeros: 0 }
}

/// Bytes changed, put in or taken out.
pub fn shake(case: &mut Case, random: &mut Random) {
    let bytes = &mut case.binaries;
    for _ in 0..random.between(1, 3) {
        let at = random.below(bytes.len().clamp(1, 200));
        match random.below(3) {
            0 if at < bytes.len() => bytes[at] = random.byte(),
            1 if at < bytes.len() => drop(bytes.remove(at)),
            _ => bytes.insert(at, random.byte()),
        }
    }
}

/// Lines of the reader that end with this number, but for large ones.
pub fn aims_at(number: u64) -> Vec<BinaryAim> {
    let mut aims = aims();
    aims.retain(|aim| aim.number == number && !aim.large);
    aims
}

type BinaryAim = Aim<Draft>;

const CALL: &str = "binaries";

fn read(number: u64, name: &str, make: fn(&mut Draft, &mut Random)) -> BinaryAim {
    Aim::new(CALL, number, name, make)
}

/// Damage to some binary.
fn some(number: u64, name: &str, change: fn(&mut BinaryDraft, &mut Random)) -> BinaryAim {
    Aim::new(CALL, number, name, move |draft: &mut Draft, random| change(draft.some_binary(random), random))
}

/// Damage to the last binary.
fn last(number: u64, name: &str, change: fn(&mut BinaryDraft, &mut Random)) -> BinaryAim {
    Aim::new(CALL, number, name, move |draft: &mut Draft, random| change(draft.last(random), random))
}

/// Damage to a binary with this many pairs at least, 1 to 4.
fn strung(number: u64, name: &str, least: usize, change: fn(&mut BinaryDraft, &mut Random)) -> BinaryAim {
    Aim::new(CALL, number, name, move |draft: &mut Draft, random| {
        let count = random.between(least, 4);
        let mut binary = BinaryDraft::good(random, count);
        change(&mut binary, random);
        draft.replace_some(random, binary);
    })
}

pub fn aims() -> Vec<BinaryAim> {
    let mut aims = Vec::new();
    aims.extend(shape_aims());
    aims.extend(head_aims());
    aims.extend(span_aims());
    aims.extend(kind_aims());
    aims.extend(table_aims());
    aims.extend(string_aims());
    aims.extend(image_aims());
    aims
}

/// 1, 18, 19.
fn shape_aims() -> Vec<BinaryAim> {
    vec![
        read(END, "any binaries", |_, _| {}),
        read(END, "no bytes", |draft, _| draft.binaries.clear()),
        read(END, "64 binaries", |draft, random| *draft = Draft::good(random, 64)).large(),
        read(MANY, "65 binaries", |draft, random| *draft = Draft::good(random, 65)).large(),
        read(MANY, "a byte after the 64th binary", |draft, random| {
            *draft = Draft::good(random, 64);
            draft.tail = random.bytes(1);
        })
        .large(),
        read(LENGTH, "container 1 above the size limit", |draft, _| {
            draft.zeros = LIMIT + 1 - draft.case().binaries.len()
        }),
        read(HEAD, "container of the size limit", |draft, _| draft.zeros = LIMIT - draft.case().binaries.len()),
        some(END, "flags all ones", |binary, _| binary.flags = u32::MAX),
    ]
}

/// 13.
fn head_aims() -> Vec<BinaryAim> {
    vec![
        read(HEAD, "under 32 bytes after the last binary", |draft, random| {
            draft.binaries.truncate(63);
            let length = random.between(1, 31);
            draft.tail = random.bytes(length);
        }),
        read(HEAD, "31 bytes of a header", |draft, random| {
            draft.binaries.truncate(63);
            draft.tail = BinaryDraft::good(random, 0).bytes();
            draft.tail.truncate(31);
        }),
        some(HEAD, "wrong magic", |binary, random| binary.magic[random.below(4)] ^= 1 << random.below(8)),
        some(HEAD, "version of 0", |binary, _| binary.version = 0),
        some(HEAD, "version of 2", |binary, _| binary.version = 2),
        some(HEAD, "version with one bit more", |binary, random| binary.version ^= 1 << random.between(1, 31)),
    ]
}

/// 14.
fn span_aims() -> Vec<BinaryAim> {
    vec![
        read(SPAN, "header alone", |draft, random| {
            draft.binaries.truncate(63);
            draft.tail = BinaryDraft::good(random, 0).bytes();
            draft.tail.truncate(32);
        }),
        read(END, "smallest binary", |draft, random| {
            let binary = BinaryDraft::smallest(random);
            draft.replace_some(random, binary);
        }),
        last(SPAN, "size of 71", |binary, _| binary.size = Some(71)),
        last(SPAN, "size under 72", |binary, random| binary.size = Some(random.below(72) as u64)),
        last(SPAN, "size 1 above what is left", |binary, _| binary.size = Some(binary.length() + 1)),
        read(SPAN, "last binary 1 byte short", |draft, random| {
            draft.last(random);
            draft.cut = Some(draft.case().binaries.len() - 1);
        }),
        some(SPAN, "size of 2^64 - 1", |binary, _| binary.size = Some(u64::MAX)),
        some(SPAN, "size with one high bit more", |binary, random| {
            binary.size = Some(binary.length() + (1 << random.between(32, 63)))
        }),
        some(SPAN, "entry size of 39", |binary, _| binary.entry_size = 39),
        some(SPAN, "entry size of 41", |binary, _| binary.entry_size = 41),
        some(SPAN, "entry size with one high bit more", |binary, random| {
            binary.entry_size ^= 1 << random.between(6, 63)
        }),
        some(SPAN, "entry offset of 31", |binary, _| binary.entry_offset = 31),
        some(SPAN, "entry offset under 32", |binary, random| binary.entry_offset = random.below(32) as u64),
        some(END, "entry at the end", |binary, _| move_entry(binary)),
        some(SPAN, "entry 1 past the end", |binary, _| {
            move_entry(binary);
            binary.entry_offset += 1;
        }),
        some(SPAN, "entry offset of 2^64 - 1", |binary, _| binary.entry_offset = u64::MAX),
        some(SPAN, "entry offset that wraps", |binary, random| {
            binary.entry_offset = 40u64.wrapping_neg() + random.below(40) as u64
        }),
        some(SPAN, "entry offset with one high bit more", |binary, random| {
            binary.entry_offset ^= 1 << random.between(32, 63)
        }),
    ]
}

/// The entry stands at the end of the binary.
fn move_entry(binary: &mut BinaryDraft) {
    binary.entry_offset = binary.append(&[0; 40]);
    binary.entry_at = binary.entry_offset as usize;
}

/// 15.
fn kind_aims() -> Vec<BinaryAim> {
    vec![
        some(END, "image kind of 5", |binary, _| binary.image_kind = 5),
        some(KIND, "image kind of 6", |binary, _| binary.image_kind = 6),
        some(KIND, "image kind with one bit more", |binary, random| binary.image_kind ^= 1 << random.between(3, 15)),
        some(END, "offload kind of 3", |binary, _| binary.offload_kind = 3),
        some(KIND, "offload kind of 4", |binary, _| binary.offload_kind = 4),
        some(KIND, "offload kind with one bit more", |binary, random| {
            binary.offload_kind ^= 1 << random.between(2, 15)
        }),
    ]
}

/// 16: the table of pairs.
fn table_aims() -> Vec<BinaryAim> {
    vec![
        read(END, "32 pairs", |draft, random| with_pairs(draft, random, 32)),
        read(STRINGS, "33 pairs", |draft, random| with_pairs(draft, random, 33)),
        some(STRINGS, "2^64 - 1 pairs", |binary, _| binary.count = u64::MAX),
        some(STRINGS, "2^60 pairs, 16 times that is 0", |binary, _| binary.count = 1 << 60),
        some(STRINGS, "pairs with one high bit more", |binary, random| binary.count ^= 1 << random.between(6, 63)),
        read(END, "no pairs, any table offset", |draft, random| {
            let mut binary = BinaryDraft::good(random, 0);
            binary.table = *random.choose(&[0, 31, u64::MAX, 1 << 63, binary.length(), binary.length() + 1]);
            draft.replace_some(random, binary);
        }),
        strung(STRINGS, "table offset of 31", 1, |binary, _| binary.table = 31),
        strung(STRINGS, "table offset under 32", 1, |binary, random| binary.table = random.below(32) as u64),
        strung(END, "table at the end", 1, |binary, _| move_table(binary)),
        strung(STRINGS, "table 1 past the end", 1, |binary, _| {
            move_table(binary);
            binary.table += 1;
        }),
        strung(STRINGS, "table offset of 2^64 - 1", 1, |binary, _| binary.table = u64::MAX),
        strung(STRINGS, "table offset that wraps", 1, |binary, random| {
            let length = 16 * binary.count;
            binary.table = length.wrapping_neg() + random.below(length as usize) as u64;
        }),
        strung(STRINGS, "table offset with one high bit more", 1, |binary, random| {
            binary.table ^= 1 << random.between(32, 63)
        }),
    ]
}

fn with_pairs(draft: &mut Draft, random: &mut Random, count: usize) {
    let binary = BinaryDraft::good(random, count);
    draft.replace_some(random, binary);
}

fn move_table(binary: &mut BinaryDraft) {
    binary.table = binary.append(&vec![0; 16 * binary.pairs.len()]);
    binary.pairs_at = binary.table as usize;
}

/// Another offset for some key or text.
fn put_offset(binary: &mut BinaryDraft, random: &mut Random, offset: u64) {
    let at = random.below(binary.pairs.len());
    if random.one_in(2) {
        binary.pairs[at].0 = offset;
    } else {
        binary.pairs[at].1 = offset;
    }
}

/// Some key or text is a string of this length at the end of the binary, with or without a zero byte.
fn put_string(binary: &mut BinaryDraft, random: &mut Random, length: usize, zero: bool) {
    let mut string = string_of(random, length);
    if zero {
        string.push(0);
    }
    let offset = binary.append(&string);
    put_offset(binary, random, offset);
}

/// 16: the strings.
fn string_aims() -> Vec<BinaryAim> {
    vec![
        strung(STRINGS, "string offset of 31", 1, |binary, random| put_offset(binary, random, 31)),
        strung(STRINGS, "string offset under 32", 1, |binary, random| {
            let offset = random.below(32) as u64;
            put_offset(binary, random, offset)
        }),
        strung(STRINGS, "string offset at the size", 1, |binary, random| put_offset(binary, random, binary.length())),
        strung(STRINGS, "string offset past the size", 1, |binary, random| {
            let offset = binary.length() + random.between(1, 99) as u64;
            put_offset(binary, random, offset)
        }),
        strung(STRINGS, "string offset of 2^64 - 1", 1, |binary, random| put_offset(binary, random, u64::MAX)),
        strung(STRINGS, "string offset with one high bit more", 1, |binary, random| {
            let offset = binary.pairs[0].1 + (1 << random.between(32, 63));
            put_offset(binary, random, offset)
        }),
        strung(END, "string whose zero is the last byte", 1, |binary, random| put_string(binary, random, 9, true)),
        strung(STRINGS, "string with no zero byte", 1, |binary, random| put_string(binary, random, 9, false)),
        strung(END, "string of 256 bytes", 1, |binary, random| put_string(binary, random, 256, true)),
        strung(STRINGS, "string of 257 bytes", 1, |binary, random| put_string(binary, random, 257, true)),
        strung(STRINGS, "256 bytes and no zero byte", 1, |binary, random| put_string(binary, random, 256, false)),
        strung(END, "empty text", 1, |binary, _| binary.pairs[0].1 = binary.append(&[0])),
        strung(STRINGS, "empty key", 1, |binary, _| binary.pairs[0].0 = binary.append(&[0])),
        strung(STRINGS, "equal keys at one offset", 2, |binary, random| {
            let last = binary.pairs.len() - 1;
            binary.pairs[random.below(last)].0 = binary.pairs[last].0;
        }),
        strung(STRINGS, "equal keys at two offsets", 2, |binary, random| {
            let last = binary.pairs.len() - 1;
            let at = binary.pairs[last].0 as usize;
            let length = binary.bytes[at..].iter().position(|byte| *byte == 0).expect("a string");
            let key = binary.bytes[at..=at + length].to_vec();
            binary.pairs[random.below(last)].0 = binary.append(&key);
        }),
        strung(END, "keys of which one ends the other", 2, |binary, random| {
            let at = binary.append(b"longer\0");
            (binary.pairs[0].0, binary.pairs[1].0) = (at, at + random.between(1, 5) as u64);
        }),
    ]
}

/// 17.
fn image_aims() -> Vec<BinaryAim> {
    let image = |number: u64, name: &str, place: fn(u64, &mut Random) -> (u64, u64)| {
        Aim::new(CALL, number, name, move |draft: &mut Draft, random| {
            let binary = draft.some_binary(random);
            (binary.image_offset, binary.image_size) = place(binary.length(), random);
        })
    };
    vec![
        image(END, "image offset of 32", |length, random| (32, random.between(0, length as usize - 32) as u64)),
        image(IMAGE, "image offset of 31", |_, random| (31, random.below(3) as u64)),
        image(IMAGE, "image offset of 0, size 0", |_, _| (0, 0)),
        image(END, "image to the last byte", |length, random| {
            let offset = random.between(32, length as usize) as u64;
            (offset, length - offset)
        }),
        image(END, "image offset at the size, size 0", |length, _| (length, 0)),
        image(IMAGE, "image offset past the size, size 0", |length, _| (length + 1, 0)),
        image(IMAGE, "image 1 past the end", |length, random| {
            let offset = random.between(32, length as usize) as u64;
            (offset, length - offset + 1)
        }),
        image(IMAGE, "image offset of 2^64 - 1", |_, random| (u64::MAX, random.below(40) as u64)),
        image(IMAGE, "image size of 2^64 - 1", |length, random| (random.between(32, length as usize) as u64, u64::MAX)),
        image(IMAGE, "image size that wraps", |length, random| {
            let offset = random.between(32, length as usize) as u64;
            (offset, offset.wrapping_neg() + random.below(offset as usize) as u64)
        }),
        image(IMAGE, "image offset with one high bit more", |_, random| (32 + (1 << random.between(32, 63)), 0)),
    ]
}
