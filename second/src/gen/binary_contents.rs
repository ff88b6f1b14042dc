//! What the binary writer is given.

use super::random::Random;
use super::{Aim, Room, LIMIT};
use crate::model::binary_writer::{Content, PairParts};
use crate::model::*;

/// The image is followed by `zeros` zero bytes.
#[derive(Clone, Debug)]
pub struct Case {
    pub content: Content,
    pub strings: Vec<u8>,
    pub image: Vec<u8>,
    pub zeros: usize,
    pub room: Room,
}

impl Case {
    /// What the writer accepts, with so many pairs.
    pub fn good(random: &mut Random, count: usize) -> Case {
        let image_length = random.between(0, 60);
        let mut case = Case {
            content: Content {
                image_kind: random.below(6) as u64,
                offload_kind: random.below(4) as u64,
                flags: random.word() as u32,
                pairs: Vec::new(),
            },
            strings: Vec::new(),
            image: random.bytes(image_length),
            zeros: 0,
            room: Room::any(random),
        };
        for k in 0..count {
            case.put_pair(random, k);
        }
        random.shuffle(&mut case.content.pairs);
        case
    }

    /// A pair whose key no other has: it begins with its number.
    fn put_pair(&mut self, random: &mut Random, number: usize) {
        let mut key = vec![b'A' + number as u8];
        key.extend(string(random));
        let text = string(random);
        let key_start = self.put_string(random, &key);
        let text_start = self.put_string(random, &text);
        self.content.pairs.push(PairParts {
            key_start,
            key_length: key.len() as u64,
            text_start,
            text_length: text.len() as u64,
        });
    }

    /// The start of a string in the buffer; a gap with zero bytes stands before it now and then.
    fn put_string(&mut self, random: &mut Random, string: &[u8]) -> u64 {
        if random.one_in(4) {
            self.strings.resize(self.strings.len() + random.between(1, 5), 0);
        }
        let start = self.strings.len() as u64;
        self.strings.extend(string);
        start
    }

    fn some_pair(&mut self, random: &mut Random) -> usize {
        if self.content.pairs.is_empty() {
            self.put_pair(random, 0);
        }
        random.below(self.content.pairs.len())
    }

    /// Gives some pair another key or another text.
    fn replace(&mut self, random: &mut Random, string: &[u8], key: bool) {
        let at = self.some_pair(random);
        let start = self.put_string(random, string);
        let pair = &mut self.content.pairs[at];
        if key {
            (pair.key_start, pair.key_length) = (start, string.len() as u64);
        } else {
            (pair.text_start, pair.text_length) = (start, string.len() as u64);
        }
    }
}

/// No zero byte.
fn string(random: &mut Random) -> Vec<u8> {
    let longest = if random.one_in(20) { 250 } else { 10 };
    let length = random.between(0, longest);
    string_of(random, length)
}

fn string_of(random: &mut Random, length: usize) -> Vec<u8> {
    (0..length).map(|_| random.between(1, 255) as u8).collect()
}

pub fn some_case(random: &mut Random) -> Case {
    let count = if random.one_in(10) { random.between(0, 32) } else { random.between(0, 4) };
    Case::good(random, count)
}

type ContentAim = Aim<Case>;

const CALL: &str = "binary writer";

fn write(number: u64, name: &str, make: fn(&mut Case, &mut Random)) -> ContentAim {
    Aim::new(CALL, number, name, make)
}

pub fn aims() -> Vec<ContentAim> {
    let mut aims = Vec::new();
    aims.extend(kind_aims());
    aims.extend(string_aims());
    aims.extend(part_aims());
    aims.extend(output_aims());
    aims
}

fn kind_aims() -> Vec<ContentAim> {
    vec![
        write(OK, "any content", |case, _| case.room = Room::Exact),
        write(KIND, "image kind of 6", |case, _| case.content.image_kind = 6),
        write(KIND, "offload kind of 4", |case, _| case.content.offload_kind = 4),
        write(KIND, "image kind of 2^64 - 1", |case, _| case.content.image_kind = u64::MAX),
        write(KIND, "image kind with one high bit more", |case, random| {
            case.content.image_kind ^= 1 << random.between(3, 63)
        }),
        write(KIND, "offload kind with one high bit more", |case, random| {
            case.content.offload_kind ^= 1 << random.between(2, 63)
        }),
    ]
}

/// Another key or text in some pair.
fn replaced(number: u64, name: &str, key: bool, string: fn(&mut Random) -> Vec<u8>) -> ContentAim {
    Aim::new(CALL, number, name, move |case: &mut Case, random| {
        let string = string(random);
        case.replace(random, &string, key);
        case.room = Room::Exact;
    })
}

fn string_aims() -> Vec<ContentAim> {
    vec![
        write(OK, "no pairs", |case, random| with_pairs(case, random, 0)),
        write(OK, "32 pairs", |case, random| with_pairs(case, random, 32)),
        write(STRINGS, "33 pairs", |case, random| with_pairs(case, random, 33)),
        replaced(OK, "key of 256 bytes", true, |random| string_of(random, 256)),
        replaced(STRINGS, "key of 257 bytes", true, |random| string_of(random, 257)),
        replaced(OK, "text of 256 bytes", false, |random| string_of(random, 256)),
        replaced(STRINGS, "text of 257 bytes", false, |random| string_of(random, 257)),
        replaced(STRINGS, "empty key", true, |_| Vec::new()),
        replaced(OK, "empty text", false, |_| Vec::new()),
        replaced(STRINGS, "zero byte in a key", true, with_zero),
        replaced(STRINGS, "zero byte in a text", false, with_zero),
        write(STRINGS, "equal keys in one part", |case, random| {
            let at = case.some_pair(random);
            case.content.pairs.truncate(31);
            case.content.pairs.push(case.content.pairs[at.min(30)]);
        }),
        write(STRINGS, "equal keys in two parts", |case, random| {
            *case = Case::good(random, 2);
            let first = case.content.pairs[0];
            let key = case.strings[first.key_start as usize..][..first.key_length as usize].to_vec();
            case.content.pairs[1].key_start = case.put_string(random, &key);
            case.content.pairs[1].key_length = first.key_length;
        }),
    ]
}

fn with_pairs(case: &mut Case, random: &mut Random, count: usize) {
    *case = Case::good(random, count);
    case.room = Room::Exact;
}

fn with_zero(random: &mut Random) -> Vec<u8> {
    let mut text = string(random);
    let at = random.between(0, text.len());
    text.insert(at, 0);
    text
}

/// Another part for some text, from the length of the string buffer.
fn text_part(number: u64, name: &str, part: fn(u64, &mut Random) -> (u64, u64)) -> ContentAim {
    Aim::new(CALL, number, name, move |case: &mut Case, random| {
        let at = case.some_pair(random);
        let (start, length) = part(case.strings.len() as u64, random);
        case.content.pairs[at].text_start = start;
        case.content.pairs[at].text_length = length;
        case.room = Room::Exact;
    })
}

fn part_aims() -> Vec<ContentAim> {
    vec![
        text_part(OK, "empty text at the end of the buffer", |end, _| (end, 0)),
        text_part(STRINGS, "empty text past the end of the buffer", |end, _| (end + 1, 0)),
        text_part(STRINGS, "text 1 past the end of the buffer", |end, random| {
            let length = random.between(1, end as usize) as u64;
            (end + 1 - length, length)
        }),
        text_part(STRINGS, "text start of 2^64 - 1", |_, random| (u64::MAX, random.below(3) as u64)),
        text_part(STRINGS, "text length of 2^64 - 1", |_, random| (random.below(3) as u64, u64::MAX)),
        text_part(STRINGS, "text part that wraps", |_, random| {
            let length = random.between(1, 256) as u64;
            (length.wrapping_neg() + random.below(length as usize) as u64, length)
        }),
        write(STRINGS, "key part outside the buffer", |case, random| {
            let at = case.some_pair(random);
            case.content.pairs[at].key_start = case.strings.len() as u64;
        }),
    ]
}

fn output_aims() -> Vec<ContentAim> {
    vec![
        write(OK, "empty image", |case, _| {
            case.image.clear();
            case.room = Room::Exact;
        }),
        write(OK, "room to spare", |case, random| case.room = Room::Spare(random.between(1, 300))),
        write(ROOM, "room 1 byte short", |case, _| case.room = Room::Short(1)),
        write(ROOM, "no room", |case, _| case.room = Room::Nothing),
        write(ROOM, "output of the size limit", |case, random| output_length(case, random, LIMIT - 72)),
        write(BIG, "output above the size limit", |case, random| output_length(case, random, LIMIT - 71)),
        write(BIG, "image above the size limit", |case, random| output_length(case, random, LIMIT + 1)),
    ]
}

/// No pairs, and an image of this length, less up to 7 bytes that zero bytes make up for.
fn output_length(case: &mut Case, random: &mut Random, image: usize) {
    *case = Case::good(random, 0);
    let less = if image % 8 == 0 { random.below(8) } else { 0 };
    case.zeros = image - less - case.image.len();
}
