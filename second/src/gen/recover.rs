//! A sequence of offload binaries that is damaged, with room for the copies and for the spans.

mod damage;
mod limits;
mod spans;
mod tails;

use super::binaries::{self, BinaryDraft};
use super::random::Random;
use super::{Aim, Room, LIMIT};
use crate::model::binaries::MAGIC_BYTES;
use crate::model::*;

pub use super::binaries::shake;

pub const CALL: &str = "recover";
/// How many binaries are found, the 65th too, and how many spans lie beside them.
pub const FOUND: &str = "found";
pub const SPANS: &str = "spans";
/// 1 where a binary is found at the place that the case is about, else 0.
pub const AT: &str = "found at";
/// 1 where the tail comes out whole, 0 where a binary of the front reaches into it.
pub const TAIL: &str = "tail";

/// What is being made. As long as nothing damages it, it has whole binaries and rubbish, and room for all that is recovered.
#[derive(Clone, Debug)]
pub struct Draft {
    /// Laid end to end.
    pub pieces: Vec<Vec<u8>>,
    /// So many zero bytes follow.
    pub zeros: usize,
    /// For the copies and for the spans.
    pub rooms: [Room; 2],
    /// The piece that the case is about, and the byte of it.
    pub aimed: (usize, usize),
    /// The piece that the tail begins with: from there on all is accepted, where nothing else is said.
    pub tail: usize,
}

/// What is lent, and the places of what `Draft` names.
#[derive(Clone, Debug)]
pub struct Case {
    pub sequence: binaries::Case,
    pub rooms: [Room; 2],
    pub aimed: usize,
    pub tail: usize,
}

/// More zero bytes are searched only where a case is aimed at that.
const MOST_ZEROS: usize = 1 << 16;

impl Case {
    /// A sequence that is not above the size limit is made short: to search one of a gibibyte takes seconds.
    pub fn shorten(&mut self) {
        let binaries::Case { binaries, zeros } = &mut self.sequence;
        if binaries.len() + *zeros <= LIMIT {
            *zeros = (*zeros).min(MOST_ZEROS);
        }
    }
}

impl Draft {
    /// So many whole binaries, with rubbish between them or without.
    pub fn good(random: &mut Random, count: usize) -> Draft {
        let layout = some_layout(random, count);
        let tail = layout.rfind(RUBBISH).map_or(0, |last| last + 1);
        let room = |random: &mut Random| match random.one_in(2) {
            true => Room::Exact,
            false => Room::Spare(random.between(1, 40)),
        };
        let rooms = [room(random), room(random)];
        Draft { pieces: laid(random, &layout), zeros: 0, rooms, aimed: (0, 0), tail }
    }

    pub fn case(&self) -> Case {
        let sequence = binaries::Case { binaries: self.pieces.concat(), zeros: self.zeros };
        let (piece, byte) = self.aimed;
        Case { sequence, rooms: self.rooms, aimed: self.place(piece) + byte, tail: self.place(self.tail) }
    }

    /// The first byte of a piece.
    fn place(&self, piece: usize) -> usize {
        self.pieces.iter().take(piece).map(Vec::len).sum()
    }

    /// Pieces one after another anywhere among the others. The case is about one of them, and its first byte.
    fn put(&mut self, random: &mut Random, pieces: Vec<Vec<u8>>, aimed: usize) {
        let at = random.between(0, self.pieces.len());
        self.pieces.splice(at..at, pieces);
        self.aimed = (at + aimed, 0);
    }

    /// The same behind all others.
    fn put_last(&mut self, pieces: Vec<Vec<u8>>, aimed: usize) {
        self.aimed = (self.pieces.len() + aimed, 0);
        self.pieces.extend(pieces);
    }

    /// Pieces in the place of all others.
    fn lay(&mut self, random: &mut Random, layout: &str) {
        self.pieces = laid(random, layout);
    }
}

// The letters of a layout.
const WHOLE: char = 'B';
const BROKEN: char = 'x';
const RUBBISH: char = 'r';

/// A piece for each letter.
fn laid(random: &mut Random, layout: &str) -> Vec<Vec<u8>> {
    let many = layout.len() > 40;
    let piece = |letter: char| match letter {
        WHOLE if many => BinaryDraft::smallest(random).bytes(),
        WHOLE => whole(random),
        BROKEN => some_broken(random),
        _ => rubbish(random),
    };
    layout.chars().map(piece).collect()
}

/// So many whole binaries; in half of all layouts rubbish in some of the gaps.
fn some_layout(random: &mut Random, count: usize) -> String {
    let damaged = random.one_in(2);
    let mut layout = String::new();
    for at in 0..=count {
        if damaged && random.one_in(2) {
            layout.push(RUBBISH);
        }
        if at < count {
            layout.push(WHOLE);
        }
    }
    layout
}

fn whole(random: &mut Random) -> Vec<u8> {
    BinaryDraft::some(random).bytes()
}

/// Some bytes in which no binary is found, whatever follows.
fn rubbish(random: &mut Random) -> Vec<u8> {
    let length = if random.one_in(12) { random.between(21, 300) } else { random.between(1, 20) };
    rubbish_of(random, length)
}

fn rubbish_of(random: &mut Random, length: usize) -> Vec<u8> {
    match random.below(4) {
        0 => vec![0; length],
        // Almost the first four bytes of a binary, or these alone.
        1 => MAGIC_BYTES.iter().copied().cycle().take(length).collect(),
        _ => random.bytes(length),
    }
}

type Break = fn(&mut BinaryDraft);

/// What breaks a binary, whatever follows it.
const BREAKS: &[(u64, Break)] = &[
    (HEAD, |binary| binary.magic[0] = 0),
    (HEAD, |binary| binary.magic[3] ^= 0x80),
    (HEAD, |binary| binary.version = 2),
    (SPAN, |binary| binary.size = Some(71)),
    (SPAN, |binary| binary.size = Some(0)),
    (SPAN, |binary| binary.size = Some(u64::MAX)),
    (SPAN, |binary| binary.entry_size = 41),
    (SPAN, |binary| binary.entry_offset = 31),
    (KIND, |binary| binary.image_kind = 6),
    (KIND, |binary| binary.offload_kind = 4),
    (STRINGS, |binary| binary.count = 33),
    (IMAGE, |binary| binary.image_offset = 31),
    (IMAGE, |binary| binary.image_size = u64::MAX),
];

/// The refusals of one binary.
const REASONS: [u64; 5] = [HEAD, SPAN, KIND, STRINGS, IMAGE];

fn broken_by(random: &mut Random, number: u64, mut binary: BinaryDraft) -> Vec<u8> {
    let breaks: Vec<Break> = BREAKS.iter().filter(|(by, _)| *by == number).map(|(_, change)| *change).collect();
    random.choose(&breaks)(&mut binary);
    binary.bytes()
}

fn broken(random: &mut Random, binary: BinaryDraft) -> Vec<u8> {
    let number = *random.choose(&REASONS);
    broken_by(random, number, binary)
}

fn some_broken(random: &mut Random) -> Vec<u8> {
    let binary = BinaryDraft::some(random);
    broken(random, binary)
}

pub fn some_draft(random: &mut Random) -> Draft {
    let count = binaries::some_count(random);
    Draft::good(random, count)
}

/// A real sequence, sometimes with damage, sometimes with another one or rubbish before it.
pub fn sample_case(random: &mut Random) -> Case {
    let front = match random.below(4) {
        0 => rubbish(random),
        1 => binaries::sample_case(random).binaries,
        _ => Vec::new(),
    };
    let tail = front.len();
    let sequence = [front, binaries::sample_case(random).binaries].concat();
    Case { tail, rooms: [Room::any(random), Room::any(random)], ..case_of(sequence) }
}

/// A sequence, with room for all that it gives.
pub fn case_of(sequence: Vec<u8>) -> Case {
    Case { sequence: binaries::Case { binaries: sequence, zeros: 0 }, rooms: [Room::Spare(1); 2], aimed: 0, tail: 0 }
}

type RecoverAim = Aim<Draft>;

pub fn aims() -> Vec<RecoverAim> {
    let mut aims = spans::aims();
    aims.extend(damage::aims());
    aims.extend(tails::aims());
    aims.extend(limits::aims());
    aims
}

/// A binary is found at the place that the case is about.
fn found_at(name: &str, make: impl Fn(&mut Draft, &mut Random) + 'static) -> RecoverAim {
    Aim::new(AT, 1, name, make)
}

/// None is found there.
fn not_found_at(name: &str, make: impl Fn(&mut Draft, &mut Random) + 'static) -> RecoverAim {
    Aim::new(AT, 0, name, make)
}

#[cfg(test)]
mod tests {
    use super::*;
    use crate::model::binaries::read_all;

    #[test]
    fn a_binary_is_broken_by_its_number_whatever_follows() {
        let mut random = Random::of_case(1, 13);
        for number in REASONS {
            for _ in 0..100 {
                let binary = BinaryDraft::some(&mut random);
                let broken = broken_by(&mut random, number, binary);
                for behind in [Vec::new(), rubbish(&mut random), whole(&mut random), vec![0; 300]] {
                    assert_eq!(read_all(&[&broken[..], &behind].concat())[0].number, number);
                }
            }
        }
    }

    #[test]
    fn only_a_sequence_up_to_the_size_limit_is_shortened() {
        let shortened = |zeros: usize| {
            let mut case = case_of(vec![7; 10]);
            case.sequence.zeros = zeros;
            case.shorten();
            case.sequence.zeros
        };
        assert_eq!([99, LIMIT - 10, LIMIT - 9].map(shortened), [99, MOST_ZEROS, LIMIT - 9]);
    }
}
