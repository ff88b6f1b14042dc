//! Binaries that are broken, that lie inside others, and that reach over others.

use super::*;
use crate::model::binaries::read_all;
use std::rc::Rc;

pub fn aims() -> Vec<RecoverAim> {
    let mut aims = vec![accepted_by_the_reader()];
    aims.extend(REASONS.iter().flat_map(|number| refused_by_the_reader(*number)));
    aims.extend(REASONS.iter().flat_map(|number| inside_one_broken_by(*number)));
    aims.extend(inside_aims());
    aims.extend(reach_aims());
    aims.extend(DAMAGES.iter().map(|damage| any_damage(*damage)));
    aims.extend(image_aims());
    aims
}

/// The sequence of a line of the reader; not one of the size limit.
fn line(random: &mut Random, lines: &[Aim<binaries::Draft>], count: usize) -> Vec<u8> {
    loop {
        let mut draft = binaries::Draft::good(random, count);
        (random.choose(lines).make)(&mut draft, random);
        let binaries::Case { binaries, zeros } = draft.case();
        if zeros == 0 {
            return binaries;
        }
    }
}

fn accepted_by_the_reader() -> RecoverAim {
    let lines = binaries::aims_at(END);
    Aim::new(SPANS, 0, "any line of the reader that is accepted", move |draft: &mut Draft, random| {
        let count = random.between(1, 4);
        draft.pieces = vec![line(random, &lines, count)];
        draft.tail = 0;
    })
}

/// A binary that the reader refuses by this number: at the end of the sequence, and before others.
fn refused_by_the_reader(number: u64) -> [RecoverAim; 2] {
    let lines = Rc::new(binaries::aims_at(number));
    let again = Rc::clone(&lines);
    [
        not_found_at(&format!("any line of the reader, number {number}"), move |draft, random| {
            let count = random.between(1, 4);
            let sequence = line(random, &lines, count);
            let refused = read_all(&sequence).last().map_or(0, |answer| answer.place as usize);
            draft.put_last(vec![sequence], 0);
            draft.aimed.1 = refused;
        }),
        found_at(&format!("behind any line of the reader, number {number}"), move |draft, random| {
            let behind = whole(random);
            let first = loop {
                let first = line(random, &again, 1);
                // Where another follows, some are not broken any more.
                if read_all(&[&first[..], &behind].concat())[0].number == number {
                    break first;
                }
            };
            draft.put(random, vec![first, behind], 1);
        }),
    ]
}

/// A whole binary inside one that this refuses, and a whole one behind both.
fn inside_one_broken_by(number: u64) -> [RecoverAim; 2] {
    let around = move |random: &mut Random| {
        let inner = whole(random);
        let outer = BinaryDraft::around(random, &inner);
        let offset = outer.image_offset as usize;
        (vec![broken_by(random, number, outer), whole(random)], offset)
    };
    [
        found_at(&format!("image of one broken by {number}"), move |draft, random| {
            let (pieces, offset) = around(random);
            draft.put(random, pieces, 0);
            draft.aimed.1 = offset;
        }),
        found_at(&format!("behind one broken by {number} with a whole one inside"), move |draft, random| {
            let (pieces, _) = around(random);
            draft.put(random, pieces, 1);
        }),
    ]
}

/// Binaries inside each other, from the outermost: whole ones and broken ones. The place of the innermost in the outermost.
fn nested(random: &mut Random, letters: &str) -> (Vec<u8>, usize) {
    let (mut bytes, mut offset) = (Vec::new(), 0);
    for letter in letters.chars().rev() {
        let binary = BinaryDraft::around(random, &bytes);
        offset += if bytes.is_empty() { 0 } else { binary.image_offset as usize };
        bytes = if letter == WHOLE { binary.bytes() } else { broken(random, binary) };
    }
    (bytes, offset)
}

/// From the outermost to the innermost, and whether that is found.
const NESTED: &[(&str, bool)] = &[
    ("BB", false),
    ("Bx", false),
    ("xB", true),
    ("xx", false),
    ("BBB", false),
    ("xBB", false),
    ("xxB", true),
    ("BxB", false),
    ("xxxB", true),
    ("xBxB", false),
];

fn inside_aims() -> Vec<RecoverAim> {
    let nested_aim = |&(letters, is_found): &(&'static str, bool)| {
        let name = format!("innermost of {letters:?}");
        Aim::new(AT, is_found.into(), &name, move |draft: &mut Draft, random| {
            let (bytes, offset) = nested(random, letters);
            draft.put(random, vec![bytes], 0);
            draft.aimed.1 = offset;
        })
    };
    let mut aims: Vec<RecoverAim> = NESTED.iter().map(nested_aim).collect();
    aims.push(Aim::new(FOUND, 3, "three in the image of a broken one", |draft: &mut Draft, random| {
        let layout = *random.choose(&["BBB", "rBrBrBr", "BrBBr"]);
        let image = laid(random, layout).concat();
        let outer = BinaryDraft::around(random, &image);
        draft.pieces = vec![broken(random, outer)];
    }));
    aims.push(Aim::new(FOUND, 1, "three in the image of a whole one", |draft: &mut Draft, random| {
        let image = laid(random, "BBB").concat();
        draft.pieces = vec![BinaryDraft::around(random, &image).bytes()];
    }));
    aims
}

/// A binary whose size says that it has so many bytes more.
fn longer(mut binary: BinaryDraft, more: usize) -> BinaryDraft {
    binary.size = Some(binary.length() + more as u64);
    binary
}

/// The first of three reaches over the second, or into it.
fn three(draft: &mut Draft, random: &mut Random, aimed: usize, is_broken: bool, into: bool) {
    let [second, third] = [(); 2].map(|_| whole(random));
    let more = if into { random.between(1, second.len() - 1) } else { second.len() };
    let first = longer(BinaryDraft::some(random), more);
    let kind = *random.choose(&[KIND, STRINGS, IMAGE]);
    let first = if is_broken { broken_by(random, kind, first) } else { first.bytes() };
    draft.put(random, vec![first, second, third], aimed);
}

/// One whose image is another, which ends behind it: so many bytes of the inner one lie outside.
fn across(random: &mut Random) -> (BinaryDraft, Vec<u8>) {
    let inner = whole(random);
    let inside = random.between(1, inner.len() - 1);
    (BinaryDraft::around(random, &inner[..inside]), inner[inside..].to_vec())
}

fn reach_aims() -> Vec<RecoverAim> {
    vec![
        not_found_at("second of three, the first reaches over it", |draft, random| {
            three(draft, random, 1, false, false)
        }),
        found_at("third of three, the first reaches over the second", |draft, random| {
            three(draft, random, 2, false, false)
        }),
        not_found_at("second of three, the first reaches into it", |draft, random| {
            three(draft, random, 1, false, true)
        }),
        found_at("third of three, the first reaches into the second", |draft, random| {
            three(draft, random, 2, false, true)
        }),
        found_at("second of three, the first is broken and reaches over it", |draft, random| {
            three(draft, random, 1, true, false)
        }),
        found_at("second of three, the first is broken and reaches into it", |draft, random| {
            three(draft, random, 1, true, true)
        }),
        not_found_at("begins inside a whole one and ends behind it", |draft, random| {
            let (outer, rest) = across(random);
            draft.put(random, vec![outer.bytes(), rest], 0);
            draft.aimed.1 = outer.image_offset as usize;
        }),
        found_at("begins inside a broken one and ends behind it", |draft, random| {
            let (outer, rest) = across(random);
            let offset = outer.image_offset as usize;
            let outer = broken(random, outer);
            draft.put(random, vec![outer, rest], 0);
            draft.aimed.1 = offset;
        }),
        found_at("behind one that begins inside a broken one", |draft, random| {
            let (outer, rest) = across(random);
            let pieces = vec![broken(random, outer), rest, whole(random)];
            draft.put(random, pieces, 2);
        }),
        not_found_at("where a broken one ends, inside a whole one", |draft, random| {
            let (pieces, offset) = ends_inside(random);
            draft.put(random, pieces, 1);
            draft.aimed.1 = offset;
        }),
        found_at("inside a broken one, around where that ends", |draft, random| {
            let (pieces, _) = ends_inside(random);
            draft.put(random, pieces, 1);
        }),
        Aim::new(FOUND, 1, "one that reaches to the end of the sequence", |draft: &mut Draft, random| {
            let rest = laid(random, "BrB").concat();
            let first = longer(BinaryDraft::some(random), rest.len());
            draft.pieces = vec![first.bytes(), rest];
        }),
        Aim::new(FOUND, 2, "one that reaches 1 byte past the end of the sequence", |draft: &mut Draft, random| {
            let rest = laid(random, "BrB").concat();
            let first = longer(BinaryDraft::some(random), rest.len() + 1);
            draft.pieces = vec![first.bytes(), rest];
        }),
    ]
}

/// A broken binary of 72 bytes whose size says that it ends where the image of the whole one behind it begins, which is whole too. The place
/// of that image in the second piece.
fn ends_inside(random: &mut Random) -> (Vec<Vec<u8>>, usize) {
    let inner = whole(random);
    let second = BinaryDraft::around(random, &inner);
    let offset = second.image_offset as usize;
    let mut first = longer(BinaryDraft::smallest(random), offset);
    first.image_kind = 6;
    (vec![first.bytes(), second.bytes()], offset)
}

type Damage = fn(&mut Vec<u8>, usize, &mut Random);

const CHANGE: Damage = |bytes, at, random| bytes[at] = random.byte();
const TAKE_OUT: Damage = |bytes, at, _| drop(bytes.drain(at..=at));
const PUT_IN: Damage = |bytes, at, random| bytes.insert(at, random.byte());

/// What happens at any byte of a sequence.
const DAMAGES: &[(&str, Damage)] = &[
    ("changed", CHANGE),
    ("with a bit flipped", |sequence, at, random| sequence[at] ^= 1 << random.below(8)),
    ("taken out", TAKE_OUT),
    ("put in", PUT_IN),
    ("twice", |sequence, at, _| sequence.insert(at, sequence[at])),
    ("and all behind it cut off", |sequence, at, _| sequence.truncate(at)),
    ("and all before it cut off", |sequence, at, _| drop(sequence.drain(..at))),
    ("and others zero", |sequence, at, random| {
        let end = (at + random.between(1, 200)).min(sequence.len());
        sequence[at..end].fill(0);
    }),
    ("and others lost", |sequence, at, random| {
        let end = (at + random.between(1, 200)).min(sequence.len());
        drop(sequence.drain(at..end));
    }),
    ("and others from elsewhere in the sequence", |sequence, at, random| {
        let from = random.below(sequence.len());
        let length = random.between(1, 200).min(sequence.len() - at.max(from));
        sequence.copy_within(from..from + length, at);
    }),
];

fn any_damage((name, damage): (&str, Damage)) -> RecoverAim {
    Aim::new(CALL, OK, &format!("any byte {name}"), move |draft: &mut Draft, random| {
        let mut sequence = draft.pieces.concat();
        if sequence.is_empty() {
            sequence = whole(random);
        }
        let at = random.below(sequence.len());
        damage(&mut sequence, at, random);
        draft.pieces = vec![sequence];
    })
}

/// A binary whose image comes last, damage to a byte of it, and two whole ones.
fn with_damage(draft: &mut Draft, random: &mut Random, aimed: usize, damage: Damage) {
    let image = random.bytes(9);
    let first = BinaryDraft::around(random, &image);
    let at = first.image_offset as usize + random.below(9);
    let mut bytes = first.bytes();
    damage(&mut bytes, at, random);
    let pieces = vec![bytes, whole(random), whole(random)];
    draft.put(random, pieces, aimed);
}

/// Images are not looked into: a binary with a damaged one is found, and reaches as far as its size says.
fn image_aims() -> Vec<RecoverAim> {
    vec![
        found_at("byte of the image changed", |draft, random| with_damage(draft, random, 0, CHANGE)),
        found_at("byte of the image taken out", |draft, random| with_damage(draft, random, 0, TAKE_OUT)),
        not_found_at("behind one with a byte of the image taken out", |draft, random| {
            with_damage(draft, random, 1, TAKE_OUT)
        }),
        found_at("second behind one with a byte of the image taken out", |draft, random| {
            with_damage(draft, random, 2, TAKE_OUT)
        }),
        found_at("behind one with a byte put into the image", |draft, random| with_damage(draft, random, 1, PUT_IN)),
    ]
}
