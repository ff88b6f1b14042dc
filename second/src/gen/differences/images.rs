//! Images of one entry that differ at a byte, and images that are the same and lie otherwise.

use super::*;
use crate::gen::bundles::{Remaking, REMAKINGS};

pub fn aims() -> Vec<DifferencesAim> {
    let mut aims = Vec::new();
    for at in PLACES {
        aims.extend(WAYS.iter().map(|way| differ_at(*at, *way)));
    }
    aims.extend(LONGEST.iter().map(|lengths| longest(*lengths)));
    aims.extend(BYTES.iter().map(|bytes| differ_in(*bytes)));
    for side in Side::BOTH {
        aims.extend(REMAKINGS.iter().map(|remaking| remade(side, *remaking)));
    }
    aims.extend(TWO_IMAGES.iter().map(|two| two_entries(*two)));
    aims.extend(same_aims());
    aims
}

/// Numbers on both sides of each count of digits, of each power of two up to the limit, and some between.
const PLACES: &[usize] = &[
    0, 1, 2, 3, 7, 8, 9, 10, 11, 15, 16, 17, 31, 32, 33, 63, 64, 65, 98, 99, 100, 101, 127, 128, 255, 256, 257, 998,
    999, 1000, 1001, 4095, 4096, 4097, 9998, 9999, 10_000, 10_001, 16_383, 16_384, 20_000, 30_000,
];

/// What follows the bytes that both images begin with.
type Way = fn(&mut Random) -> [Vec<u8>; 2];

const WAYS: &[(&str, Way)] = &[
    ("by a byte", |random| {
        let length = random.between(1, 40);
        let left = random.bytes(length);
        let mut right = if random.one_in(2) { left.clone() } else { random.bytes(length) };
        right[0] = left[0];
        change_byte(&mut right, 0, random);
        [left, right]
    }),
    ("by a byte, of other lengths", |random| {
        let left = random.bytes(2);
        let mut right = [left.clone(), some_tail(random)].concat();
        change_byte(&mut right, 0, random);
        in_any_order(random, [left, right])
    }),
    ("by more bytes in left", |random| [some_tail(random), Vec::new()]),
    ("by more bytes in right", |random| [Vec::new(), some_tail(random)]),
];

fn in_any_order(random: &mut Random, mut both: [Vec<u8>; 2]) -> [Vec<u8>; 2] {
    random.shuffle(&mut both);
    both
}

/// One byte or more, sometimes zeros.
fn some_tail(random: &mut Random) -> Vec<u8> {
    let length = if random.one_in(2) { 1 } else { random.between(2, 40) };
    if random.one_in(3) {
        return vec![0; length];
    }
    random.bytes(length)
}

/// Where a bundle with an image of so many bytes has no other entries, so that it is not above 32 KiB.
const ALONE: usize = 4000;

/// One entry of both differs at this byte, and no other.
fn differ_at(at: usize, (name, way): (&str, Way)) -> DifferencesAim {
    let aim = Aim::new(ONLY_AT, at as u64, &format!("differs {name}"), move |draft: &mut Draft, random| {
        let (front, behind) = (some_front(random, at), way(random));
        if at > ALONE {
            draft.left = bundles::Draft::good(Reading::General, random, 0);
        }
        let meaning = own_meaning(random);
        let [left, right] = behind.map(|behind| [&front[..], &behind].concat());
        draft.put_in_both(random, &meaning, [&left, &right]);
    });
    Aim { large: at > ALONE, ..aim }
}

fn own_meaning(random: &mut Random) -> Meaning {
    let id = ids::own(random, ids::KINDS);
    ids::meaning_of(id.as_bytes())
}

/// What both images begin with: any bytes, or all the same.
fn some_front(random: &mut Random, length: usize) -> Vec<u8> {
    if random.one_in(4) {
        return vec![random.byte(); length];
    }
    random.bytes(length)
}

/// The most bytes that an image can have: its entry has the shortest ID.
const MOST: usize = COMPARE_LIMIT - 32 - 24 - 9;

/// How many bytes the images have, up to the most; both end with another byte, where they have the same length.
const LONGEST: &[(&str, [usize; 2])] = &[
    ("by the last byte of the longest image", [MOST, MOST]),
    ("by that byte in left alone", [MOST, MOST - 1]),
    ("by that byte in right alone", [MOST - 1, MOST]),
];

fn longest((name, lengths): (&str, [usize; 2])) -> DifferencesAim {
    let aim = Aim::new(ONLY_AT, MOST as u64 - 1, &format!("differs {name}"), move |draft: &mut Draft, random| {
        let image = some_front(random, MOST);
        [draft.left, draft.right] = lengths.map(|length| of_one(random, b"hip-a-b-c", &image[..length]));
        if let Some(last) = draft.right.body.get_mut(MOST - 1) {
            *last ^= 0x80;
        }
    });
    aim.large()
}

/// A bundle of one entry, with this ID as spelled.
pub(super) fn of_one(random: &mut Random, id: &[u8], image: &[u8]) -> bundles::Draft {
    let mut bundle = bundles::Draft::of(random, &[(ids::meaning_of(id), image.to_vec())]);
    bundle.rows[0].set_id(id.to_vec());
    bundle
}

/// Images, and the byte at which they differ.
type Bytes = (&'static str, u64, [&'static [u8]; 2]);

const BYTES: &[Bytes] = &[
    ("bytes of which one is zero", 1, [b"a\0b", b"aab"]),
    ("0 and 255", 1, [b"a\x00b", b"a\xffb"]),
    ("127 and 128", 1, [b"a\x7fb", b"a\x80b"]),
    ("a zero byte, and no byte", 1, [b"a\0", b"a"]),
    ("no byte, and a zero byte", 1, [b"a", b"a\0"]),
    ("nothing, and zero bytes", 0, [b"", b"\0\0\0\0\0\0\0\0"]),
    ("every byte", 0, [b"abcdefgh", b"ABCDEFGH"]),
    ("the first and the last byte", 0, [b"abcdefgh", b"xbcdefgx"]),
    ("two bytes exchanged", 3, [b"abcdefgh", b"abcedfgh"]),
    ("a newline", 2, [b"ab\ncd", b"ab\rcd"]),
    ("the first byte left out", 0, [b"abcdefgh", b"bcdefgh"]),
    ("a byte put in", 4, [b"abcdefgh", b"abcdxefgh"]),
    ("a repeated byte, once more", 3, [b"aaa", b"aaaa"]),
];

fn differ_in((name, at, images): Bytes) -> DifferencesAim {
    Aim::new(ONLY_AT, at, name, move |draft: &mut Draft, random| {
        let meaning = own_meaning(random);
        draft.put_in_both(random, &meaning, images);
    })
}

/// The same entries, laid otherwise in one of the bundles.
fn remade(side: Side, (name, remaking): (&str, Remaking)) -> DifferencesAim {
    let name = format!("the same entries, {name} in {}", side.name());
    Aim::new(LINES, 0, &name, move |draft: &mut Draft, random| {
        draft.right = draft.left.clone();
        remaking(draft.side(side), random);
    })
}

/// Images of two entries, by the letters of one image each: in left and in right.
type TwoImages = (&'static str, &'static str, [&'static str; 2]);

const TWO_IMAGES: &[TwoImages] = &[
    ("one image for both entries", "==", ["aa", "aa"]),
    ("images exchanged", "DD", ["ab", "ba"]),
    ("one image for both entries in left, two in right", "=D", ["aa", "ab"]),
    ("two in left, one image for both entries in right", "D=", ["ba", "aa"]),
    ("one image for both entries, another in right", "DD", ["aa", "bb"]),
];

fn two_entries((name, marks, [left, right]): TwoImages) -> DifferencesAim {
    Aim::new(MARKS, marks_number(marks), name, move |draft: &mut Draft, random| {
        let meanings = some_meanings(random, 2);
        let one = some_image(random);
        let other = other_image(random, &one);
        let mut made = |letters: &str| {
            let images = letters.chars().map(|letter| if letter == 'a' { one.clone() } else { other.clone() });
            let entries: Vec<(Meaning, Vec<u8>)> = meanings.iter().cloned().zip(images).collect();
            let mut bundle = bundles::Draft::of(random, &entries);
            bundle.remake_some(random);
            bundle
        };
        [draft.left, draft.right] = [made(left), made(right)];
    })
}

fn same_aims() -> Vec<DifferencesAim> {
    let aim = |number: u64, name: &str, make: fn(&mut Draft, &mut Random)| Aim::new(LINES, number, name, make);
    vec![
        aim(0, "the same entries", |draft, random| draft.alike(random)),
        aim(0, "an image of any length in both", |draft, random| {
            let (meaning, length) = (own_meaning(random), random.between(0, 3000));
            let image = random.bytes(length);
            draft.put_in_both(random, &meaning, [&image, &image]);
        }),
        aim(0, "empty images at other places", |draft, random| {
            let meaning = own_meaning(random);
            draft.put_in_both(random, &meaning, [b"", b""]);
        }),
        aim(1, "the shorter image followed by what the longer one has", |draft, random| {
            let (meaning, image) = (own_meaning(random), random.bytes(20));
            draft.put_in_both(random, &meaning, [&image, &image]);
            let at = draft.right.rows.iter().position(|row| row.meaning == meaning).expect("the entry");
            draft.right.rows[at].size -= random.between(1, 20) as u64;
        }),
        aim(1, "an image that starts a byte later", |draft, random| {
            let (meaning, image) = (own_meaning(random), random.bytes(20));
            draft.put_in_both(random, &meaning, [&image, &image]);
            let at = draft.left.rows.iter().position(|row| row.meaning == meaning).expect("the entry");
            draft.left.rows[at].offset = draft.left.rows[at].offset.later(1);
            draft.left.rows[at].size -= 1;
        }),
    ]
}

#[cfg(test)]
mod tests {
    use super::*;
    use crate::model::differences::first_difference;

    #[test]
    fn images_differ_where_their_lines_say() {
        let mut random = Random::of_case(1, 17);
        for (name, way) in WAYS {
            for _ in 0..500 {
                let front = random.bytes(5);
                let [left, right] = way(&mut random).map(|behind| [&front[..], &behind].concat());
                assert_eq!(first_difference(&left, &right), Some(5), "{name}");
            }
        }
        for (name, at, [left, right]) in BYTES {
            assert_eq!(first_difference(left, right), Some(*at), "{name}");
        }
    }
}
