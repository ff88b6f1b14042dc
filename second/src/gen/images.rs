//! Where images lie in the bytes that follow a table: apart, shared, and over each other.

use super::random::Random;
use crate::model::{OK, OVERLAP};

/// The bytes of an image.
#[derive(Clone, Copy, Debug, PartialEq, Eq)]
pub struct Span {
    pub start: u64,
    pub size: u64,
}

impl Span {
    /// From a byte on, up to another.
    pub fn from_to(start: u64, end: u64) -> Span {
        Span { start, size: end - start }
    }

    /// The byte after the last.
    pub fn end(self) -> u128 {
        self.start as u128 + self.size as u128
    }

    pub fn shares_a_byte(self, other: Span) -> bool {
        (self.start.max(other.start) as u128) < self.end().min(other.end())
    }
}

/// The byte after the last of all.
pub fn end_of(spans: &[Span]) -> usize {
    spans.iter().map(|span| span.end()).max().unwrap_or(0) as usize
}

/// Images of a bundle that is accepted, in so many bytes: packed, in any order, with gaps, shared, empty.
pub fn accepted(random: &mut Random, count: usize, length: usize) -> Vec<Span> {
    match random.below(4) {
        0 => packed(random, count, length, 0),
        1 => packed(random, count, length, 5),
        2 => vec![anywhere(random, length); count],
        _ => pieces(random, count, length),
    }
}

/// An image anywhere in so many bytes, whatever else lies there; often empty.
pub fn anywhere(random: &mut Random, length: usize) -> Span {
    let start = random.between(0, length);
    let size = if random.one_in(4) { 0 } else { random.between(0, length - start) };
    Span { start: start as u64, size: size as u64 }
}

/// Images one after the other, with gaps up to a size, then given to the entries in any order.
fn packed(random: &mut Random, count: usize, length: usize, gap: usize) -> Vec<Span> {
    let mut at = 0;
    let mut spans = Vec::new();
    for _ in 0..count {
        let start = (at + random.between(0, gap)).min(length);
        at = start + random.between(0, 12).min(length - start);
        spans.push(Span::from_to(start as u64, at as u64));
    }
    random.shuffle(&mut spans);
    spans
}

/// The bytes are cut anywhere. Each image is one of the pieces, or is empty at any place.
fn pieces(random: &mut Random, count: usize, length: usize) -> Vec<Span> {
    let place = |random: &mut Random| random.between(0, length) as u64;
    let mut cuts: Vec<u64> = (0..random.between(2, count + 2)).map(|_| place(random)).collect();
    cuts.sort_unstable();
    let image = |random: &mut Random| {
        if random.one_in(4) {
            return Span { start: place(random), size: 0 };
        }
        let piece = random.below(cuts.len() - 1);
        Span::from_to(cuts[piece], cuts[piece + 1])
    };
    (0..count).map(|_| image(random)).collect()
}

/// Images that are not empty and lie apart, with gaps now and then, in rising order.
pub fn apart(random: &mut Random, count: usize) -> Vec<Span> {
    let mut at = 0;
    let mut spans = Vec::new();
    for _ in 0..count {
        let start = at + if random.one_in(3) { random.between(1, 3) } else { 0 };
        at = start + random.between(1, 6);
        spans.push(Span::from_to(start as u64, at as u64));
    }
    spans
}

/// Of images in rising order, some one reaches a byte into the next.
pub fn reach_into_next(spans: &mut [Span], random: &mut Random) {
    let at = random.below(spans.len() - 1);
    spans[at] = Span::from_to(spans[at].start, spans[at + 1].start + 1);
}

/// Gives images in rising order to the entries.
pub type Order = fn(&mut Vec<Span>, &mut Random);

pub const ORDERS: &[(&str, Order)] = &[
    ("rising", |_, _| {}),
    ("falling", |spans, _| spans.reverse()),
    ("inwards", |spans, _| inwards(spans)),
    ("outwards", |spans, _| {
        inwards(spans);
        spans.reverse();
    }),
    ("mixed", |spans, random| random.shuffle(spans)),
];

/// The first, the last, the second, the last but one, and so on: all but the first two lie between earlier ones.
fn inwards(spans: &mut Vec<Span>) {
    let last = spans.len().wrapping_sub(1);
    *spans = (0..spans.len()).map(|k| spans[if k % 2 == 0 { k / 2 } else { last - k / 2 }]).collect();
}

/// How the image of a later entry lies to that of an earlier one, and the number that comes of it.
pub struct Relation {
    pub number: u64,
    pub name: &'static str,
    make: Two,
    swapped: bool,
}

impl Relation {
    /// The earlier image and the later one.
    pub fn spans(&self, random: &mut Random) -> [Span; 2] {
        let [one, other] = (self.make)(cuts(random));
        if self.swapped {
            return [other, one];
        }
        [one, other]
    }
}

/// Two images, from places in rising order.
type Two = fn([u64; 4]) -> [Span; 2];

fn cuts(random: &mut Random) -> [u64; 4] {
    let mut at = random.between(0, 2);
    [(); 4].map(|_| {
        at += if random.one_in(8) { random.between(1, 300) } else { random.between(1, 6) };
        at as u64
    })
}

/// How the second lies to the first, and the first to the second.
const OVERLAPPING: &[([&str; 2], Two)] = &[
    (["same start, shorter", "same start, longer"], |[a, b, c, _]| [Span::from_to(a, c), Span::from_to(a, b)]),
    (["same end, shorter", "same end, longer"], |[a, b, c, _]| [Span::from_to(a, c), Span::from_to(b, c)]),
    (["inside", "around"], |[a, b, c, d]| [Span::from_to(a, d), Span::from_to(b, c)]),
    (["one byte, inside", "around one byte"], |[a, b, c, _]| [Span::from_to(a, c + 1), Span::from_to(b, b + 1)]),
    (["across the end", "across the start"], |[a, b, c, d]| [Span::from_to(a, c), Span::from_to(b, d)]),
    (["from the last byte on", "up to the first byte"], |[a, b, c, _]| {
        [Span::from_to(a, b + 1), Span::from_to(b, c + 1)]
    }),
];

const NOT_OVERLAPPING: &[([&str; 2], Two)] = &[
    (["directly after", "directly before"], |[a, b, c, _]| [Span::from_to(a, b), Span::from_to(b, c)]),
    (["after a gap", "before a gap"], |[a, b, c, d]| [Span::from_to(a, b), Span::from_to(c, d)]),
    (["empty, inside", "around an empty one"], |[a, b, c, _]| [Span::from_to(a, c), Span::from_to(b, b)]),
    (["empty, at the start", "from an empty one on"], |[a, b, ..]| [Span::from_to(a, b), Span::from_to(a, a)]),
    (["empty, at the end", "up to an empty one"], |[a, b, ..]| [Span::from_to(a, b), Span::from_to(b, b)]),
];

const THE_SAME: &[(&str, Two)] = &[
    ("the same span", |[a, b, ..]| [Span::from_to(a, b); 2]),
    ("the same byte", |[a, ..]| [Span::from_to(a, a + 1); 2]),
    ("both empty at one place", |[a, ..]| [Span::from_to(a, a); 2]),
];

pub fn relations() -> Vec<Relation> {
    let both_ways = |number: u64, &([name, swapped], make): &([&'static str; 2], Two)| {
        [Relation { number, name, make, swapped: false }, Relation { number, name: swapped, make, swapped: true }]
    };
    let same = |&(name, make): &(&'static str, Two)| Relation { number: OK, name, make, swapped: false };
    let overlapping = OVERLAPPING.iter().flat_map(|two| both_ways(OVERLAP, two));
    let others = NOT_OVERLAPPING.iter().flat_map(|two| both_ways(OK, two));
    overlapping.chain(others).chain(THE_SAME.iter().map(same)).collect()
}

/// Two images that share a byte and are not the same span.
pub fn overlapping(random: &mut Random) -> [Span; 2] {
    let (_, make) = random.choose(OVERLAPPING);
    let mut spans = make(cuts(random));
    random.shuffle(&mut spans);
    spans
}

#[cfg(test)]
mod tests {
    use super::*;
    use std::collections::BTreeSet;

    fn bytes(span: Span) -> BTreeSet<u64> {
        (span.start..span.start + span.size).collect()
    }

    /// Byte by byte: what is accepted of two images.
    fn may_stand_together(one: Span, other: Span) -> bool {
        one == other || bytes(one).is_disjoint(&bytes(other))
    }

    fn all_may_stand_together(spans: &[Span]) -> bool {
        spans.iter().all(|one| spans.iter().all(|other| may_stand_together(*one, *other)))
    }

    #[test]
    fn relations_are_what_their_numbers_say() {
        let mut random = Random::of_case(1, 4);
        for relation in relations() {
            for _ in 0..500 {
                let [one, other] = relation.spans(&mut random);
                assert_eq!(
                    may_stand_together(one, other),
                    relation.number == OK,
                    "{}: {one:?} {other:?}",
                    relation.name
                );
            }
        }
        for _ in 0..500 {
            let [one, other] = overlapping(&mut random);
            assert!(!may_stand_together(one, other), "{one:?} {other:?}");
        }
    }

    #[test]
    fn one_byte_in_common_is_one_byte() {
        let mut random = Random::of_case(1, 5);
        for relation in relations() {
            if ["from the last byte on", "up to the first byte"].contains(&relation.name) {
                for _ in 0..500 {
                    let [one, other] = relation.spans(&mut random);
                    assert_eq!(bytes(one).intersection(&bytes(other)).count(), 1, "{one:?} {other:?}");
                }
            }
        }
    }

    #[test]
    fn accepted_images_are_the_same_or_share_no_byte() {
        let mut random = Random::of_case(1, 6);
        let (mut shared, mut touching) = (0, 0);
        for _ in 0..2000 {
            let (count, length) = (random.between(0, 12), random.between(0, 80));
            let spans = accepted(&mut random, count, length);
            assert_eq!(spans.len(), count);
            assert!(end_of(&spans) <= length && all_may_stand_together(&spans), "{spans:?}");
            let full = |spans: &&[Span]| spans.iter().all(|span| span.size > 0);
            shared += spans.windows(2).filter(full).filter(|two| two[0] == two[1]).count();
            touching += spans.windows(2).filter(full).filter(|two| two[0].end() == two[1].start as u128).count();
        }
        assert!(shared > 200 && touching > 200, "{shared} shared, {touching} touching");
    }

    #[test]
    fn orders_have_each_image_once() {
        let mut random = Random::of_case(1, 7);
        for (name, order) in ORDERS {
            for count in 2..=64 {
                let rising = apart(&mut random, count);
                assert!(all_may_stand_together(&rising));
                let mut spans = rising.clone();
                order(&mut spans, &mut random);
                spans.sort_by_key(|span| span.start);
                assert_eq!(spans, rising, "{name}");
                reach_into_next(&mut spans, &mut random);
                assert!(!all_may_stand_together(&spans), "{name}");
            }
        }
    }

    #[test]
    fn inwards_and_outwards() {
        let places = |order: Order| {
            let mut spans: Vec<Span> = (0..5).map(|start| Span { start, size: 1 }).collect();
            order(&mut spans, &mut Random::of_case(1, 8));
            spans.iter().map(|span| span.start).collect::<Vec<_>>()
        };
        assert_eq!(places(ORDERS[2].1), [0, 4, 1, 3, 2]);
        assert_eq!(places(ORDERS[3].1), [2, 3, 1, 4, 0]);
    }
}
