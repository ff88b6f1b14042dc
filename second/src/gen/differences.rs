//! Two bundles that are compared, left and right, with room for the report.

mod images;
mod marks;
mod names;
mod refusals;
mod rooms;

use super::ids::{self, Meaning};
use super::lookup::leave_out;
use super::random::Random;
use super::{bundles, Aim, Room};
use crate::model::differences::{Side, COMPARE_LIMIT};
use crate::model::id::Reading;
use crate::model::*;
use crate::samples;

pub const CALL: &str = "differences";
/// How many lines stand before the last.
pub const LINES: &str = "lines";
/// What stands before the last line, where that is one line: which bundle alone has the ID, or the byte at which the images differ.
pub const ONLY_IN: &str = "only in";
pub const ONLY_AT: &str = "only at";
/// A letter for each ID of either bundle, in their order, as a number.
pub const MARKS: &str = "marks";
/// How long the report is, and whether it is written.
pub const LENGTH_OF_REPORT: &str = "length";
pub const WRITTEN: &str = "written";

/// The most bytes that a report can have: 128 lines with IDs of 256 bytes, and the last.
pub const REPORT_LIMIT: usize = 33_168;

// The letters of `MARKS`.
pub const IN_LEFT: char = 'L';
pub const IN_RIGHT: char = 'R';
pub const DIFFERENT: char = 'D';
pub const THE_SAME: char = '=';
const LETTERS: [char; 4] = [IN_LEFT, IN_RIGHT, DIFFERENT, THE_SAME];

/// The number of some letters: no others have it, up to 27 of them.
pub fn marks_number(marks: &str) -> u64 {
    let digit = |mark: char| 1 + LETTERS.iter().position(|letter| *letter == mark).expect("a letter") as u64;
    marks.chars().fold(0, |number: u64, mark| number.wrapping_mul(5).wrapping_add(digit(mark)))
}

/// The number of `ONLY_IN`.
pub fn side_number(side: Side) -> u64 {
    1 + side as u64
}

/// What is being made. As long as nothing damages the bundles, both are accepted.
#[derive(Clone, Debug)]
pub struct Draft {
    pub left: bundles::Draft,
    pub right: bundles::Draft,
    pub room: Room,
    /// The shorter bundle is lent as the end of the longer one, where that ends with the same bytes.
    pub shared: bool,
}

/// What is lent: the bytes of each bundle are followed by zero bytes.
#[derive(Clone, Debug)]
pub struct Case {
    pub bundles: [Vec<u8>; 2],
    pub zeros: [usize; 2],
    pub room: Room,
    pub shared: bool,
}

impl Draft {
    /// Two bundles that are accepted, each with some of so many entries, and some of these changed.
    pub fn good(random: &mut Random, entries: usize) -> Draft {
        let all = bundles::Draft::good(Reading::General, random, entries);
        let [left, right] = [(); 2].map(|_| drawn_from(&all, random));
        Draft { left, right, room: some_room(random), shared: false }
    }

    pub fn case(&self) -> Case {
        let [left, right] = [self.left.case(), self.right.case()];
        Case {
            bundles: [left.bundle, right.bundle],
            zeros: [left.zeros, right.zeros],
            room: self.room,
            shared: self.shared,
        }
    }

    fn side(&mut self, side: Side) -> &mut bundles::Draft {
        match side {
            Side::Left => &mut self.left,
            Side::Right => &mut self.right,
        }
    }

    /// Both bundles have the entries of the left one.
    fn alike(&mut self, random: &mut Random) {
        self.right = self.left.clone();
        self.right.remake_some(random);
    }

    /// Both bundles have the same entries, and one more of this meaning, with these images.
    fn put_in_both(&mut self, random: &mut Random, meaning: &Meaning, [left, right]: [&[u8]; 2]) {
        self.left.drop_target(meaning);
        let at = self.left.put_meaning(random, meaning.clone());
        self.left.put_image_of(random, at, left);
        self.right = self.left.clone();
        let mut images = self.right.images();
        images[at] = right.to_vec();
        self.right.lay_images(random, &images, bundles::Lay::Together);
        self.right.remake_some(random);
    }

    /// One letter for each of these meanings, which are in the order of their canonical IDs, and no other entries.
    fn mark(&mut self, random: &mut Random, meanings: &[Meaning], marks: &str) {
        let entries: Vec<Marked> = meanings.iter().zip(marks.chars()).map(|pair| marked(random, pair)).collect();
        self.left = made_of(random, &entries, IN_RIGHT, 0);
        self.right = made_of(random, &entries, IN_LEFT, 1);
    }
}

/// A meaning, its letter, and its image in either bundle.
type Marked = (Meaning, char, [Vec<u8>; 2]);

fn marked(random: &mut Random, (meaning, mark): (&Meaning, char)) -> Marked {
    let image = some_image(random);
    let other = if mark == DIFFERENT { other_image(random, &image) } else { image.clone() };
    (meaning.clone(), mark, [image, other])
}

/// A bundle of those that are not marked so, with one of the images of each, in any order.
fn made_of(random: &mut Random, entries: &[Marked], left_out: char, image: usize) -> bundles::Draft {
    let held = entries.iter().filter(|(_, mark, _)| *mark != left_out);
    let held: Vec<(Meaning, Vec<u8>)> =
        held.map(|(meaning, _, images)| (meaning.clone(), images[image].clone())).collect();
    let mut bundle = bundles::Draft::of(random, &held);
    bundle.remake_some(random);
    bundle
}

/// Meanings that may stand in one bundle, in the order of their canonical IDs.
fn some_meanings(random: &mut Random, count: usize) -> Vec<Meaning> {
    let mut meanings = ids::composed(Reading::General, random, count);
    meanings.sort_by_key(id::canonical);
    meanings
}

fn some_image(random: &mut Random) -> Vec<u8> {
    let length = random.between(0, 12);
    random.bytes(length)
}

/// Another image than this: a byte changed, bytes more or fewer, or all others.
fn other_image(random: &mut Random, image: &[u8]) -> Vec<u8> {
    let mut other = image.to_vec();
    match random.below(4) {
        0 if !image.is_empty() => change_byte(&mut other, random.below(image.len()), random),
        1 if !image.is_empty() => other.truncate(random.below(image.len())),
        2 => other = random.bytes(image.len() + 2),
        _ => other.push(random.byte()),
    }
    other
}

/// Another byte at a place: one bit of it, or any.
fn change_byte(image: &mut [u8], at: usize, random: &mut Random) {
    image[at] ^= if random.one_in(2) { 1 << random.below(8) } else { random.between(1, 255) as u8 };
}

/// A bundle with some of these entries or all, some of them with another image or of the other spelling of their kind.
fn drawn_from(all: &bundles::Draft, random: &mut Random) -> bundles::Draft {
    let mut drawn = all.clone();
    if random.one_in(2) {
        leave_out(&mut drawn, random);
    }
    if random.one_in(2) {
        change_images(&mut drawn, random);
    }
    if random.one_in(6) {
        drawn.respell_kinds(random);
        drawn.respell(random);
    }
    drawn.remake_some(random);
    drawn
}

/// A third of the images are others.
fn change_images(bundle: &mut bundles::Draft, random: &mut Random) {
    let mut images = bundle.images();
    for image in &mut images {
        if random.one_in(3) {
            *image = other_image(random, image);
        }
    }
    bundle.lay_images(random, &images, bundles::Lay::Together);
}

/// Mostly enough.
fn some_room(random: &mut Random) -> Room {
    match random.below(8) {
        0 => Room::any(random),
        1..=4 => Room::Exact,
        _ => Room::Spare(random.between(1, 40)),
    }
}

pub fn some_draft(random: &mut Random) -> Draft {
    let entries = bundles::some_count(random);
    Draft::good(random, entries)
}

/// Two real bundles: the same one with a byte changed, or another, sometimes with damage in its table.
pub fn sample_case(random: &mut Random) -> Case {
    let whole = random.choose(samples::BUNDLES).bytes.to_vec();
    let mut other = whole.clone();
    if random.one_in(2) {
        let at = random.below(other.len());
        change_byte(&mut other, at, random);
    } else {
        other = bundles::sample_bundle(random).0;
    }
    let mut both = [whole, other];
    random.shuffle(&mut both);
    Case { room: Room::any(random), ..case_of(both) }
}

/// Two bundles, with room for the report.
pub fn case_of(bundles: [Vec<u8>; 2]) -> Case {
    Case { bundles, zeros: [0; 2], room: Room::Exact, shared: false }
}

/// Bytes of either bundle changed, put in or taken out.
pub fn shake(case: &mut Case, random: &mut Random) {
    bundles::shake(&mut case.bundles[random.below(2)], random);
}

type DifferencesAim = Aim<Draft>;

pub fn aims() -> Vec<DifferencesAim> {
    let mut aims = marks::aims();
    aims.extend(images::aims());
    aims.extend(names::aims());
    aims.extend(refusals::aims());
    aims.extend(rooms::aims());
    aims
}

#[cfg(test)]
mod tests {
    use super::*;
    use crate::model::differences::{compared, read, Mark};
    use std::collections::BTreeMap;

    #[test]
    fn drawn_bundles_differ_in_every_way_and_are_often_the_same() {
        let mut seen = BTreeMap::new();
        for case in 0..3000 {
            let draft = some_draft(&mut Random::of_case(1, case));
            let lines = compared(&read(&draft.left.bytes()), &read(&draft.right.bytes())).unwrap();
            let count = |holds: fn(&Mark) -> bool| lines.iter().filter(|(_, mark)| holds(mark)).count().min(1);
            let kinds = [
                count(|mark| *mark == Mark::Only(Side::Left)),
                count(|mark| *mark == Mark::Only(Side::Right)),
                count(|mark| matches!(mark, Mark::At(_))),
            ];
            *seen.entry(kinds).or_insert(0) += 1;
        }
        assert!(seen.len() == 8 && seen.values().all(|count| *count > 100), "{seen:?}");
    }

    #[test]
    fn other_images_are_others() {
        let mut random = Random::of_case(1, 16);
        for _ in 0..2000 {
            let image = some_image(&mut random);
            assert_ne!(other_image(&mut random, &image), image);
        }
    }

    #[test]
    fn letters_have_numbers_of_their_own() {
        let mut numbers: Vec<u64> =
            ["", "L", "R", "D", "=", "LL", "L=", "=L", "RD", "DR", "LLL"].map(marks_number).into();
        numbers.sort_unstable();
        numbers.dedup();
        assert_eq!(numbers.len(), 11);
    }
}
