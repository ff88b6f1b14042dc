//! Two bundles, a patch and a main one, with a device name.

mod answers;
mod memory;
mod refusals;

use super::bundles;
use super::ids::{self, Meaning};
use super::images::{self, Span};
use super::random::Random;
use super::Aim;
use crate::model::id::Reading;
use crate::model::*;
use crate::samples;

/// One of the two bundles.
#[derive(Clone, Copy, Debug, PartialEq, Eq)]
pub enum Side {
    Patch,
    Main,
}

impl Side {
    pub const BOTH: [Side; 2] = [Side::Patch, Side::Main];

    /// The number, where this bundle is named.
    pub fn number(self) -> &'static str {
        match self {
            Side::Patch => "patch",
            Side::Main => "main",
        }
    }

    /// The place of a refusal that names it.
    pub fn place(self) -> &'static str {
        match self {
            Side::Patch => "patch at",
            Side::Main => "main at",
        }
    }

    /// The index of its entry, where that answers.
    pub fn entry(self) -> &'static str {
        match self {
            Side::Patch => "patch has",
            Side::Main => "main has",
        }
    }

    fn other(self) -> Side {
        match self {
            Side::Patch => Side::Main,
            Side::Main => Side::Patch,
        }
    }
}

pub const CALL: &str = "lookup";
/// The number, where no bundle is named.
pub const NEITHER: &str = "neither";

/// What is being made. As long as nothing damages the bundles, both are accepted.
#[derive(Clone, Debug)]
pub struct Draft {
    pub patch: bundles::Draft,
    pub main: bundles::Draft,
    pub device: Vec<u8>,
    /// The shorter bundle is lent as the end of the longer one, where that ends with the same bytes.
    pub shared: bool,
}

/// What is lent: the bytes of both bundles are followed by zero bytes.
#[derive(Clone, Debug, Default)]
pub struct Case {
    pub patch: Vec<u8>,
    pub patch_zeros: usize,
    pub main: Vec<u8>,
    pub main_zeros: usize,
    pub device: Vec<u8>,
    pub shared: bool,
}

impl Draft {
    /// Two bundles that are accepted, each with some of so many entries.
    pub fn good(random: &mut Random, entries: usize) -> Draft {
        let all = bundles::Draft::good(Reading::General, random, entries);
        let [patch, main] = [(); 2].map(|_| drawn_from(&all, random));
        Draft { patch, main, device: all.device, shared: false }
    }

    pub fn case(&self) -> Case {
        let bundles::Case { bundle: patch, zeros: patch_zeros, .. } = self.patch.case();
        let bundles::Case { bundle: main, zeros: main_zeros, .. } = self.main.case();
        Case { patch, patch_zeros, main, main_zeros, device: self.device.clone(), shared: self.shared }
    }

    fn side(&mut self, side: Side) -> &mut bundles::Draft {
        match side {
            Side::Patch => &mut self.patch,
            Side::Main => &mut self.main,
        }
    }

    /// A bundle has this for devices of a meaning, and no other entry for their target. The index of the entry.
    fn hold(&mut self, random: &mut Random, side: Side, meaning: &Meaning, held: Held) -> Option<usize> {
        let bundle = self.side(side);
        bundle.drop_target(meaning);
        let size = match held {
            Held::Nothing => return None,
            Held::Empty => 0,
            Held::Image => random.between(1, 20),
        };
        let meaning = ids::either_spelling(random, meaning.clone());
        let at = bundle.put_meaning(random, meaning);
        bundle.put_image(random, at, size as u64);
        Some(at)
    }

    /// What each bundle has for a device of some meaning, and the device name.
    fn hold_both(&mut self, random: &mut Random, patch: Held, main: Held) {
        let meaning = ids::some_meaning(random);
        self.hold(random, Side::Patch, &meaning, patch);
        self.hold(random, Side::Main, &meaning, main);
        self.ask(random, &meaning);
    }

    /// A device name that states what this does, and maybe more.
    fn ask(&mut self, random: &mut Random, meaning: &Meaning) {
        let device = ids::with_more_features(Reading::General, random, meaning);
        let device = ids::either_spelling(random, device);
        self.device = ids::as_named(random, &device);
    }

    /// A bundle with no entries.
    fn empty(&mut self, random: &mut Random, side: Side) {
        *self.side(side) = bundles::Draft::good(Reading::General, random, 0);
    }
}

/// What a bundle has for a device.
#[derive(Clone, Copy, Debug, PartialEq, Eq)]
enum Held {
    Nothing,
    Empty,
    Image,
}

impl Held {
    const ALL: [Held; 3] = [Held::Nothing, Held::Empty, Held::Image];

    fn name(self) -> &'static str {
        match self {
            Held::Nothing => "nothing",
            Held::Empty => "an empty image",
            Held::Image => "an image",
        }
    }
}

/// The bundle that is named, and the number, from what each has for the device.
fn answer_of(patch: Held, main: Held) -> (&'static str, u64) {
    match (patch, main) {
        (Held::Nothing, Held::Nothing) => (NEITHER, NONE),
        (Held::Nothing, _) => (Side::Main.number(), OK),
        _ => (Side::Patch.number(), OK),
    }
}

/// What makes another bundle of one.
type Drawing = fn(&mut bundles::Draft, &mut Random);

const DRAWINGS: &[(&str, Drawing)] = &[
    ("as it is", |_, _| {}),
    ("in another order", |bundle, random| random.shuffle(&mut bundle.rows)),
    ("spelled otherwise", |bundle, random| {
        bundle.respell_kinds(random);
        bundle.respell(random);
    }),
    ("with other images", |bundle, random| {
        let length = random.between(0, 80);
        let spans = images::accepted(random, bundle.rows.len(), length);
        bundle.body = random.bytes(length);
        bundle.rows.iter_mut().zip(spans).for_each(|(row, span)| row.set_span(span));
    }),
    ("with other bytes in the images", |bundle, random| bundle.body = random.bytes(bundle.body.len())),
    ("with the images further back", bundles::Draft::move_images_back),
];

/// A bundle with some of these entries or all, after some of the drawings.
fn drawn_from(all: &bundles::Draft, random: &mut Random) -> bundles::Draft {
    let mut drawn = all.clone();
    if !random.one_in(3) {
        leave_out(&mut drawn, random);
    }
    for (_, drawing) in DRAWINGS {
        if random.one_in(2) {
            drawing(&mut drawn, random);
        }
    }
    drawn
}

/// A third of the entries is left out.
pub(super) fn leave_out(bundle: &mut bundles::Draft, random: &mut Random) {
    bundle.rows.retain(|_| !random.one_in(3));
    bundle.count = bundle.rows.len() as u64;
}

pub fn some_draft(random: &mut Random) -> Draft {
    let entries = bundles::some_count(random);
    Draft::good(random, entries)
}

/// Two real bundles, one of them sometimes with damage in its table, and some device name.
pub fn sample_case(random: &mut Random) -> Case {
    let whole = random.choose(samples::BUNDLES).bytes.to_vec();
    let mut both = [whole, bundles::sample_bundle(random).0];
    random.shuffle(&mut both);
    let [patch, main] = both;
    let device = random.choose(samples::DEVICES).as_bytes();
    case_of(patch, main, device)
}

pub fn case_of(patch: Vec<u8>, main: Vec<u8>, device: &[u8]) -> Case {
    Case { patch, main, device: device.to_vec(), ..Case::default() }
}

/// Bytes of either bundle changed, put in or taken out.
pub fn shake(case: &mut Case, random: &mut Random) {
    let bundle = if random.one_in(2) { &mut case.patch } else { &mut case.main };
    bundles::shake(bundle, random);
}

type LookupAim = Aim<Draft>;

pub fn aims() -> Vec<LookupAim> {
    let mut aims = answers::aims();
    aims.extend(memory::aims());
    aims.extend(refusals::aims());
    aims
}

/// A line at which this bundle answers.
fn answered_by(side: Side, name: &str, make: impl Fn(&mut Draft, &mut Random) + 'static) -> LookupAim {
    Aim::new(side.number(), OK, name, make)
}

#[cfg(test)]
mod tests {
    use super::*;
    use crate::model::bundle::{check, pick, Picked};
    use std::collections::BTreeMap;

    /// What the single pick gives from each bundle.
    pub fn picks(draft: &Draft) -> [Picked; 2] {
        [&draft.patch, &draft.main].map(|bundle| pick(&bundle.bytes(), &draft.device))
    }

    #[test]
    fn often_both_have_an_entry_and_often_one_or_neither() {
        let mut seen = BTreeMap::new();
        for case in 0..3000 {
            let draft = some_draft(&mut Random::of_case(1, case));
            *seen.entry(picks(&draft).map(|picked| picked.number)).or_insert(0) += 1;
        }
        let answers = [[OK, OK], [OK, NONE], [NONE, OK], [NONE, NONE]];
        assert!(answers.iter().all(|numbers| seen[numbers] > 300) && seen.len() == 4, "{seen:?}");
    }

    #[test]
    fn drawings_leave_a_bundle_accepted() {
        let mut random = Random::of_case(1, 10);
        for (name, drawing) in DRAWINGS {
            for count in 0..20 {
                let mut bundle = bundles::Draft::good(Reading::General, &mut random, count);
                drawing(&mut bundle, &mut random);
                let checked = check(&bundle.bytes());
                assert_eq!((checked.number, checked.count), (OK, count as u64), "{name}");
            }
        }
    }

    #[test]
    fn a_bundle_has_what_it_holds() {
        let mut random = Random::of_case(1, 11);
        let gives = |held: Held, picked: Picked| match held {
            Held::Nothing => picked.number == NONE,
            Held::Empty => picked.number == OK && picked.size == 0,
            Held::Image => picked.number == OK && picked.size > 0,
        };
        for patch in Held::ALL {
            for main in Held::ALL {
                for _ in 0..100 {
                    let mut draft = some_draft(&mut random);
                    draft.hold_both(&mut random, patch, main);
                    let [of_patch, of_main] = picks(&draft);
                    assert!(gives(patch, of_patch) && gives(main, of_main), "{patch:?}, {main:?}: {draft:?}");
                }
            }
        }
    }
}
