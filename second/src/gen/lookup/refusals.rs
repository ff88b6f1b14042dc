//! 1 to 8 and 21: in the patch, in main and in both.

use super::*;
use crate::gen::bundles::{damage, damages, Damages};
use std::rc::Rc;

pub fn aims() -> Vec<LookupAim> {
    let damages = damages();
    let mut aims = Vec::new();
    for at in 0..damages.len() {
        for side in Side::BOTH {
            aims.extend(BESIDE.iter().map(|beside| refused(side, &damages, at, *beside)));
        }
        aims.extend(IN_MAIN.iter().map(|in_main| both_refused(&damages, at, *in_main)));
    }
    aims.extend(PLACED.iter().flat_map(|placed| place_aims(*placed)));
    aims
}

/// What stands beside the bundle that is refused: the other one is given.
type Beside = fn(&mut Draft, &mut Random, Side);

const BESIDE: &[(&str, Beside)] = &[
    ("any entries", |_, _, _| {}),
    ("an image", |draft, random, other| hold_in(draft, random, other, Held::Image)),
    ("nothing for the device", |draft, random, other| hold_in(draft, random, other, Held::Nothing)),
    ("no entries", |draft, random, other| draft.empty(random, other)),
    ("a broken device name", |draft, random, _| draft.device = ids::some_broken(random)),
];

/// What a bundle has for a device; the other has an image.
fn hold_in(draft: &mut Draft, random: &mut Random, side: Side, held: Held) {
    match side {
        Side::Patch => draft.hold_both(random, held, Held::Image),
        Side::Main => draft.hold_both(random, Held::Image, held),
    }
}

/// A bundle at any line that gives this refusal, beside one that is accepted.
fn refused(side: Side, damages: &Damages, at: usize, (name, beside): (&str, Beside)) -> LookupAim {
    let damages = Rc::clone(damages);
    let number = damages[at].0;
    let name = format!("number {number} in {}, beside {name}", side.number());
    Aim::new(side.number(), number, &name, move |draft: &mut Draft, random| {
        beside(draft, random, side.other());
        damage(&damages, at, draft.side(side), random);
    })
}

/// What is done to main, where the patch is refused by this number.
type InMain = fn(&mut Draft, &mut Random, &Damages, usize);

const IN_MAIN: &[(&str, InMain)] = &[
    ("the same number", |draft, random, damages, at| damage(damages, at, &mut draft.main, random)),
    ("another number", |draft, random, damages, at| {
        let other = (at + random.between(1, damages.len() - 1)) % damages.len();
        damage(damages, other, &mut draft.main, random);
        if random.one_in(2) {
            draft.device = ids::some_broken(random);
        }
    }),
    ("the same bytes", |draft, random, _, _| {
        draft.main = draft.patch.clone();
        draft.shared = random.one_in(2);
    }),
];

/// Both bundles are refused.
fn both_refused(damages: &Damages, at: usize, (name, in_main): (&str, InMain)) -> LookupAim {
    let damages = Rc::clone(damages);
    let number = damages[at].0;
    let name = format!("number {number} in the patch, {name} in main");
    Aim::new(Side::Patch.number(), number, &name, move |draft: &mut Draft, random| {
        damage(&damages, at, &mut draft.patch, random);
        in_main(draft, random, &damages, at);
    })
}

/// Numbers that have a place, and the lowest place that they can have.
const PLACED: &[(u64, usize)] = &[(TABLE, 0), (ID, 0), (RANGE, 0), (OVERLAP, 1), (TWICE, 1), (MIXED, 1)];

/// Refused at the first entry that can be and at the last, in either bundle and in both.
fn place_aims((number, lowest): (u64, usize)) -> Vec<LookupAim> {
    let mut aims = Vec::new();
    for side in Side::BOTH {
        aims.push(refused_in(side, number, lowest, 5));
        aims.push(refused_in(side, number, 4, 5));
        aims.push(refused_in(side, number, 63, 64).large());
    }
    for [patch, main] in [[lowest, 4], [4, lowest]] {
        let name = format!("number {number} at {patch} in the patch and at {main} in main");
        aims.push(Aim::new(Side::Patch.place(), patch as u64, &name, move |draft: &mut Draft, random| {
            draft.patch = refused_at(random, number, patch, 5);
            draft.main = refused_at(random, number, main, 5);
        }));
    }
    aims
}

fn refused_in(side: Side, number: u64, at: usize, count: usize) -> LookupAim {
    let name = format!("number {number} at {at} of {count}");
    Aim::new(side.place(), at as u64, &name, move |draft: &mut Draft, random| {
        *draft.side(side) = refused_at(random, number, at, count);
    })
}

/// A bundle of so many entries that is refused by this number at this one.
fn refused_at(random: &mut Random, number: u64, at: usize, count: usize) -> bundles::Draft {
    let mut bundle = bundles::Draft::good(Reading::General, random, count);
    let (earlier, length) = (random.below(at.max(1)), bundle.length());
    match number {
        TABLE => bundle.rows[at].id_length = *random.choose(&[0, 257, u64::MAX]),
        ID => bundle.rows[at].set_id(ids::some_broken(random)),
        RANGE => bundle.rows[at].set_image(length, 1),
        OVERLAP => bundle.put_overlap(random, [earlier, at]),
        TWICE => set_features(&mut bundle, random, [(earlier, ":x+:y-"), (at, ":y-:x+")]),
        _ => set_features(&mut bundle, random, [(earlier, ":x+"), (at, ":x+:y-")]),
    }
    bundle
}

/// Two entries of one target, with these features.
fn set_features(bundle: &mut bundles::Draft, random: &mut Random, features: [(usize, &str); 2]) {
    let target = ids::own(random, ids::KINDS);
    for (at, features) in features {
        bundle.rows[at].set_id(format!("{target}{features}").into_bytes());
    }
}

#[cfg(test)]
mod tests {
    use super::*;
    use crate::model::bundle::{check, Checked};

    #[test]
    fn a_bundle_is_refused_at_its_place() {
        let mut random = Random::of_case(1, 9);
        for (number, lowest) in PLACED {
            for (at, count) in [(*lowest, 5), (4, 5), (63, 64)] {
                for _ in 0..20 {
                    let bundle = refused_at(&mut random, *number, at, count);
                    let expected = Checked { number: *number, place: at as u64, count: 0 };
                    assert_eq!(check(&bundle.bytes()), expected);
                }
            }
        }
    }
}
