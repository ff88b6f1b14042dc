//! 1 to 8 and 21: in left, in right and in both; and bundles on both sides of 32 KiB.

use super::images::of_one;
use super::*;
use crate::gen::bundles::{damages, fill_to, Damages};
use crate::gen::LIMIT;
use std::rc::Rc;

pub fn aims() -> Vec<DifferencesAim> {
    let damages = damages();
    let mut aims = Vec::new();
    for at in 0..damages.len() {
        for side in Side::BOTH {
            aims.extend(BESIDE.iter().map(|beside| refused(side, &damages, at, *beside)));
        }
        aims.extend(IN_RIGHT_TOO.iter().map(|in_right| both_refused(&damages, at, *in_right)));
    }
    for side in Side::BOTH {
        aims.extend(ACCEPTED_LENGTHS.iter().map(|length| accepted_length(side, *length)));
        aims.extend(REFUSED_LENGTHS.iter().map(|length| refused_length(side, *length)));
        aims.extend(TOO_LONG.iter().map(|too_long| too_long_and(side, *too_long)));
        aims.extend([0, 1].map(|more| image_up_to_the_end(side, more)));
    }
    aims.push(both_of_the_limit());
    aims
}

/// Damage that gives this number here: a bundle above 32 KiB is refused for its length before all else.
fn damage(damages: &Damages, at: usize, bundle: &mut bundles::Draft, random: &mut Random) {
    if damages[at].0 == LENGTH && !random.one_in(4) {
        return fill_to(bundle, COMPARE_LIMIT + random.between(1, 40));
    }
    let whole = bundle.clone();
    for _ in 0..20 {
        *bundle = whole.clone();
        bundles::damage(damages, at, bundle, random);
        let case = bundle.case();
        if damages[at].0 == LENGTH || case.bundle.len() + case.zeros <= COMPARE_LIMIT {
            return;
        }
    }
}

/// What stands beside the bundle that is refused.
type Beside = fn(&mut Draft, &mut Random, Side);

const BESIDE: &[(&str, Beside)] = &[
    ("any entries", |_, _, _| {}),
    ("the same entries", |draft, random, _| draft.alike(random)),
    ("no entries", |draft, random, other| *draft.side(other) = bundles::Draft::good(Reading::General, random, 0)),
    ("32,768 bytes", |draft, _, other| fill_to(draft.side(other), COMPARE_LIMIT)),
];

/// A bundle at any line that gives this refusal, beside one that is accepted.
fn refused(side: Side, damages: &Damages, at: usize, (name, beside): (&str, Beside)) -> DifferencesAim {
    let damages = Rc::clone(damages);
    let number = damages[at].0;
    Aim::new(side.name(), number, &format!("number {number}, beside {name}"), move |draft: &mut Draft, random| {
        beside(draft, random, side.other());
        damage(&damages, at, draft.side(side), random);
    })
}

/// What is done to right, where left is refused by this number.
type InRight = fn(&mut Draft, &mut Random, &Damages, usize);

const IN_RIGHT_TOO: &[(&str, InRight)] = &[
    ("the same number", |draft, random, damages, at| damage(damages, at, &mut draft.right, random)),
    ("another number", |draft, random, damages, at| {
        let other = (at + random.between(1, damages.len() - 1)) % damages.len();
        damage(damages, other, &mut draft.right, random);
    }),
    ("the same bytes", |draft, random, _, _| {
        draft.right = draft.left.clone();
        draft.shared = random.one_in(2);
    }),
    ("no bytes", |draft, _, _, _| draft.right.cut = Some(0)),
    ("a byte above 32 KiB", |draft, _, _, _| fill_to(&mut draft.right, COMPARE_LIMIT + 1)),
];

/// Both bundles are refused.
fn both_refused(damages: &Damages, at: usize, (name, in_right): (&str, InRight)) -> DifferencesAim {
    let damages = Rc::clone(damages);
    let number = damages[at].0;
    let name = format!("number {number}, and {name} in right");
    Aim::new(Side::Left.name(), number, &name, move |draft: &mut Draft, random| {
        damage(&damages, at, &mut draft.left, random);
        in_right(draft, random, &damages, at);
    })
}

const ACCEPTED_LENGTHS: &[usize] = &[COMPARE_LIMIT - 1, COMPARE_LIMIT];

/// Bytes of no image up to this length change no line.
fn accepted_length(side: Side, length: usize) -> DifferencesAim {
    Aim::new(LINES, 0, &format!("{length} bytes in {}", side.name()), move |draft: &mut Draft, random| {
        draft.alike(random);
        fill_to(draft.side(side), length);
    })
}

/// On both sides of 16 bits, and of the size limit of any container.
const REFUSED_LENGTHS: &[usize] =
    &[COMPARE_LIMIT + 1, COMPARE_LIMIT + 2, 65_535, 65_536, 65_792, 1 << 20, LIMIT, LIMIT + 1];

fn refused_length(side: Side, length: usize) -> DifferencesAim {
    Aim::new(side.name(), LENGTH, &format!("{length} bytes"), move |draft: &mut Draft, random| {
        draft.alike(random);
        fill_to(draft.side(side), length);
    })
}

/// What else is wrong with a bundle of 32,769 bytes.
type TooLong = fn(&mut bundles::Draft, &mut Random);

const TOO_LONG: &[(&str, TooLong)] = &[
    ("wrong magic", |bundle, random| {
        let at = random.below(24);
        bundle.magic[at] ^= 1 << random.below(8);
    }),
    ("a count of 65", |bundle, _| bundle.count = 65),
    ("a broken ID", |bundle, random| {
        let at = bundle.some_row(random);
        bundle.rows[at].set_id(ids::some_broken(random));
    }),
    ("an image out of range", |bundle, random| {
        let at = bundle.some_row(random);
        bundle.rows[at].set_image(COMPARE_LIMIT as u64 + 1, 1);
    }),
];

fn too_long_and(side: Side, (name, damage): (&str, TooLong)) -> DifferencesAim {
    Aim::new(side.name(), LENGTH, &format!("32,769 bytes and {name}"), move |draft: &mut Draft, random| {
        damage(draft.side(side), random);
        fill_to(draft.side(side), COMPARE_LIMIT + 1);
    })
}

/// An image that ends with the bundle, at 32,768 bytes or at one more.
fn image_up_to_the_end(side: Side, more: usize) -> DifferencesAim {
    let (call, number) = if more == 0 { (ONLY_AT, 5) } else { (side.name(), LENGTH) };
    let name = format!("an image up to byte {} of {}", COMPARE_LIMIT + more, side.name());
    let aim = Aim::new(call, number, &name, move |draft: &mut Draft, random| {
        let id = b"host-x86_64-unknown-linux-gnu-";
        let length = COMPARE_LIMIT + more - 32 - 24 - id.len();
        let image = random.bytes(length);
        *draft.side(side) = of_one(random, id, &image);
        *draft.side(side.other()) = of_one(random, id, &image[..5]);
    });
    aim.large()
}

fn both_of_the_limit() -> DifferencesAim {
    Aim::new(LINES, 0, "32,768 bytes in both", |draft: &mut Draft, random| {
        draft.alike(random);
        Side::BOTH.iter().for_each(|side| fill_to(draft.side(*side), COMPARE_LIMIT));
    })
}
