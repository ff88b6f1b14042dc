//! Two bundles: libraries with a slip.

use super::*;
use crate::calls::{Check, LookUp, LookupCalls, Pick, MODEL_LOOKUP};
use crate::families::lookup::Lookup;
use crate::gen::bundles::REFUSALS;
use crate::model::bundle::pick_of;
use crate::model::id::meaning_by;
use crate::model::id::Reading::Profile;
use crate::model::lookup::{lookup, LookedUp, MAIN, NEITHER, PATCH};

#[test]
fn two_bundles_meet_every_line_in_any_run_and_nearly_each_time() {
    meets_every_line_in_any_run(Lookup::new(MODEL_LOOKUP));
}

#[test]
fn each_bundle_answers_often_and_each_is_refused_often() {
    let mut family = Lookup::new(MODEL_LOOKUP);
    run_generated(&mut family, 4000).unwrap();
    let [_, patch, main, neither] = [0, 1, 2, 3].map(|tally| family.report().tallies[tally].seen);
    assert!(patch[OK as usize] > 800 && main[OK as usize] > 500, "{patch:?}, {main:?}");
    assert!(neither[NONE as usize] > 300 && neither[QUERY as usize] > 50, "{neither:?}");
    for number in REFUSALS {
        assert!([patch, main].iter().all(|seen| seen[*number as usize] > 30), "{number}: {patch:?}, {main:?}");
    }
}

/// What a library is given.
struct Given<'a> {
    patch: &'a [u8],
    main: &'a [u8],
    device: &'a [u8],
}

impl Given<'_> {
    fn bundle(&self, number: u64) -> &[u8] {
        if number == PATCH {
            self.patch
        } else {
            self.main
        }
    }

    fn check(&self, number: u64) -> Checked {
        check(self.bundle(number))
    }

    fn pick(&self, number: u64) -> Picked {
        pick(self.bundle(number), self.device)
    }

    fn lawful(&self) -> LookedUp {
        lookup(self.patch, self.main, self.device).0
    }

    /// Offset, size and ID of each row of a bundle that is accepted.
    fn rows(&self, number: u64) -> Vec<(u64, u64, &[u8])> {
        rows(self.bundle(number))
    }
}

/// What a bundle answers, where it is accepted and has an image.
fn answer_of(bundle: u64, picked: Picked) -> Option<LookedUp> {
    let Picked { number, position, size, .. } = picked;
    (number == OK).then_some(LookedUp { number, place: 0, bundle, position, size })
}

fn refusal(number: u64) -> LookedUp {
    LookedUp { number, ..LookedUp::default() }
}

/// Libraries that take these steps.
macro_rules! slips {
    ($library:ident: $(($name:literal, $($step:expr),+),)*) => {
        &[$(($name, |patch, main, device| $library(&Given { patch, main, device }, $($step),+)),)*]
    };
}

type Slips = &'static [(&'static str, LookUp)];

/// A step of a lookup: what is returned, where it applies.
type Step = fn(&Given) -> Option<LookedUp>;

const PATCH_REFUSED: Step = |given| refused_bundle(given, PATCH);
const MAIN_REFUSED: Step = |given| refused_bundle(given, MAIN);
const BAD_NAME: Step = |given| meaning(given.device).is_none().then_some(refusal(QUERY));
const PATCH_ANSWERS: Step = |given| answer_of(PATCH, given.pick(PATCH));
const MAIN_ANSWERS: Step = |given| answer_of(MAIN, given.pick(MAIN));

fn refused_bundle(given: &Given, bundle: u64) -> Option<LookedUp> {
    let Checked { number, place, .. } = given.check(bundle);
    (number != OK).then_some(LookedUp { number, place, bundle, ..LookedUp::default() })
}

/// The first step that applies, else NONE.
fn in_order(given: &Given, steps: &[Step]) -> LookedUp {
    steps.iter().find_map(|step| step(given)).unwrap_or(refusal(NONE))
}

const ORDER_SLIPS: Slips = slips![in_order:
    ("main checked first", &[MAIN_REFUSED, PATCH_REFUSED, BAD_NAME, PATCH_ANSWERS, MAIN_ANSWERS]),
    ("main not checked where the patch answers", &[PATCH_REFUSED, PATCH_ANSWERS, MAIN_REFUSED, BAD_NAME, MAIN_ANSWERS]),
    ("main checked where the patch has none", &[PATCH_REFUSED, BAD_NAME, PATCH_ANSWERS, MAIN_REFUSED, MAIN_ANSWERS]),
    ("main not checked", &[PATCH_REFUSED, BAD_NAME, PATCH_ANSWERS, MAIN_ANSWERS]),
    ("the patch not checked", &[MAIN_REFUSED, BAD_NAME, PATCH_ANSWERS, MAIN_ANSWERS]),
    ("9 before main's", &[PATCH_REFUSED, BAD_NAME, MAIN_REFUSED, PATCH_ANSWERS, MAIN_ANSWERS]),
    ("9 before both", &[BAD_NAME, PATCH_REFUSED, MAIN_REFUSED, PATCH_ANSWERS, MAIN_ANSWERS]),
    ("9 before the patch's, after main's", &[MAIN_REFUSED, BAD_NAME, PATCH_REFUSED, PATCH_ANSWERS, MAIN_ANSWERS]),
    ("10 for 9", &[PATCH_REFUSED, MAIN_REFUSED, PATCH_ANSWERS, MAIN_ANSWERS]),
    ("main answers first", &[PATCH_REFUSED, MAIN_REFUSED, BAD_NAME, MAIN_ANSWERS, PATCH_ANSWERS]),
    ("main alone answers", &[PATCH_REFUSED, MAIN_REFUSED, BAD_NAME, MAIN_ANSWERS]),
    ("the patch alone answers", &[PATCH_REFUSED, MAIN_REFUSED, BAD_NAME, PATCH_ANSWERS]),
    ("answers first", &[PATCH_ANSWERS, MAIN_ANSWERS, PATCH_REFUSED, MAIN_REFUSED, BAD_NAME]),
    ("main answers for a refused patch", &[
        |given| PATCH_REFUSED(given).and_then(|_| MAIN_ANSWERS(given)),
        PATCH_REFUSED,
        MAIN_REFUSED,
        BAD_NAME,
        PATCH_ANSWERS,
        MAIN_ANSWERS,
    ]),
    ("no patch where it has no bytes", &[
        |given| if given.patch.is_empty() { None } else { PATCH_REFUSED(given) },
        MAIN_REFUSED,
        BAD_NAME,
        PATCH_ANSWERS,
        MAIN_ANSWERS,
    ]),
    ("no main bundle where it has no bytes", &[
        PATCH_REFUSED,
        |given| if given.main.is_empty() { None } else { MAIN_REFUSED(given) },
        BAD_NAME,
        PATCH_ANSWERS,
        MAIN_ANSWERS,
    ]),
];

/// This refusal of a bundle is not among those that are tried.
fn without<const BUNDLE: u64, const NUMBER: u64>(patch: &[u8], main: &[u8], device: &[u8]) -> LookedUp {
    let given = Given { patch, main, device };
    let left = |found: &LookedUp| (found.bundle, found.number) != (BUNDLE, NUMBER);
    PATCH_REFUSED(&given)
        .filter(left)
        .or_else(|| MAIN_REFUSED(&given).filter(left))
        .unwrap_or_else(|| in_order(&given, &[BAD_NAME, PATCH_ANSWERS, MAIN_ANSWERS]))
}

macro_rules! without {
    ($($number:ident)*) => {
        &[$((concat!("no ", stringify!($number), " in the patch"), without::<PATCH, $number>),
            (concat!("no ", stringify!($number), " in main"), without::<MAIN, $number>),)*]
    };
}

const NUMBER_SLIPS: Slips = without![LENGTH MAGIC COUNT TABLE ID RANGE OVERLAP TWICE MIXED];

/// Where no refusal comes before: these steps, and NONE.
fn answered_by(given: &Given, steps: &[Step]) -> LookedUp {
    match given.lawful() {
        found if [OK, NONE].contains(&found.number) => in_order(given, steps),
        refused => refused,
    }
}

fn is_full(found: &LookedUp) -> bool {
    found.size > 0
}

const SIZE_SLIPS: Slips = slips![answered_by:
    ("an empty image in the patch is none", &[|given| PATCH_ANSWERS(given).filter(is_full), MAIN_ANSWERS]),
    ("an empty image in main is none", &[PATCH_ANSWERS, |given| MAIN_ANSWERS(given).filter(is_full)]),
    ("an empty image in the patch gives way to a full one", &[
        |given| PATCH_ANSWERS(given).filter(is_full),
        |given| MAIN_ANSWERS(given).filter(is_full),
        PATCH_ANSWERS,
        MAIN_ANSWERS,
    ]),
    ("an empty image in the patch takes main's away", &[
        |given| PATCH_ANSWERS(given).filter(|found| !is_full(found)).map(|_| refusal(NONE)),
        PATCH_ANSWERS,
        MAIN_ANSWERS,
    ]),
    ("the longer image", &[
        |given| MAIN_ANSWERS(given).filter(|main| PATCH_ANSWERS(given).map_or(true, |patch| patch.size < main.size)),
        PATCH_ANSWERS,
    ]),
];

/// The patch's answer by another pick.
fn patch_by(given: &Given, pick: Pick) -> Option<LookedUp> {
    answer_of(PATCH, pick(given.patch, given.device))
}

fn main_by(given: &Given, pick: Pick) -> Option<LookedUp> {
    answer_of(MAIN, pick(given.main, given.device))
}

const KINDS_APART: Pick = |bundle, device| pick_taken(AS_SPELLED, bundle, device);
const BY_PROFILE: Pick = |bundle, device| pick_of(Profile, &entries(Profile, bundle), device);

/// What the entry states that a bundle has for the device.
fn stated(given: &Given, bundle: u64) -> Option<usize> {
    let Picked { number, index, .. } = given.pick(bundle);
    (number == OK).then(|| meaning(given.rows(bundle)[index as usize].2).unwrap().features.len())
}

fn has_target(given: &Given, bundle: u64) -> bool {
    let device = meaning(given.device).unwrap();
    given.rows(bundle).iter().any(|row| same_target(&meaning(row.2).unwrap(), &device))
}

const FITTING_SLIPS: Slips = slips![answered_by:
    ("hip and hipv4 apart in the patch", &[|given| patch_by(given, KINDS_APART), MAIN_ANSWERS]),
    ("hip and hipv4 apart in main", &[PATCH_ANSWERS, |given| main_by(given, KINDS_APART)]),
    ("the patch by the profile", &[|given| patch_by(given, BY_PROFILE), MAIN_ANSWERS]),
    ("main by the profile", &[PATCH_ANSWERS, |given| main_by(given, BY_PROFILE)]),
    ("the device name by the profile", &[
        |given| meaning_by(Profile, given.device).is_none().then_some(refusal(QUERY)),
        PATCH_ANSWERS,
        MAIN_ANSWERS,
    ]),
    ("the device's own spelling first", &[
        |given| MAIN_ANSWERS(given).filter(|_| given.rows(MAIN).iter().any(|row| row.2 == given.device)),
        PATCH_ANSWERS,
        MAIN_ANSWERS,
    ]),
    ("the device's own kind first", &[
        |given| patch_by(given, KINDS_APART),
        |given| main_by(given, KINDS_APART),
        PATCH_ANSWERS,
        MAIN_ANSWERS,
    ]),
    ("more features first", &[
        |given| MAIN_ANSWERS(given).filter(|_| stated(given, PATCH) < stated(given, MAIN)),
        PATCH_ANSWERS,
    ]),
    ("fewer features first", &[
        |given| MAIN_ANSWERS(given).filter(|_| stated(given, MAIN) < stated(given, PATCH)),
        PATCH_ANSWERS,
        MAIN_ANSWERS,
    ]),
    ("a target in the patch takes main's away", &[
        PATCH_ANSWERS,
        |given| has_target(given, PATCH).then_some(refusal(NONE)),
        MAIN_ANSWERS,
    ]),
    ("entries in the patch take main's away", &[
        PATCH_ANSWERS,
        |given| (given.check(PATCH).count > 0).then_some(refusal(NONE)),
        MAIN_ANSWERS,
    ]),
    ("a patch with no entries takes main's away", &[
        |given| (given.check(PATCH).count == 0).then_some(refusal(NONE)),
        PATCH_ANSWERS,
        MAIN_ANSWERS,
    ]),
    ("a main bundle with no entries takes the patch's away", &[
        |given| (given.check(MAIN).count == 0).then_some(refusal(NONE)),
        PATCH_ANSWERS,
        MAIN_ANSWERS,
    ]),
];

/// The entries of both bundles are refused together by this number.
fn refused_together(given: &Given, number: u64) -> Option<LookedUp> {
    let both = [PATCH, MAIN].map(|bundle| given.rows(bundle));
    let meanings: Vec<Meaning> = both.concat().iter().map(|row| meaning(row.2).unwrap()).collect();
    match composition(&meanings) {
        Err(refused) if refused.number == number => {
            let place = refused.place.saturating_sub(given.check(PATCH).count);
            Some(LookedUp { number, place, bundle: MAIN, ..LookedUp::default() })
        }
        _ => None,
    }
}

/// Whether a bundle's image lies in the memory of the other.
fn lies_in_the_other(given: &Given, found: &LookedUp) -> bool {
    let image = given.bundle(found.bundle).as_ptr().wrapping_add(found.position as usize);
    given.bundle(other(found)).as_ptr_range().contains(&image)
}

const TOGETHER_SLIPS: Slips = slips![answered_by:
    ("7 over both", &[|given| refused_together(given, TWICE), PATCH_ANSWERS, MAIN_ANSWERS]),
    ("8 over both", &[|given| refused_together(given, MIXED), PATCH_ANSWERS, MAIN_ANSWERS]),
    ("3 over both", &[
        |given| (given.check(PATCH).count + given.check(MAIN).count > 64).then_some(refusal(COUNT)),
        PATCH_ANSWERS,
        MAIN_ANSWERS,
    ]),
    ("1 over both", &[
        |given| ((given.patch.len() + given.main.len()) as u128 > SIZE_LIMIT).then_some(refusal(LENGTH)),
        PATCH_ANSWERS,
        MAIN_ANSWERS,
    ]),
    ("no patch longer than main", &[
        |given| (given.patch.len() > given.main.len()).then_some(refusal(LENGTH)),
        PATCH_ANSWERS,
        MAIN_ANSWERS,
    ]),
    ("no patch with more entries than main", &[
        |given| (given.check(PATCH).count > given.check(MAIN).count).then_some(refusal(COUNT)),
        PATCH_ANSWERS,
        MAIN_ANSWERS,
    ]),
    ("no patch that is equal to main", &[
        |given| MAIN_ANSWERS(given).filter(|_| given.patch.len() < 1 << 20 && given.patch == given.main),
        PATCH_ANSWERS,
        MAIN_ANSWERS,
    ]),
    ("no patch in the memory of main", &[
        |given| MAIN_ANSWERS(given).filter(|_| given.patch.as_ptr() == given.main.as_ptr()),
        PATCH_ANSWERS,
        MAIN_ANSWERS,
    ]),
    ("main by the memory of an image", &[
        |given| {
            let found = PATCH_ANSWERS(given).filter(|found| lies_in_the_other(given, found));
            found.map(|found| LookedUp { bundle: MAIN, ..found })
        },
        PATCH_ANSWERS,
        MAIN_ANSWERS,
    ]),
    ("the patch by the memory of an image", &[
        PATCH_ANSWERS,
        |given| {
            let found = MAIN_ANSWERS(given).filter(|found| lies_in_the_other(given, found));
            found.map(|found| LookedUp { bundle: PATCH, ..found })
        },
        MAIN_ANSWERS,
    ]),
];

type Change = fn(&Given, LookedUp) -> LookedUp;

/// The same slip with the patch and with main.
macro_rules! each_side {
    ($library:ident: $(($name:literal, $change:expr),)*) => {
        &[$(
            (concat!("patch: ", $name), |patch, main, device| $library(&Given { patch, main, device }, PATCH, $change)),
            (concat!("main: ", $name), |patch, main, device| $library(&Given { patch, main, device }, MAIN, $change)),
        )*]
    };
}

/// Other numbers where this bundle answers.
fn answered(given: &Given, bundle: u64, change: Change) -> LookedUp {
    match given.lawful() {
        found if (found.number, found.bundle) == (OK, bundle) => change(given, found),
        found => found,
    }
}

/// The number of the other bundle.
fn other(found: &LookedUp) -> u64 {
    PATCH + MAIN - found.bundle
}

/// An answer, or NONE where this holds.
fn none_if(holds: bool, found: LookedUp) -> LookedUp {
    if holds {
        return refusal(NONE);
    }
    found
}

fn from_table_end(given: &Given, found: LookedUp) -> LookedUp {
    let table = given.rows(found.bundle).iter().map(|row| 24 + row.2.len() as u64).sum::<u64>();
    LookedUp { position: found.position - 32 - table, ..found }
}

const ANSWER_SLIPS: Slips = each_side![answered:
    ("not named", |_, found| LookedUp { bundle: NEITHER, ..found }),
    ("the other named", |_, found| LookedUp { bundle: other(&found), ..found }),
    ("counted on from the other", |given, found| {
        LookedUp { position: given.bundle(other(&found)).len() as u64 + found.position, ..found }
    }),
    ("counted from the table end", from_table_end),
    ("position and size exchanged", |_, found| LookedUp { position: found.size, size: found.position, ..found }),
    ("an index for the position", |given, found| LookedUp { position: given.pick(found.bundle).index, ..found }),
    ("an end for the size", |_, found| LookedUp { size: found.position + found.size, ..found }),
    ("position in 16 bits", |_, found| LookedUp { position: found.position as u16 as u64, ..found }),
    ("size in 8 bits", |_, found| LookedUp { size: found.size as u8 as u64, ..found }),
    ("no position of an empty image", |_, found| {
        LookedUp { position: if found.size == 0 { 0 } else { found.position }, ..found }
    }),
    ("an index for the place", |given, found| LookedUp { place: given.pick(found.bundle).index, ..found }),
    ("a bundle for the place", |_, found| LookedUp { place: found.bundle, ..found }),
    ("none past the other's end", |given, found| {
        none_if(found.position > given.bundle(other(&found)).len() as u64, found)
    }),
    ("none up to the last byte", |given, found| {
        none_if(found.position + found.size == given.bundle(found.bundle).len() as u64, found)
    }),
    ("none from entry 0", |given, found| none_if(given.pick(found.bundle).index == 0, found)),
    ("none from entry 63", |given, found| none_if(given.pick(found.bundle).index == 63, found)),
];

/// Other numbers where both bundles are accepted and have an image, from those that each has.
fn both_answer(given: &Given, change: fn(LookedUp, LookedUp) -> LookedUp) -> LookedUp {
    match (PATCH_ANSWERS(given), MAIN_ANSWERS(given)) {
        (Some(patch), Some(main)) => change(patch, main),
        _ => given.lawful(),
    }
}

const BOTH_ANSWER_SLIPS: Slips = slips![both_answer:
    ("main's answer of two", |_, main| main),
    ("main's answer of two, the patch named", |_, main| LookedUp { bundle: PATCH, ..main }),
    ("main's position of two", |patch, main| LookedUp { position: main.position, ..patch }),
    ("main's size of two", |patch, main| LookedUp { size: main.size, ..patch }),
    ("main of two named", |patch, _| LookedUp { bundle: MAIN, ..patch }),
    ("both of two named", |patch, _| LookedUp { bundle: PATCH + MAIN, ..patch }),
    ("the lower position of two", |patch, main| if main.position < patch.position { main } else { patch }),
];

/// The same where both are refused.
fn both_refused(given: &Given, change: fn(LookedUp, LookedUp) -> LookedUp) -> LookedUp {
    match (PATCH_REFUSED(given), MAIN_REFUSED(given)) {
        (Some(patch), Some(main)) => change(patch, main),
        _ => given.lawful(),
    }
}

const BOTH_REFUSED_SLIPS: Slips = slips![both_refused:
    ("main's refusal of two", |_, main| main),
    ("main's refusal of two, the patch named", |_, main| LookedUp { bundle: PATCH, ..main }),
    ("main's place of two", |patch, main| LookedUp { place: main.place, ..patch }),
    ("main's number of two", |patch, main| LookedUp { number: main.number, ..patch }),
    ("main named by two refusals", |patch, _| LookedUp { bundle: MAIN, ..patch }),
    ("both named by two refusals", |patch, _| LookedUp { bundle: PATCH + MAIN, ..patch }),
    ("the lower number of two", |patch, main| if main.number < patch.number { main } else { patch }),
    ("the higher number of two", |patch, main| if main.number > patch.number { main } else { patch }),
    ("the lower place of two", |patch, main| if main.place < patch.place { main } else { patch }),
    ("the higher place of two", |patch, main| if main.place > patch.place { main } else { patch }),
    ("the lower place of two by one number", |patch, main| {
        if main.number == patch.number && main.place < patch.place { main } else { patch }
    }),
    ("the higher place of two by one number", |patch, main| {
        if main.number == patch.number && main.place > patch.place { main } else { patch }
    }),
];

/// Other numbers where a refusal names this bundle.
fn refused(given: &Given, bundle: u64, change: Change) -> LookedUp {
    match given.lawful() {
        found if found.number != OK && found.bundle == bundle => change(given, found),
        found => found,
    }
}

/// No bundle is named where this holds.
fn unnamed_if(holds: bool, found: LookedUp) -> LookedUp {
    LookedUp { bundle: if holds { NEITHER } else { found.bundle }, ..found }
}

const REFUSAL_SLIPS: Slips = each_side![refused:
    ("a refusal not named", |_, found| unnamed_if(true, found)),
    ("the other named by a refusal", |_, found| LookedUp { bundle: other(&found), ..found }),
    ("not named by 1 to 3", |_, found| unnamed_if(found.number <= COUNT, found)),
    ("not named by 21", |_, found| unnamed_if(found.number == OVERLAP, found)),
    ("not named beside a broken device name", |given, found| unnamed_if(meaning(given.device).is_none(), found)),
    ("not named beside an image", |given, found| unnamed_if(given.pick(other(&found)).number == OK, found)),
    ("no place", |_, found| LookedUp { place: 0, ..found }),
    ("place 62 at most", |_, found| LookedUp { place: found.place.min(62), ..found }),
    ("places from 1 on", |_, found| LookedUp { place: found.place + 1, ..found }),
    ("place counted on from the other's entries", |given, found| {
        LookedUp { place: given.check(other(&found)).count + found.place, ..found }
    }),
    ("the other's image beside a refusal", |given, found| {
        let Picked { position, size, .. } = given.pick(other(&found));
        LookedUp { position, size, ..found }
    }),
];

/// Other numbers where this one, which names no bundle, is the lawful one.
fn unnamed(given: &Given, number: u64, change: Change) -> LookedUp {
    match given.lawful() {
        found if found.number == number => change(given, found),
        found => found,
    }
}

const UNNAMED_SLIPS: Slips = slips![unnamed:
    ("10 names the patch", NONE, |_, found| LookedUp { bundle: PATCH, ..found }),
    ("10 names main", NONE, |_, found| LookedUp { bundle: MAIN, ..found }),
    ("9 names the patch", QUERY, |_, found| LookedUp { bundle: PATCH, ..found }),
    ("9 names main", QUERY, |_, found| LookedUp { bundle: MAIN, ..found }),
    ("9 for 10", NONE, |_, _| refusal(QUERY)),
    ("5 for 9", QUERY, |_, _| refusal(ID)),
    ("a place of 10", NONE, |given, found| LookedUp { place: given.check(PATCH).count, ..found }),
    ("a place of 9", QUERY, |given, found| LookedUp { place: given.device.len() as u64, ..found }),
    ("a position of 10", NONE, |given, found| LookedUp { position: given.main.len() as u64, ..found }),
    ("a size of 9", QUERY, |given, found| LookedUp { size: given.device.len() as u64, ..found }),
];

const SLIPS: &[Slips] = &[
    ORDER_SLIPS,
    NUMBER_SLIPS,
    SIZE_SLIPS,
    FITTING_SLIPS,
    TOGETHER_SLIPS,
    ANSWER_SLIPS,
    BOTH_ANSWER_SLIPS,
    BOTH_REFUSED_SLIPS,
    REFUSAL_SLIPS,
    UNNAMED_SLIPS,
];

fn found_in_lookup(calls: LookupCalls) -> &'static str {
    found(Lookup::new(calls))
}

#[test]
fn slips_of_two_bundles_are_found() {
    for &(name, lookup) in SLIPS.iter().flat_map(|slips| slips.iter()) {
        assert_eq!(found_in_lookup(LookupCalls { lookup, ..MODEL_LOOKUP }), "lookup", "{name}");
    }
}

/// The same steps, where they change nothing.
const SOUND: &[Slips] = &[
    slips![in_order: ("in order", &[PATCH_REFUSED, MAIN_REFUSED, BAD_NAME, PATCH_ANSWERS, MAIN_ANSWERS]),],
    &[("without", without::<NEITHER, OK>)],
    slips![answered_by: ("answered by", &[PATCH_ANSWERS, MAIN_ANSWERS]),],
    each_side![answered: ("answered", |given, found| answer_of(found.bundle, given.pick(found.bundle)).unwrap()),],
    slips![both_answer: ("both answer", |patch, _| patch),],
    slips![both_refused: ("both refused", |patch, _| patch),],
    each_side![refused: ("refused", |given, found| refused_bundle(given, found.bundle).unwrap()),],
    slips![unnamed: ("unnamed", NONE, |_, _| refusal(NONE)),],
];

#[test]
fn steps_that_change_nothing_are_no_slip() {
    for &(name, lookup) in SOUND.iter().flat_map(|slips| slips.iter()) {
        let result = run_generated(&mut Lookup::new(LookupCalls { lookup, ..MODEL_LOOKUP }), 1500);
        assert!(result.is_ok(), "{name}: {result:?}");
    }
}

#[test]
fn a_check_or_a_pick_that_differs_is_found() {
    const CHECKS: [Check; 3] = [
        |bundle| Checked { number: check(bundle).number ^ 1, ..check(bundle) },
        |bundle| Checked { place: check(bundle).place ^ 1, ..check(bundle) },
        |bundle| check_after(TWICE, bundle),
    ];
    const PICKS: [Pick; 5] = [
        |bundle, device| Picked { number: pick(bundle, device).number ^ 1, ..pick(bundle, device) },
        |bundle, device| Picked { place: pick(bundle, device).place ^ 1, ..pick(bundle, device) },
        |bundle, device| Picked { position: pick(bundle, device).position ^ 1, ..pick(bundle, device) },
        |bundle, device| Picked { size: pick(bundle, device).size ^ 1, ..pick(bundle, device) },
        KINDS_APART,
    ];
    for check in CHECKS {
        assert_eq!(found_in_lookup(LookupCalls { check, ..MODEL_LOOKUP }), "lookup");
    }
    for pick in PICKS {
        assert_eq!(found_in_lookup(LookupCalls { pick, ..MODEL_LOOKUP }), "lookup");
    }
}
