//! Which of two accepted bundles answers, and QUERY and NONE.

use super::*;
use crate::gen::pairs::{self, Pair};
use crate::model::id::same_meaning;
use std::rc::Rc;

pub fn aims() -> Vec<LookupAim> {
    let mut aims = Vec::new();
    for patch in Held::ALL {
        aims.extend(Held::ALL.iter().flat_map(|main| held(patch, *main)));
    }
    for side in Side::BOTH {
        aims.extend(DRAWINGS.iter().map(|drawing| drawn(side, *drawing)));
        aims.push(left_out(side));
        aims.extend(ENTRIES.iter().map(|entry| entry_of(side, *entry)));
        aims.extend([OK, NONE, QUERY].map(|number| as_single(side, number)));
    }
    aims.extend(pairs::devices().into_iter().flat_map(asks));
    aims.extend(FEATURES.iter().map(features));
    aims.extend(SPELLINGS.iter().flat_map(spelled_as_in_main));
    aims.extend(query_aims());
    aims
}

/// What each bundle has for the device, among other entries and alone.
fn held(patch: Held, main: Held) -> [LookupAim; 2] {
    let (call, number) = answer_of(patch, main);
    let name = format!("{} in the patch, {} in main", patch.name(), main.name());
    let among = Aim::new(call, number, &name, move |draft: &mut Draft, random| draft.hold_both(random, patch, main));
    let alone = Aim::new(call, number, &format!("{name}, no other entries"), move |draft: &mut Draft, random| {
        Side::BOTH.iter().for_each(|side| draft.empty(random, *side));
        draft.hold_both(random, patch, main);
    });
    [among, alone]
}

/// A bundle is made of the other one, which has an image for the device.
fn drawn(side: Side, (name, drawing): (&str, Drawing)) -> LookupAim {
    answered_by(Side::Patch, &format!("{} is the other one {name}", side.number()), move |draft, random| {
        draft.hold_both(random, Held::Image, Held::Image);
        *draft.side(side) = draft.side(side.other()).clone();
        drawing(draft.side(side), random);
    })
}

/// A bundle is made of the other one, and some entries are left out, among them that for the device.
fn left_out(side: Side) -> LookupAim {
    answered_by(side.other(), &format!("{} is the other one, less this entry", side.number()), move |draft, random| {
        let other = draft.side(side.other());
        let at = other.some_row(random);
        let (meaning, mut drawn) = (other.rows[at].meaning.clone(), other.clone());
        drawn.rows.retain(|row| !same_meaning(&row.meaning, &meaning));
        leave_out(&mut drawn, random);
        draft.device = draft.side(side.other()).device_for(random, at);
        *draft.side(side) = drawn;
    })
}

/// What a bundle has of an entry and a device name.
#[derive(Clone, Copy, Debug)]
enum Has {
    Neither,
    Entry,
    /// An entry of the device's own meaning.
    Device,
}

/// What the patch has, what main has, and the number that comes of it.
type Standing = (&'static str, [Has; 2], &'static str, u64);

/// The same, by the number that the single pick gives from a bundle with the entry.
fn standings(number: u64) -> &'static [Standing] {
    match number {
        OK => &[
            ("in the patch alone", [Has::Entry, Has::Neither], "patch", OK),
            ("in main alone", [Has::Neither, Has::Entry], "main", OK),
            ("in the patch, and the device's own meaning in main", [Has::Entry, Has::Device], "patch", OK),
        ],
        NONE => &[
            ("in the patch, and the device's own meaning in main", [Has::Entry, Has::Device], "main", OK),
            ("in main, and the device's own meaning in the patch", [Has::Device, Has::Entry], "patch", OK),
            ("in both", [Has::Entry, Has::Entry], NEITHER, NONE),
        ],
        _ => &[("in both", [Has::Entry, Has::Entry], NEITHER, QUERY)],
    }
}

/// The first is an entry, and the second the device name.
fn asks(pair: Pair) -> Vec<LookupAim> {
    let pair = Rc::new(pair);
    let stand = |&(name, has, call, number): &Standing| {
        let pair = Rc::clone(&pair);
        Aim::new(call, number, &format!("device: {}, {name}", pair.name), move |draft: &mut Draft, random| {
            let both = (pair.make)(random);
            for (side, has) in Side::BOTH.iter().zip(has) {
                put_of(draft.side(*side), random, has, &both);
            }
            draft.device = ids::as_named(random, &both[1]);
        })
    };
    standings(pair.number).iter().map(stand).collect()
}

fn put_of(bundle: &mut bundles::Draft, random: &mut Random, has: Has, both: &[Meaning; 2]) {
    both.iter().for_each(|meaning| bundle.drop_target(meaning));
    let at = match has {
        Has::Neither => return,
        Has::Entry => 0,
        Has::Device => 1,
    };
    bundle.put_meaning(random, both[at].clone());
}

/// The features of an entry in the patch, of one in main and of the device name, which are for one target.
const FEATURES: &[(Side, &str, [&str; 3])] = &[
    (Side::Patch, "fewer features in the patch", [":x+", ":x+:y-", ":x+:y-"]),
    (Side::Patch, "no feature in the patch", ["", ":x+:y-", ":x+:y-"]),
    (Side::Patch, "more features in the patch", [":x+:y-", ":x+", ":x+:y-"]),
    (Side::Patch, "no feature in main", [":x+:y-", "", ":x+:y-"]),
    (Side::Patch, "other feature names in main", [":x+", ":y-", ":x+:y-:z+"]),
    (Side::Patch, "another sign in main", [":x+", ":x-", ":x+"]),
    (Side::Patch, "a feature in main that the device does not state", ["", ":x+", ""]),
    (Side::Main, "another sign in the patch", [":x-", ":x+", ":x+"]),
    (Side::Main, "another sign in the patch, no feature in main", [":x-", "", ":x+"]),
    (Side::Main, "a feature in the patch that the device does not state", [":x+", "", ""]),
    (Side::Main, "more features in the patch than the device states", [":x+:y-", ":x+", ":x+"]),
];

fn features(&(side, name, features): &(Side, &'static str, [&'static str; 3])) -> LookupAim {
    answered_by(side, &format!("one target, {name}"), move |draft, random| {
        let target = ids::own(random, ids::KINDS);
        let meaning = |features: &str| ids::meaning_of(format!("{target}{features}").as_bytes());
        let [patch, main, device] = features.map(meaning);
        draft.hold(random, Side::Patch, &patch, Held::Image);
        draft.hold(random, Side::Main, &main, Held::Image);
        let device = ids::either_spelling(random, device);
        draft.device = ids::as_named(random, &device);
    })
}

/// An entry, and a device name that gets it and is spelled otherwise.
const SPELLINGS: &[(&str, [&str; 2])] = &[
    ("hipv4 for hip", ["hipv4-own-b-c-gfx7:x+", "hip-own-b-c-gfx7:x+"]),
    ("hip for hipv4", ["hip-own-b-c-gfx7:x+", "hipv4-own-b-c-gfx7:x+"]),
    ("six fields for five", ["openmp-own-b-c--gfx7", "openmp-own-b-c-gfx7"]),
    ("five fields for six", ["openmp-own-b-c-gfx7", "openmp-own-b-c--gfx7"]),
    ("six fields for four", ["host-own-b-c--", "host-own-b-c"]),
    ("features in another order", ["hip-own-b-c-gfx7:y-:x+", "hip-own-b-c-gfx7:x+:y-"]),
];

/// The entry in the patch, and the device name as it is in main; and the entry in main, and nothing in the patch.
fn spelled_as_in_main(&(name, [entry, device]): &(&'static str, [&'static str; 2])) -> [LookupAim; 2] {
    let put = |bundle: &mut bundles::Draft, random: &mut Random, id: &str| {
        bundle.drop_target(&ids::meaning_of(device.as_bytes()));
        bundle.put_id(random, id.as_bytes().to_vec());
    };
    let in_both = answered_by(Side::Patch, &format!("{name} in the patch, device as in main"), move |draft, random| {
        put(&mut draft.patch, random, entry);
        put(&mut draft.main, random, device);
        draft.device = device.as_bytes().to_vec();
    });
    let in_main = answered_by(Side::Main, &format!("{name} in main alone"), move |draft, random| {
        draft.patch.drop_target(&ids::meaning_of(device.as_bytes()));
        put(&mut draft.main, random, entry);
        draft.device = device.as_bytes().to_vec();
    });
    [in_both, in_main]
}

/// An entry, how many there are, and how many in the other bundle.
const ENTRIES: &[[usize; 3]] = &[[0, 1, 1], [0, 5, 5], [4, 5, 5], [0, 64, 64], [63, 64, 64], [63, 64, 2]];

/// The entry of a bundle that answers. Main has one for the device too where the patch answers.
fn entry_of(side: Side, [entry, count, other]: [usize; 3]) -> LookupAim {
    let name = format!("entry {entry} of {count}, {other} in the other");
    let aim = Aim::new(side.entry(), entry as u64, &name, move |draft: &mut Draft, random| {
        let bundle = bundles::Draft::good(Reading::General, random, count);
        let meaning = bundle.rows[entry].meaning.clone();
        draft.device = bundle.device_for(random, entry);
        *draft.side(side) = bundle;
        *draft.side(side.other()) = bundles::Draft::good(Reading::General, random, other);
        let held = if side == Side::Patch { Held::Image } else { Held::Nothing };
        draft.hold(random, side.other(), &meaning, held);
    });
    Aim { large: count == 64, ..aim }
}

/// A bundle at any line of the single pick that gives this number; the other has nothing for the device.
fn as_single(side: Side, number: u64) -> LookupAim {
    let lines = bundles::aims_at("pick", number);
    let call = if number == OK { side.number() } else { NEITHER };
    let name = format!("any line of the single pick from {}, number {number}", side.number());
    Aim::new(call, number, &name, move |draft: &mut Draft, random| {
        (random.choose(&lines).make)(draft.side(side), random);
        draft.device = draft.side(side).device.clone();
        if let Some(meaning) = ids::read(&draft.device) {
            draft.side(side.other()).drop_target(&meaning);
        }
    })
}

/// Device names that break the rules, and what stands beside them.
fn query_aims() -> Vec<LookupAim> {
    let query = |name: &str, make: fn(&mut Draft, &mut Random)| Aim::new(NEITHER, QUERY, name, make);
    vec![
        query("no bytes", |draft, _| draft.device.clear()),
        query("257 bytes", |draft, random| draft.device = ids::of_length(random, 6, 257)),
        query("broken, no entries in the patch", |draft, random| ask_broken(draft, random, &[Side::Patch])),
        query("broken, no entries in main", |draft, random| ask_broken(draft, random, &[Side::Main])),
        query("broken, no entries in either", |draft, random| ask_broken(draft, random, &Side::BOTH)),
    ]
}

/// A broken device name, and no entries in these.
fn ask_broken(draft: &mut Draft, random: &mut Random, sides: &[Side]) {
    sides.iter().for_each(|side| draft.empty(random, *side));
    draft.device = ids::some_broken(random);
}
