//! Room for the report on both sides of its length, and where the two bundles lie in memory.

use super::*;
use crate::gen::bundles::fill_to;

pub fn aims() -> Vec<DifferencesAim> {
    let mut aims = Vec::new();
    for report in REPORTS {
        aims.extend(ROOMS.iter().map(|room| with_room(*report, *room)));
    }
    aims.extend(SHARED.iter().map(|shared| in_one_memory(*shared)));
    aims
}

/// What is reported.
type Reported = (&'static str, fn(&mut Draft, &mut Random), bool);

const REPORTS: &[Reported] = &[
    ("any report", |_, _| {}, false),
    ("left refused", |draft, _| draft.left.cut = Some(0), false),
    (
        "right refused",
        |draft, random| {
            draft.alike(random);
            fill_to(&mut draft.right, COMPARE_LIMIT + 1);
        },
        false,
    ),
    ("no difference", |draft, random| draft.alike(random), false),
    (
        "one line",
        |draft, random| {
            let meanings = some_meanings(random, 4);
            draft.mark(random, &meanings, "==L=");
        },
        false,
    ),
    (
        "some lines",
        |draft, random| {
            let meanings = some_meanings(random, 5);
            draft.mark(random, &meanings, "DR=LD");
        },
        false,
    ),
    (
        "128 lines",
        |draft, random| {
            let meanings = some_meanings(random, 128);
            draft.mark(random, &meanings, &"LR".repeat(64));
        },
        true,
    ),
];

/// How long the output is, and whether the report is written.
const ROOMS: &[(bool, Room)] = &[
    (true, Room::Exact),
    (true, Room::Spare(1)),
    (true, Room::Spare(300)),
    (true, Room::Of(REPORT_LIMIT)),
    (true, Room::Of(REPORT_LIMIT + 1)),
    (true, Room::Of(1 << 16)),
    (false, Room::Short(1)),
    (false, Room::Short(2)),
    // All but the last line, where that is no longer than this.
    (false, Room::Short(14)),
    (false, Room::Of(1)),
    (false, Room::Of(13)),
    (false, Room::Nothing),
];

fn with_room((name, make, large): Reported, (written, room): (bool, Room)) -> DifferencesAim {
    let aim = Aim::new(WRITTEN, written.into(), &format!("{name}, {room:?}"), move |draft: &mut Draft, random| {
        make(draft, random);
        draft.room = room;
    });
    Aim { large, ..aim }
}

/// What one memory holds.
type Shared = (&'static str, u64, fn(&mut Draft, &mut Random));

const SHARED: &[Shared] = &[
    ("one bundle lent as both", OK, |draft, _| draft.right = draft.left.clone()),
    ("one bundle of 64 entries lent as both", OK, |draft, random| {
        draft.left = bundles::Draft::good(Reading::General, random, 64);
        draft.right = draft.left.clone();
    }),
    ("right at the end of left", OK, |draft, _| draft.left.body.extend(draft.right.bytes())),
    ("left at the end of right", OK, |draft, _| draft.right.body.extend(draft.left.bytes())),
    ("one refused bundle lent as both", MAGIC, |draft, _| {
        draft.left.cut = Some(23);
        draft.right = draft.left.clone();
    }),
];

fn in_one_memory((name, number, make): Shared) -> DifferencesAim {
    Aim::new(CALL, number, name, move |draft: &mut Draft, random| {
        make(draft, random);
        draft.shared = true;
    })
}
