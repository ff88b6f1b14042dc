//! 1, 18 and 12, and what comes first of them: 64 and 65 binaries, rooms on both sides of what is written, and the size limit.

use super::*;

pub fn aims() -> Vec<RecoverAim> {
    let mut aims: Vec<RecoverAim> = COUNTS.iter().map(|count| so_many(*count)).collect();
    aims.extend(inside_of_64());
    aims.extend(ROOMS.iter().map(|rooms| with_rooms(*rooms)));
    aims.extend(MANY_ROOMS.iter().map(|rooms| many_with_rooms(*rooms)));
    aims.extend(FULL_ROOMS.iter().map(|rooms| full_with_rooms(*rooms)));
    aims.extend(size_aims());
    aims
}

/// A layout from what stands before, between and behind whole binaries.
fn spread(before: &str, count: usize, between: &str, behind: &str) -> String {
    [before, &vec!["B"; count].join(between), behind].concat()
}

/// A number, and the layout that gives it.
type Count = (u64, &'static str, usize, &'static str, &'static str);

const COUNTS: &[Count] = &[
    (OK, "", 63, "", ""),
    (OK, "", 64, "", ""),
    (OK, "r", 64, "", ""),
    (OK, "x", 64, "", ""),
    (OK, "", 64, "", "r"),
    (OK, "", 64, "", "x"),
    (OK, "", 64, "", "xxx"),
    (OK, "r", 64, "r", "r"),
    (OK, "x", 64, "x", "x"),
    (MANY, "", 65, "", ""),
    (MANY, "r", 65, "", ""),
    (MANY, "", 65, "", "r"),
    (MANY, "r", 65, "r", "r"),
    (MANY, "x", 65, "x", "x"),
    (MANY, "", 64, "", "rB"),
    (MANY, "", 64, "", "xB"),
    (MANY, "", 64, "r", "B"),
    (MANY, "B", 64, "x", ""),
    (MANY, "", 66, "", ""),
    (MANY, "", 129, "", ""),
];

fn so_many((number, before, count, between, behind): Count) -> RecoverAim {
    let name = format!("{before:?}, {count} whole ones with {between:?} between, {behind:?}");
    let aim = Aim::new(CALL, number, &name, move |draft: &mut Draft, random| {
        draft.lay(random, &spread(before, count, between, behind))
    });
    aim.large()
}

/// 64 whole binaries and one more, inside another.
fn inside_of_64() -> Vec<RecoverAim> {
    let around = |draft: &mut Draft, random: &mut Random, count: usize| {
        let layout = "B".repeat(count);
        draft.lay(random, &layout);
        let inner = whole(random);
        BinaryDraft::around(random, &inner)
    };
    vec![
        Aim::new(FOUND, 64, "64 whole ones, one around another", move |draft: &mut Draft, random| {
            let outer = around(draft, random, 63);
            draft.put(random, vec![outer.bytes()], 0);
        })
        .large(),
        Aim::new(FOUND, 64, "63 whole ones, a broken one around another", move |draft: &mut Draft, random| {
            let outer = around(draft, random, 63);
            let outer = broken(random, outer);
            draft.put(random, vec![outer], 0);
        })
        .large(),
        Aim::new(CALL, MANY, "64 whole ones, and one inside a broken one", move |draft: &mut Draft, random| {
            let outer = around(draft, random, 64);
            let outer = broken(random, outer);
            draft.put(random, vec![outer], 0);
        })
        .large(),
    ]
}

const EXACT: Room = Room::Exact;
const SHORT: Room = Room::Short(1);
const NOTHING: Room = Room::Nothing;
const SPARE: Room = Room::Spare(1);

/// A number, a layout, and the rooms for copies and spans that give it.
const ROOMS: &[(u64, &str, [Room; 2])] = &[
    (OK, "", [NOTHING, NOTHING]),
    (OK, "", [SPARE, SPARE]),
    (OK, "r", [NOTHING, EXACT]),
    (OK, "r", [SPARE, SPARE]),
    (ROOM, "r", [SPARE, NOTHING]),
    (ROOM, "r", [NOTHING, NOTHING]),
    (OK, "B", [EXACT, NOTHING]),
    (OK, "B", [SPARE, SPARE]),
    (ROOM, "B", [SHORT, SPARE]),
    (ROOM, "B", [SHORT, NOTHING]),
    (ROOM, "B", [NOTHING, SPARE]),
    (OK, "BB", [EXACT, NOTHING]),
    (ROOM, "BB", [SHORT, NOTHING]),
    (OK, "rB", [EXACT, EXACT]),
    (ROOM, "rB", [EXACT, NOTHING]),
    (OK, "xB", [EXACT, EXACT]),
    (ROOM, "xB", [SHORT, EXACT]),
    (OK, "Br", [EXACT, EXACT]),
    (ROOM, "Br", [EXACT, NOTHING]),
    (OK, "rBrBr", [EXACT, EXACT]),
    (OK, "rBrBr", [SPARE, EXACT]),
    (OK, "rBrBr", [EXACT, SPARE]),
    (OK, "rBrBr", [Room::Spare(1000), Room::Spare(1000)]),
    (ROOM, "rBrBr", [SHORT, EXACT]),
    (ROOM, "rBrBr", [SHORT, SPARE]),
    (ROOM, "rBrBr", [EXACT, SHORT]),
    (ROOM, "rBrBr", [SPARE, SHORT]),
    (ROOM, "rBrBr", [Room::Spare(1000), SHORT]),
    (ROOM, "rBrBr", [SHORT, SHORT]),
    (ROOM, "rBrBr", [EXACT, Room::Short(2)]),
    (ROOM, "rBrBr", [Room::Short(72), EXACT]),
    (ROOM, "rBrBr", [NOTHING, EXACT]),
    (ROOM, "rBrBr", [EXACT, NOTHING]),
    (ROOM, "rBrBr", [NOTHING, NOTHING]),
];

fn with_rooms((number, layout, rooms): (u64, &'static str, [Room; 2])) -> RecoverAim {
    Aim::new(CALL, number, &format!("layout {layout:?}, rooms {rooms:?}"), move |draft: &mut Draft, random| {
        draft.lay(random, layout);
        draft.rooms = rooms;
    })
}

/// Rooms of 65 binaries: 18 comes before 12.
const MANY_ROOMS: &[[Room; 2]] = &[
    [EXACT, EXACT],
    [SPARE, SPARE],
    [SHORT, EXACT],
    [EXACT, SHORT],
    [SHORT, SHORT],
    [NOTHING, EXACT],
    [EXACT, NOTHING],
    [NOTHING, NOTHING],
    [Room::Short(72), EXACT],
];

fn many_with_rooms(rooms: [Room; 2]) -> RecoverAim {
    let aim = Aim::new(CALL, MANY, &format!("65 whole ones, rooms {rooms:?}"), move |draft: &mut Draft, random| {
        let between = *random.choose(&["", "r", "x"]);
        draft.lay(random, &spread("r", 65, between, "x"));
        draft.rooms = rooms;
    });
    aim.large()
}

/// Rooms of 64 binaries with 65 spans.
const FULL_ROOMS: &[(u64, [Room; 2])] = &[
    (OK, [EXACT, EXACT]),
    (OK, [SPARE, SPARE]),
    (ROOM, [SHORT, EXACT]),
    (ROOM, [EXACT, SHORT]),
    (ROOM, [SHORT, SHORT]),
    (ROOM, [EXACT, Room::Short(33)]),
];

fn full_with_rooms((number, rooms): (u64, [Room; 2])) -> RecoverAim {
    let aim = Aim::new(
        CALL,
        number,
        &format!("64 whole ones, 65 spans, rooms {rooms:?}"),
        move |draft: &mut Draft, random| {
            draft.lay(random, &spread("r", 64, "r", "x"));
            draft.rooms = rooms;
        },
    );
    aim.large()
}

/// So many bytes in all.
fn fill_to(draft: &mut Draft, length: usize) {
    draft.zeros = length - draft.pieces.concat().len();
}

/// A binary whose image goes on behind it, so that so many bytes are left behind that: nothing needs to be searched.
fn long(draft: &mut Draft, random: &mut Random, length: usize, left: usize) {
    let mut binary = BinaryDraft::some(random);
    let before = draft.pieces.concat().len();
    binary.size = Some((length - before - left) as u64);
    draft.put_last(vec![binary.bytes()], 0);
    fill_to(draft, length);
}

fn size_aims() -> Vec<RecoverAim> {
    let recover = |number: u64, name: &str, make: fn(&mut Draft, &mut Random)| Aim::new(CALL, number, name, make);
    vec![
        recover(LENGTH, "sequence 1 above the size limit", |draft, _| fill_to(draft, LIMIT + 1)),
        recover(LENGTH, "sequence above the size limit, no room", |draft, random| {
            fill_to(draft, LIMIT + random.between(1, 9999));
            draft.rooms = [NOTHING; 2];
        }),
        recover(LENGTH, "65 whole ones above the size limit", |draft, random| {
            draft.lay(random, &spread("", 65, "", "r"));
            fill_to(draft, LIMIT + 1);
        })
        .large(),
        recover(LENGTH, "a binary up to 1 above the size limit", |draft, random| long(draft, random, LIMIT + 1, 0)),
        recover(ROOM, "a binary up to the size limit", |draft, random| long(draft, random, LIMIT, 0)),
        recover(ROOM, "a binary almost up to the size limit", |draft, random| {
            let left = random.between(1, 999);
            long(draft, random, LIMIT, left)
        }),
        recover(MANY, "64 whole ones, and one up to the size limit", |draft, random| {
            draft.lay(random, &spread("r", 64, "", "r"));
            long(draft, random, LIMIT, 0);
        })
        .large(),
        Aim::new(SPANS, 2, "thousands of zero bytes behind", |draft: &mut Draft, random| {
            draft.lay(random, "rBB");
            draft.zeros = random.between(1 << 14, 1 << 16);
        })
        .large(),
        found_at("behind thousands of zero bytes", |draft, random| {
            let pieces = vec![vec![0; random.between(1 << 14, 1 << 16)], whole(random)];
            draft.put(random, pieces, 1);
        })
        .large(),
    ]
}
