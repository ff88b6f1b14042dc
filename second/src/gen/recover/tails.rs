//! An accepted sequence behind a damaged one.

use super::*;

pub fn aims() -> Vec<RecoverAim> {
    let mut aims: Vec<RecoverAim> = FRONTS.iter().map(|front| behind(*front)).collect();
    aims.extend(REACHES.iter().map(|reach| reached_into(*reach)));
    aims.extend(full_aims());
    aims
}

/// Some tail of a few whole binaries behind this front.
fn put_tail(draft: &mut Draft, random: &mut Random, front: Vec<Vec<u8>>) {
    let layout = *random.choose(&["B", "BB", "BBB", "BBBB"]);
    let tail = laid(random, layout);
    draft.tail = front.len();
    draft.pieces = [front, tail].concat();
}

type Front = fn(&mut Random) -> Vec<Vec<u8>>;

/// Fronts of which no binary reaches into the tail.
const FRONTS: &[(&str, Front)] = &[
    ("no front", |_| Vec::new()),
    ("rubbish", |random| laid(random, "r")),
    ("a byte", |random| vec![random.bytes(1)]),
    ("a broken one", |random| laid(random, "x")),
    ("whole ones that end at the tail", |random| laid(random, "rBB")),
    ("whole ones and rubbish", |random| laid(random, "BBr")),
    ("a whole one and a broken one", |random| laid(random, "Bx")),
    ("a broken one and a whole one", |random| laid(random, "xB")),
    ("the first four bytes", |_| vec![MAGIC_BYTES.to_vec()]),
    ("some of the first four bytes", |random| vec![MAGIC_BYTES[..random.between(1, 3)].to_vec()]),
    ("a header", |random| vec![BinaryDraft::smallest(random).bytes()[..32].to_vec()]),
    ("a part of a binary of 72 bytes", |random| {
        let length = random.between(1, 71);
        vec![BinaryDraft::smallest(random).bytes()[..length].to_vec()]
    }),
    ("a broken one with a whole one at its end", |random| {
        let inner = whole(random);
        let outer = BinaryDraft::around(random, &inner);
        vec![broken(random, outer)]
    }),
    ("a broken one that reaches into the tail", |random| {
        let mut binary = BinaryDraft::some(random);
        binary.size = Some(binary.length() + random.between(1, 72) as u64);
        binary.offload_kind = 4;
        vec![binary.bytes()]
    }),
    ("one that reaches past the end of the tail", |random| {
        let mut binary = BinaryDraft::some(random);
        binary.size = Some(1 << 20);
        vec![binary.bytes()]
    }),
];

fn behind((name, front): (&str, Front)) -> RecoverAim {
    Aim::new(TAIL, 1, &format!("tail behind {name}"), move |draft: &mut Draft, random| {
        let front = front(random);
        put_tail(draft, random, front);
    })
}

/// How many bytes of the tail the last binary of the front has, from the length of the tail's first binary and of the whole tail.
type Reach = fn(&mut Random, usize, usize) -> usize;

const REACHES: &[(&str, Reach)] = &[
    ("1 byte", |_, _, _| 1),
    ("some bytes of the first", |random, first, _| random.between(1, first - 1)),
    ("all but 1 byte of the first", |_, first, _| first - 1),
    ("the first", |_, first, _| first),
    ("the first and 1 byte", |_, first, whole| whole.min(first + 1)),
    ("all but 1 byte of the tail", |_, _, whole| whole - 1),
    ("the tail", |_, _, whole| whole),
];

fn reached_into((name, reach): (&str, Reach)) -> RecoverAim {
    Aim::new(TAIL, 0, &format!("last of the front has {name}"), move |draft: &mut Draft, random| {
        let mut last = BinaryDraft::some(random);
        let mut front = laid(random, "xr");
        front.push(Vec::new());
        put_tail(draft, random, front);
        let tail = &draft.pieces[3..];
        let more = reach(random, tail[0].len(), tail.iter().map(Vec::len).sum());
        last.size = Some(last.length() + more as u64);
        draft.pieces[2] = last.bytes();
    })
}

/// Tails with which there are 64 binaries, and one more.
fn full_aims() -> Vec<RecoverAim> {
    let full = |call: &'static str, number: u64, front: &'static str, tail: usize| {
        let name = format!("tail of {tail} behind {front:?}");
        let aim = Aim::new(call, number, &name, move |draft: &mut Draft, random| {
            draft.lay(random, &[front, &"B".repeat(tail)].concat());
            draft.tail = front.len();
        });
        aim.large()
    };
    vec![
        full(TAIL, 1, "r", 64),
        full(TAIL, 1, "x", 64),
        full(TAIL, 1, "xBr", 63),
        full(TAIL, 1, "BBxB", 61),
        full(CALL, MANY, "B", 64),
        full(CALL, MANY, "xBr", 64),
    ]
}
