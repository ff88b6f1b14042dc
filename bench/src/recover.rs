//! Recovering offload binaries: how fast damage is searched, how fast binaries are copied, and what hostile files cost.

use crate::clock::{black_box, medians, once, Timed};
use crate::hostile::{self, Hostile};
use crate::table::{self, bytes, digits, Table};
use crate::{baseline_binaries, library, sample};
use second::gen::random::Random;
use second::model::{OK, SIZE_LIMIT};

/// Random, zero and all-0x10 bytes take at most this many nanoseconds each.
const LIMIT: f64 = 1.0;

/// A hostile file that is four times as long takes at most this many times as long.
const GROWTH: f64 = 6.0;

/// As many spans as there can be.
const SPANS: usize = 65;

/// In each round the library makes one of its four calls, in turn: so these are multiples of 4.
const ROUNDS: usize = 12;
const FEW_ROUNDS: usize = 4;

/// What is lent to a call, filled with what no call writes there.
#[derive(PartialEq)]
struct Lent {
    out: Vec<u8>,
    spans: Vec<[u64; 2]>,
}

impl Lent {
    fn new([room, spans]: [usize; 2]) -> Lent {
        Lent { out: vec![0xA5; room], spans: vec![[u64::MAX; 2]; spans] }
    }

    fn clear(&mut self) {
        self.out.fill(0xA5);
        self.spans.fill([u64::MAX; 2]);
    }
}

/// The plain C's answer, number, place, length and spans, after asserting that the library gives it and leaves the same in all that is lent. And
/// the times of the library, of the plain C, and of a memcpy of as many bytes as are recovered; all write to one output.
fn measured(binaries: &[u8], room: [usize; 2], rounds: usize) -> ([u64; 4], Vec<Timed>) {
    let (mut lent, mut left) = (Lent::new(room), Lent::new(room));
    let answer = baseline_binaries::recover(binaries, &mut left.out, &mut left.spans);
    let length = answer[2] as usize;
    let mut times = vec![Vec::new(); 3];
    for (call, number) in library::RECOVER.into_iter().zip(answer).cycle().take(rounds) {
        lent.clear();
        let (own, library) = once(|| library::recover(call, black_box(binaries), &mut lent.out, &mut lent.spans));
        assert_eq!(own, number, "the library differs from the plain C, which gives {answer:?}");
        assert!(lent == left, "the library leaves other bytes or spans than the plain C, which gives {answer:?}");
        let (_, plain) = once(|| baseline_binaries::recover(black_box(binaries), &mut lent.out, &mut lent.spans));
        let (_, memcpy) = once(|| black_box(&mut lent.out[..length]).copy_from_slice(black_box(&binaries[..length])));
        times.iter_mut().zip([library, plain, memcpy]).for_each(|(times, time)| times.push(time));
    }
    (answer, medians(&times))
}

/// Prints the tables, and fails where damage or a hostile file takes too long.
pub fn jobs() {
    compare(2000);
    let each = damage();
    copying();
    hostile_files();
    assert!(each <= LIMIT, "a byte of damage takes {each:.2} ns, above {LIMIT}");
}

/// Compares what is not timed too: damaged sequences, with just enough room and with too little, and bytes above the size limit.
fn compare(cases: u64) {
    for case in 0..cases {
        let binaries = damaged(&mut Random::of_case(1, case));
        let (answer, _) = measured(&binaries, [binaries.len(), SPANS], FEW_ROUNDS);
        let [length, spans] = [answer[2], answer[3]].map(|number| number as usize);
        for room in [[length, spans], [length.saturating_sub(1), spans], [length, spans.saturating_sub(1)]] {
            measured(&binaries, room, FEW_ROUNDS);
        }
    }
    measured(&vec![0; SIZE_LIMIT as usize + 1], [0, SPANS], FEW_ROUNDS);
}

/// Up to 70 small binaries, with bytes changed, put in and left out.
fn damaged(random: &mut Random) -> Vec<u8> {
    let mut bytes = sample::sequence(random.between(0, 70), random.below(40));
    for _ in 0..random.below(8) {
        let at = random.below(bytes.len() + 1);
        let end = (at + random.below(100)).min(bytes.len());
        let length = if random.one_in(2) { end - at } else { random.below(100) };
        bytes.splice(at..end, random.bytes(length));
    }
    bytes
}

const MIB: usize = 1 << 20;

/// Bytes in which no binary is found: some again and again, or random ones where there are none.
struct Damage {
    name: &'static str,
    again: &'static [u8],
    limited: bool,
}

const DAMAGE: &[Damage] = &[
    Damage { name: "random", again: &[], limited: true },
    Damage { name: "zero", again: &[0], limited: true },
    Damage { name: "all `10`", again: &[0x10], limited: true },
    Damage { name: "`10 FF 10 AD` again and again", again: &[0x10, 0xFF, 0x10, 0xAD], limited: false },
    Damage {
        name: "`10 FF 10 AD 01 00 00 00` again and again",
        again: &[0x10, 0xFF, 0x10, 0xAD, 1, 0, 0, 0],
        limited: false,
    },
];

impl Damage {
    /// All bytes are written: memory that never was would be read from the cache.
    fn bytes(&self, length: usize) -> Vec<u8> {
        match self.again {
            [] => Random::of_case(1, 0).bytes(length),
            again => again.repeat(length / again.len()),
        }
    }
}

/// The times on bytes in which nothing is found; a small output is enough.
fn nothing_found(binaries: &[u8], rounds: usize) -> Vec<Timed> {
    let (answer, timed) = measured(binaries, [64, SPANS], rounds);
    assert_eq!(answer, [OK, 0, 0, 1]);
    timed
}

/// How many nanoseconds a byte takes at most, where there is a limit.
fn damage() -> f64 {
    let table = Table::new(
        "Recovering offload binaries: damage",
        "Time of one call on bytes in which no binary is found, and of each byte. Medians of 12 calls, with 1 GiB of 4: number, place, length and spans\n\
         in turn. Limit of random, zero and all `10` bytes: 1.00 ns for each.",
        &[
            "Bytes",
            "Length",
            "Library",
            "For each byte",
            "GiB in a second",
            "Plain C",
            "For each byte",
            "Library / plain C",
        ],
    );
    let long = DAMAGE.iter().map(|damage| (damage, 64 * MIB, ROUNDS));
    let longest = DAMAGE[..2].iter().map(|damage| (damage, SIZE_LIMIT as usize, FEW_ROUNDS));
    let mut most: f64 = 0.0;
    for (damage, length, rounds) in long.chain(longest) {
        let timed = nothing_found(&damage.bytes(length), rounds);
        let each = damage_row(&table, damage.name, length, &timed);
        most = if damage.limited { most.max(each) } else { most };
    }
    table.end();
    most
}

/// How many nanoseconds a byte takes.
fn damage_row(table: &Table, name: &str, length: usize, timed: &[Timed]) -> f64 {
    let each = |timed: Timed| timed.time / length as f64;
    let speed = 1e9 / each(timed[0]) / (1u64 << 30) as f64;
    table.row(&[
        name.to_string(),
        bytes(length),
        table::time(timed[0].time),
        table::time(each(timed[0])),
        digits(speed),
        table::time(timed[1].time),
        table::time(each(timed[1])),
        digits(1.0 / timed[1].of_first),
    ]);
    each(timed[0])
}

fn copying() {
    let table = Table::new(
        "Recovering offload binaries: copying",
        "Time of one call on 64 binaries with images of 1 MiB, beside memcpy of as many bytes as are recovered, and speed seen from memcpy's. Broken:\n\
         a byte of magic or version. Medians of 12 calls.",
        &[
            "Headers",
            "Recovered",
            "Skipped",
            "Spans",
            "Library",
            "For each byte",
            "Plain C",
            "memcpy",
            "Library, of memcpy's speed",
            "Plain C, of memcpy's speed",
        ],
    );
    let sequence = sample::sequence(64, MIB);
    copying_row(&table, "all sound", &sequence, 64);
    copying_row(&table, "every other one broken", &sample::broken_headers(sequence, 64), 32);
    table.end();
}

/// So many of the 64 binaries are found; those between them are skipped.
fn copying_row(table: &Table, headers: &str, sequence: &[u8], found: usize) {
    let (answer, timed) = measured(sequence, [sequence.len(), SPANS], ROUNDS);
    let recovered = sequence.len() / 64 * found;
    assert_eq!(answer, [OK, 0, recovered as u64, 64 - found as u64]);
    let mut cells = vec![headers.to_string()];
    cells.extend([recovered, sequence.len() - recovered].map(bytes));
    cells.push((64 - found).to_string());
    let [library, plain, memcpy] = [0, 1, 2].map(|job: usize| timed[job].time);
    cells.extend([library, library / sequence.len() as f64, plain, memcpy].map(table::time));
    cells.extend([timed[2].of_first, timed[2].of_first / timed[1].of_first].map(digits));
    table.row(&cells);
}

fn hostile_files() {
    hostile::assert_refused_at_last();
    let table = Table::new(
        "Recovering offload binaries: hostile files",
        "Time of one call on files in which no binary is found, and every header claims all that is left of the file and names 32 string pairs. Strings\n\
         shared: each header has 64 of them, of 7 to 255 bytes, and is refused by its image. No zero byte: each is refused by its first key, which goes\n\
         on to the end of the file. Keys equal at last: each has 64 strings of 255 bytes, and 32 keys that differ in the last byte alone, but for the\n\
         last two; so it is refused by the last of 496 comparisons. Whatever a size says, at one position at most 32 pairs, 257 bytes of a string and\n\
         496 comparisons of keys are looked at, and headers that pass 13 and 14 are at least 32 bytes apart: so the time grows as the length does.\n\
         Medians of 4 calls. Limit: 6.00 times as long for four times the length.",
        &[
            "Headers",
            "Length",
            "How many",
            "Library",
            "For each byte",
            "For each header",
            "Of a quarter of the length",
            "Plain C",
            "For each byte",
            "Library / plain C",
        ],
    );
    hostile::FILES.iter().for_each(|hostile| hostile_rows(&table, hostile));
    table.end();
}

/// The rows of one kind of file. Fails as soon as the time grows too much: the next length would take very long.
fn hostile_rows(table: &Table, hostile: &Hostile) {
    let mut quarter = None;
    for length in [MIB, 4 * MIB, 16 * MIB] {
        let (file, headers) = hostile.file(length);
        let timed = nothing_found(&file, FEW_ROUNDS);
        let growth = quarter.map(|quarter| timed[0].time / quarter);
        hostile_row(table, hostile.name, length, headers, growth, &timed);
        let grown = growth.unwrap_or(0.0);
        assert!(grown <= GROWTH, "a hostile file four times as long takes {grown:.2} times as long, above {GROWTH}");
        quarter = Some(timed[0].time);
    }
}

fn hostile_row(table: &Table, name: &str, length: usize, headers: usize, growth: Option<f64>, timed: &[Timed]) {
    let [library, plain] = [timed[0].time, timed[1].time];
    table.row(&[
        name.to_string(),
        bytes(length),
        headers.to_string(),
        table::time(library),
        table::time(library / length as f64),
        table::time(library / headers as f64),
        growth.map_or(String::new(), digits),
        table::time(plain),
        table::time(plain / length as f64),
        digits(1.0 / timed[1].of_first),
    ]);
}
