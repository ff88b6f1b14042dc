//! A lookup in two bundles, a patch before the main one, beside a pick from each.

use crate::clock::{black_box, job, time, Timed, Whose};
use crate::sample::{self, IMAGE};
use crate::table::{self, digits, Table};
use crate::{baseline, library};
use second::model::lookup::{self as model, LookedUp, PATCH};
use second::model::{NONE, OK};

/// A lookup takes at most as long as two picks, one from each bundle; a tenth more is for what ratios vary from run to run.
const LIMIT: f64 = 1.1;

/// The entry that the device name asks for: the last of the four of its processor.
const ASKED: usize = 67;

/// A bundle of so many entries that ends with the one asked for.
fn has(entries: usize) -> Vec<u8> {
    sample::ending_with(ASKED, entries, IMAGE)
}

/// One that ends just before it.
fn lacks(entries: usize) -> Vec<u8> {
    sample::ending_with(ASKED - 1, entries, IMAGE)
}

/// One that is refused by its last entry.
fn refused(entries: usize) -> Vec<u8> {
    sample::mixed_at(ASKED, entries, IMAGE)
}

/// The second program's answer, number, place, bundle, position and size, after asserting that the library and the plain C give it.
fn compared(patch: &[u8], main: &[u8], device: &[u8]) -> [u64; 5] {
    let (LookedUp { number, place, bundle, position, size }, _) = model::lookup(patch, main, device);
    let answer = [number, place, bundle, position, size];
    assert_eq!(library::lookup(patch, main, device), answer);
    assert_eq!(baseline::lookup(patch, main, device), answer);
    answer
}

/// Compares what is not timed too: any of these bundles before any, also with a device name that breaks the rules.
fn compare(device: &[u8]) {
    let empty_images = sample::ending_with(ASKED, 8, 0);
    let bundles = [has(8), lacks(8), empty_images, refused(8), has(8)[..100].to_vec(), Vec::new()];
    for patch in &bundles {
        for main in &bundles {
            compared(patch, main, device);
            compared(patch, main, &device[1..]);
        }
    }
}

/// The lookup; two picks; two checks; the lookup in plain C.
fn lookup(patch: &[u8], main: &[u8], device: &[u8]) -> Vec<Timed> {
    let one = job(|| library::lookup_size(black_box(patch), main, device));
    let picks = job(|| [patch, main].map(|bundle| library::pick_size(black_box(bundle), device)));
    let checks = job(|| [patch, main].map(|bundle| library::check(black_box(bundle))));
    let plain = job(|| baseline::lookup(black_box(patch), main, device));
    time(Whose::Thread, vec![one, picks, checks, plain])
}

type Bundle = fn(usize) -> Vec<u8>;

/// The patch and the main bundle, each with its number of entries.
const BUNDLES: &[[(Bundle, usize); 2]] = &[
    [(has, 1), (has, 64)],
    [(lacks, 1), (has, 64)],
    [(lacks, 8), (has, 64)],
    [(has, 64), (has, 64)],
    [(lacks, 64), (has, 64)],
    [(lacks, 64), (lacks, 64)],
    [(has, 1), (has, 1)],
    [(lacks, 1), (has, 1)],
    [(has, 1), (refused, 64)],
];

/// Prints the table, and fails where a lookup takes too long.
pub fn jobs() {
    let device = sample::id(ASKED).into_bytes();
    compare(&device);
    let table = Table::new(
        "Two bundles",
        "Time of one lookup in a patch and a main bundle, beside that of two picks and of two checks, one of each bundle. Images of 2 KiB, and four\n\
         entries for each processor. The device name asks for the last entry; a bundle that lacks it ends with one of the same processor and other\n\
         features. Where the patch answers, the main bundle has the entry too. Refused: MIXED, by the last entry. Limit: two picks, and a tenth more\n\
         since ratios vary from run to run: 1.10.",
        &[
            "Which answers",
            "Entries, patch",
            "Entries, main",
            "One lookup",
            "Two picks",
            "One lookup / two picks",
            "Two checks",
            "Plain C, one lookup",
            "Library / plain C",
        ],
    );
    let mut most: f64 = 0.0;
    for bundles in BUNDLES {
        let [patch, main] = bundles.map(|(bundle, entries)| bundle(entries));
        let answer = compared(&patch, &main, &device);
        let timed = lookup(&patch, &main, &device);
        most = most.max(row(&table, which_answers(answer), bundles.map(|(_, entries)| entries), &timed));
    }
    table.end();
    assert!(most <= LIMIT, "a lookup takes {most:.2} times as long as two picks, above {LIMIT}");
}

fn which_answers(answer: [u64; 5]) -> &'static str {
    match answer {
        [OK, _, PATCH, ..] => "the patch",
        [OK, ..] => "the main bundle",
        [NONE, ..] => "neither",
        _ => "neither: main is refused",
    }
}

/// How many times as long as two picks the lookup takes.
fn row(table: &Table, answers: &str, entries: [usize; 2], timed: &[Timed]) -> f64 {
    let [of_picks, of_plain] = [1, 3].map(|other| 1.0 / timed[other].of_first);
    let [patch, main] = entries.map(|entries| entries.to_string());
    let [one, picks, checks, plain] = [0, 1, 2, 3].map(|job| table::time(timed[job].time));
    table.row(&[answers.to_string(), patch, main, one, picks, digits(of_picks), checks, plain, digits(of_plain)]);
    of_picks
}
