//! The order of two IDs, by where they differ first: a comparison stops there.

use crate::clock::{black_box, job, time, Job, Whose};
use crate::table::{self, digits, Table};
use crate::{library, sample};
use std::cmp::Ordering;

/// Where the second ID differs first from the first one; `None` where they are equal.
const PLACES: [Option<usize>; 5] = [None, Some(0), Some(16), Some(128), Some(255)];

/// Of the time that equal IDs take, IDs that differ in the first byte take less than this.
const LIMIT: f64 = 0.5;

extern "C" {
    fn memcmp(a: *const u8, b: *const u8, length: usize) -> i32;
}

/// The order as a C program would ask for it.
fn memcmp_before(a: &[u8], b: &[u8]) -> bool {
    // SAFETY: both slices have as many bytes.
    let order = unsafe { memcmp(a.as_ptr(), b.as_ptr(), a.len().min(b.len())) };
    order.cmp(&0).then(a.len().cmp(&b.len())) == Ordering::Less
}

type Before = fn(&[u8], &[u8]) -> bool;

/// Comparisons in a job: so many that calling the job counts little.
const COMPARISONS: usize = 64;

/// One job for each ID that this one is compared with.
fn jobs<'a>(before: Before, id: &'a [u8], others: &'a [Vec<u8>]) -> Vec<Job<'a>> {
    let compare = |other: &'a Vec<u8>| {
        assert_eq!(before(id, other), id < other.as_slice());
        assert_eq!(before(other, id), other.as_slice() < id);
        job(move || {
            let before = black_box(before);
            (0..COMPARISONS).filter(|_| before(id, other)).count()
        })
    };
    others.iter().map(compare).collect()
}

/// Prints the table, and fails where IDs that differ in the first byte take too long.
pub fn ids() {
    let table = Table::new(
        "The order of two IDs",
        "Time of one comparison of two canonical IDs of 256 bytes, and that time divided by the time for equal ones.",
        &["First difference", "Library", "Of equal IDs", "memcmp", "Of equal IDs"],
    );
    let id = sample::long_id(None);
    let others: Vec<Vec<u8>> = PLACES.iter().map(|place| sample::long_id(*place)).collect();
    let library = time(Whose::Thread, jobs(library::comes_before, &id, &others));
    let plain = time(Whose::Thread, jobs(memcmp_before, &id, &others));
    for ((place, library), plain) in PLACES.iter().zip(&library).zip(&plain) {
        let name = place.map_or("none".to_string(), |place| format!("byte {place}"));
        let cells = [library, plain]
            .map(|timed| [table::time(timed.time / COMPARISONS as f64), digits(timed.of_first)])
            .concat();
        table.row(&[vec![name], cells].concat());
    }
    table.end();
    let first = library[1].of_first;
    assert!(
        first < LIMIT,
        "IDs that differ in the first byte take {first:.2} of the time that equal ones take, not less than {LIMIT}"
    );
}
