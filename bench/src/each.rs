//! Picks for several names in one call, beside as many picks for one.

use crate::clock::{black_box, job, time, Timed, Whose};
use crate::sample::{self, IMAGE};
use crate::table::{self, digits, Table};
use crate::{baseline, library};
use second::model::bundle as model;
use std::cell::RefCell;

/// One call for 16 names on 64 entries takes at most this many times as long as a single pick and the names made canonical,
const OF_PARTS: f64 = 1.5;

/// and as 16 single picks.
const OF_SINGLES: f64 = 0.2;

/// Device names, one after another in a buffer.
struct Names {
    buffer: Vec<u8>,
    parts: Vec<[u64; 2]>,
}

impl Names {
    /// The names that ask for these entries.
    fn of(entries: impl Iterator<Item = usize>) -> Names {
        let mut names = Names { buffer: Vec::new(), parts: Vec::new() };
        for entry in entries {
            let name = sample::id(entry);
            names.parts.push([names.buffer.len() as u64, name.len() as u64]);
            names.buffer.extend(name.as_bytes());
        }
        names
    }

    fn iter(&self) -> impl DoubleEndedIterator<Item = &[u8]> {
        self.parts.iter().map(|[start, length]| &self.buffer[*start as usize..][..*length as usize])
    }
}

/// Asserts that the library and the plain C give what the second program's picks for the names give.
fn compare(bundle: &[u8], names: &Names) {
    let picks: Vec<_> = names.iter().map(|name| model::pick(bundle, name)).collect();
    let slots: Vec<[u64; 4]> = picks.iter().map(|pick| [pick.number, pick.index, pick.position, pick.size]).collect();
    let word = picks.iter().fold(0, |word, pick| word | 1 << pick.index);
    for pick_each in [library::pick_each, baseline::pick_each] {
        let mut out = vec![[0; 4]; slots.len()];
        assert_eq!(pick_each(bundle, &names.buffer, &names.parts, &mut out), word);
        assert_eq!(out, slots);
    }
}

/// The one call; as many single picks; the pick for the last name; the names made canonical; the one call in plain C.
fn each(bundle: &[u8], names: &Names) -> Vec<Timed> {
    let (slots, form) = (&RefCell::new(vec![[0; 4]; names.parts.len()]), &RefCell::new([0; 256]));
    let last = names.iter().next_back().expect("a name");
    let one = job(|| library::pick_each(black_box(bundle), &names.buffer, &names.parts, &mut slots.borrow_mut()));
    let singles = job(|| names.iter().map(|name| library::pick(black_box(bundle), name)).max());
    let single = job(|| library::pick(black_box(bundle), last));
    let canonical = job(|| names.iter().map(|name| library::canonical(black_box(name), &mut *form.borrow_mut())).max());
    let plain = job(|| baseline::pick_each(black_box(bundle), &names.buffer, &names.parts, &mut slots.borrow_mut()));
    time(Whose::Thread, vec![one, singles, single, canonical, plain])
}

/// Which entries the names ask for.
type Asked = fn(usize) -> usize;

const ASKED: &[(&str, usize, usize, Asked)] = &[
    ("entries far apart", 16, 64, |k| 4 * k + 3),
    ("the last 16 entries", 16, 64, |k| 48 + k),
    ("the last entry, each", 16, 64, |_| 63),
    ("each entry twice", 16, 8, |k| k / 2),
    ("the last entry", 1, 64, |_| 63),
];

/// Prints the table, and fails where one call for 16 names on 64 entries takes too long.
pub fn jobs() {
    let table = Table::new(
        "Many picks",
        "Time of one call that picks for all names, beside that of a pick for each name. Images of 2 KiB, and four entries for each processor; a single\n\
         pick is for the last name. Limits of 16 names on 64 entries: 1.50 times a single pick and the names made canonical, and 0.20 times 16 single\n\
         picks.",
        &[
            "Names ask for",
            "Names",
            "Entries",
            "One call",
            "A pick for each",
            "Single pick",
            "Names made canonical",
            "One call / (single pick + canonical)",
            "One call / a pick for each",
            "Plain C, one call",
            "Library / plain C",
        ],
    );
    for (asked, count, entries, of) in ASKED {
        let (bundle, names) = (sample::bundle(*entries, IMAGE), Names::of((0..*count).map(of)));
        compare(&bundle, &names);
        let timed = each(&bundle, &names);
        let ratios = row(&table, asked, *count, *entries, &timed);
        assert!(
            (*count, *entries) != (16, 64) || ratios[0] <= OF_PARTS && ratios[1] <= OF_SINGLES,
            "one call for 16 names on 64 entries takes {:.2} times as long as its parts, above {OF_PARTS}, or {:.2} times as long as 16 picks, above {OF_SINGLES}",
            ratios[0],
            ratios[1]
        );
    }
    table.end();
}

/// How many times as long as a single pick and the names made canonical the one call takes, and as a pick for each.
fn row(table: &Table, asked: &str, names: usize, entries: usize, timed: &[Timed]) -> [f64; 2] {
    let times: Vec<String> = timed.iter().map(|timed| table::time(timed.time)).collect();
    let of_first: Vec<f64> = timed.iter().map(|timed| timed.of_first).collect();
    let [of_parts, of_singles, of_plain] =
        [of_first[2] + of_first[3], of_first[1], of_first[4]].map(|other| 1.0 / other);
    let mut cells = vec![asked.to_string(), names.to_string(), entries.to_string()];
    cells.extend_from_slice(&times[..4]);
    cells.extend([of_parts, of_singles].map(digits));
    cells.push(times[4].clone());
    cells.push(digits(of_plain));
    table.row(&cells);
    [of_parts, of_singles]
}
