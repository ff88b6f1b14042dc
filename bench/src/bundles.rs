//! Check, pick, entry and normalise over bundles of 1 to 64 entries, and normalise over images of many sizes.

use crate::clock::{black_box, job, time, Timed, Whose};
use crate::sample::{self, IMAGE};
use crate::table::{self, bytes, digits, Table};
use crate::{baseline, library};
use second::model::bundle as model;
use std::cell::RefCell;

/// Library, second program, plain C.
fn check(bundle: &[u8]) -> Vec<Timed> {
    let library = job(|| library::check(black_box(bundle)));
    let second = job(|| model::check(black_box(bundle)));
    let plain = job(|| baseline::check(black_box(bundle)));
    time(Whose::Thread, vec![library, second, plain])
}

fn pick(bundle: &[u8], device: &[u8]) -> Vec<Timed> {
    let library = job(|| library::pick(black_box(bundle), device));
    let second = job(|| model::pick(black_box(bundle), device));
    let plain = job(|| baseline::pick(black_box(bundle), device));
    time(Whose::Thread, vec![library, second, plain])
}

fn entry(bundle: &[u8], index: usize) -> Vec<Timed> {
    let library = job(|| library::entry(black_box(bundle), index));
    let second = job(|| model::entry_at(black_box(bundle), index as u64));
    let plain = job(|| baseline::entry(black_box(bundle), index as u64));
    time(Whose::Thread, vec![library, second, plain])
}

/// All write to one output, since the places of two buffers in memory make a difference of their own.
fn normalise(bundle: &[u8]) -> Vec<Timed> {
    let out = &RefCell::new(bundle.to_vec());
    let library = job(|| library::normalise(black_box(bundle), &mut out.borrow_mut()));
    let second = job(|| model::normalise(black_box(bundle), &mut out.borrow_mut()));
    let plain = job(|| baseline::normalise(black_box(bundle), &mut out.borrow_mut()));
    time(Whose::Thread, vec![library, second, plain])
}

/// Library, plain C, memcpy of as many bytes.
fn copy(bundle: &[u8]) -> Vec<Timed> {
    let out = &RefCell::new(bundle.to_vec());
    let library = job(|| library::normalise(black_box(bundle), &mut out.borrow_mut()));
    let plain = job(|| baseline::normalise(black_box(bundle), &mut out.borrow_mut()));
    let memcpy = job(|| black_box(&mut *out.borrow_mut()).copy_from_slice(black_box(bundle)));
    time(Whose::Thread, vec![library, plain, memcpy])
}

/// Where the image of each of 64 entries lies.
type Place = fn(usize) -> usize;

const PLACES: &[(&str, Place)] = &[
    ("check, images in falling order", |entry| 63 - entry),
    ("check, images in hostile order", |entry| if entry % 2 == 0 { entry / 2 } else { 63 - entry / 2 }),
    ("check of one image", |_| 0),
];

pub fn jobs() {
    let table = Table::new(
        "Check, pick, entry and normalise",
        "Time of one call. Images of 2 KiB, in rising order where nothing else is said; pick and entry are for the last entry. Three kinds: host, hip\n\
         and openmp for each of 21 processors. Generic processors: such as gfx9-4-generic, every second ID spelled without the empty\n\
         environment. Hostile order: the first and the last image, then those in between, so that each has earlier ones on both sides. One image: all\n\
         entries share it.",
        &["Job", "Entries", "Library", "Second program", "Plain C", "Library / plain C"],
    );
    for entries in [1, 16, 64] {
        let bundle = sample::bundle(entries, IMAGE);
        row(&table, "check", entries, &check(&bundle));
    }
    for entries in [1, 16, 64] {
        let bundle = sample::bundle(entries, IMAGE);
        row(&table, "pick", entries, &pick(&bundle, sample::id(entries - 1).as_bytes()));
    }
    for entries in [1, 16, 64] {
        let bundle = sample::bundle(entries, IMAGE);
        row(&table, "entry", entries, &entry(&bundle, entries - 1));
    }
    for entries in [1, 16, 64] {
        let bundle = sample::bundle(entries, IMAGE);
        row(&table, "normalise", entries, &normalise(&bundle));
    }
    row(&table, "normalise, IDs in falling order", 64, &normalise(&sample::falling(64, IMAGE)));
    let (bundle, last) = (sample::three_kinds(IMAGE), sample::three_kinds_id(sample::THREE_KINDS - 1));
    row(&table, "check of three kinds", sample::THREE_KINDS, &check(&bundle));
    row(&table, "pick of three kinds", sample::THREE_KINDS, &pick(&bundle, last.as_bytes()));
    let (bundle, last) = (sample::generic(64, IMAGE), sample::generic_id(63));
    row(&table, "check of generic processors", 64, &check(&bundle));
    row(&table, "pick of generic processors", 64, &pick(&bundle, last.as_bytes()));
    for (job, place) in PLACES {
        row(&table, job, 64, &check(&sample::with_places(sample::bundle(64, IMAGE), place)));
    }
    table.end();
}

fn row(table: &Table, job: &str, entries: usize, timed: &[Timed]) {
    let mut cells = vec![job.to_string(), entries.to_string()];
    cells.extend(timed.iter().map(|timed| table::time(timed.time)));
    cells.push(digits(1.0 / timed[2].of_first));
    table.row(&cells);
}

pub fn growth() {
    let table = Table::new(
        "Growth of the check",
        "Time of one check, and that time divided by the number of entries.",
        &["Entries", "Library", "For each entry", "Plain C", "For each entry"],
    );
    for entries in [1, 2, 4, 8, 16, 32, 64] {
        let timed = check(&sample::bundle(entries, IMAGE));
        let both = |timed: Timed| [table::time(timed.time), table::time(timed.time / entries as f64)];
        table.row(&[vec![entries.to_string()], both(timed[0]).to_vec(), both(timed[2]).to_vec()].concat());
    }
    table.end();
}

pub fn copying() {
    let table = Table::new(
        "Copying",
        "Normalising a bundle of one image, beside memcpy of as many bytes: time of one call, and speed seen from memcpy's.",
        &["Image", "Library", "Plain C", "memcpy", "Library, of memcpy's speed", "Plain C, of memcpy's speed"],
    );
    for size in
        [4 << 10, 16 << 10, 64 << 10, 256 << 10, 1 << 20, 2 << 20, 8 << 20, 32 << 20, 64 << 20, 128 << 20, 256 << 20]
    {
        let timed = copy(&sample::bundle(1, size));
        let times = timed.iter().map(|timed| table::time(timed.time)).collect();
        let speeds = [timed[2].of_first, timed[2].of_first / timed[1].of_first].map(digits);
        table.row(&[vec![bytes(size)], times, speeds.to_vec()].concat());
    }
    table.end();
}
