//! Files in which no binary passes and every header costs much: it claims all that is left of the file, its entry names 32 string pairs, and in two
//! of the files what refuses it is looked at last. Headers share string tables and strings. Offsets count from the header, so that through one table
//! each header meets other strings: these stand in cells of one size, and in 64 cells after one another no two are equal.

use crate::baseline_binaries;
use second::model::binaries::{Cursor, MAGIC_BYTES};
use second::model::{IMAGE, OK, STRINGS};

const HEADER: usize = 32;
const ENTRY: usize = 40;
const PAIRS: usize = 32;
const TABLE: usize = 16 * PAIRS;

/// A string of up to 255 bytes and its zero byte.
const CELL: usize = 256;

/// How many cells the keys and texts of a table lie in.
const REACH: usize = 2 * PAIRS;

/// Two of the files are made of parts of this length, which share nothing: so one twice as long costs twice as much.
const PART: usize = 1 << 20;

pub struct Hostile {
    pub name: &'static str,
    /// What a reader answers at each header.
    number: u64,
    fill: fn(&mut [u8]),
}

pub const FILES: &[Hostile] = &[
    Hostile { name: "72 bytes apart, strings shared", number: IMAGE, fill: |file| parts(file, apart) },
    Hostile { name: "72 bytes apart, no zero byte", number: STRINGS, fill: endless },
    Hostile { name: "32 bytes apart, keys equal at last", number: STRINGS, fill: |file| parts(file, dense) },
];

impl Hostile {
    /// The file of this length, a multiple of 1 MiB, and how many headers it has.
    pub fn file(&self, length: usize) -> (Vec<u8>, usize) {
        let mut file = vec![0; length];
        (self.fill)(&mut file);
        let headers = headers(&file, self.number);
        (file, headers)
    }
}

/// Asserts that where headers are 32 bytes apart nothing but the last key refuses them: with another one there they pass.
pub fn assert_refused_at_last() {
    let mut file = vec![0; PART];
    parts(&mut file, |file, from| dense_but(file, from, PAIRS - 1));
    headers(&file, OK);
}

/// How many headers there are, after asserting that a reader answers each with this number.
fn headers(file: &[u8], number: u64) -> usize {
    let at_header = |at: &usize| file[*at..].starts_with(&MAGIC_BYTES);
    let answer = |at: usize| baseline_binaries::next(&file[at..], Cursor::default()).0.number;
    (0..file.len()).filter(at_header).inspect(|at| assert_eq!(answer(*at), number)).count()
}

fn parts(file: &mut [u8], part: fn(&mut [u8], usize)) {
    (0..file.len()).step_by(PART).for_each(|from| part(file, from));
}

fn put(file: &mut [u8], at: usize, numbers: &[usize]) {
    for (k, number) in numbers.iter().enumerate() {
        file[at + 8 * k..][..8].copy_from_slice(&number.to_le_bytes());
    }
}

/// A header that claims all that is left, with its entry at a place of the file.
fn put_header(file: &mut [u8], at: usize, entry: usize) {
    let size = file.len() - at;
    put(file, at, &[0x1_AD10_FF10, size, entry - at, ENTRY]);
}

/// An entry with 32 string pairs and an empty image; offsets of the table and of the image.
fn put_entry(file: &mut [u8], at: usize, table: usize, image: usize) {
    put(file, at, &[0, table, PAIRS, image, 0]);
}

/// A string table whose keys and texts have a cell each, in turn, from an offset on; but the last key is that of pair `last`.
fn put_table(file: &mut [u8], at: usize, cells: usize, last: usize) {
    let key = |pair: usize| cells + 2 * CELL * pair;
    for pair in 0..PAIRS {
        put(file, at + 16 * pair, &[key(pair), key(pair) + CELL]);
    }
    put(file, at + TABLE - 16, &[key(last)]);
}

/// Cells with a string each: so many bytes are common to all, the others tell it from the 63 before.
fn fill_cells(cells: &mut [u8], common: usize) {
    for (k, cell) in cells.chunks_exact_mut(CELL).enumerate() {
        cell[..common].fill(b'x');
        cell[common..].fill(1 + (k % REACH) as u8);
        cell[CELL - 1] = 0;
    }
}

/// An offset that is in no binary.
const NOWHERE: usize = usize::MAX;

/// Headers 72 bytes apart, each with its entry behind it: 16 groups, each with one string table, and the cells of all. From one header to the
/// next the strings start 72 bytes later, so they have 7 to 255 bytes. Keys differ in their first byte. The image is outside.
fn apart(file: &mut [u8], from: usize) {
    const GROUPS: usize = 16;
    const HEADERS: usize = 836;
    let stride = HEADER + ENTRY;
    let group = HEADERS * stride + TABLE;
    let cells = from + GROUPS * group;
    assert!(cells + HEADERS * stride + REACH * CELL <= from + PART);
    for first in (from..cells).step_by(group) {
        let table = first + HEADERS * stride;
        for at in (first..table).step_by(stride) {
            put_header(file, at, at + HEADER);
            put_entry(file, at + HEADER, table - at, NOWHERE);
        }
        put_table(file, table, cells - first, PAIRS - 1);
    }
    fill_cells(&mut file[cells..from + PART], 0);
}

/// Headers 72 bytes apart in the first half, one string table, and no zero byte in the second half, where all strings begin.
fn endless(file: &mut [u8]) {
    let half = file.len() / 2;
    let table = half - TABLE;
    for at in (0..table - HEADER - ENTRY).step_by(HEADER + ENTRY) {
        put_header(file, at, at + HEADER);
        put_entry(file, at + HEADER, table - at, HEADER);
    }
    put_table(file, table, half, PAIRS - 1);
    file[half..].fill(b'x');
}

/// Headers 32 bytes apart: as near as two can be that pass 13 and 14. The keys differ from each other in their last byte alone, but for the last
/// key, which is the one before it.
fn dense(file: &mut [u8], from: usize) {
    dense_but(file, from, PAIRS - 2);
}

/// How many headers a block has, and how many blocks a group.
const BLOCK: usize = 64;
const BLOCKS: usize = 70;

/// How many entries a block has. Its headers have them in turn, so that those with one entry are as far apart as a table is long: through the one
/// offset in the entry each has the table behind that of the header before.
const TURNS: usize = TABLE / HEADER;

/// Four groups, and the cells of all.
fn dense_but(file: &mut [u8], from: usize, last: usize) {
    const GROUPS: usize = 4;
    let group = BLOCKS * BLOCK * HEADER + BLOCKS * TURNS * ENTRY + BLOCK * TABLE;
    let cells = from + GROUPS * group;
    assert!(cells + BLOCKS * BLOCK * HEADER + REACH * CELL <= from + PART);
    for first in (from..cells).step_by(group) {
        dense_group(file, first, cells, last);
    }
    fill_cells(&mut file[cells..from + PART], CELL - 2);
}

/// The blocks, the entries of each, and a block's tables, which all blocks share. Every string has a whole cell: the headers of one table are a
/// multiple of a cell apart. What several headers share is put once for each, the same every time.
fn dense_group(file: &mut [u8], first: usize, cells: usize, last: usize) {
    let entries = first + BLOCKS * BLOCK * HEADER;
    let tables = entries + BLOCKS * TURNS * ENTRY;
    for k in 0..BLOCKS * BLOCK {
        let (at, block, turn) = (first + HEADER * k, k / BLOCK, k % TURNS);
        let entry = entries + ENTRY * (TURNS * block + turn);
        let table = tables + TABLE * (BLOCK / TURNS * turn + k % BLOCK / TURNS);
        put_header(file, at, entry);
        put_entry(file, entry, table - at, HEADER);
        put_table(file, table, cells - first - HEADER * k % CELL, last);
    }
}
