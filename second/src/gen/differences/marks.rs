//! Which of the two bundles has an entry: every order of the lines, how many there are, and the longest reports.

use super::*;

pub fn aims() -> Vec<DifferencesAim> {
    let mut aims: Vec<DifferencesAim> = (0..=3).flat_map(all_marks).map(in_order).collect();
    for side in Side::BOTH {
        aims.extend(MISSING.iter().map(|(at, count)| missing(side, *at, *count)));
        aims.push(one_more(side));
    }
    for count in FEW {
        aims.extend(LETTERS.iter().map(|letter| all_alike(*count, *letter)));
    }
    aims.extend(MANY_LINES.iter().map(|count| many_lines(*count)));
    aims.extend(LONGEST.iter().map(|longest| longest_report(*longest)));
    aims.push(unlike());
    aims
}

/// Every text of so many letters.
fn all_marks(count: usize) -> Vec<String> {
    if count == 0 {
        return vec![String::new()];
    }
    let longer = |marks: &String| LETTERS.map(|letter| format!("{marks}{letter}"));
    all_marks(count - 1).iter().flat_map(longer).collect()
}

/// These letters, for as many IDs.
fn in_order(marks: String) -> DifferencesAim {
    Aim::new(MARKS, marks_number(&marks), &format!("{marks:?}"), move |draft: &mut Draft, random| {
        let meanings = some_meanings(random, marks.len());
        draft.mark(random, &meanings, &marks);
    })
}

/// An ID, and how many there are.
const MISSING: &[(usize, usize)] = &[(0, 1), (0, 2), (1, 2), (0, 9), (4, 9), (8, 9), (0, 64), (32, 64), (63, 64)];

/// The same entries, but for one that one of the bundles does not have.
fn missing(side: Side, at: usize, count: usize) -> DifferencesAim {
    let (letter, other) = (if side == Side::Left { IN_RIGHT } else { IN_LEFT }, side.other());
    let name = format!("entry {at} of {count} is missing in {}", side.name());
    let aim = Aim::new(ONLY_IN, side_number(other), &name, move |draft: &mut Draft, random| {
        let meanings = some_meanings(random, count);
        let mark = |k: usize| if k == at { letter } else { THE_SAME };
        let marks: String = (0..count).map(mark).collect();
        draft.mark(random, &meanings, &marks);
    });
    Aim { large: count == 64, ..aim }
}

/// The same entries as they stand there, and one more in one of the bundles.
fn one_more(side: Side) -> DifferencesAim {
    let name = format!("one more in {}", side.name());
    Aim::new(ONLY_IN, side_number(side), &name, move |draft: &mut Draft, random| {
        draft.left.rows.truncate(60);
        draft.left.count = draft.left.rows.len() as u64;
        draft.alike(random);
        let (id, image) = (ids::own(random, ids::KINDS), some_image(random));
        let bundle = draft.side(side);
        let at = bundle.rows.len();
        bundle.rows.extend(bundles::Draft::of(random, &[(ids::meaning_of(id.as_bytes()), Vec::new())]).rows);
        bundle.count += 1;
        bundle.put_image_of(random, at, &image);
    })
}

const FEW: &[usize] = &[1, 2, 8, 9, 10, 11, 63, 64];

/// So many IDs, all with one letter.
fn all_alike(count: usize, letter: char) -> DifferencesAim {
    let lines = if letter == THE_SAME { 0 } else { count as u64 };
    let aim = Aim::new(LINES, lines, &format!("{count} times {letter:?}"), move |draft: &mut Draft, random| {
        let meanings = some_meanings(random, count);
        draft.mark(random, &meanings, &String::from(letter).repeat(count));
    });
    Aim { large: count >= 63, ..aim }
}

/// More than either bundle has entries.
const MANY_LINES: &[usize] = &[65, 98, 99, 100, 101, 126, 127, 128];

/// So many lines, some in each bundle alone and the others in both, in any order.
fn many_lines(count: usize) -> DifferencesAim {
    let aim = Aim::new(LINES, count as u64, &format!("{count} lines"), move |draft: &mut Draft, random| {
        let different = random.between(0, 128 - count);
        let left = random.between(count - 64, 64 - different);
        let right = count - different - left;
        let letters = [(IN_LEFT, left), (IN_RIGHT, right), (DIFFERENT, different)];
        let mut marks: Vec<char> = letters.iter().flat_map(|(letter, count)| vec![*letter; *count]).collect();
        random.shuffle(&mut marks);
        let meanings = some_meanings(random, count);
        draft.mark(random, &meanings, &marks.into_iter().collect::<String>());
    });
    aim.large()
}

/// How long the report is, and what it says of IDs of 256 bytes.
type Longest = (&'static str, u64, fn(&mut Random) -> String);

const LONGEST: &[Longest] = &[
    ("64 in left, then 64 in right", REPORT_LIMIT as u64, |_| ["L".repeat(64), "R".repeat(64)].concat()),
    ("64 in right, then 64 in left", REPORT_LIMIT as u64, |_| ["R".repeat(64), "L".repeat(64)].concat()),
    ("64 in left and 64 in right, in turns", REPORT_LIMIT as u64, |_| "LR".repeat(64)),
    ("64 in left and 64 in right, in any order", REPORT_LIMIT as u64, |random| {
        let mut marks: Vec<char> = "LR".repeat(64).chars().collect();
        random.shuffle(&mut marks);
        marks.into_iter().collect()
    }),
    ("64 in left and 63 in right", REPORT_LIMIT as u64 - 259, |_| ["L", &"RL".repeat(63)].concat()),
    ("64 in left alone", 64 * 259 + 15, |_| "L".repeat(64)),
    ("64 in right alone", 64 * 259 + 15, |_| "R".repeat(64)),
    ("64 in both that are the same", 14, |_| "=".repeat(64)),
];

fn longest_report((name, length, marks): Longest) -> DifferencesAim {
    let aim = Aim::new(LENGTH_OF_REPORT, length, &format!("longest IDs: {name}"), move |draft: &mut Draft, random| {
        let marks = marks(random);
        let meanings = longest_meanings(random, marks.len());
        draft.mark(random, &meanings, &marks);
    });
    aim.large()
}

/// Meanings with canonical IDs of 256 bytes, in their order: they differ in the last bytes alone, or anywhere.
fn longest_meanings(random: &mut Random, count: usize) -> Vec<Meaning> {
    let alike = random.one_in(2);
    let front = some_letters(random);
    let id = |random: &mut Random, k: usize| {
        let front = if alike { front.clone() } else { some_letters(random) };
        format!("hip-a-b-c--gfx{front}{k:03}")
    };
    let mut ids: Vec<String> = (0..count).map(|k| id(random, k)).collect();
    ids.sort_unstable();
    ids.iter().map(|id| ids::meaning_of(id.as_bytes())).collect()
}

fn some_letters(random: &mut Random) -> String {
    (0..239).map(|_| *random.choose(&['a', 'b', 'Z', '_', '.', '0'])).collect()
}

/// All 64 images differ at a byte far behind, and all IDs have 256 bytes.
fn unlike() -> DifferencesAim {
    let length = 64 * (2 + 256 + 1 + 5 + 1) + 15;
    let aim = Aim::new(LENGTH_OF_REPORT, length, "longest IDs: 64 that differ", |draft: &mut Draft, random| {
        let mut image = random.bytes(10_001);
        let meanings = longest_meanings(random, 64);
        let mut made = |image: &[u8]| {
            let entries: Vec<(Meaning, Vec<u8>)> =
                meanings.iter().map(|meaning| (meaning.clone(), image.to_vec())).collect();
            bundles::Draft::of(random, &entries)
        };
        draft.left = made(&image);
        image[10_000] ^= 1;
        draft.right = made(&image);
    });
    aim.large()
}
