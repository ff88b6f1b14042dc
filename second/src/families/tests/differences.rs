//! Comparing two bundles: libraries with a slip.

use super::*;
use crate::calls::{Check, Compare, DifferencesCalls, Normalise, MODEL_DIFFERENCES};
use crate::families::differences::Differences;
use crate::gen::bundles::REFUSALS;
use crate::gen::differences::REPORT_LIMIT;
use crate::model::differences::{
    compare, compared, first_difference, lines, read, report, texts, write_report, Images, Line, Mark, Read, Side,
    COMPARE_LIMIT,
};
use crate::model::id::Reading::Profile;
use crate::model::id::{meaning_by, Sign};
use std::collections::BTreeMap;

#[test]
fn differences_meet_every_line_in_any_run_and_nearly_each_time() {
    meets_every_line_in_any_run(Differences::new(MODEL_DIFFERENCES));
}

#[test]
fn most_of_the_generated_bundles_are_compared_and_each_is_refused_often() {
    let mut family = Differences::new(MODEL_DIFFERENCES);
    run_generated(&mut family, 6000).unwrap();
    let [all, left, right] = [0, 1, 2].map(|tally| family.report().tallies[tally].seen);
    assert!(all[OK as usize] > 4000, "{all:?}");
    for number in REFUSALS {
        assert!([left, right].iter().all(|seen| seen[*number as usize] > 10), "{number}: {left:?}, {right:?}");
    }
}

type Slips = &'static [(&'static str, Compare)];

/// Libraries that take these steps.
macro_rules! slips {
    ($library:ident: $(($name:literal, $($step:expr),+),)*) => {
        &[$(($name, |left, right, out| $library(left, right, out, $($step),+)),)*]
    };
}

/// The same slip with the left bundle, with the right one, and with both.
macro_rules! each_side {
    ($library:ident: $(($name:literal, $step:expr),)*) => {
        &[$(
            (concat!("left: ", $name), |left, right, out| $library(left, right, out, [Some($step), None])),
            (concat!("right: ", $name), |left, right, out| $library(left, right, out, [None, Some($step)])),
            (concat!("both: ", $name), |left, right, out| $library(left, right, out, [Some($step), Some($step)])),
        )*]
    };
}

/// What a library reads of a bundle.
type Reader = for<'a> fn(&'a [u8]) -> Read<'a>;

/// Bundles that are read by steps of their own.
fn reading(left: &[u8], right: &[u8], out: &mut [u8], readers: [Option<Reader>; 2]) -> u64 {
    let [left, right] =
        [(left, readers[0]), (right, readers[1])].map(|(bundle, reader)| reader.unwrap_or(read)(bundle));
    write_report(&report(&compared(&left, &right)), out)
}

/// A bundle whose IDs have another form.
fn named<'a>(bundle: &'a [u8], form: fn(&Entry) -> Vec<u8>) -> Read<'a> {
    read(bundle)?;
    Ok(entries(General, bundle).unwrap().iter().map(|entry| (form(entry), entry.image)).collect())
}

/// A bundle whose meanings are others.
fn meant<'a>(bundle: &'a [u8], change: fn(&mut Meaning)) -> Read<'a> {
    read(bundle)?;
    let form = |entry: &Entry| {
        let mut meaning = entry.meaning.clone();
        change(&mut meaning);
        canonical(&meaning)
    };
    Ok(entries(General, bundle).unwrap().iter().map(|entry| (form(entry), entry.image)).collect())
}

/// The features of an ID as they are spelled.
fn stated<'a>(entry: &Entry<'a>) -> &'a [u8] {
    let colon = entry.id.iter().position(|byte| *byte == b':');
    &entry.id[colon.unwrap_or(entry.id.len())..]
}

fn without_features(meaning: &Meaning) -> Vec<u8> {
    canonical(&Meaning { features: BTreeMap::new(), ..meaning.clone() })
}

const NAME_SLIPS: Slips = each_side![reading:
    ("IDs as spelled", |bundle| named(bundle, |entry| entry.id.to_vec())),
    ("features as spelled", |bundle| {
        named(bundle, |entry| [&without_features(&entry.meaning)[..], stated(entry)].concat())
    }),
    ("no features", |bundle| named(bundle, |entry| without_features(&entry.meaning))),
    ("no hyphen at the end", |bundle| named(bundle, |entry| {
        let form = canonical(&entry.meaning);
        let length = form.iter().rposition(|byte| *byte != b'-').map_or(0, |last| last + 1);
        form[..length].to_vec()
    })),
    ("small letters", |bundle| named(bundle, |entry| canonical(&entry.meaning).to_ascii_lowercase())),
    ("255 bytes of an ID", |bundle| named(bundle, |entry| canonical(&entry.meaning).into_iter().take(255).collect())),
    ("16 bytes of an ID", |bundle| named(bundle, |entry| canonical(&entry.meaning).into_iter().take(16).collect())),
    ("hip for hipv4", |bundle| meant(bundle, |meaning| meaning.kind = compared_kind(&meaning.kind).to_vec().into())),
    ("hipv4 for hip", |bundle| meant(bundle, |meaning| {
        if meaning.kind[..] == *b"hip" {
            meaning.kind = b"hipv4"[..].into();
        }
    })),
    ("no kind", |bundle| meant(bundle, |meaning| meaning.kind = b"hip"[..].into())),
    ("no environment", |bundle| meant(bundle, |meaning| meaning.environment = b""[..].into())),
    ("signs all on", |bundle| meant(bundle, |meaning| {
        meaning.features.values_mut().for_each(|sign| *sign = Sign::On);
    })),
    ("primary names", |bundle| named(bundle, |entry| {
        canonical(&meaning_by(Profile, entry.id).unwrap_or_else(|| entry.meaning.clone()))
    })),
    ("IDs by the profile", |bundle| {
        read(bundle)?;
        let entries = entries(Profile, bundle).map_err(|refusal| refusal.number)?;
        Ok(entries.iter().map(|entry| (canonical(&entry.meaning), entry.image)).collect())
    }),
];

/// A bundle whose images are others.
fn imaged(bundle: &[u8], change: for<'a> fn(&'a [u8]) -> &'a [u8]) -> Read<'_> {
    Ok(read(bundle)?.into_iter().map(|(id, image)| (id, change(image))).collect())
}

/// A bundle of which only some entries are read.
fn chosen(bundle: &[u8], is_read: fn(usize, &Entry) -> bool) -> Read<'_> {
    read(bundle)?;
    let entries = entries(General, bundle).unwrap();
    let held = entries.iter().enumerate().filter(|(at, entry)| is_read(*at, entry));
    Ok(held.map(|(_, entry)| (canonical(&entry.meaning), entry.image)).collect())
}

fn up_to(image: &[u8], length: usize) -> &[u8] {
    &image[..image.len().min(length)]
}

const IMAGE_SLIPS: Slips = each_side![reading:
    ("an empty image is no entry", |bundle| chosen(bundle, |_, entry| !entry.image.is_empty())),
    ("63 entries", |bundle| chosen(bundle, |at, _| at < 63)),
    ("no first entry", |bundle| chosen(bundle, |at, _| at > 0)),
    ("an image up to a zero byte", |bundle| imaged(bundle, |image| {
        up_to(image, image.iter().position(|byte| *byte == 0).unwrap_or(image.len()))
    })),
    ("no zero bytes at the end", |bundle| imaged(bundle, |image| {
        up_to(image, image.iter().rposition(|byte| *byte != 0).map_or(0, |last| last + 1))
    })),
    ("256 bytes of an image", |bundle| imaged(bundle, |image| up_to(image, 256))),
    ("4096 bytes of an image", |bundle| imaged(bundle, |image| up_to(image, 4096))),
    ("30,000 bytes of an image", |bundle| imaged(bundle, |image| up_to(image, 30_000))),
    ("an image one byte short", |bundle| imaged(bundle, |image| up_to(image, image.len().saturating_sub(1)))),
    ("an image up to a multiple of 8", |bundle| imaged(bundle, |image| up_to(image, image.len() / 8 * 8))),
    ("an image without its first byte", |bundle| imaged(bundle, |image| image.get(1..).unwrap_or(image))),
];

/// The number of the check, and no limit of 32 KiB.
fn unlimited(bundle: &[u8]) -> Read<'_> {
    let entries = entries(General, bundle).map_err(|refusal| refusal.number)?;
    Ok(entries.iter().map(|entry| (canonical(&entry.meaning), entry.image)).collect())
}

/// Another number where the bundle is refused.
fn renumbered(bundle: &[u8], change: fn(u64) -> u64) -> Read<'_> {
    read(bundle).map_err(change)
}

const LIMIT_SLIPS: Slips = each_side![reading:
    ("32,768 refused", |bundle| if bundle.len() == COMPARE_LIMIT { Err(LENGTH) } else { read(bundle) }),
    ("32,769 accepted", |bundle| if bundle.len() == COMPARE_LIMIT + 1 { unlimited(bundle) } else { read(bundle) }),
    ("32,000 for 32 KiB", |bundle| if bundle.len() > 32_000 { Err(LENGTH) } else { read(bundle) }),
    ("no limit of 32 KiB", unlimited),
    ("a limit of 64 KiB", |bundle| if bundle.len() < 65_536 { unlimited(bundle) } else { read(bundle) }),
    ("a length in 16 bits", |bundle| {
        if bundle.len() % 65_536 <= COMPARE_LIMIT { unlimited(bundle) } else { read(bundle) }
    }),
    ("32 KiB after all else", |bundle| {
        unlimited(bundle).and_then(|images| if bundle.len() > COMPARE_LIMIT { Err(LENGTH) } else { Ok(images) })
    }),
    ("the first 32 KiB", |bundle| read(&bundle[..bundle.len().min(COMPARE_LIMIT)])),
    ("11 for 1", |bundle| renumbered(bundle, |number| if number == LENGTH { BIG } else { number })),
    ("12 for 1", |bundle| renumbered(bundle, |number| if number == LENGTH { ROOM } else { number })),
    ("1 for 2", |bundle| renumbered(bundle, |number| if number == MAGIC { LENGTH } else { number })),
    ("6 for 21", |bundle| renumbered(bundle, |number| if number == OVERLAP { RANGE } else { number })),
    ("1 for 21", |bundle| renumbered(bundle, |number| if number == OVERLAP { 1 } else { number })),
    ("7 for 8", |bundle| renumbered(bundle, |number| if number == MIXED { TWICE } else { number })),
    ("5 for 4", |bundle| renumbered(bundle, |number| if number == TABLE { ID } else { number })),
];

/// A bundle that is refused by this number has no entries.
fn without<const NUMBER: u64>(bundle: &[u8]) -> Read<'_> {
    match read(bundle) {
        Err(number) if number == NUMBER => Ok(Images::new()),
        read => read,
    }
}

const NUMBER_SLIPS: Slips = each_side![reading:
    ("no 1", without::<LENGTH>),
    ("no 2", without::<MAGIC>),
    ("no 3", without::<COUNT>),
    ("no 4", without::<TABLE>),
    ("no 5", without::<ID>),
    ("no 6", without::<RANGE>),
    ("no 21", without::<OVERLAP>),
    ("no 7", without::<TWICE>),
    ("no 8", without::<MIXED>),
    ("no bytes accepted", |bundle| if bundle.is_empty() { Ok(Images::new()) } else { read(bundle) }),
];

/// What a library has read that refuses neither bundle.
struct Given<'a> {
    left: Images<'a>,
    right: Images<'a>,
    /// Canonical IDs as they stand in the bundles, first those of left.
    stored: Vec<Vec<u8>>,
    /// Spelled IDs by their canonical ones.
    spelled: BTreeMap<Vec<u8>, &'a [u8]>,
}

impl<'a> Given<'a> {
    /// Nothing where a bundle is refused.
    fn of(left: &'a [u8], right: &'a [u8]) -> Option<Given<'a>> {
        let (in_left, in_right) = (read(left).ok()?, read(right).ok()?);
        let all: Vec<Entry> = [left, right].iter().flat_map(|bundle| entries(General, bundle).unwrap()).collect();
        let stored = all.iter().map(|entry| canonical(&entry.meaning)).collect();
        let spelled = all.iter().map(|entry| (canonical(&entry.meaning), entry.id)).collect();
        Some(Given { left: in_left, right: in_right, stored, spelled })
    }

    fn lawful(&self) -> Vec<Line> {
        lines(&self.left, &self.right)
    }

    /// The lawful lines, in another order.
    fn sorted<K: Ord>(&self, key: impl Fn(&Line) -> K) -> Vec<Line> {
        let mut lines = self.lawful();
        lines.sort_by_key(key);
        lines
    }

    /// A byte for each ID of both bundles.
    fn differing(&self, at: impl Fn(&[u8], &[u8]) -> Option<u64>) -> Vec<Line> {
        let mut lines = self.lawful();
        lines.retain(|(_, mark)| matches!(mark, Mark::Only(_)));
        for (id, left) in &self.left {
            let n = self.right.get(id).and_then(|right| at(left, right));
            lines.extend(n.map(|n| (id.clone(), Mark::At(n))));
        }
        lines.sort_by(|one, other| one.0.cmp(&other.0));
        lines
    }

    /// Another n where images differ.
    fn n(&self, change: impl Fn(u64, &[u8], &[u8]) -> u64) -> Vec<Line> {
        self.differing(|left, right| first_difference(left, right).map(|n| change(n, left, right)))
    }
}

/// Other lines, where neither bundle is refused.
fn lining(left: &[u8], right: &[u8], out: &mut [u8], make: fn(&Given) -> Vec<Line>) -> u64 {
    match Given::of(left, right) {
        None => compare(left, right, out),
        Some(given) => write_report(&report(&Ok(make(&given))), out),
    }
}

/// The last byte that is not the same in both, of those that both have.
fn last_difference(left: &[u8], right: &[u8]) -> Option<u64> {
    (0..left.len().min(right.len())).rev().find(|n| left[*n] != right[*n]).map(|n| n as u64)
}

fn shorter(left: &[u8], right: &[u8]) -> u64 {
    left.len().min(right.len()) as u64
}

fn longer(left: &[u8], right: &[u8]) -> u64 {
    left.len().max(right.len()) as u64
}

const N_SLIPS: Slips = slips![lining:
    ("n from 1", |given| given.n(|n, _, _| n + 1)),
    ("n the longer length", |given| {
        given.n(|n, left, right| if n == shorter(left, right) { longer(left, right) } else { n })
    }),
    ("n the last byte that differs", |given| given.n(|n, left, right| last_difference(left, right).unwrap_or(n))),
    ("n the shorter length of other lengths", |given| {
        given.n(|n, left, right| if left.len() == right.len() { n } else { shorter(left, right) })
    }),
    ("n 0 of other lengths", |given| given.n(|n, left, right| if left.len() == right.len() { n } else { 0 })),
    ("n the bytes more", |given| {
        given.n(|n, left, right| if n == shorter(left, right) { longer(left, right) - n } else { n })
    }),
    ("n the last byte of the shorter", |given| {
        given.n(|n, left, right| if n == shorter(left, right) { n.saturating_sub(1) } else { n })
    }),
    ("n how many bytes differ", |given| {
        given.n(|_, left, right| left.iter().zip(right).filter(|(left, right)| left != right).count() as u64)
    }),
    ("n in 8 bits", |given| given.n(|n, _, _| n as u8 as u64)),
    ("n in 12 bits", |given| given.n(|n, _, _| n % 4096)),
    ("n in 14 bits", |given| given.n(|n, _, _| n % 16_384)),
    ("n 9999 at most", |given| given.n(|n, _, _| n.min(9999))),
    ("n 32,700 at most", |given| given.n(|n, _, _| n.min(32_700))),
    ("n a multiple of 8", |given| given.n(|n, _, _| n / 8 * 8)),
    ("n a multiple of 16 above 15", |given| given.n(|n, _, _| if n < 16 { n } else { n / 16 * 16 })),
    ("n always 0", |given| given.n(|_, _, _| 0)),
    ("n from the end", |given| given.n(|n, left, _| (left.len() as u64).saturating_sub(n))),
    ("images from the end", |given| given.differing(|left, right| {
        let [left, right] = [left, right].map(|image| image.iter().rev().copied().collect::<Vec<u8>>());
        first_difference(&left, &right)
    })),
    ("images that begin alike are the same", |given| given.differing(|left, right| {
        first_difference(left, right).filter(|n| *n != shorter(left, right))
    })),
    ("left begins with right: the same", |given| given.differing(|left, right| {
        first_difference(left, right).filter(|_| !left.starts_with(right))
    })),
    ("right begins with left: the same", |given| given.differing(|left, right| {
        first_difference(left, right).filter(|_| !right.starts_with(left))
    })),
    ("an empty image is like any", |given| given.differing(|left, right| {
        first_difference(left, right).filter(|_| !left.is_empty() && !right.is_empty())
    })),
    ("lengths alone", |given| given.differing(|left, right| {
        first_difference(left, right).filter(|_| left.len() != right.len())
    })),
    ("no first byte", |given| given.differing(|left, right| first_difference(left, right).filter(|n| *n != 0))),
    ("no last byte", |given| given.differing(|left, right| {
        first_difference(left, right).filter(|n| left.len() != right.len() || *n + 1 != longer(left, right))
    })),
    ("seven bits of a byte", |given| given.differing(|left, right| {
        let [left, right] = [left, right].map(|image| image.iter().map(|byte| byte & 0x7f).collect::<Vec<u8>>());
        first_difference(&left, &right)
    })),
    ("equal images listed", |given| given.differing(|left, right| {
        Some(first_difference(left, right).unwrap_or(left.len() as u64))
    })),
    ("equal empty images listed", |given| given.differing(|left, right| {
        first_difference(left, right).or_else(|| left.is_empty().then_some(0))
    })),
];

fn is_at(line: &Line) -> bool {
    matches!(line.1, Mark::At(_))
}

fn exchanged(mark: Mark) -> Mark {
    match mark {
        Mark::Only(side) => Mark::Only(side.other()),
        at => at,
    }
}

/// The place of an ID in the bundles.
fn place(given: &Given, (id, _): &Line) -> Option<usize> {
    given.stored.iter().position(|stored| stored == id)
}

/// Only lines for which this holds.
fn kept(given: &Given, holds: impl Fn(&Line) -> bool) -> Vec<Line> {
    given.lawful().into_iter().filter(holds).collect()
}

/// In the order of the first bytes of IDs, and where these are the same as they stand in the bundles.
fn by_start(given: &Given, length: usize) -> Vec<Line> {
    given.sorted(|line| (line.0.iter().take(length).copied().collect::<Vec<u8>>(), place(given, line)))
}

/// The bytes of an ID, some of which stand for others.
fn as_bytes(id: &[u8], change: fn(u8) -> u8) -> Vec<u8> {
    id.iter().map(|byte| change(*byte)).collect()
}

const LINE_SLIPS: Slips = slips![lining:
    ("L and R exchanged", |given| given.lawful().into_iter().map(|(id, mark)| (id, exchanged(mark))).collect()),
    ("L for R", |given| given.lawful().into_iter().map(|(id, mark)| match mark {
        Mark::Only(_) => (id, Mark::Only(Side::Left)),
        at => (id, at),
    }).collect()),
    ("no L", |given| kept(given, |line| line.1 != Mark::Only(Side::Left))),
    ("no R", |given| kept(given, |line| line.1 != Mark::Only(Side::Right))),
    ("no D", |given| kept(given, |line| !is_at(line))),
    ("L and R for D", |given| given.lawful().into_iter().flat_map(|(id, mark)| match mark {
        Mark::At(_) => Side::BOTH.map(|side| (id.clone(), Mark::Only(side))).to_vec(),
        only => vec![(id, only)],
    }).collect()),
    ("hipv4 beside hip left out", |given| kept(given, |(id, _)| {
        let respelled = [&b"hip"[..], id.get(5..).unwrap_or_default()].concat();
        !(id.starts_with(b"hipv4-") && (given.left.contains_key(&respelled) || given.right.contains_key(&respelled)))
    })),
    ("falling order", |given| given.lawful().into_iter().rev().collect()),
    ("as stored", |given| given.sorted(|line| place(given, line))),
    ("as spelled", |given| given.sorted(|line| given.spelled[&line.0])),
    ("L, then R, then D", |given| given.sorted(|line| match line.1 {
        Mark::Only(side) => side as u64,
        Mark::At(_) => 2,
    })),
    ("D first", |given| given.sorted(|line| !is_at(line))),
    ("D last", |given| given.sorted(is_at)),
    ("left's IDs, then right's", |given| given.sorted(|line| line.1 == Mark::Only(Side::Right))),
    ("right's IDs, then left's", |given| given.sorted(|line| line.1 == Mark::Only(Side::Left))),
    ("by n", |given| given.sorted(|line| match line.1 {
        Mark::At(n) => n + 1,
        _ => 0,
    })),
    ("shorter IDs first", |given| given.sorted(|line| line.0.len())),
    ("a prefix last", |given| given.sorted(|line| [&line.0[..], &[255]].concat())),
    ("letters of any size", |given| given.sorted(|line| line.0.to_ascii_lowercase())),
    ("- behind all others", |given| {
        given.sorted(|line| as_bytes(&line.0, |byte| if byte == b'-' { 255 } else { byte }))
    }),
    (": before -", |given| given.sorted(|line| as_bytes(&line.0, |byte| if byte == b':' { 1 } else { byte }))),
    ("_ before letters", |given| given.sorted(|line| as_bytes(&line.0, |byte| if byte == b'_' { 1 } else { byte }))),
    ("by fields", |given| {
        given.sorted(|line| line.0.split(|byte| *byte == b'-').map(<[u8]>::to_vec).collect::<Vec<_>>())
    }),
    ("by the first 16 bytes", |given| by_start(given, 16)),
    ("by the first 240 bytes", |given| by_start(given, 240)),
    ("by the first 255 bytes", |given| by_start(given, 255)),
    ("by value of digits", |given| given.sorted(|line| {
        let digits: String = line.0.iter().filter(|byte| byte.is_ascii_digit()).map(|byte| *byte as char).collect();
        (line.0.iter().filter(|byte| !byte.is_ascii_digit()).copied().collect::<Vec<u8>>(), digits.len(), digits)
    })),
    ("the first line alone", |given| given.lawful().into_iter().take(1).collect()),
    ("64 lines at most", |given| given.lawful().into_iter().take(64).collect()),
    ("127 lines at most", |given| given.lawful().into_iter().take(127).collect()),
    ("no last line but one", |given| {
        let mut lines = given.lawful();
        lines.pop();
        lines
    }),
    ("nothing where one has no entries", |given| match given.left.is_empty() || given.right.is_empty() {
        true => Vec::new(),
        false => given.lawful(),
    }),
    ("nothing behind the last ID of left", |given| {
        let last = given.left.keys().next_back().cloned().unwrap_or_default();
        kept(given, |line| line.0 <= last)
    }),
    ("nothing behind the last ID of right", |given| {
        let last = given.right.keys().next_back().cloned().unwrap_or_default();
        kept(given, |line| line.0 <= last)
    }),
    ("nothing before the first ID of both", |given| {
        let first = given.left.keys().find(|id| given.right.contains_key(*id)).cloned().unwrap_or_default();
        kept(given, |line| line.0 >= first)
    }),
];

/// The lines of a report.
type Lines = Vec<Vec<u8>>;

/// Other bytes for the lines of a report.
fn texting(left: &[u8], right: &[u8], out: &mut [u8], change: fn(Lines) -> Vec<u8>) -> u64 {
    write_report(&change(texts(&compared(&read(left), &read(right)))), out)
}

/// The lines, each with these bytes at its end.
fn ended(lines: Lines, end: &[u8]) -> Vec<u8> {
    lines.iter().flat_map(|line| [line, end].concat()).collect()
}

/// Another line for each, from its words.
fn worded(lines: Lines, change: fn(Vec<String>) -> String) -> Vec<u8> {
    let line = |line: &Vec<u8>| {
        let line = String::from_utf8(line.clone()).unwrap();
        change(line.split(' ').map(str::to_string).collect()).into_bytes()
    };
    ended(lines.iter().map(line).collect(), b"\n")
}

/// Another last word of lines that begin with this one.
fn last_word(lines: Lines, first: &str, change: fn(&str) -> String) -> Vec<u8> {
    let line = |line: &Vec<u8>| {
        let line = String::from_utf8(line.clone()).unwrap();
        let (front, last) = line.rsplit_once(' ').unwrap();
        match front.split(' ').next() == Some(first) {
            true => format!("{front} {}", change(last)).into_bytes(),
            false => line.into_bytes(),
        }
    };
    ended(lines.iter().map(line).collect(), b"\n")
}

fn number(text: &str) -> u64 {
    text.parse().unwrap()
}

const TEXT_SLIPS: Slips = slips![texting:
    ("no newline at the end", |lines| lines.join(&b'\n')),
    ("a newline before each line", |lines| lines.iter().flat_map(|line| [&b"\n"[..], line].concat()).collect()),
    ("two newlines at the end", |lines| [ended(lines, b"\n"), vec![b'\n']].concat()),
    ("a newline and a carriage return", |lines| ended(lines, b"\r\n")),
    ("a zero byte for a newline", |lines| ended(lines, b"\0")),
    ("a zero byte at the end", |lines| [ended(lines, b"\n"), vec![0]].concat()),
    ("a space at the end", |lines| ended(lines, b" \n")),
    ("no newlines", |lines| ended(lines, b"")),
    ("no last line", |lines| ended(lines[..lines.len() - 1].to_vec(), b"\n")),
    ("no last line where nothing differs", |lines| match &lines[..] {
        [line] if line == b"differences 0" => Vec::new(),
        _ => ended(lines, b"\n"),
    }),
    ("the last line first", |mut lines| {
        lines.rotate_right(1);
        ended(lines, b"\n")
    }),
    ("the last line alone", |lines| ended(lines[lines.len() - 1..].to_vec(), b"\n")),
    ("an empty line before the last", |mut lines| {
        lines.insert(lines.len() - 1, Vec::new());
        ended(lines, b"\n")
    }),
    ("two spaces", |lines| worded(lines, |words| words.join("  "))),
    ("tabs", |lines| worded(lines, |words| words.join("\t"))),
    ("a colon", |lines| worded(lines, |words| format!("{}: {}", words[0], words[1..].join(" ")))),
    ("small letters", |lines| worded(lines, |words| match words[0].len() {
        1 => format!("{} {}", words[0].to_lowercase(), words[1..].join(" ")),
        _ => words.join(" "),
    })),
    ("capital letters", |lines| worded(lines, |words| match words[0].len() {
        1 => words.join(" "),
        _ => words.join(" ").to_uppercase(),
    })),
    ("D n id", |lines| worded(lines, |mut words| {
        if words[0] == "D" {
            words.swap(1, 2);
        }
        words.join(" ")
    })),
    ("D with no n", |lines| worded(lines, |mut words| {
        if words[0] == "D" {
            words.pop();
        }
        words.join(" ")
    })),
    ("difference for one", |lines| worded(lines, |words| match (&words[0][..], &words[1][..]) {
        ("differences", "1") => "difference 1".to_string(),
        _ => words.join(" "),
    })),
    ("left and right as 1 and 2", |lines| worded(lines, |words| {
        words.join(" ").replace("refused left", "refused 1").replace("refused right", "refused 2")
    })),
    ("differences 0 behind a refusal", |lines| worded(lines, |words| match &words[0][..] {
        "refused" => [words.join(" "), "differences 0".to_string()].join("\n"),
        _ => words.join(" "),
    })),
    ("n with a zero in front", |lines| last_word(lines, "D", |n| format!("{n:0>2}"))),
    ("n in base 16", |lines| last_word(lines, "D", |n| format!("{:x}", number(n)))),
    ("n of one digit", |lines| last_word(lines, "D", |n| n[..1].to_string())),
    ("n of two digits", |lines| last_word(lines, "D", |n| n.chars().take(2).collect())),
    ("n of four digits", |lines| last_word(lines, "D", |n| n.chars().take(4).collect())),
    ("n backwards", |lines| last_word(lines, "D", |n| n.chars().rev().collect())),
    ("no digit for 0", |lines| last_word(lines, "D", |n| n.trim_start_matches('0').to_string())),
    ("N one more", |lines| last_word(lines, "differences", |n| (number(n) + 1).to_string())),
    ("N 0 or 1", |lines| last_word(lines, "differences", |n| number(n).min(1).to_string())),
    ("N 64 at most", |lines| last_word(lines, "differences", |n| number(n).min(64).to_string())),
    ("N 99 at most", |lines| last_word(lines, "differences", |n| number(n).min(99).to_string())),
    ("N 127 at most", |lines| last_word(lines, "differences", |n| number(n).min(127).to_string())),
    ("N in two digits", |lines| last_word(lines, "differences", |n| format!("{n:0>2}"))),
    ("N of one digit", |lines| last_word(lines, "differences", |n| n[n.len() - 1..].to_string())),
    ("N in base 16", |lines| last_word(lines, "differences", |n| format!("{:x}", number(n)))),
    ("the number of a refusal in two digits", |lines| last_word(lines, "refused", |n| format!("{n:0>2}"))),
    ("the number of a refusal in one digit", |lines| last_word(lines, "refused", |n| n[..1].to_string())),
];

/// Another N, from the lines before the last.
fn counting(left: &[u8], right: &[u8], out: &mut [u8], count: fn(&Given) -> usize) -> u64 {
    match Given::of(left, right) {
        None => compare(left, right, out),
        Some(given) => {
            let mut lines = texts(&Ok(given.lawful()));
            lines.pop();
            lines.push(format!("differences {}", count(&given)).into_bytes());
            write_report(&ended(lines, b"\n"), out)
        }
    }
}

const N_OF_LINES_SLIPS: Slips = slips![counting:
    ("N of D", |given| given.lawful().iter().filter(|line| is_at(line)).count()),
    ("N of L and R", |given| given.lawful().iter().filter(|line| !is_at(line)).count()),
    ("N of D twice", |given| given.lawful().len() + given.lawful().iter().filter(|line| is_at(line)).count()),
    ("N of all IDs", |given| given.left.len() + given.right.keys().filter(|id| !given.left.contains_key(*id)).count()),
    ("N of the lines with the last", |given| given.lawful().len() + 1),
    ("N of entries more", |given| given.left.len().max(given.right.len()) - given.left.len().min(given.right.len())),
    ("N of the same", |given| given.left.keys().filter(|id| given.right.contains_key(*id)).count()),
];

/// Another report where a bundle is refused, from what refuses each.
fn refusing(left: &[u8], right: &[u8], out: &mut [u8], make: fn([u64; 2]) -> String) -> u64 {
    match [left, right].map(|bundle| read(bundle).err().unwrap_or(OK)) {
        [OK, OK] => compare(left, right, out),
        refused => write_report(make(refused).as_bytes(), out),
    }
}

fn of_left(number: u64) -> String {
    format!("refused left {number}\n")
}

fn of_right(number: u64) -> String {
    format!("refused right {number}\n")
}

/// The report on a bundle that is refused alone.
fn alone([left, right]: [u64; 2]) -> String {
    if left == OK {
        return of_right(right);
    }
    of_left(left)
}

const REFUSAL_SLIPS: Slips = slips![refusing:
    ("right's line of two", |[left, right]| if right == OK { of_left(left) } else { of_right(right) }),
    ("both lines of two", |refused| match refused {
        [OK, _] | [_, OK] => alone(refused),
        [left, right] => of_left(left) + &of_right(right),
    }),
    ("right's number of two", |refused| match refused {
        [OK, _] | [_, OK] => alone(refused),
        [_, right] => of_left(right),
    }),
    ("the lower number of two", |refused| match refused {
        [OK, _] | [_, OK] => alone(refused),
        [left, right] if right < left => of_right(right),
        [left, _] => of_left(left),
    }),
    ("the higher number of two", |refused| match refused {
        [OK, _] | [_, OK] => alone(refused),
        [left, right] if right > left => of_right(right),
        [left, _] => of_left(left),
    }),
    ("right's length before left's other numbers", |refused| match refused {
        [OK, LENGTH] => of_right(LENGTH),
        [left, LENGTH] if left != LENGTH => of_right(LENGTH),
        _ => alone(refused),
    }),
    ("no refusal of two", |refused| match refused {
        [OK, _] | [_, OK] => alone(refused),
        _ => "differences 0\n".to_string(),
    }),
    ("left named for right", |[left, right]| of_left(if left == OK { right } else { left })),
    ("right named for left", |[left, right]| of_right(if left == OK { right } else { left })),
    ("no bundle named", |refused| alone(refused).replace(" left", "").replace(" right", "")),
    ("nothing", |_| String::new()),
    ("the number alone", |[left, right]| format!("{}\n", if left == OK { right } else { left })),
    ("the other's number", |[left, right]| if left == OK { of_right(left) } else { of_left(right) }),
];

/// Another way to write a report.
fn writing(left: &[u8], right: &[u8], out: &mut [u8], write: fn(&[u8], &mut [u8]) -> u64) -> u64 {
    write(&report(&compared(&read(left), &read(right))), out)
}

/// As many of these bytes as fit. How many.
fn fitting(bytes: &[u8], out: &mut [u8]) -> usize {
    let length = bytes.len().min(out.len());
    out[..length].copy_from_slice(&bytes[..length]);
    length
}

/// How many bytes the lines have that fit whole.
fn whole_lines(report: &[u8], room: usize) -> usize {
    report[..report.len().min(room)].iter().rposition(|byte| *byte == b'\n').map_or(0, |last| last + 1)
}

const WRITING_SLIPS: Slips = slips![writing:
    ("as many bytes as fit", |report, out| {
        fitting(report, out);
        report.len() as u64
    }),
    ("as many lines as fit", |report, out| {
        fitting(&report[..whole_lines(report, out.len())], out);
        report.len() as u64
    }),
    ("the last line where the others do not fit", |report, out| {
        if out.len() < report.len() {
            let front = report[..report.len() - 1].iter().rposition(|byte| *byte == b'\n').map_or(0, |last| last + 1);
            write_report(&report[front..], out);
        }
        write_report(report, out)
    }),
    ("the length that is written", |report, out| fitting(report, out) as u64),
    ("0 where it does not fit", |report, out| match out.len() < report.len() {
        true => 0,
        false => write_report(report, out),
    }),
    ("the room where it does not fit", |report, out| write_report(report, out).min(out.len() as u64)),
    ("12 where it does not fit", |report, out| match out.len() < report.len() {
        true => ROOM,
        false => write_report(report, out),
    }),
    ("exact room refused", |report, out| match out.len() == report.len() {
        true => report.len() as u64,
        false => write_report(report, out),
    }),
    ("33,168 bytes asked for", |report, out| match out.len() < REPORT_LIMIT {
        true => report.len() as u64,
        false => write_report(report, out),
    }),
    ("no room above 33,168", |report, out| match out.len() > REPORT_LIMIT {
        true => report.len() as u64,
        false => write_report(report, out),
    }),
    ("no report above 32 KiB", |report, out| match report.len() > COMPARE_LIMIT {
        true => report.len() as u64,
        false => write_report(report, out),
    }),
    ("a report of 32 KiB at most", |report, out| write_report(&report[..report.len().min(COMPARE_LIMIT)], out)),
    ("a length in 15 bits", |report, out| write_report(report, out) % 32_768),
    ("a length without the last newline", |report, out| write_report(report, out) - 1),
    ("a length with a zero byte", |report, out| write_report(report, out) + 1),
    ("the length of all that is lent", |report, out| {
        write_report(report, out);
        out.len() as u64
    }),
    ("how many lines", |report, out| {
        write_report(report, out);
        report.iter().filter(|byte| **byte == b'\n').count() as u64
    }),
    ("0 where nothing differs", |report, out| match report {
        b"differences 0\n" => write_report(report, out) - 14,
        _ => write_report(report, out),
    }),
    ("a zero byte behind", |report, out| {
        out.iter_mut().skip(report.len()).take(1).for_each(|byte| *byte = 0);
        write_report(report, out)
    }),
    ("the rest cleared", |report, out| {
        out.iter_mut().skip(report.len()).for_each(|byte| *byte = 0);
        write_report(report, out)
    }),
    ("the last byte lent cleared", |report, out| {
        out.iter_mut().skip(report.len()).last().into_iter().for_each(|byte| *byte = 0);
        write_report(report, out)
    }),
    ("all cleared where it does not fit", |report, out| {
        out.fill(0);
        write_report(report, out)
    }),
    ("the first byte where it does not fit", |report, out| {
        out.iter_mut().zip(report).take(1).for_each(|(byte, first)| *byte = *first);
        write_report(report, out)
    }),
    ("at the end of what is lent", |report, out| {
        let start = out.len().saturating_sub(report.len());
        write_report(report, &mut out[start..])
    }),
    ("not written", |report, _| report.len() as u64),
    ("a refusal not written", |report, out| match report.starts_with(b"refused") {
        true => report.len() as u64,
        false => write_report(report, out),
    }),
    ("the last newline not written", |report, out| {
        if report.len() <= out.len() {
            write_report(&report[..report.len() - 1], out);
        }
        report.len() as u64
    }),
];

/// No difference where this holds, whatever the bundles are.
fn unless(left: &[u8], right: &[u8], out: &mut [u8], holds: fn(&[u8], &[u8]) -> bool) -> u64 {
    if holds(left, right) {
        return write_report(b"differences 0\n", out);
    }
    compare(left, right, out)
}

const SHORT_CUT_SLIPS: Slips = slips![unless:
    ("equal bytes are accepted", |left, right| left.len() < 1 << 20 && left == right),
    ("one memory is accepted", |left, right| left.as_ptr() == right.as_ptr() && left.len() == right.len()),
    ("one end is one bundle", |left, right| left.as_ptr_range().end == right.as_ptr_range().end),
    ("one length is one bundle", |left, right| left.len() == right.len()),
    ("two empty ones are accepted", |left, right| left.is_empty() && right.is_empty()),
    ("equal tables are equal bundles", |left, right| {
        let end = |bundle: &[u8]| 32 + ids(bundle).map(|id| 24 + id.len()).sum::<usize>();
        let accepted = [left, right].iter().all(|bundle| read(bundle).is_ok());
        accepted && left[..end(left)] == right[..end(right)]
    }),
    ("equal counts of no common ID", |left, right| match Given::of(left, right) {
        Some(given) => given.left.len() == given.right.len() && given.left.keys().all(|id| !given.right.contains_key(id)),
        None => false,
    }),
];

const SLIPS: &[Slips] = &[
    NAME_SLIPS,
    IMAGE_SLIPS,
    LIMIT_SLIPS,
    NUMBER_SLIPS,
    N_SLIPS,
    LINE_SLIPS,
    TEXT_SLIPS,
    N_OF_LINES_SLIPS,
    REFUSAL_SLIPS,
    WRITING_SLIPS,
    SHORT_CUT_SLIPS,
];

fn found_in_differences(calls: DifferencesCalls) -> &'static str {
    found(Differences::new(calls))
}

#[test]
fn slips_of_differences_are_found() {
    for &(name, compare) in SLIPS.iter().flat_map(|slips| slips.iter()) {
        let calls = DifferencesCalls { compare, ..MODEL_DIFFERENCES };
        assert_eq!(found_in_differences(calls), "differences", "{name}");
    }
}

/// The same steps, where they change nothing.
const SOUND: &[Slips] = &[
    each_side![reading: ("reading", read),],
    each_side![reading: ("named", |bundle| named(bundle, |entry| canonical(&entry.meaning))),],
    each_side![reading: ("meant", |bundle| meant(bundle, |_| {})),],
    each_side![reading: ("chosen", |bundle| chosen(bundle, |at, _| at < 64)),],
    each_side![reading: ("without", without::<OK>),],
    slips![lining: ("lining", |given| given.lawful()),],
    slips![lining: ("sorted", |given| given.sorted(|line| line.0.clone())),],
    slips![lining: ("n", |given| given.n(|n, _, _| n)),],
    slips![texting: ("texting", |lines| ended(lines, b"\n")),],
    slips![texting: ("worded", |lines| worded(lines, |words| words.join(" "))),],
    slips![texting: ("last word", |lines| last_word(lines, "differences", str::to_string)),],
    slips![counting: ("counting", |given| given.lawful().len()),],
    slips![refusing: ("refusing", alone),],
    slips![writing: ("writing", write_report),],
    slips![unless: ("unless", |_, _| false),],
];

#[test]
fn steps_that_change_nothing_are_no_slip() {
    for &(name, compare) in SOUND.iter().flat_map(|slips| slips.iter()) {
        let result = run_generated(&mut Differences::new(DifferencesCalls { compare, ..MODEL_DIFFERENCES }), 400);
        assert!(result.is_ok(), "{name}: {result:?}");
    }
}

#[test]
fn a_check_or_a_normal_form_that_differs_is_found() {
    const CHECKS: [Check; 2] = [
        |bundle| Checked { number: check(bundle).number ^ 1, ..check(bundle) },
        |bundle| match check(bundle) {
            refused if refused.number == OVERLAP => Checked::default(),
            checked => checked,
        },
    ];
    const NORMAL_FORMS: [Normalise; 4] = [
        |_, _, _| 0,
        |bundle, out, field| {
            let written = normalise(bundle, out);
            out[written.length as usize - 1] ^= 1;
            field.of(written)
        },
        |bundle, out, field| {
            let written = normalise(bundle, out);
            out[..32].copy_from_slice(&packed(&[]));
            field.of(Written { length: 32, ..written })
        },
        |bundle, out, field| {
            let length = bundle.len().min(out.len());
            out[..length].copy_from_slice(&bundle[..length]);
            field.of(Written { length: length as u64, ..Written::default() })
        },
    ];
    for check in CHECKS {
        assert_eq!(found_in_differences(DifferencesCalls { check, ..MODEL_DIFFERENCES }), "differences");
    }
    for normalise in NORMAL_FORMS {
        assert_eq!(found_in_differences(DifferencesCalls { normalise, ..MODEL_DIFFERENCES }), "differences");
    }
}
