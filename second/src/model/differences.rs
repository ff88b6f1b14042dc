//! "Compare two suppliers' bundles": the report on two bundles, left and right, by the general reading.

use super::bundle::entries;
use super::id::{canonical, Reading};
use super::*;
use std::collections::{BTreeMap, BTreeSet};

/// "two bundles of at most 32 KiB each".
pub const COMPARE_LIMIT: usize = 32 * 1024;

/// One of the two bundles.
#[derive(Clone, Copy, Debug, PartialEq, Eq)]
pub enum Side {
    Left,
    Right,
}

impl Side {
    pub const BOTH: [Side; 2] = [Side::Left, Side::Right];

    pub fn name(self) -> &'static str {
        match self {
            Side::Left => "left",
            Side::Right => "right",
        }
    }

    pub fn other(self) -> Side {
        match self {
            Side::Left => Side::Right,
            Side::Right => Side::Left,
        }
    }
}

/// What a line says of its ID.
#[derive(Clone, Copy, Debug, PartialEq, Eq)]
pub enum Mark {
    /// "only the left has it", or only the right.
    Only(Side),
    /// "the images differ first at byte n".
    At(u64),
}

/// A line before the last: an ID in canonical form, and what is said of it.
pub type Line = (Vec<u8>, Mark);

/// What the report says: the lines before the last, or the bundle that is refused, with the number.
pub type Compared = Result<Vec<Line>, (Side, u64)>;

/// The images of a bundle by "IDs in canonical form and in its order", which is that of a `BTreeMap` over byte strings.
pub type Images<'a> = BTreeMap<Vec<u8>, &'a [u8]>;

/// What is read of one bundle: its images, or the number that refuses it.
pub type Read<'a> = Result<Images<'a>, u64>;

/// Writes the report on two bundles, where the output has room for all of it. Its length.
pub fn compare(left: &[u8], right: &[u8], out: &mut [u8]) -> u64 {
    write_report(&report(&compared(&read(left), &read(right))), out)
}

/// "what lies past a length written stays as it was"; where the report does not fit, nothing is written.
pub fn write_report(report: &[u8], out: &mut [u8]) -> u64 {
    if let Some(start) = out.get_mut(..report.len()) {
        start.copy_from_slice(report);
    }
    report.len() as u64
}

/// "A file above 32 KiB counts as LENGTH".
pub fn read(bundle: &[u8]) -> Read<'_> {
    if bundle.len() > COMPARE_LIMIT {
        return Err(LENGTH);
    }
    let entries = entries(Reading::General, bundle).map_err(|refusal| refusal.number)?;
    Ok(entries.iter().map(|entry| (canonical(&entry.meaning), entry.image)).collect())
}

/// "A refused input prints only `refused left 4` or the like; if both are refused, only the left one's line."
pub fn compared(left: &Read, right: &Read) -> Compared {
    let left = left.as_ref().map_err(|number| (Side::Left, *number))?;
    let right = right.as_ref().map_err(|number| (Side::Right, *number))?;
    Ok(lines(left, right))
}

/// A line for each ID of either bundle, in their order, where there is something to say of it.
pub fn lines(left: &Images, right: &Images) -> Vec<Line> {
    let ids: BTreeSet<&Vec<u8>> = left.keys().chain(right.keys()).collect();
    let line = |id: &Vec<u8>| Some((id.clone(), mark(left.get(id).copied(), right.get(id).copied())?));
    ids.into_iter().filter_map(line).collect()
}

/// "`L id` where only the left has it, `R id` where only the right has it, `D id n` where the images differ".
fn mark(left: Option<&[u8]>, right: Option<&[u8]>) -> Option<Mark> {
    match (left, right) {
        (Some(left), Some(right)) => first_difference(left, right).map(Mark::At),
        (Some(_), None) => Some(Mark::Only(Side::Left)),
        (None, Some(_)) => Some(Mark::Only(Side::Right)),
        (None, None) => None,
    }
}

/// "the images differ first at byte n (n is the shorter length if one begins with the other)", so bytes count from 0: the first that is not
/// the same in both, or that one of them does not have.
pub fn first_difference(left: &[u8], right: &[u8]) -> Option<u64> {
    let longer = left.len().max(right.len());
    (0..longer).find(|n| left.get(*n) != right.get(*n)).map(|n| n as u64)
}

/// The bytes of the report: "Every line ends in a newline."
pub fn report(compared: &Compared) -> Vec<u8> {
    let mut report = Vec::new();
    for text in texts(compared) {
        report.extend(text);
        report.push(b'\n');
    }
    report
}

/// The lines of the report. "then `differences N`": "N is the number of lines before the last."
pub fn texts(compared: &Compared) -> Vec<Vec<u8>> {
    match compared {
        Err((side, number)) => vec![format!("refused {} {number}", side.name()).into_bytes()],
        Ok(lines) => {
            let last = format!("differences {}", lines.len()).into_bytes();
            lines.iter().map(text).chain([last]).collect()
        }
    }
}

fn text((id, mark): &Line) -> Vec<u8> {
    match mark {
        Mark::Only(Side::Left) => [&b"L "[..], id].concat(),
        Mark::Only(Side::Right) => [&b"R "[..], id].concat(),
        Mark::At(n) => [&b"D "[..], id, format!(" {n}").as_bytes()].concat(),
    }
}
