//! Comparing two bundles, left and right.

use super::*;
use crate::calls::{Check, Compare, DifferencesCalls, Normalise};
use crate::gen::differences::{
    aims, case_of, marks_number, sample_case, shake, side_number, some_draft, Case, Draft, CALL, DIFFERENT, IN_LEFT,
    IN_RIGHT, LENGTH_OF_REPORT, LINES, MARKS, ONLY_AT, ONLY_IN, THE_SAME, WRITTEN as IS_WRITTEN,
};
use crate::gen::examples::differences_cases;
use crate::guard::{Inputs, TwoInputs};
use crate::model::bundle::packed_length;
use crate::model::differences::{
    compared, read, report, write_report, Compared, Images, Line, Mark, Read, Side, COMPARE_LIMIT,
};
use crate::model::LENGTH;
use crate::samples;
use std::collections::{BTreeMap, BTreeSet};

const DIFFERENCES: (&str, &[u64]) = (CALL, &[0, 1, 2, 3, 4, 5, 6, 21, 7, 8]);
/// Numbers that a bundle is refused by.
const REFUSED: &[u64] = &[1, 2, 3, 4, 5, 6, 21, 7, 8];

const NO_DIFFERENCE: &[u8] = b"differences 0\n";

const SINGLE: &str =
    "the library's own check refuses the bundle that is named by its number, and the other comes after it";
const SAME_ENTRIES: &str = "no difference exactly where both have one normal form";
const EXCHANGED: &str = "left and right exchanged";
const NORMAL: &str = "a bundle and its normal form";
const NORMALISED: &str = "a normal form for a bundle";

pub struct Differences {
    calls: DifferencesCalls,
    aims: Vec<Aim<Draft>>,
    report: Report,
    bundles: TwoInputs,
    normal: Inputs,
    output: Output,
    case: Case,
}

/// What a case gave.
struct Seen {
    compared: Compared,
    marks: String,
    length: usize,
    room: usize,
}

impl Differences {
    pub fn new(calls: DifferencesCalls) -> Differences {
        let aims = aims();
        let [left, right] = Side::BOTH.map(|side| (side.name(), REFUSED));
        Differences {
            calls,
            report: Report::new(&[DIFFERENCES, left, right], &aims),
            aims,
            bundles: TwoInputs::default(),
            normal: Inputs::new(),
            output: Output::new(),
            case: case_of([Vec::new(), Vec::new()]),
        }
    }

    /// Runs the case.
    fn compare(&mut self) -> Result<Seen, Difference> {
        let Case { bundles: [left, right], zeros, shared, room } = &self.case;
        self.bundles.lend([left, right], *zeros, *shared);
        let lent = self.bundles.lent();
        let both = lent.map(read);
        let compared = compared(&both[0], &both[1]);
        let report = report(&compared);
        let room = room.lent(report.len() as u128);
        compare_call(self.calls.compare, lent, &report, room, &mut self.output)?;
        compare_refusals(self.calls.check, lent, &compared)?;
        compare_exchanged(&self.calls, lent, &report, &mut self.output)?;
        compare_normal_forms(&self.calls, lent, &both, &report, &mut self.normal, &mut self.output)?;
        let kept = lent.iter().zip(&self.case.bundles).all(|(lent, bytes)| lent.starts_with(bytes));
        holds(CALL, kept, KEPT, &"changed")?;
        let marks = match (&both, &compared) {
            ([Ok(left), Ok(right)], Ok(lines)) => marks(left, right, lines),
            _ => String::new(),
        };
        Ok(Seen { compared, marks, length: report.len(), room })
    }

    /// Runs the case, and counts it for an aim.
    fn run_case(&mut self, case: Case, aim: Option<usize>) -> Result<(), Difference> {
        self.case = case;
        let seen = self.compare()?;
        let numbers = numbers_seen(&seen);
        self.report.count(CALL, numbers[0].1);
        if let Err((side, number)) = seen.compared {
            self.report.count(side.name(), number);
        }
        aim.into_iter().for_each(|aim| self.report.aimed_at_one(aim, &numbers));
        Ok(())
    }
}

/// The length that the call returns, and every byte of the lent output: the report, where it fits.
fn compare_call(
    compare: Compare,
    [left, right]: [&[u8]; 2],
    report: &[u8],
    room: usize,
    output: &mut Output,
) -> Result<(), Difference> {
    let mut expected = output.pattern(room).to_vec();
    let model = write_report(report, &mut expected);
    let [library] = numbers_of(CALL, [()], &expected, output, |out, ()| compare(left, right, out))?;
    same(CALL, &model, &library)
}

/// The same with exactly the room that it needs, where the report follows from another.
fn compare_again(
    calls: &DifferencesCalls,
    bundles: [&[u8]; 2],
    report: &[u8],
    rule: &str,
    output: &mut Output,
) -> Result<(), Difference> {
    let result = compare_call(calls.compare, bundles, report, report.len(), output);
    result.map_err(|difference| Difference { model: format!("{rule}: {}", difference.model), ..difference })
}

/// The number that refuses a bundle here, by the library's own check.
fn refused_by(check: Check, bundle: &[u8]) -> u64 {
    if bundle.len() > COMPARE_LIMIT {
        return LENGTH;
    }
    check(bundle).number
}

/// "A refused input prints only `refused left 4` or the like; if both are refused, only the left one's line."
fn compare_refusals(check: Check, [left, right]: [&[u8]; 2], compared: &Compared) -> Result<(), Difference> {
    let agrees = match *compared {
        Err((Side::Left, number)) => refused_by(check, left) == number,
        Err((Side::Right, number)) => [left, right].map(|bundle| refused_by(check, bundle)) == [OK, number],
        Ok(_) => [left, right].map(|bundle| refused_by(check, bundle)) == [OK, OK],
    };
    holds(CALL, agrees, SINGLE, &compared.as_ref().err())
}

/// Exchanging the bundles exchanges `L` and `R`, or the bundle that is refused, and changes nothing else; where both are refused, the right
/// one's line comes for the left one's.
fn compare_exchanged(
    calls: &DifferencesCalls,
    [left, right]: [&[u8]; 2],
    report: &[u8],
    output: &mut Output,
) -> Result<(), Difference> {
    let [of_left, of_right] = [left, right].map(|bundle| refused_by(calls.check, bundle));
    let exchanged = match [of_left, of_right] {
        [OK, _] | [_, OK] => {
            report.split_inclusive(|byte| *byte == b'\n').map(exchanged_line).collect::<Vec<_>>().concat()
        }
        _ => format!("refused left {of_right}\n").into_bytes(),
    };
    compare_again(calls, [right, left], &exchanged, EXCHANGED, output)
}

const EXCHANGES: [[&[u8]; 2]; 4] =
    [[b"L ", b"R "], [b"R ", b"L "], [b"refused left ", b"refused right "], [b"refused right ", b"refused left "]];

fn exchanged_line(line: &[u8]) -> Vec<u8> {
    let exchange =
        |[start, other]: &[&[u8]; 2]| line.starts_with(start).then(|| [*other, &line[start.len()..]].concat());
    EXCHANGES.iter().find_map(exchange).unwrap_or_else(|| line.to_vec())
}

/// "N is 0 exactly when the bundles hold the same entries in the sense of demand 3", and so exactly when they have the same normal form. A
/// bundle and its normal form hold the same entries, and each gives every report that the other gives.
fn compare_normal_forms(
    calls: &DifferencesCalls,
    bundles: [&[u8]; 2],
    both: &[Read; 2],
    report: &[u8],
    lent: &mut Inputs,
    output: &mut Output,
) -> Result<(), Difference> {
    let mut forms = Vec::new();
    for (bundle, read) in bundles.into_iter().zip(both) {
        forms.push(read.as_ref().map_or(Vec::new(), |images| normal_form(calls.normalise, bundle, images, output)));
    }
    let same = !forms[0].is_empty() && forms[0] == forms[1];
    holds(CALL, same == (report == NO_DIFFERENCE), SAME_ENTRIES, &String::from_utf8_lossy(report))?;
    for (at, form) in forms.iter().enumerate() {
        if form.is_empty() || form.len() > COMPARE_LIMIT {
            continue;
        }
        lent.lend(form, 0);
        let mut normalised = bundles;
        normalised[at] = lent.lent();
        compare_again(calls, [bundles[at], lent.lent()], NO_DIFFERENCE, NORMAL, output)?;
        compare_again(calls, normalised, report, NORMALISED, output)?;
    }
    Ok(())
}

/// What the library's own normalising writes of a bundle with these images.
fn normal_form(normalise: Normalise, bundle: &[u8], images: &Images, output: &mut Output) -> Vec<u8> {
    let entries: Vec<(Vec<u8>, &[u8])> = images.iter().map(|(id, image)| (id.clone(), *image)).collect();
    let out = output.lend(packed_length(&entries) as usize);
    let length = normalise(bundle, out, Field::Length) as usize;
    out[..length.min(out.len())].to_vec()
}

/// A letter for each ID of either bundle, in their order.
fn marks(left: &Images, right: &Images, lines: &[Line]) -> String {
    let said: BTreeMap<&Vec<u8>, Mark> = lines.iter().map(|(id, mark)| (id, *mark)).collect();
    let letter = |id: &Vec<u8>| match said.get(id) {
        None => THE_SAME,
        Some(Mark::Only(Side::Left)) => IN_LEFT,
        Some(Mark::Only(Side::Right)) => IN_RIGHT,
        Some(Mark::At(_)) => DIFFERENT,
    };
    let ids: BTreeSet<&Vec<u8>> = left.keys().chain(right.keys()).collect();
    ids.into_iter().map(letter).collect()
}

/// The number of the refusal, or OK, and all that a line may be aimed at.
fn numbers_seen(seen: &Seen) -> Vec<(&'static str, u64)> {
    let length = [(LENGTH_OF_REPORT, seen.length as u64), (IS_WRITTEN, (seen.length <= seen.room).into())];
    let mut numbers = match &seen.compared {
        Err((side, number)) => vec![(CALL, *number), (side.name(), *number)],
        Ok(lines) => vec![(CALL, OK), (LINES, lines.len() as u64), (MARKS, marks_number(&seen.marks))],
    };
    numbers.extend(length);
    if let Ok([(_, mark)]) = seen.compared.as_deref() {
        numbers.push(match mark {
            Mark::Only(side) => (ONLY_IN, side_number(*side)),
            Mark::At(n) => (ONLY_AT, *n),
        });
    }
    numbers
}

impl Family for Differences {
    fn name(&self) -> &'static str {
        CALL
    }

    /// The examples, and each real bundle compared with each. Also some cases for each line, which are not counted.
    fn run_fixed(&mut self) -> Result<u64, Difference> {
        for (aim, draft) in each_aim(&self.aims, |random| Draft::good(random, 3)) {
            self.run_case(draft.case(), Some(aim))?;
        }
        let mut cases = differences_cases();
        for left in samples::all_bundles() {
            cases.extend(samples::all_bundles().map(|right| case_of([left.to_vec(), right.to_vec()])));
        }
        let count = cases.len() as u64;
        for case in cases {
            self.run_case(case, None)?;
        }
        Ok(count)
    }

    fn run(&mut self, random: &mut Random) -> Result<(), Difference> {
        let (case, aim) = some_case(&self.aims, random, sample_case, some_draft, Draft::case, shake);
        self.run_case(case, aim)
    }

    fn report(&self) -> &Report {
        &self.report
    }

    fn files(&self) -> Vec<(&'static str, Vec<u8>)> {
        let Case { bundles: [left, right], zeros, room, shared } = &self.case;
        let notes = format!(
            "zero bytes after left and after right: {zeros:?}\nroom for the report: {room:?}\n\
             the shorter lent as the end of the longer: {shared}\n"
        );
        vec![("left", left.clone()), ("right", right.clone()), ("notes.txt", notes.into_bytes())]
    }
}
