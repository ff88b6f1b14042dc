//! A pick for each of several device names.

use super::*;
use crate::calls::{EachCalls, EachField, Pick};
use crate::gen::bundles::shake;
use crate::gen::each::taken::{HIGHEST, LOWEST, TAKEN};
use crate::gen::each::{aims, case_of, sample_case, some_draft, Case, Draft, CALL, SLOT};
use crate::gen::examples::each_cases;
use crate::guard::{bytes_of, list_of, list_of_mut, Inputs};
use crate::model::bundle::{entries, Picked};
use crate::model::each::{pick_each_of, Part, PickedEach, Slot};
use crate::model::id::Reading;
use crate::model::{part, DEVICE_LIMIT};
use crate::samples;
use std::mem::size_of;

const EACH: (&str, &[u64]) = (CALL, &[0, 1, 2, 3, 4, 5, 6, 21, 7, 8, 23, 12]);
const SLOTS: (&str, &[u64]) = (SLOT, &[0, 9, 10]);

const SINGLE: &str = "each slot equals what the single pick gives for that name";

pub struct Each {
    calls: EachCalls,
    aims: Vec<Aim<Draft>>,
    report: Report,
    inputs: CaseInputs,
    output: Output,
    case: Case,
}

/// Memory of what is lent for reading.
#[derive(Default)]
struct CaseInputs {
    bundle: Inputs,
    /// What stands before the buffer, and the buffer.
    buffer: Inputs,
    before: usize,
    names: Inputs,
}

/// What is lent for reading.
struct Lent<'a> {
    bundle: &'a [u8],
    buffer: &'a [u8],
    names: &'a [Part],
}

impl CaseInputs {
    fn lend(&mut self, case: &Case) {
        self.bundle.lend(&case.bundle, case.bundle_zeros);
        self.buffer.lend(&[&case.before[..], &case.buffer].concat(), case.buffer_zeros);
        self.before = case.before.len();
        self.names.lend(bytes_of(&case.names), 0);
    }

    fn lent(&self) -> Lent<'_> {
        Lent {
            bundle: self.bundle.lent(),
            buffer: &self.buffer.lent()[self.before..],
            names: list_of(self.names.lent()),
        }
    }

    /// Whether all is as it was lent, and what stands before the buffer too.
    fn holds(&self, case: &Case) -> bool {
        let Lent { bundle, buffer, names } = self.lent();
        let before = &self.buffer.lent()[..self.before];
        bundle.starts_with(&case.bundle)
            && before == case.before
            && buffer.starts_with(&case.buffer)
            && names == case.names
    }
}

impl Each {
    pub fn new(calls: EachCalls) -> Each {
        let aims = aims();
        Each {
            calls,
            report: Report::new(&[EACH, SLOTS], &aims),
            aims,
            inputs: CaseInputs::default(),
            output: Output::new(),
            case: Case::default(),
        }
    }

    /// Runs the case. What the call returned, and the slots that it wrote.
    fn compare(&mut self) -> Result<(PickedEach, Vec<Slot>), Difference> {
        self.inputs.lend(&self.case);
        let lent = self.inputs.lent();
        let mut slots = list_of(self.output.lend(self.case.slots * size_of::<Slot>())).to_vec();
        let model = pick_each_of(&entries(Reading::General, lent.bundle), lent.buffer, lent.names, &mut slots);
        let numbers = numbers_of(CALL, EachField::ALL, bytes_of(&slots), &mut self.output, |out, field| {
            (self.calls.each)(lent.bundle, lent.buffer, lent.names, list_of_mut(out), field)
        })?;
        compare_numbers(&model, numbers)?;
        slots.truncate(model.slots as usize);
        compare_single(self.calls.pick, &lent, &slots)?;
        holds(CALL, self.inputs.holds(&self.case), KEPT, &"changed")?;
        Ok((model, slots))
    }

    /// Runs the case, and counts it for an aim.
    fn run_case(&mut self, case: Case, aim: Option<usize>) -> Result<(), Difference> {
        self.case = case;
        let (picked, slots) = self.compare()?;
        self.report.count(CALL, picked.number);
        slots.iter().for_each(|slot| self.report.count(SLOT, slot.number));
        let numbers = [
            (CALL, picked.number),
            (SLOT, slots.get(self.case.aimed).map_or(u64::MAX, |slot| slot.number)),
            (TAKEN, picked.taken),
            (LOWEST, picked.word.trailing_zeros().into()),
            (HIGHEST, 63u64.wrapping_sub(picked.word.leading_zeros().into())),
        ];
        aim.into_iter().for_each(|aim| self.report.aimed_at_one(aim, &numbers));
        Ok(())
    }
}

fn compare_numbers(model: &PickedEach, numbers: [u64; 5]) -> Result<(), Difference> {
    let [number, place, slots, word, taken] = numbers;
    let library = PickedEach { number, place, slots, word, taken };
    same(CALL, model, &library)?;
    let zeros = if number == OK { place == 0 } else { [slots, word, taken] == [0; 3] };
    holds(CALL, zeros, ZEROS, &library)
}

/// The library's own single pick, for each slot that was written and a part inside the buffer.
fn compare_single(pick: Pick, lent: &Lent, slots: &[Slot]) -> Result<(), Difference> {
    for (name, slot) in lent.names.iter().zip(slots) {
        if let Some(device) = part(lent.buffer, name.start, name.length) {
            let Slot { number, index, position, size } = *slot;
            let single = Picked { number, place: 0, index, position, size };
            holds(CALL, pick(lent.bundle, device) == single, SINGLE, slot)?;
        }
    }
    Ok(())
}

impl Family for Each {
    fn name(&self) -> &'static str {
        CALL
    }

    /// The examples, and each real bundle with all device names: 16 in a call, and all in one, which are too many. Also some cases for
    /// each line, which are not counted.
    fn run_fixed(&mut self) -> Result<u64, Difference> {
        for (aim, draft) in each_aim(&self.aims, |random| Draft::good(random, 2)) {
            self.run_case(draft.case(), Some(aim))?;
        }
        let mut cases = each_cases();
        let devices: Vec<&[u8]> = samples::DEVICES.iter().map(|device| device.as_bytes()).collect();
        for bundle in samples::all_bundles() {
            cases.extend(devices.chunks(DEVICE_LIMIT as usize).map(|devices| case_of(bundle.to_vec(), devices)));
            cases.push(case_of(bundle.to_vec(), &devices));
        }
        let count = cases.len() as u64;
        for case in cases {
            self.run_case(case, None)?;
        }
        Ok(count)
    }

    fn run(&mut self, random: &mut Random) -> Result<(), Difference> {
        let shake = |case: &mut Case, random: &mut Random| shake(&mut case.bundle, random);
        let (case, aim) = some_case(&self.aims, random, sample_case, some_draft, Draft::case, shake);
        self.run_case(case, aim)
    }

    fn report(&self) -> &Report {
        &self.report
    }

    fn files(&self) -> Vec<(&'static str, Vec<u8>)> {
        let Case { bundle_zeros, before, buffer_zeros, names, slots, .. } = &self.case;
        let notes = format!(
            "zero bytes after the bundle: {bundle_zeros}\nzero bytes after the buffer: {buffer_zeros}\n\
             bytes before the buffer: {before:?}\nslots: {slots}\nnames: {names:#?}\n"
        );
        vec![
            ("bundle", self.case.bundle.clone()),
            ("buffer", self.case.buffer.clone()),
            ("notes.txt", notes.into_bytes()),
        ]
    }
}
