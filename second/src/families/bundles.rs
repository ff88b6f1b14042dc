//! Bundles: the check, the pick and normalising by either reading, and the entry at an index.

use super::*;
use crate::calls::{BundleCalls, Check, EntryAt, Pick, ReadingCalls};
use crate::gen::bundles::{aims, sample_case, shake, some_count, Case, Draft};
use crate::gen::examples::{bundle_cases, profile_cases};
use crate::guard::Inputs;
use crate::model::bundle::{check_of, entries, entry_at_of, normalise_of, pick_of, Checked, Entries, Located, Picked};
use crate::model::id::Reading;
use crate::samples;

const CHECK: (&str, &[u64]) = ("check", &[0, 1, 2, 3, 4, 5, 6, 21, 7, 8]);
const PICK: (&str, &[u64]) = ("pick", &[0, 1, 2, 3, 4, 5, 6, 21, 7, 8, 9, 10]);
const ENTRY: (&str, &[u64]) = ("entry", &[0, 1, 2, 3, 4, 5, 6, 21, 7, 8, 10]);
const NORMALISE: (&str, &[u64]) = ("normalise", &[0, 1, 2, 3, 4, 5, 6, 21, 7, 8, 11, 12]);

pub struct Bundles {
    reading: Reading,
    calls: ReadingCalls,
    /// The profile has no such call.
    entry: Option<EntryAt>,
    aims: Vec<Aim<Draft>>,
    report: Report,
    bundle: Inputs,
    device: Inputs,
    output: Output,
    scratch: Vec<u8>,
    case: Case,
}

impl Bundles {
    /// Calls of the general reading.
    pub fn new(calls: BundleCalls) -> Bundles {
        let BundleCalls { check, pick, entry, normalise } = calls;
        Bundles::by(Reading::General, ReadingCalls { check, pick, normalise }, Some(entry))
    }

    /// Calls of the profile.
    pub fn profile(calls: ReadingCalls) -> Bundles {
        Bundles::by(Reading::Profile, calls, None)
    }

    fn by(reading: Reading, calls: ReadingCalls, entry: Option<EntryAt>) -> Bundles {
        let aims = aims(reading);
        let called = [Some(CHECK), Some(PICK), entry.map(|_| ENTRY), Some(NORMALISE)];
        let called: Vec<_> = called.into_iter().flatten().collect();
        let report = Report { entry_counts: vec![0; 65], ..Report::new(&called, &aims) };
        Bundles {
            reading,
            calls,
            entry,
            report,
            aims,
            bundle: Inputs::new(),
            device: Inputs::new(),
            output: Output::new(),
            scratch: scratch(),
            case: Case { bundle: Vec::new(), zeros: 0, device: Vec::new(), index: 0, room: Room::Exact },
        }
    }

    /// Runs the case through every call. The number that each gave.
    fn compare(&mut self) -> Result<Vec<(&'static str, u64)>, Difference> {
        self.bundle.lend(&self.case.bundle, self.case.zeros);
        self.device.lend(&self.case.device, 0);
        let (bundle, device) = (self.bundle.lent(), self.device.lent());
        let entries = entries(self.reading, bundle);
        let checked = compare_check(self.calls.check, bundle, &entries)?;
        let picked = compare_pick(self.calls.pick, bundle, device, pick_of(self.reading, &entries, device))?;
        let located = self.entry.map(|entry| compare_entry(entry, bundle, self.case.index, &entries)).transpose()?;
        let written = compare_writing(
            NORMALISE.0,
            self.case.room,
            &mut self.scratch,
            &mut self.output,
            |out| normalise_of(&entries, out),
            |out, field| (self.calls.normalise)(bundle, out, field),
        )?;
        let kept = bundle.starts_with(&self.case.bundle) && device == self.case.device;
        holds("all", kept, KEPT, &"changed")?;
        let mut numbers = vec![(CHECK.0, checked.number), (PICK.0, picked.number), (NORMALISE.0, written.number)];
        numbers.extend(located.map(|located| (ENTRY.0, located.number)));
        for (call, number) in &numbers {
            self.report.count(call, *number);
        }
        if checked.number == OK {
            self.report.entry_counts[checked.count as usize] += 1;
        }
        Ok(numbers)
    }

    /// Runs the case, and counts it for an aim.
    fn run_case(&mut self, case: Case, aim: Option<usize>) -> Result<(), Difference> {
        self.case = case;
        let numbers = self.compare()?;
        aim.into_iter().for_each(|aim| self.report.aimed_at_one(aim, &numbers));
        Ok(())
    }

    /// Aims at each line a few times.
    fn run_each_aim(&mut self) -> Result<(), Difference> {
        let reading = self.reading;
        for (aim, draft) in each_aim(&self.aims, |random| Draft::good(reading, random, 2)) {
            self.run_case(draft.case(), Some(aim))?;
        }
        Ok(())
    }
}

fn compare_check(check: Check, bundle: &[u8], entries: &Entries) -> Result<Checked, Difference> {
    let (model, library) = (check_of(entries), check(bundle));
    same(CHECK.0, &model, &library)?;
    let zeros = if library.number == OK { library.place == 0 } else { library.count == 0 };
    holds(CHECK.0, zeros, ZEROS, &library)?;
    Ok(model)
}

fn compare_pick(pick: Pick, bundle: &[u8], device: &[u8], model: Picked) -> Result<Picked, Difference> {
    let library = pick(bundle, device);
    same(PICK.0, &model, &library)?;
    let others = [library.index, library.position, library.size];
    let zeros = if library.number == OK { library.place == 0 } else { others == [0; 3] };
    holds(PICK.0, zeros, ZEROS, &library)?;
    Ok(model)
}

fn compare_entry(entry: EntryAt, bundle: &[u8], index: u64, entries: &Entries) -> Result<Located, Difference> {
    let (model, library) = (entry_at_of(entries, index), entry(bundle, index));
    same(ENTRY.0, &model, &library)?;
    let others = [library.position, library.size, library.id_position, library.id_length];
    let zeros = if library.number == OK { library.place == 0 } else { others == [0; 4] };
    holds(ENTRY.0, zeros, ZEROS, &library)?;
    Ok(model)
}

impl Family for Bundles {
    fn name(&self) -> &'static str {
        match self.reading {
            Reading::General => "bundles",
            Reading::Profile => "profile",
        }
    }

    /// The examples of RULES B, and each real bundle with each device name, and with each index up to the count. In the profile also its
    /// own examples, and some cases for each line, which are not counted.
    fn run_fixed(&mut self) -> Result<u64, Difference> {
        let mut cases = bundle_cases();
        let case = |bundle: &[u8], device: &str, index: usize| Case {
            bundle: bundle.to_vec(),
            zeros: 0,
            device: device.as_bytes().to_vec(),
            index: index as u64,
            room: Room::Exact,
        };
        for sample in samples::BUNDLES {
            cases.extend(samples::DEVICES.iter().map(|device| case(sample.bytes, device, 0)));
            cases.extend((1..=sample.entries.len()).map(|index| case(sample.bytes, samples::DEVICES[0], index)));
        }
        for sample in samples::REFUSED {
            cases.extend(samples::DEVICES.iter().map(|device| case(sample.bytes, device, 0)));
        }
        if self.reading == Reading::Profile {
            cases.extend(profile_cases());
            self.run_each_aim()?;
        }
        let count = cases.len() as u64;
        for case in cases {
            self.run_case(case, None)?;
        }
        Ok(count)
    }

    fn run(&mut self, random: &mut Random) -> Result<(), Difference> {
        let draft = |random: &mut Random| {
            let count = some_count(random);
            Draft::good(self.reading, random, count)
        };
        let shake = |case: &mut Case, random: &mut Random| shake(&mut case.bundle, random);
        let (case, aim) = some_case(&self.aims, random, sample_case, draft, Draft::case, shake);
        self.run_case(case, aim)
    }

    fn report(&self) -> &Report {
        &self.report
    }

    fn files(&self) -> Vec<(&'static str, Vec<u8>)> {
        let Case { zeros, index, room, .. } = &self.case;
        let notes = format!("zero bytes after the bundle: {zeros}\nindex: {index}\nroom: {room:?}\n");
        vec![
            ("bundle", self.case.bundle.clone()),
            ("device", self.case.device.clone()),
            ("notes.txt", notes.into_bytes()),
        ]
    }
}
