//! A lookup in two bundles, a patch before a main one.

use super::*;
use crate::calls::LookupCalls;
use crate::gen::examples::lookup_cases;
use crate::gen::lookup::{aims, case_of, sample_case, shake, some_draft, Case, Draft, Side, CALL, NEITHER};
use crate::guard::{Inputs, TwoInputs};
use crate::model::bundle::{entries, Checked, Picked};
use crate::model::id::Reading;
use crate::model::lookup::{lookup_of, LookedUp, MAIN, PATCH};
use crate::model::{part, NONE, QUERY};
use crate::samples;

const LOOKUP: (&str, &[u64]) = (CALL, &[0, 1, 2, 3, 4, 5, 6, 21, 7, 8, 9, 10]);
/// Numbers that name a bundle.
const NAMED: &[u64] = &[0, 1, 2, 3, 4, 5, 6, 21, 7, 8];

const LOOKUP_ZEROS: &str =
    "a refusal has position and size 0, and bundle 0 where it is 9 or 10; an accepted call has place 0";
const PART: &str = "position and size are the image, a part of the bundle that is named";
const SINGLE: &str = "the library's own check and pick of the two bundles say the same";

pub struct Lookup {
    calls: LookupCalls,
    aims: Vec<Aim<Draft>>,
    report: Report,
    inputs: CaseInputs,
    case: Case,
}

/// Memory of what is lent.
#[derive(Default)]
struct CaseInputs {
    bundles: TwoInputs,
    device: Inputs,
}

struct Lent<'a> {
    patch: &'a [u8],
    main: &'a [u8],
    device: &'a [u8],
}

impl CaseInputs {
    fn lend(&mut self, case: &Case) {
        self.bundles.lend([&case.patch, &case.main], [case.patch_zeros, case.main_zeros], case.shared);
        self.device.lend(&case.device, 0);
    }

    fn lent(&self) -> Lent<'_> {
        let [patch, main] = self.bundles.lent();
        Lent { patch, main, device: self.device.lent() }
    }

    /// Whether all is as it was lent.
    fn holds(&self, case: &Case) -> bool {
        let Lent { patch, main, device } = self.lent();
        patch.starts_with(&case.patch) && main.starts_with(&case.main) && device == case.device
    }
}

impl Lent<'_> {
    /// The bundle of this number, and the other one; main comes first where none is named.
    fn named(&self, bundle: u64) -> [&[u8]; 2] {
        if bundle == PATCH {
            return [self.patch, self.main];
        }
        [self.main, self.patch]
    }
}

impl Lookup {
    pub fn new(calls: LookupCalls) -> Lookup {
        let aims = aims();
        let [patch, main] = Side::BOTH.map(|side| (side.number(), NAMED));
        Lookup {
            calls,
            report: Report::new(&[LOOKUP, patch, main, (NEITHER, &[9, 10])], &aims),
            aims,
            inputs: CaseInputs::default(),
            case: Case::default(),
        }
    }

    /// Runs the case. What the call returned, and the index of the entry that answers.
    fn compare(&mut self) -> Result<(LookedUp, Option<u64>), Difference> {
        self.inputs.lend(&self.case);
        let lent = self.inputs.lent();
        let [patch, main] = [lent.patch, lent.main].map(|bundle| entries(Reading::General, bundle));
        let (model, image) = lookup_of(&patch, &main, lent.device);
        let library = (self.calls.lookup)(lent.patch, lent.main, lent.device);
        same(CALL, &model, &library)?;
        holds(CALL, self.inputs.holds(&self.case), KEPT, &"changed")?;
        holds(CALL, has_zeros(&library), LOOKUP_ZEROS, &library)?;
        holds(CALL, is_part(&lent, &library, image), PART, &library)?;
        let index = compare_single(&self.calls, &lent, &library)?;
        Ok((model, index))
    }

    /// Runs the case, and counts it for an aim.
    fn run_case(&mut self, case: Case, aim: Option<usize>) -> Result<(), Difference> {
        self.case = case;
        let (found, index) = self.compare()?;
        let numbers = numbers_of_named(&found, index);
        self.report.count(CALL, found.number);
        self.report.count(numbers[0].0, found.number);
        aim.into_iter().for_each(|aim| self.report.aimed_at_one(aim, &numbers));
        Ok(())
    }
}

/// The number, under the bundle that is named; then the index of its entry, or the place of its refusal.
fn numbers_of_named(found: &LookedUp, index: Option<u64>) -> Vec<(&'static str, u64)> {
    let side = match found.bundle {
        PATCH => Side::Patch,
        MAIN => Side::Main,
        _ => return vec![(NEITHER, found.number)],
    };
    let more = index.map_or((side.place(), found.place), |index| (side.entry(), index));
    vec![(side.number(), found.number), more]
}

fn has_zeros(found: &LookedUp) -> bool {
    let LookedUp { number, place, bundle, position, size } = *found;
    let is_named = [PATCH, MAIN].contains(&bundle);
    match number {
        OK => is_named && place == 0,
        QUERY | NONE => [place, bundle, position, size] == [0; 4],
        _ => is_named && [position, size] == [0; 2],
    }
}

/// Whether the model's image lies there: the very bytes in memory, not others like them. "A refusal hands back an empty part".
fn is_part(lent: &Lent, found: &LookedUp, image: &[u8]) -> bool {
    if found.number != OK {
        return image.is_empty();
    }
    let [bundle, _] = lent.named(found.bundle);
    part(bundle, found.position, found.size).map_or(false, |part| std::ptr::eq(part, image))
}

/// The library's own pick and check, of the bundle that is named and of the other one. The index of the entry that answers.
fn compare_single(calls: &LookupCalls, lent: &Lent, found: &LookedUp) -> Result<Option<u64>, Difference> {
    let LookedUp { number, place, bundle, position, size } = *found;
    let [named, other] = lent.named(bundle);
    let pick = |bundle: &[u8]| (calls.pick)(bundle, lent.device);
    let refused = |bundle: &[u8]| (calls.check)(bundle) == Checked { number, place, count: 0 };
    let accepted = |bundle: &[u8]| (calls.check)(bundle).number == OK;
    let picked = pick(named);
    let index = (number == OK).then_some(picked.index);
    let is_pick = picked == Picked { number, place, index: index.unwrap_or(0), position, size };
    let agrees = match (number, bundle) {
        (OK, PATCH) => accepted(other),
        (OK, _) => pick(other).number == NONE,
        (QUERY | NONE, _) => pick(other).number == number,
        (_, PATCH) => refused(named),
        _ => refused(named) && accepted(other),
    };
    holds(CALL, is_pick && agrees, SINGLE, found)?;
    Ok(index)
}

impl Family for Lookup {
    fn name(&self) -> &'static str {
        CALL
    }

    /// The examples, and each real bundle as a patch before each, with all device names. Also some cases for each line, which are not
    /// counted.
    fn run_fixed(&mut self) -> Result<u64, Difference> {
        for (aim, draft) in each_aim(&self.aims, |random| Draft::good(random, 3)) {
            self.run_case(draft.case(), Some(aim))?;
        }
        let cases = lookup_cases();
        let mut count = cases.len() as u64;
        for case in cases {
            self.run_case(case, None)?;
        }
        for patch in samples::all_bundles() {
            for main in samples::all_bundles() {
                for device in samples::DEVICES {
                    self.run_case(case_of(patch.to_vec(), main.to_vec(), device.as_bytes()), None)?;
                    count += 1;
                }
            }
        }
        Ok(count)
    }

    fn run(&mut self, random: &mut Random) -> Result<(), Difference> {
        let (case, aim) = some_case(&self.aims, random, sample_case, some_draft, Draft::case, shake);
        self.run_case(case, aim)
    }

    fn report(&self) -> &Report {
        &self.report
    }

    fn files(&self) -> Vec<(&'static str, Vec<u8>)> {
        let Case { patch_zeros, main_zeros, shared, .. } = &self.case;
        let notes = format!(
            "zero bytes after the patch: {patch_zeros}\nzero bytes after the main bundle: {main_zeros}\n\
             the shorter lent as the end of the longer: {shared}\n"
        );
        vec![
            ("patch", self.case.patch.clone()),
            ("main", self.case.main.clone()),
            ("device", self.case.device.clone()),
            ("notes.txt", notes.into_bytes()),
        ]
    }
}
