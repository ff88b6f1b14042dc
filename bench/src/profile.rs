//! The profile for AMD's GPUs beside the general reading, on the same bundles.

use crate::clock::{black_box, job, time, Timed, Whose};
use crate::sample::{self, IMAGE};
use crate::table::{self, digits, Table};
use crate::{baseline, library};
use second::model::{ID, OK};
use std::cell::RefCell;

/// A check of 64 entries by the profile takes at most this many times as long as the general one.
const LIMIT: f64 = 2.5;

/// Library by the profile, library in general, plain C by the profile.
fn check(bundle: &[u8]) -> Vec<Timed> {
    let profile = job(|| library::amdgpu::check(black_box(bundle)));
    let general = job(|| library::check(black_box(bundle)));
    let plain = job(|| baseline::amdgpu::check(black_box(bundle)));
    time(Whose::Thread, vec![profile, general, plain])
}

fn pick(bundle: &[u8], device: &[u8]) -> Vec<Timed> {
    let profile = job(|| library::amdgpu::pick(black_box(bundle), device));
    let general = job(|| library::pick(black_box(bundle), device));
    let plain = job(|| baseline::amdgpu::pick(black_box(bundle), device));
    time(Whose::Thread, vec![profile, general, plain])
}

/// All write to one output. It has room for the longer of the two normal forms.
fn normalise(bundle: &[u8]) -> Vec<Timed> {
    let out = &RefCell::new(vec![0; bundle.len() + 2 * 64]);
    let profile = job(|| library::amdgpu::normalise(black_box(bundle), &mut out.borrow_mut()));
    let general = job(|| library::normalise(black_box(bundle), &mut out.borrow_mut()));
    let plain = job(|| baseline::amdgpu::normalise(black_box(bundle), &mut out.borrow_mut()));
    time(Whose::Thread, vec![profile, general, plain])
}

/// A bundle that the profile answers with this number, and the plain C too.
fn answered(number: u64, id: impl Fn(usize) -> String, entries: usize) -> Vec<u8> {
    let bundle = sample::bundle_of(id, entries, IMAGE);
    assert_eq!(library::amdgpu::check(&bundle), number);
    assert_eq!(baseline::amdgpu::check(&bundle).number, number);
    bundle
}

/// Prints the table, and fails where a check of 64 entries takes too long.
pub fn jobs() {
    let table = Table::new(
        "The profile",
        "Time of one call by the profile for AMD's GPUs, and of the general call on the same bundle. Images of 2 KiB; a pick is for the last entry.\n\
         Late rows: gfx1030 to gfx1201. Longest name: gfx10-1-generic in each ID, so that all share a hash. Alternative names: one in each ID.\n\
         Other arch: IDs that are none of the profile's. Unknown name: the profile refuses the bundle, by its first or by its last entry; the general\n\
         check accepts it.",
        &["Job", "Entries", "Profile", "General", "Profile / general", "Plain C, profile", "Profile / plain C"],
    );
    let mut of_general = 0.0;
    for entries in [1, 16, 64] {
        of_general = row(&table, "check", entries, &check(&answered(OK, sample::profile_id, entries)));
    }
    let bundle = answered(OK, sample::profile_id, 64);
    row(&table, "pick", 64, &pick(&bundle, sample::profile_id(63).as_bytes()));
    row(&table, "normalise", 64, &normalise(&bundle));
    row(&table, "check, late rows", 64, &check(&answered(OK, sample::late_row_id, 64)));
    for entries in [1, 64] {
        row(&table, "check, longest name", entries, &check(&answered(OK, sample::longest_name_id, entries)));
    }
    let (bundle, last) = (answered(OK, sample::alternative_name_id, 64), sample::alternative_name_id(63));
    row(&table, "check, alternative names", 64, &check(&bundle));
    row(&table, "pick, alternative names", 64, &pick(&bundle, last.as_bytes()));
    row(&table, "normalise, alternative names", 64, &normalise(&bundle));
    row(&table, "check, other arch", 64, &check(&answered(OK, sample::other_arch_id, 64)));
    row(&table, "check, first name unknown", 64, &check(&answered(ID, sample::unknown_at(0), 64)));
    row(&table, "check, last name unknown", 64, &check(&answered(ID, sample::unknown_at(63), 64)));
    table.end();
    assert!(
        of_general <= LIMIT,
        "a check by the profile takes {of_general:.2} times as long as a general one, above {LIMIT}"
    );
}

/// How many times as long as the general call that by the profile takes.
fn row(table: &Table, job: &str, entries: usize, timed: &[Timed]) -> f64 {
    let [of_general, of_plain] = [1, 2].map(|other| 1.0 / timed[other].of_first);
    table.row(&[
        job.to_string(),
        entries.to_string(),
        table::time(timed[0].time),
        table::time(timed[1].time),
        digits(of_general),
        table::time(timed[2].time),
        digits(of_plain),
    ]);
    of_general
}
