//! Reading offload binaries laid end to end.

use crate::clock::{black_box, job, time, Whose};
use crate::table::{self, digits, Table};
use crate::{baseline_binaries, library, sample};
use second::model::binaries as model;

#[cfg(llvm)]
mod llvm {
    extern "C" {
        fn llvm_read_binaries(bytes: *const u8, length: usize) -> u64;
    }

    pub fn read_all(binaries: &[u8]) -> u64 {
        // SAFETY: the slice is as long as it says.
        unsafe { llvm_read_binaries(binaries.as_ptr(), binaries.len()) }
    }
}

pub fn reading() {
    let table = Table::new(
        "Reading offload binaries",
        "Time to read all of them. Each has two string pairs. LLVM's is `OffloadBinary::create` of its library.",
        &["Binaries", "Library", "Second program", "Plain C", "LLVM", "Library / plain C", "LLVM / library"],
    );
    for count in [1, 64] {
        row(&table, &sample::binaries(count), count as u64);
    }
    table.end();
}

fn row(table: &Table, binaries: &[u8], count: u64) {
    let reads = |read: fn(&[u8]) -> u64| job(move || assert_eq!(read(black_box(binaries)), count));
    #[allow(unused_mut)]
    let mut jobs = vec![
        reads(library::read_all),
        job(|| model::read_all(black_box(binaries))),
        reads(baseline_binaries::read_all),
    ];
    #[cfg(llvm)]
    jobs.push(reads(llvm::read_all));
    let timed = time(Whose::Thread, jobs);
    let mut cells = vec![count.to_string()];
    cells.extend(timed.iter().map(|timed| table::time(timed.time)));
    cells.resize(5, "not installed".to_string());
    cells.push(digits(1.0 / timed[2].of_first));
    cells.push(timed.get(3).map_or(String::new(), |timed| digits(timed.of_first)));
    table.row(&cells);
}
