//! The tool against LLVM's bundler, as a person runs them: a process for each job.

use crate::clock::{job, time, Timed, Whose};
use crate::sample::{self, IMAGE};
use crate::table::{self, digits, Table};
use std::process::{Command, Stdio};

/// A program and the words it is given.
struct Call<'a> {
    program: &'a str,
    words: Vec<String>,
}

impl<'a> Call<'a> {
    fn new(program: &'a str, words: &[&str]) -> Call<'a> {
        Call { program, words: words.iter().map(|word| word.to_string()).collect() }
    }

    fn runs(&self) -> bool {
        let command = Command::new(self.program).args(&self.words).stdout(Stdio::null()).stderr(Stdio::null()).status();
        command.map_or(false, |status| status.success())
    }
}

fn compare(ours: Call, theirs: Call) -> Vec<Timed> {
    let run = |call: &Call| assert!(call.runs(), "{} {:?}", call.program, call.words);
    time(Whose::Children, vec![job(|| run(&ours)), job(|| run(&theirs))])
}

fn row(table: &Table, job: &str, entries: usize, timed: &[Timed]) {
    let times = timed.iter().map(|timed| table::time(timed.time));
    let cells = [job.to_string(), entries.to_string()].into_iter().chain(times).chain([digits(timed[1].of_first)]);
    table.row(&cells.collect::<Vec<_>>());
}

pub fn jobs(tool: &str, folder: &str) {
    let installed = ["clang-offload-bundler-19", "clang-offload-bundler"];
    let bundler = match installed.into_iter().find(|name| Call::new(name, &["--version"]).runs()) {
        Some(name) => name,
        None => return println!("LLVM's bundler is not installed.\n"),
    };
    let table = Table::new(
        "The tool and LLVM's bundler",
        &format!(
            "Processor time of a whole process. LLVM's is `{bundler}` with `-list`, with `-unbundle`, and, since it has\n\
             nothing like normalise, bundling the same images."
        ),
        &["Job", "Entries", "offload", "LLVM", "LLVM / offload"],
    );
    row(&table, "start: `--version`", 0, &compare(Call::new(tool, &["--version"]), Call::new(bundler, &["--version"])));
    let (file, image, out) = (format!("{folder}/bundle"), format!("{folder}/image"), format!("{folder}/out"));
    std::fs::write(&image, vec![7; IMAGE]).expect("a file in the folder");
    for entries in [1, 16, 64] {
        std::fs::write(&file, sample::bundle(entries, IMAGE)).expect("a file in the folder");
        let device = sample::id(entries - 1);
        let (input, output) = (format!("-input={file}"), format!("-output={out}"));

        let list = Call::new(bundler, &["-type=o", "-list", &input]);
        row(&table, "check, list", entries, &compare(Call::new(tool, &["check", &file]), list));

        let unbundle = Call::new(bundler, &["-type=o", "-unbundle", &input, &output, &format!("-targets={device}")]);
        let pick = Call::new(tool, &["pick", &file, &device, "-o", &out]);
        row(&table, "pick, unbundle", entries, &compare(pick, unbundle));

        let normalise = Call::new(tool, &["normalise", &file, "-o", &out]);
        row(&table, "normalise, bundle", entries, &compare(normalise, bundle(bundler, entries, &image, &output)));
    }
    table.end();
}

/// Bundles so many images, and none for the host, which the bundler wants among them.
fn bundle<'a>(bundler: &'a str, entries: usize, image: &str, output: &str) -> Call<'a> {
    let ids: Vec<String> = (0..entries).map(sample::id).collect();
    let mut call = Call::new(bundler, &["-type=o", output, "-input=/dev/null"]);
    call.words.push(format!("-targets=host-x86_64-unknown-linux-gnu,{}", ids.join(",")));
    call.words.extend((0..entries).map(|_| format!("-input={image}")));
    call
}
