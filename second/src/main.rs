//! Compares the library with the model: `compare [--family N] [--seed N] [--cases N] [--first N] [--dump FOLDER] [--aims]`.
//!
//! Ends with 1 where an answer differs, where a byte outside a lent slice is touched, or where a number never came. The case is then left
//! in the folder (`target/second-case` if none is named), and `--family F --seed S --first N --cases 1` runs it again.
//! Where no family is named, each runs in a process of its own, all at once.

mod linked;

use second::families::binaries::Binaries;
use second::families::bundles::Bundles;
use second::families::differences::Differences;
use second::families::each::Each;
use second::families::lookup::Lookup;
use second::families::recover::Recover;
use second::families::writers::Writers;
use second::families::{Difference, Family, Report};
use second::gen::random::Random;
use second::gen::{binary_contents, records};
use second::model::NUMBERS;
use std::path::{Path, PathBuf};
use std::process::{exit, Child, Command, Stdio};
use std::sync::atomic::{AtomicPtr, Ordering::Relaxed};
use std::time::Instant;

const NAMES: [&str; NUMBERS] = [
    "OK", "LENGTH", "MAGIC", "COUNT", "TABLE", "ID", "RANGE", "TWICE", "MIXED", "QUERY", "NONE", "BIG", "ROOM", "HEAD",
    "SPAN", "KIND", "STRINGS", "IMAGE", "MANY", "END", "CLASH", "OVERLAP", "FOREIGN", "RACK",
];

struct Options {
    family: Option<usize>,
    seed: u64,
    first: u64,
    cases: u64,
    dump: PathBuf,
    aims: bool,
}

fn main() {
    let options: &'static Options = Box::leak(Box::new(read_options()));
    match options.family {
        Some(number) => {
            catch_faults();
            run(families().into_iter().nth(number).unwrap_or_else(|| usage()), options);
        }
        None => run_all(),
    }
}

fn families() -> Vec<Box<dyn Family>> {
    vec![
        Box::new(Bundles::new(linked::BUNDLES)),
        Box::new(Writers::<records::Case>::new(linked::write_bundle)),
        Box::new(Binaries::new(linked::next)),
        Box::new(Writers::<binary_contents::Case>::new(linked::write_binary)),
        Box::new(Bundles::profile(linked::PROFILE)),
        Box::new(Each::new(linked::EACH)),
        Box::new(Lookup::new(linked::LOOKUP)),
        Box::new(Recover::new(linked::RECOVER)),
        Box::new(Differences::new(linked::DIFFERENCES)),
    ]
}

/// Runs each family in a process of its own, and prints what they say one after another.
fn run_all() {
    let program = std::env::current_exe().expect("the program's own path");
    let words: Vec<String> = std::env::args().skip(1).collect();
    let start = |family: usize| {
        let mut command = Command::new(&program);
        command.args(&words).args(["--family", &family.to_string()]).stdout(Stdio::piped());
        command.spawn().expect("a process for each family")
    };
    let children: Vec<Child> = (0..families().len()).map(start).collect();
    let mut failed = false;
    for child in children {
        let ended = child.wait_with_output().expect("a family's process ends");
        print!("{}", String::from_utf8_lossy(&ended.stdout));
        failed |= !ended.status.success();
    }
    if failed {
        exit(1);
    }
}

fn read_options() -> Options {
    let dump = PathBuf::from("target/second-case");
    let mut options = Options { family: None, seed: 1, first: 0, cases: 200_000, dump, aims: false };
    let mut words = std::env::args().skip(1);
    while let Some(word) = words.next() {
        match word.as_str() {
            "--family" => options.family = Some(number(words.next()) as usize),
            "--seed" => options.seed = number(words.next()),
            "--first" => options.first = number(words.next()),
            "--cases" => options.cases = number(words.next()),
            "--dump" => options.dump = PathBuf::from(words.next().unwrap_or_else(|| usage())),
            "--aims" => options.aims = true,
            _ => usage(),
        }
    }
    options
}

fn number(word: Option<String>) -> u64 {
    word.and_then(|word| word.parse().ok()).unwrap_or_else(|| usage())
}

fn usage() -> ! {
    eprintln!("compare [--family N] [--seed N] [--cases N] [--first N] [--dump FOLDER] [--aims]");
    exit(2)
}

/// What runs, for the handler of a fault.
struct Running {
    options: &'static Options,
    family: Box<dyn Family>,
    /// None: an example or a real file.
    case: Option<u64>,
}

/// Runs a family's cases; does not come back where they fail.
fn run(family: Box<dyn Family>, options: &'static Options) {
    let start = Instant::now();
    let mut running = Running { options, family, case: None };
    RUNNING.store(&mut running, Relaxed);
    let result = running.family.run_fixed();
    let fixed = result.unwrap_or_else(|difference| differs(&running, &difference));
    for case in options.first..options.first + options.cases {
        running.case = Some(case);
        let result = running.family.run(&mut Random::of_case(options.seed, case));
        result.unwrap_or_else(|difference| differs(&running, &difference));
    }
    let family = running.family;
    println!(
        "{}: seed {}, {} generated cases, {fixed} examples and real files, {:.1?}",
        family.name(),
        options.seed,
        options.cases,
        start.elapsed()
    );
    print_numbers(family.report());
    if options.aims {
        print_aims(family.report());
    }
    let whole = options.cases >= 20_000;
    if whole {
        require_all(family.report());
    }
}

fn print_numbers(report: &Report) {
    let heads: String = report.tallies.iter().map(|tally| format!("{:>15}", tally.call)).collect();
    println!("  number    {heads}");
    for (number, name) in NAMES.iter().enumerate() {
        let must_come = |number: u64| report.tallies.iter().any(|tally| tally.must_come.contains(&number));
        if must_come(number as u64) {
            let seen: String = report.tallies.iter().map(|tally| format!("{:>15}", tally.seen[number])).collect();
            println!("  {number:>2} {name:<7}{seen}");
        }
    }
}

fn print_aims(report: &Report) {
    for aim in &report.aims {
        println!("  {:<10}{:>3} {:>6} of {:>6}  {}", aim.call, aim.number, aim.met, aim.tried, aim.name);
    }
}

/// A number that never came, or a line that no case met, fails the run.
fn require_all(report: &Report) {
    let missing = report.missing();
    for line in &missing {
        println!("{line}");
    }
    if !missing.is_empty() {
        exit(1);
    }
    if let Some(least) = report.entry_counts.iter().min() {
        println!("  bundles of 0 to 64 entries were accepted, each count {least} times or more");
    }
    let least = report.aims.iter().map(|aim| aim.met).min().unwrap_or(0);
    println!("  {} lines were aimed at, each met {least} times or more", report.aims.len());
}

fn differs(running: &Running, difference: &Difference) -> ! {
    println!("{}: the library differs from the model in {}", running.family.name(), difference.call);
    println!("  model:   {}\n  library: {}", difference.model, difference.library);
    fail(running)
}

/// Leaves the case in files and says how to run it again.
fn fail(running: &Running) -> ! {
    let Running { options, family, case } = running;
    match case {
        None => println!("  an example or a real file: these always run"),
        Some(case) => println!(
            "  run again: --family {} --seed {} --first {case} --cases 1",
            options.family.unwrap_or(0),
            options.seed
        ),
    }
    for (name, bytes) in family.files() {
        let file = dump(&options.dump, &format!("{}-{name}", family.name().replace(' ', "-")), &bytes);
        println!("  {}", file.display());
    }
    exit(1)
}

fn dump(folder: &Path, name: &str, bytes: &[u8]) -> PathBuf {
    let file = folder.join(name);
    let written = std::fs::create_dir_all(folder).and_then(|_| std::fs::write(&file, bytes));
    if let Err(error) = written {
        println!("  {}: {error}", file.display());
    }
    file
}

static RUNNING: AtomicPtr<Running> = AtomicPtr::new(std::ptr::null_mut());

extern "C" {
    fn signal(number: i32, handler: extern "C" fn(i32)) -> usize;
}

const SIGSEGV: i32 = 11;

fn catch_faults() {
    // SAFETY: the handler ends the process.
    unsafe {
        signal(SIGSEGV, touched_outside);
    }
}

/// The library touched a byte outside a lent slice. It runs in the middle of a call, which holds nothing that the report needs.
extern "C" fn touched_outside(_: i32) {
    println!("a byte outside a lent slice was touched");
    // SAFETY: it lives as long as its cases run, and nothing else runs any more.
    let running = unsafe { RUNNING.load(Relaxed).as_ref() };
    if let Some(running) = running {
        fail(running);
    }
    exit(1)
}
