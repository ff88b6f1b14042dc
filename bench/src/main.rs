//! Times the library: `bench TOOL FOLDER`, with the tool to run and a folder for files, or a part alone: `bench order`, the order of two IDs,
//! `bench profile`, the profile for AMD's GPUs, `bench each`, picks for several names, `bench lookup`, a patch before the main bundle,
//! `bench recover`, offload binaries in damaged files, or `bench report`, the report on two bundles. Prints tables for docs/BENCHMARKS.md.

mod baseline;
mod baseline_binaries;
mod binaries;
mod bundles;
mod clock;
mod each;
mod hostile;
mod library;
mod llvm;
mod lookup;
mod order;
mod profile;
mod recover;
mod report;
mod sample;
mod table;

use std::process::{exit, Command};

fn main() {
    let words: Vec<String> = std::env::args().skip(1).collect();
    match words.iter().map(String::as_str).collect::<Vec<_>>().as_slice() {
        ["order"] => order::ids(),
        ["profile"] => profile::jobs(),
        ["each"] => each::jobs(),
        ["lookup"] => lookup::jobs(),
        ["recover"] => recover::jobs(),
        ["report"] => report::jobs(),
        [tool, work] => all(tool, work),
        _ => {
            eprintln!("bench TOOL FOLDER, bench order, bench profile, bench each, bench lookup, bench recover, or bench report");
            exit(2)
        }
    }
}

fn all(tool: &str, work: &str) {
    std::fs::create_dir_all(work).expect("a folder for files");
    println!("{}\n", machine());
    baseline::compare(5000);
    bundles::jobs();
    bundles::growth();
    each::jobs();
    lookup::jobs();
    report::jobs();
    profile::jobs();
    order::ids();
    bundles::copying();
    binaries::reading();
    recover::jobs();
    llvm::jobs(tool, work);
}

/// The day, the processor, the compiler and how busy the machine is.
fn machine() -> String {
    let read = |path: &str| std::fs::read_to_string(path).unwrap_or_default();
    let processors = read("/proc/cpuinfo");
    let model = processors.lines().find_map(|line| line.strip_prefix("model name\t: ")).unwrap_or("unknown processor");
    let count = processors.lines().filter(|line| line.starts_with("processor")).count();
    let load = read("/proc/loadavg").split(' ').next().unwrap_or("").to_string();
    let (day, gcc) = (first_line("date", "+%F"), first_line("gcc", "--version"));
    format!("{day}, {model}, {count} processors, load {load} at the start, {gcc}.")
}

fn first_line(program: &str, word: &str) -> String {
    let output = Command::new(program).arg(word).output().map(|output| output.stdout).unwrap_or_default();
    String::from_utf8_lossy(&output).lines().next().unwrap_or_default().to_string()
}
