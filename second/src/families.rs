//! Families of cases. Each has its own generator, its own calls and its own numbers that must come.

pub mod binaries;
pub mod bundles;
pub mod differences;
pub mod each;
pub mod lookup;
pub mod recover;
#[cfg(test)]
mod tests;
pub mod writers;

use crate::calls::Field;
use crate::gen::random::Random;
use crate::gen::{Aim, Room};
use crate::guard::Output;
use crate::model::{Written, BIG, NUMBERS, OK, ROOM, SIZE_LIMIT};
use std::fmt::Debug;

/// A case in which the library does not answer as the model does.
#[derive(Clone, Debug)]
pub struct Difference {
    pub call: &'static str,
    pub model: String,
    pub library: String,
}

pub trait Family {
    fn name(&self) -> &'static str;

    /// Runs the cases that are no matter of chance, and says how many they are.
    fn run_fixed(&mut self) -> Result<u64, Difference>;

    /// Makes a case and runs it.
    fn run(&mut self, random: &mut Random) -> Result<(), Difference>;

    fn report(&self) -> &Report;

    /// The case that ran last, as files.
    fn files(&self) -> Vec<(&'static str, Vec<u8>)>;
}

pub fn same<T: PartialEq + Debug>(call: &'static str, model: &T, library: &T) -> Result<(), Difference> {
    if model == library {
        return Ok(());
    }
    Err(Difference { call, model: format!("{model:?}"), library: format!("{library:?}") })
}

/// What must hold of the library's answer by itself.
pub fn holds(call: &'static str, holds: bool, rule: &str, library: &impl Debug) -> Result<(), Difference> {
    if holds {
        return Ok(());
    }
    Err(Difference { call, model: rule.to_string(), library: format!("{library:?}") })
}

pub const ZEROS: &str = "a refusal has 0 in every other number, an accepted call has place 0";
pub const KEPT: &str = "what is lent for reading stays as it is";
pub const WRITTEN: &str = "the lent output holds the bytes of the model, and nothing else changed";

/// How often each number came from a call.
pub struct Tally {
    pub call: &'static str,
    pub must_come: &'static [u64],
    pub seen: [u64; NUMBERS],
}

/// How often a case was aimed at a line, and how often it met it.
pub struct AimTally {
    pub name: String,
    pub call: &'static str,
    pub number: u64,
    pub tried: u64,
    pub met: u64,
}

#[derive(Default)]
pub struct Report {
    pub tallies: Vec<Tally>,
    pub aims: Vec<AimTally>,
    /// For each number of entries, how often a bundle with so many was accepted; empty in other families.
    pub entry_counts: Vec<u64>,
}

impl Report {
    pub fn new<D>(calls: &[(&'static str, &'static [u64])], aims: &[Aim<D>]) -> Report {
        let tally = |(call, must_come): &(&'static str, &'static [u64])| Tally { call, must_come, seen: [0; NUMBERS] };
        let aim =
            |aim: &Aim<D>| AimTally { name: aim.name.clone(), call: aim.call, number: aim.number, tried: 0, met: 0 };
        Report {
            tallies: calls.iter().map(tally).collect(),
            aims: aims.iter().map(aim).collect(),
            entry_counts: Vec::new(),
        }
    }

    pub fn count(&mut self, call: &str, number: u64) {
        for tally in &mut self.tallies {
            if tally.call == call {
                tally.seen[number as usize] += 1;
            }
        }
    }

    /// A case that was aimed at one line alone, with the number that its call gave.
    pub fn aimed(&mut self, aim: usize, number: u64) {
        self.aims[aim].tried += 1;
        if self.aims[aim].number == number {
            self.aims[aim].met += 1;
        }
    }

    /// The same where a case goes through several calls, each of which gave its number, if it gave one.
    pub fn aimed_at_one(&mut self, aim: usize, numbers: &[(&str, u64)]) {
        let own = numbers.iter().find(|(call, _)| *call == self.aims[aim].call);
        self.aimed(aim, own.map_or(u64::MAX, |(_, number)| *number));
    }

    /// Numbers that never came, lines that were never met, and counts of entries that were never accepted.
    pub fn missing(&self) -> Vec<String> {
        let mut missing = self.missing_lines();
        let never = self.entry_counts.iter().enumerate().filter(|(_, seen)| **seen == 0);
        missing.extend(never.map(|(count, _)| format!("check: no bundle of {count} entries was accepted")));
        missing
    }

    /// Numbers that never came, and lines that were never met.
    pub fn missing_lines(&self) -> Vec<String> {
        let mut missing = Vec::new();
        for tally in &self.tallies {
            let never = tally.must_come.iter().filter(|number| tally.seen[**number as usize] == 0);
            missing.extend(never.map(|number| format!("{}: number {number} never came", tally.call)));
        }
        let never = self.aims.iter().filter(|aim| aim.met == 0);
        missing.extend(never.map(|aim| format!("{}: never met with number {}: {}", aim.call, aim.number, aim.name)));
        missing
    }
}

/// Applies one aim to a draft, and now and then another one over it. The aim's index, if it is alone.
pub fn apply_aims<D>(aims: &[Aim<D>], draft: &mut D, random: &mut Random) -> Option<usize> {
    let aim = some_aim(aims, random);
    (aims[aim].make)(draft, random);
    if random.one_in(6) {
        (aims[some_aim(aims, random)].make)(draft, random);
        return None;
    }
    Some(aim)
}

/// The case of a draft that is aimed at a line, with the aim's index; now and then a real file. Where it is a real file, is aimed at two lines
/// or is shaken, it counts for no aim.
pub fn some_case<D, C>(
    aims: &[Aim<D>],
    random: &mut Random,
    sample: impl Fn(&mut Random) -> C,
    draft: impl Fn(&mut Random) -> D,
    case: impl Fn(&D) -> C,
    shake: impl Fn(&mut C, &mut Random),
) -> (C, Option<usize>) {
    if random.one_in(50) {
        return (sample(random), None);
    }
    let mut draft = draft(random);
    let aim = apply_aims(aims, &mut draft, random);
    let mut case = case(&draft);
    if random.one_in(12) {
        shake(&mut case, random);
        return (case, None);
    }
    (case, aim)
}

/// How often each line is aimed at in families that run `each_aim`.
const EACH_AIM: u64 = 8;

/// Some drafts for each line, with the index of its aim: a family may have so many lines that chance would leave one out now and then.
pub fn each_aim<D>(aims: &[Aim<D>], good: impl Fn(&mut Random) -> D) -> Vec<(usize, D)> {
    let mut drafts = Vec::new();
    for (index, aim) in aims.iter().enumerate() {
        for case in 0..EACH_AIM {
            let mut random = Random::of_case(case, index as u64);
            let mut draft = good(&mut random);
            (aim.make)(&mut draft, &mut random);
            drafts.push((index, draft));
        }
    }
    drafts
}

/// The index of some aim; a large one comes a quarter as often as another.
fn some_aim<D>(aims: &[Aim<D>], random: &mut Random) -> usize {
    loop {
        let aim = random.below(aims.len());
        if !aims[aim].large || random.one_in(4) {
            return aim;
        }
    }
}

/// Room for every output that a case may write.
pub fn scratch() -> Vec<u8> {
    vec![0; 1 << 20]
}

/// Each number that a call which writes returns; with each of them it must leave these bytes in the lent output.
pub fn numbers_of<F: Copy, const N: usize>(
    call: &'static str,
    fields: [F; N],
    expected: &[u8],
    output: &mut Output,
    library: impl Fn(&mut [u8], F) -> u64,
) -> Result<[u64; N], Difference> {
    let mut numbers = [0; N];
    for (number, field) in numbers.iter_mut().zip(fields) {
        *number = library(output.lend(expected.len()), field);
        wrote(call, *number, expected, output)?;
    }
    Ok(numbers)
}

/// The lent output must hold these bytes, where the call returned this number.
pub fn wrote(call: &'static str, number: u64, expected: &[u8], output: &Output) -> Result<(), Difference> {
    match output.differs_at(expected) {
        None => Ok(()),
        Some(at) => {
            let library = format!("number {number}, and byte {at} of the output differs");
            Err(Difference { call, model: WRITTEN.to_string(), library })
        }
    }
}

/// Compares a call that writes with the model: each number that it returns, and with each of them every byte of the lent output.
pub fn compare_writing(
    call: &'static str,
    room: Room,
    scratch: &mut [u8],
    output: &mut Output,
    model: impl Fn(&mut [u8]) -> Written,
    library: impl Fn(&mut [u8], Field) -> u64,
) -> Result<Written, Difference> {
    let ample = model(scratch);
    let room = room.lent(wanted_length(ample));
    let mut expected = output.pattern(room).to_vec();
    let model = match ample.number {
        OK if ample.length as usize <= room => {
            let length = ample.length as usize;
            expected[..length].copy_from_slice(&scratch[..length]);
            ample
        }
        OK | BIG | ROOM => model(&mut expected),
        // No other refusal depends on the room.
        _ => ample,
    };
    let [number, place, length] = numbers_of(call, Field::ALL, &expected, output, library)?;
    let library = Written { number, place, length };
    same(call, &model, &library)?;
    let zeros = if library.number == OK { library.place == 0 } else { library.length == 0 };
    holds(call, zeros, ZEROS, &library)?;
    Ok(model)
}

/// The length that the model writes with room enough; the size limit where that is too long for any case; 100 for another refusal, so
/// that there is some room that must stay as it is.
fn wanted_length(written: Written) -> u128 {
    match written.number {
        OK => written.length as u128,
        BIG | ROOM => SIZE_LIMIT,
        _ => 100,
    }
}
