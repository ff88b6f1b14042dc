//! Recovering the binaries of a damaged sequence.

use super::*;
use crate::calls::{BinaryReader, RecoverCalls, RecoverField};
use crate::gen::examples::recover_cases;
use crate::gen::recover::{aims, case_of, sample_case, shake, some_draft, Case, Draft, AT, CALL, FOUND, SPANS, TAIL};
use crate::guard::{bytes_of, list_of, list_of_mut, Inputs};
use crate::model::binaries::{Cursor, MAGIC_BYTES};
use crate::model::each::Part;
use crate::model::recover::{copied, copies, end, found, recover_of, skipped, Found, Recovered};
use crate::model::{part, END, HEAD, IMAGE, MANY};
use crate::samples;
use std::mem::size_of;

const RECOVER: (&str, &[u64]) = (CALL, &[0, 1, 18, 12]);

const WHOLE: &str = "spans rise, none is empty or touches the next, and the copies are the bytes between them";
const READ_BACK: &str = "the reader accepts the copies, and each binary where it stood";
const LOWEST: &str = "the reader refuses every position that is skipped by 13 to 17";
const FIRST: &str = "the reader accepts the binary at the place of 18";
const UNCHANGED: &str = "an accepted sequence comes out unchanged with nothing skipped";
const TAIL_KEPT: &str = "the tail comes out, where no binary of the front reaches into it";

pub struct Recover {
    calls: RecoverCalls,
    aims: Vec<Aim<Draft>>,
    report: Report,
    sequence: Inputs,
    copies: Inputs,
    out: Output,
    spans: Output,
    case: Case,
}

/// The library's answer, and what it wrote.
struct Answer {
    recovered: Recovered,
    copies: Vec<u8>,
    spans: Vec<Part>,
}

impl Recover {
    pub fn new(calls: RecoverCalls) -> Recover {
        let aims = aims();
        Recover {
            calls,
            report: Report::new(&[RECOVER], &aims),
            aims,
            sequence: Inputs::new(),
            copies: Inputs::new(),
            out: Output::new(),
            spans: Output::new(),
            case: case_of(Vec::new()),
        }
    }

    /// Runs the case. What is found, what the call returned, and whether the tail comes out, if there is one.
    fn compare(&mut self) -> Result<(Found, Recovered, Option<bool>), Difference> {
        self.sequence.lend(&self.case.sequence.binaries, self.case.sequence.zeros);
        let sequence = self.sequence.lent();
        let found = found(sequence);
        let [room, span_room] = rooms(&self.case, sequence, &found);
        let mut out = self.out.pattern(room).to_vec();
        let mut spans = list_of(self.spans.lend(span_room * size_of::<Part>())).to_vec();
        let model = recover_of(sequence, &found, &mut out, &mut spans);
        let recovered =
            compare_call(&self.calls, sequence, &model, [&out, bytes_of(&spans)], [&mut self.out, &mut self.spans])?;
        holds(CALL, sequence.starts_with(&self.case.sequence.binaries), KEPT, &"changed")?;
        out.truncate(recovered.length as usize);
        spans.truncate(recovered.spans as usize);
        let tail = self.compare_own(&Answer { recovered, copies: out, spans })?;
        Ok((found, recovered, tail))
    }

    /// What the request says of any answer, and of the library's own reader beside it. Whether the tail comes out, if there is one.
    fn compare_own(&mut self, answer: &Answer) -> Result<Option<bool>, Difference> {
        let (read, sequence) = (self.calls.read, self.sequence.lent());
        let Recovered { number, place, .. } = answer.recovered;
        if number == MANY {
            holds(CALL, read_at(read, sequence, place).is_some(), FIRST, &place)?;
        }
        if number != OK {
            return Ok(None);
        }
        let kept = compare_spans(sequence, answer)?;
        let found = compare_binaries(read, sequence, &kept, answer)?;
        let changed = answer.copies != sequence || !answer.spans.is_empty();
        holds(CALL, !(changed && is_accepted(read, sequence)), UNCHANGED, &answer.recovered)?;
        let tail = compare_tail(read, sequence, self.case.tail, &found, answer)?;
        self.copies.lend(&answer.copies, 0);
        let same = Recovered { spans: 0, ..answer.recovered };
        compare_call(&self.calls, self.copies.lent(), &same, [&answer.copies, &[]], [&mut self.out, &mut self.spans])
            .map_err(|difference| Difference { model: format!("the copies again: {}", difference.model), ..difference })?;
        Ok(tail)
    }

    /// Runs the case, and counts it for an aim.
    fn run_case(&mut self, case: Case, aim: Option<usize>) -> Result<(), Difference> {
        self.case = case;
        let (found, recovered, tail) = self.compare()?;
        self.report.count(CALL, recovered.number);
        if let Some(aim) = aim {
            let found = found.unwrap_or_default();
            let is_at = found.iter().any(|binary| binary.start == self.case.aimed as u64);
            let numbers = [
                (CALL, recovered.number),
                (FOUND, found.len() as u64),
                (SPANS, skipped(self.sequence.lent().len() as u64, &found).len() as u64),
                (AT, is_at.into()),
                (TAIL, tail.map_or(u64::MAX, u64::from)),
            ];
            self.report.aimed_at_one(aim, &numbers);
        }
        Ok(())
    }
}

/// How many bytes and how many spans are lent: seen from what is found, the 65th too. Some must stay as they are where nothing is.
fn rooms(case: &Case, sequence: &[u8], found: &Found) -> [usize; 2] {
    let wanted = match found {
        Ok(found) => [copied(found), skipped(sequence.len() as u64, found).len() as u64],
        Err(_) => [100, 5],
    };
    [0, 1].map(|which| case.rooms[which].lent(wanted[which].into()))
}

/// Each number that the call returns; with each of them it must leave these bytes in the lent output and the lent list.
fn compare_call(
    calls: &RecoverCalls,
    sequence: &[u8],
    model: &Recovered,
    expected: [&[u8]; 2],
    [out, spans]: [&mut Output; 2],
) -> Result<Recovered, Difference> {
    let mut numbers = [0; 4];
    for (number, field) in numbers.iter_mut().zip(RecoverField::ALL) {
        let (lent, list) = (out.lend(expected[0].len()), list_of_mut(spans.lend(expected[1].len())));
        *number = (calls.recover)(sequence, lent, list, field);
        wrote(CALL, *number, expected[0], out)?;
        wrote(CALL, *number, expected[1], spans)?;
    }
    let [number, place, length, spans] = numbers;
    let library = Recovered { number, place, length, spans };
    same(CALL, model, &library)?;
    let zeros = if number == OK { place == 0 } else { [length, spans] == [0; 2] };
    holds(CALL, zeros, ZEROS, &library)?;
    Ok(library)
}

/// "copied and skipped spans together are the whole strip". The parts between the spans.
fn compare_spans(sequence: &[u8], answer: &Answer) -> Result<Vec<Part>, Difference> {
    let spans = &answer.spans;
    let inside = spans.iter().all(|span| span.length > 0 && part(sequence, span.start, span.length).is_some());
    let rising = spans.windows(2).all(|two| end(two[0]) < two[1].start);
    holds(CALL, inside && rising, WHOLE, spans)?;
    let kept = skipped(sequence.len() as u64, spans);
    holds(CALL, copies(sequence, &kept) == answer.copies, WHOLE, spans)?;
    Ok(kept)
}

/// Each binary that the library's reader hands back from the copies stands in one of the parts that were kept, and there the reader hands it
/// back too; no other position passes. Where they stand.
fn compare_binaries(
    read: BinaryReader,
    sequence: &[u8],
    kept: &[Part],
    answer: &Answer,
) -> Result<Vec<Part>, Difference> {
    let mut found = Vec::new();
    let mut cursor = Cursor::default();
    for part in kept {
        let mut start = part.start;
        while start < end(*part) {
            let (binary, after) = read(&answer.copies, cursor);
            let length = after.at as u64 - cursor.at as u64;
            let same = binary.size == length && read_at(read, sequence, start) == Some(length);
            holds(CALL, same && binary.number == OK && start + length <= end(*part), READ_BACK, &(start, binary))?;
            found.push(Part { start, length });
            start += length;
            cursor = after;
        }
    }
    holds(CALL, read(&answer.copies, cursor).0.number == END, READ_BACK, &cursor)?;
    for span in &answer.spans {
        let magic = |at: &u64| sequence[*at as usize..].starts_with(&MAGIC_BYTES);
        for at in (span.start..end(*span)).filter(magic) {
            let (refused, _) = read(sequence, Cursor { at: at as usize, taken: 0 });
            holds(CALL, (HEAD..=IMAGE).contains(&refused.number), LOWEST, &refused)?;
        }
    }
    Ok(found)
}

/// The size of the binary that the library's reader hands back at a position.
fn read_at(read: BinaryReader, sequence: &[u8], at: u64) -> Option<u64> {
    let (binary, _) = read(sequence, Cursor { at: at as usize, taken: 0 });
    (binary.number == OK && binary.first == at).then_some(binary.size)
}

/// Whether the library's reader accepts a sequence.
fn is_accepted(read: BinaryReader, sequence: &[u8]) -> bool {
    let mut cursor = Cursor::default();
    loop {
        let (binary, after) = read(sequence, cursor);
        if binary.number != OK {
            return binary.number == END;
        }
        cursor = after;
    }
}

/// "if a strip is a damaged front followed by an accepted tail, and every binary taken from the front ends at or before the tail's first
/// byte, then every binary of the tail comes out exactly as if the tail had stood alone". Nothing where there is no such tail.
fn compare_tail(
    read: BinaryReader,
    sequence: &[u8],
    first: usize,
    found: &[Part],
    answer: &Answer,
) -> Result<Option<bool>, Difference> {
    let tail = match sequence.get(first..) {
        Some(tail) if !tail.is_empty() && is_accepted(read, tail) => tail,
        _ => return Ok(None),
    };
    let first = first as u64;
    if found.iter().any(|binary| binary.start < first && first < end(*binary)) {
        return Ok(Some(false));
    }
    let skips_none = answer.spans.iter().all(|span| end(*span) <= first);
    holds(CALL, skips_none && answer.copies.ends_with(tail), TAIL_KEPT, &answer.spans)?;
    Ok(Some(true))
}

impl Family for Recover {
    fn name(&self) -> &'static str {
        CALL
    }

    /// The examples; each real file, alone and before each other, whole and with a byte changed in each of its headers; some cases for each
    /// line, which are not counted.
    fn run_fixed(&mut self) -> Result<u64, Difference> {
        for (aim, draft) in each_aim(&self.aims, |random| Draft::good(random, 2)) {
            self.run_case(draft.case(), Some(aim))?;
        }
        let mut sequences = recover_cases();
        for sample in samples::BINARIES {
            sequences.push(sample.bytes.to_vec());
            sequences.extend(samples::BINARIES.iter().map(|other| [sample.bytes, other.bytes].concat()));
            for at in 0..sample.bytes.len().min(200) {
                let mut sequence = sample.bytes.to_vec();
                sequence[at] ^= 1;
                sequences.push(sequence);
            }
        }
        let count = sequences.len() as u64;
        for sequence in sequences {
            self.run_case(case_of(sequence), None)?;
        }
        Ok(count)
    }

    fn run(&mut self, random: &mut Random) -> Result<(), Difference> {
        let shake = |case: &mut Case, random: &mut Random| shake(&mut case.sequence, random);
        let (mut case, aim) = some_case(&self.aims, random, sample_case, some_draft, Draft::case, shake);
        if aim.is_none() {
            case.shorten();
        }
        self.run_case(case, aim)
    }

    fn report(&self) -> &Report {
        &self.report
    }

    fn files(&self) -> Vec<(&'static str, Vec<u8>)> {
        let Case { sequence, rooms, tail, .. } = &self.case;
        let notes = format!(
            "zero bytes after the binaries: {}\nroom for the copies and for the spans: {rooms:?}\n\
             first byte of the tail: {tail}\n",
            sequence.zeros
        );
        vec![("binaries", sequence.binaries.clone()), ("notes.txt", notes.into_bytes())]
    }
}
