//! Damaged sequences: libraries with a slip.

use super::*;
use crate::calls::{BinaryReader, Recover as Call, RecoverCalls, RecoverField, MODEL_RECOVER};
use crate::families::recover::Recover;
use crate::model::binaries::{next, Binary, Cursor, MAGIC_BYTES};
use crate::model::each::Part;
use crate::model::recover::{copied, copies, end, found as found_in_sequence, recover, recover_of, skipped, Recovered};
use crate::model::{END, HEAD, IMAGE, KIND, MANY, SPAN, STRINGS};

#[test]
fn damaged_sequences_meet_every_line_in_any_run_and_nearly_each_time() {
    meets_every_line_in_any_run(Recover::new(MODEL_RECOVER));
}

#[test]
fn most_of_the_generated_sequences_are_accepted_and_each_refusal_comes_often() {
    let mut family = Recover::new(MODEL_RECOVER);
    run_generated(&mut family, 4000).unwrap();
    let seen = family.report().tallies[0].seen;
    assert!(seen[OK as usize] > 3000 && seen[ROOM as usize] > 200, "{seen:?}");
    assert!(seen[MANY as usize] > 50 && seen[LENGTH as usize] > 20, "{seen:?}");
}

/// Libraries that take these steps.
macro_rules! slips {
    ($library:ident: $(($name:literal, $($step:expr),+),)*) => {
        &[$(($name, |sequence, out, spans, field| field.of($library(sequence, out, spans, $($step),+))),)*]
    };
}

type Slips = &'static [(&'static str, Call)];

/// What is found in a sequence that is not above the size limit.
fn all_found(sequence: &[u8]) -> Vec<Part> {
    found_in_sequence(sequence).unwrap_or_default()
}

/// What the copies and the spans need.
fn needed(sequence: &[u8]) -> [usize; 2] {
    let found = all_found(sequence);
    [copied(&found) as usize, skipped(sequence.len() as u64, &found).len()]
}

fn is_above_the_limit(sequence: &[u8]) -> bool {
    sequence.len() as u128 > SIZE_LIMIT
}

/// Other binaries are found.
fn finding(sequence: &[u8], out: &mut [u8], spans: &mut [Part], find: fn(&[u8]) -> Vec<Part>) -> Recovered {
    if is_above_the_limit(sequence) {
        return recover(sequence, out, spans);
    }
    recover_of(sequence, &Ok(find(sequence)), out, spans)
}

/// What a reader answers at a position; HEAD where the first four bytes differ.
fn answer_at(sequence: &[u8], at: usize) -> Binary {
    match sequence[at..].starts_with(&MAGIC_BYTES) {
        true => next(sequence, Cursor { at, taken: 0 }).0,
        false => Binary { number: HEAD, ..Binary::default() },
    }
}

type Passing = fn(&[u8], usize) -> Option<Part>;
type Step = fn(&[u8], usize) -> usize;

const PASSING: Passing = |sequence, at| {
    let binary = answer_at(sequence, at);
    (binary.number == OK).then_some(Part { start: at as u64, length: binary.size })
};
const BYTE: Step = |_, _| 1;

/// A search from the first position on: which positions pass, how far it goes on from one that does not, and where the cursor goes.
fn searched(sequence: &[u8], first: usize, passing: Passing, step: Step, after: fn(Part) -> u64) -> Vec<Part> {
    let (mut found, mut at) = (Vec::new(), first);
    while at < sequence.len() && found.len() < 65 {
        match passing(sequence, at) {
            Some(binary) => {
                found.push(binary);
                at = after(binary) as usize;
            }
            None => at += step(sequence, at).max(1),
        }
    }
    found
}

fn stepping(sequence: &[u8], step: Step) -> Vec<Part> {
    searched(sequence, 0, PASSING, step, end)
}

fn passing(sequence: &[u8], passing: Passing) -> Vec<Part> {
    searched(sequence, 0, passing, BYTE, end)
}

fn going_on(sequence: &[u8], after: fn(Part) -> u64) -> Vec<Part> {
    searched(sequence, 0, PASSING, BYTE, after)
}

fn has_magic(sequence: &[u8], at: usize) -> bool {
    sequence[at..].starts_with(&MAGIC_BYTES)
}

/// How many of the first four bytes are those of a binary.
fn matching(sequence: &[u8], at: usize) -> usize {
    sequence[at..].iter().zip(MAGIC_BYTES).take_while(|(byte, other)| **byte == *other).count()
}

/// The size of a binary whose bytes from there on are no longer than the sequence, if it has a header.
fn size_at(sequence: &[u8], at: usize) -> Option<u64> {
    let left = &sequence[at..];
    (left.len() >= 32).then(|| integer(left, 8, 8)).filter(|size| *size <= left.len() as u64)
}

/// This refusal of a binary is not among those that are tried.
fn without(sequence: &[u8], at: usize, number: u64) -> Option<Part> {
    let refused = has_magic(sequence, at) && answer_at(sequence, at).number == number;
    let length = size_at(sequence, at).filter(|size| refused && *size >= 72);
    length.map(|length| Part { start: at as u64, length }).or_else(|| PASSING(sequence, at))
}

/// All that a binary has may lie behind its end.
fn up_to_the_end(sequence: &[u8], at: usize) -> Option<Part> {
    let size =
        size_at(sequence, at).filter(|size| *size >= 72 && has_magic(sequence, at) && sequence.len() < 1 << 20)?;
    let mut left = sequence[at..].to_vec();
    let length = left.len() as u64;
    left[8..16].copy_from_slice(&length.to_le_bytes());
    PASSING(&left, 0).map(|_| Part { start: at as u64, length: size })
}

/// Only positions for which this holds.
fn only(sequence: &[u8], at: usize, holds: bool) -> Option<Part> {
    PASSING(sequence, at).filter(|_| holds)
}

const FIND_SLIPS: Slips = slips![finding:
    ("on 72 bytes behind a first byte", |sequence| going_on(sequence, |binary| binary.start + 72)),
    ("on a byte behind a first byte", |sequence| going_on(sequence, |binary| binary.start + 1)),
    ("on a byte behind an end", |sequence| going_on(sequence, |binary| end(binary) + 1)),
    ("on at an end that is a multiple of 8", |sequence| going_on(sequence, |binary| (end(binary) + 7) / 8 * 8)),
    ("on at the last byte", |sequence| going_on(sequence, |binary| end(binary) - 1)),
    ("from the second byte on", |sequence| searched(sequence, 1, PASSING, BYTE, end)),
    ("a broken one passed over", |sequence| {
        stepping(sequence, |sequence, at| if has_magic(sequence, at) { size_at(sequence, at).unwrap_or(1) as usize } else { 1 })
    }),
    ("the header of a broken one passed over", |sequence| {
        stepping(sequence, |sequence, at| if has_magic(sequence, at) { 32 } else { 1 })
    }),
    ("8 bytes of a broken one passed over", |sequence| {
        stepping(sequence, |sequence, at| if has_magic(sequence, at) { 8 } else { 1 })
    }),
    ("72 bytes of a broken one passed over", |sequence| {
        stepping(sequence, |sequence, at| if has_magic(sequence, at) { 72 } else { 1 })
    }),
    ("bytes that match passed over", |sequence| stepping(sequence, |sequence, at| match matching(sequence, at) {
        4 => 1,
        count => count,
    })),
    ("the byte that does not match passed over", |sequence| stepping(sequence, |sequence, at| match matching(sequence, at) {
        4 => 1,
        count => count + 1,
    })),
    ("multiples of 2", |sequence| passing(sequence, |sequence, at| only(sequence, at, at % 2 == 0))),
    ("multiples of 4", |sequence| passing(sequence, |sequence, at| only(sequence, at, at % 4 == 0))),
    ("multiples of 8", |sequence| passing(sequence, |sequence, at| only(sequence, at, at % 8 == 0))),
    ("multiples of 8 in memory", |sequence| {
        passing(sequence, |sequence, at| only(sequence, at, sequence[at..].as_ptr() as usize % 8 == 0))
    }),
    ("not the last 72 bytes", |sequence| passing(sequence, |sequence, at| only(sequence, at, at + 72 < sequence.len()))),
    ("not at 0", |sequence| passing(sequence, |sequence, at| only(sequence, at, at > 0))),
    ("none up to the last byte", |sequence| {
        passing(sequence, |sequence, at| PASSING(sequence, at).filter(|binary| end(*binary) < sequence.len() as u64))
    }),
    ("not above 4095", |sequence| passing(sequence, |sequence, at| only(sequence, at, at < 4096))),
    ("not above 16383", |sequence| passing(sequence, |sequence, at| only(sequence, at, at < 16_384))),
    ("before the end or another alone", |sequence| {
        passing(sequence, |sequence, at| {
            let is_next = |at: usize| at == sequence.len() || has_magic(sequence, at);
            PASSING(sequence, at).filter(|binary| is_next(end(*binary) as usize))
        })
    }),
    ("the first four bytes alone", |sequence| passing(sequence, |sequence, at| {
        let length = size_at(sequence, at).filter(|size| has_magic(sequence, at) && *size >= 32);
        length.map(|length| Part { start: at as u64, length })
    })),
    ("no version", |sequence| passing(sequence, |sequence, at| without(sequence, at, HEAD))),
    ("no 14 but of the size", |sequence| passing(sequence, |sequence, at| without(sequence, at, SPAN))),
    ("no 15", |sequence| passing(sequence, |sequence, at| without(sequence, at, KIND))),
    ("no 16", |sequence| passing(sequence, |sequence, at| without(sequence, at, STRINGS))),
    ("no 17", |sequence| passing(sequence, |sequence, at| without(sequence, at, IMAGE))),
    ("strings and images up to the end of the sequence", |sequence| {
        passing(sequence, |sequence, at| up_to_the_end(sequence, at).or_else(|| PASSING(sequence, at)))
    }),
    ("up to the first broken one", |sequence| stepping(sequence, |sequence, _| sequence.len())),
    ("from the first that is found up to the next broken one", |sequence| {
        let first = all_found(sequence).first().map_or(sequence.len(), |binary| binary.start as usize);
        searched(sequence, first, PASSING, |sequence, _| sequence.len(), end)
    }),
    ("not inside a broken one that has a size", |sequence| {
        let mut found = all_found(sequence);
        let broken = |at: &usize| has_magic(sequence, *at) && answer_at(sequence, *at).number != OK;
        for at in (0..sequence.len()).filter(broken).collect::<Vec<_>>() {
            let reach = at as u64 + size_at(sequence, at).unwrap_or(0);
            found.retain(|binary| binary.start < at as u64 || reach < end(*binary));
        }
        found
    }),
    ("64 and no more", |sequence| all_found(sequence).into_iter().take(64).collect()),
    ("63 and no more", |sequence| all_found(sequence).into_iter().take(63).collect()),
    ("one of two that are equal", |sequence| {
        let mut found = all_found(sequence);
        found.dedup_by_key(|binary| part(sequence, binary.start, binary.length));
        found
    }),
    ("none where nothing is skipped", |sequence| {
        let found = all_found(sequence);
        if needed(sequence)[1] == 0 { Vec::new() } else { found }
    }),
];

/// A library that finds what is there, and has its own way with it. It is given what is found, at most 64 binaries.
fn accepted(
    sequence: &[u8],
    out: &mut [u8],
    spans: &mut [Part],
    make: impl Fn(&[Part]) -> (Vec<u8>, Vec<Part>),
) -> Recovered {
    let found = all_found(sequence);
    if is_above_the_limit(sequence) || found.len() > 64 || copied(&found) > out.len() as u64 {
        return recover(sequence, out, spans);
    }
    let (copies, skipped) = make(&found);
    if copies.len() > out.len() || skipped.len() > spans.len() {
        return Recovered { number: ROOM, ..Recovered::default() };
    }
    out[..copies.len()].copy_from_slice(&copies);
    spans[..skipped.len()].copy_from_slice(&skipped);
    Recovered { number: OK, place: 0, length: copies.len() as u64, spans: skipped.len() as u64 }
}

/// Other spans, from the length of the sequence, what is found, and the lawful spans.
fn skipping(
    sequence: &[u8],
    out: &mut [u8],
    spans: &mut [Part],
    change: fn(u64, &[Part], Vec<Part>) -> Vec<Part>,
) -> Recovered {
    let length = sequence.len() as u64;
    accepted(sequence, out, spans, |found| (copies(sequence, found), change(length, found, skipped(length, found))))
}

/// What lies before, between and after what is found, also where that is nothing.
fn all_gaps(length: u64, found: &[Part]) -> Vec<Part> {
    let starts = [0].into_iter().chain(found.iter().map(|binary| end(*binary)));
    let ends = found.iter().map(|binary| binary.start).chain([length]);
    starts.zip(ends).map(|(start, end)| Part { start, length: end - start }).collect()
}

/// Each span changed by itself.
fn each_span(spans: Vec<Part>, change: impl Fn(Part) -> Part) -> Vec<Part> {
    spans.into_iter().map(change).collect()
}

/// A span cut in two where it has two bytes or more.
fn halves(span: Part) -> Vec<Part> {
    let half = span.length / 2;
    let both = [Part { length: half, ..span }, Part { start: span.start + half, length: span.length - half }];
    both.into_iter().filter(|part| part.length > 0).collect()
}

fn without_short(spans: Vec<Part>, least: u64) -> Vec<Part> {
    spans.into_iter().filter(|span| span.length >= least).collect()
}

const SPAN_SLIPS: Slips = slips![skipping:
    ("the last from 0", |_, _, mut spans| {
        spans.iter_mut().last().into_iter().for_each(|last| *last = Part { start: 0, length: end(*last) });
        spans
    }),
    ("an end for a length", |_, _, spans| each_span(spans, |span| Part { length: end(span), ..span })),
    ("start and length exchanged", |_, _, spans| {
        each_span(spans, |span| Part { start: span.length, length: span.start })
    }),
    ("a start one later", |_, _, spans| each_span(spans, |span| Part { start: span.start + 1, ..span })),
    ("a length one short", |_, _, spans| each_span(spans, |span| Part { length: span.length - 1, ..span })),
    ("a length one more", |_, _, spans| each_span(spans, |span| Part { length: span.length + 1, ..span })),
    ("starts in 8 bits", |_, _, spans| each_span(spans, |span| Part { start: span.start as u8 as u64, ..span })),
    ("lengths in 8 bits", |_, _, spans| each_span(spans, |span| Part { length: span.length as u8 as u64, ..span })),
    ("lengths in 12 bits", |_, _, spans| each_span(spans, |span| Part { length: span.length % 4096, ..span })),
    ("starts counted in the copies", |_, found, spans| {
        each_span(spans, |span| {
            let before: Vec<Part> = found.iter().copied().filter(|binary| binary.start < span.start).collect();
            Part { start: copied(&before), ..span }
        })
    }),
    ("a span for each byte", |_, _, spans| {
        spans.iter().flat_map(|span| (span.start..end(*span)).map(|start| Part { start, length: 1 })).collect()
    }),
    ("adjacent spans", |_, _, spans| spans.into_iter().flat_map(halves).collect()),
    ("empty spans", |length, found, _| all_gaps(length, found)),
    ("an empty span at the start", |_, found, mut spans| {
        if found.first().map_or(false, |binary| binary.start == 0) {
            spans.insert(0, Part::default());
        }
        spans
    }),
    ("an empty span between", |length, found, spans| match found.len() {
        0 | 1 => spans,
        count => {
            let gaps = all_gaps(length, found);
            let is_left = |(at, gap): &(usize, &Part)| gap.length > 0 || (*at > 0 && *at < count);
            gaps.iter().enumerate().filter(is_left).map(|(_, gap)| *gap).collect()
        }
    }),
    ("an empty span at the end", |length, found, mut spans| {
        if found.last().map_or(false, |binary| end(*binary) == length) {
            spans.push(Part { start: length, length: 0 });
        }
        spans
    }),
    ("an empty span of an empty sequence", |length, _, mut spans| {
        if length == 0 {
            spans.push(Part::default());
        }
        spans
    }),
    ("falling order", |_, _, mut spans| {
        spans.reverse();
        spans
    }),
    ("longest first", |_, _, mut spans| {
        spans.sort_by_key(|span| u64::MAX - span.length);
        spans
    }),
    ("none at the start", |_, _, spans| spans.into_iter().filter(|span| span.start > 0).collect()),
    ("none at the end", |length, _, spans| spans.into_iter().filter(|span| end(*span) < length).collect()),
    ("none between", |length, _, spans| {
        spans.into_iter().filter(|span| span.start == 0 || end(*span) == length).collect()
    }),
    ("the first alone", |_, _, spans| spans.into_iter().take(1).collect()),
    ("the last alone", |_, _, spans| spans.into_iter().last().into_iter().collect()),
    ("at most 64", |_, _, spans| spans.into_iter().take(64).collect()),
    ("none of one byte", |_, _, spans| without_short(spans, 2)),
    ("none of under 4 bytes", |_, _, spans| without_short(spans, 4)),
    ("none of under 72 bytes", |_, _, spans| without_short(spans, 72)),
    ("none where nothing is found", |_, found, spans| if found.is_empty() { Vec::new() } else { spans }),
    ("one around all", |_, _, spans| {
        let (first, last) = (spans.first().copied(), spans.last().copied());
        let around = first.zip(last).map(|(first, last)| Part { start: first.start, length: end(last) - first.start });
        around.into_iter().collect()
    }),
    ("what is copied", |_, found, _| found.to_vec()),
    ("ended by an empty one", |_, _, mut spans| {
        spans.push(Part::default());
        spans
    }),
];

/// Other copies, from what is found.
fn copying(sequence: &[u8], out: &mut [u8], spans: &mut [Part], change: fn(&[u8], &[Part]) -> Vec<u8>) -> Recovered {
    accepted(sequence, out, spans, |found| (change(sequence, found), skipped(sequence.len() as u64, found)))
}

/// The copies of some of them, or of parts of them.
fn copies_of(sequence: &[u8], found: impl Iterator<Item = Part>) -> Vec<u8> {
    copies(sequence, &found.collect::<Vec<_>>())
}

const COPY_SLIPS: Slips = slips![copying:
    ("copies with gaps", |sequence, found| {
        let mut bytes = sequence[..found.last().map_or(0, |last| end(*last) as usize)].to_vec();
        for span in skipped(bytes.len() as u64, found) {
            bytes[span.start as usize..end(span) as usize].fill(0);
        }
        bytes
    }),
    ("the sequence up to the last one's end", |sequence, found| {
        sequence[..found.last().map_or(0, |last| end(*last) as usize)].to_vec()
    }),
    ("the bytes that are skipped", |sequence, found| copies(sequence, &skipped(sequence.len() as u64, found))),
    ("no copies", |_, _| Vec::new()),
    ("no first copy", |sequence, found| copies_of(sequence, found.iter().copied().skip(1))),
    ("the first copy alone", |sequence, found| copies_of(sequence, found.iter().copied().take(1))),
    ("the last copy left out", |sequence, found| {
        copies_of(sequence, found.iter().copied().take(found.len().saturating_sub(1)))
    }),
    ("the 64th copy left out", |sequence, found| copies_of(sequence, found.iter().copied().take(63))),
    ("copies in falling order", |sequence, found| copies_of(sequence, found.iter().copied().rev())),
    ("72 bytes of each", |sequence, found| {
        copies_of(sequence, found.iter().map(|binary| Part { length: 72, ..*binary }))
    }),
    ("copies padded to multiples of 8", |sequence, found| {
        let mut bytes = Vec::new();
        for binary in found {
            bytes.extend(copies(sequence, &[*binary]));
            bytes.resize((bytes.len() + 7) / 8 * 8, 0);
        }
        bytes
    }),
    ("images", |sequence, found| {
        let images = found.iter().map(|binary| {
            let Binary { image_place, image_length, .. } = answer_at(sequence, binary.start as usize);
            Part { start: image_place, length: image_length }
        });
        copies_of(sequence, images)
    }),
    ("the first of two that are equal for both", |sequence, found| {
        let bytes = copies(sequence, found);
        let half = bytes.len() / 2;
        if found.len() == 2 { bytes[..half].repeat(2) } else { bytes }
    }),
];

fn refusal(number: u64, place: u64) -> Recovered {
    Recovered { number, place, ..Recovered::default() }
}

/// This refusal comes first, where it applies, from the rooms for copies and spans.
fn refused_first(
    sequence: &[u8],
    out: &mut [u8],
    spans: &mut [Part],
    number: u64,
    applies: fn(&[u8], [usize; 2]) -> Option<u64>,
) -> Recovered {
    match applies(sequence, [out.len(), spans.len()]) {
        Some(place) => refusal(number, place),
        None => recover(sequence, out, spans),
    }
}

/// The place 0, where this holds of a sequence that would be accepted with room enough.
fn where_sound(sequence: &[u8], holds: impl Fn([usize; 2], &[Part]) -> bool) -> Option<u64> {
    let found = all_found(sequence);
    (!is_above_the_limit(sequence) && found.len() <= 64 && holds(needed(sequence), &found)).then_some(0)
}

/// The place of the 65th binary of a sequence above the size limit: it stands in the front.
fn many_above_the_limit(sequence: &[u8]) -> Option<u64> {
    let front = &sequence[..sequence.len().min(1 << 20)];
    all_found(front).get(64).filter(|_| is_above_the_limit(sequence)).map(|binary| binary.start)
}

const FIRST_SLIPS: Slips = slips![refused_first:
    ("12 before 18", ROOM, |sequence, rooms| {
        let needed = needed(sequence);
        (all_found(sequence).len() > 64 && (rooms[0] < needed[0] || rooms[1] < needed[1])).then_some(0)
    }),
    ("12 of the copies before 18", ROOM, |sequence, rooms| {
        (all_found(sequence).len() > 64 && rooms[0] < needed(sequence)[0]).then_some(0)
    }),
    ("12 of the spans before 18", ROOM, |sequence, rooms| {
        (all_found(sequence).len() > 64 && rooms[1] < needed(sequence)[1]).then_some(0)
    }),
    ("18 before 1", MANY, |sequence, _| many_above_the_limit(sequence)),
    ("12 before 1", ROOM, |sequence, rooms| (is_above_the_limit(sequence) && rooms == [0; 2]).then_some(0)),
    ("no 1", OK, |sequence, _| is_above_the_limit(sequence).then_some(0)),
    ("1 at the size limit", LENGTH, |sequence, _| (sequence.len() as u128 == SIZE_LIMIT).then_some(0)),
    ("64 refused", MANY, |sequence, _| all_found(sequence).get(63).map(|binary| binary.start)),
    ("what is behind the 64th refused", MANY, |sequence, _| {
        let last = all_found(sequence).get(63).copied();
        last.map(end).filter(|end| *end < sequence.len() as u64)
    }),
    ("a broken one behind the 64th refused", MANY, |sequence, _| {
        let last = all_found(sequence).get(63).map_or(sequence.len() as u64, |binary| end(*binary));
        (last..sequence.len() as u64).find(|at| has_magic(sequence, *at as usize))
    }),
    ("broken ones counted", MANY, |sequence, _| {
        let front = &sequence[..sequence.len().min(1 << 20)];
        let mut headers = (0..front.len()).filter(|at| has_magic(front, *at));
        headers.nth(64).filter(|_| !is_above_the_limit(sequence)).map(|at| at as u64)
    }),
    ("nothing found refused", HEAD, |sequence, _| where_sound(sequence, |_, found| found.is_empty())),
    ("no bytes refused", LENGTH, |sequence, _| where_sound(sequence, |_, _| sequence.is_empty())),
    ("no bytes are 19", END, |sequence, _| where_sound(sequence, |_, _| sequence.is_empty())),
    ("rubbish at the start refused", HEAD, |sequence, _| {
        where_sound(sequence, |_, found| found.first().map_or(false, |binary| binary.start > 0))
    }),
    ("no damage refused", NONE, |sequence, _| where_sound(sequence, |needed, _| needed[1] == 0)),
    ("exact room refused", ROOM, |sequence, rooms| {
        where_sound(sequence, |needed, _| needed[0] > 0 && rooms[0] == needed[0])
    }),
    ("exact list refused", ROOM, |sequence, rooms| {
        where_sound(sequence, |needed, _| needed[1] > 0 && rooms[1] == needed[1])
    }),
    ("room for the whole sequence asked for", ROOM, |sequence, rooms| where_sound(sequence, |_, _| rooms[0] < sequence.len())),
    ("65 spans asked for", ROOM, |sequence, rooms| where_sound(sequence, |_, _| rooms[1] < 65)),
    ("a span more than binaries asked for", ROOM, |sequence, rooms| {
        where_sound(sequence, |_, found| rooms[1] < found.len() + 1)
    }),
    ("the list in numbers", ROOM, |sequence, rooms| where_sound(sequence, |needed, _| rooms[1] < 2 * needed[1])),
    ("the list in bytes", ROOM, |sequence, rooms| where_sound(sequence, |needed, _| rooms[1] < 16 * needed[1])),
    ("no room refused", ROOM, |sequence, rooms| where_sound(sequence, |_, _| rooms[0] == 0)),
    ("no list refused", ROOM, |sequence, rooms| where_sound(sequence, |_, _| rooms[1] == 0)),
    ("room of both together", ROOM, |sequence, rooms| {
        where_sound(sequence, |needed, _| rooms[0] < needed[0] + 16 * needed[1])
    }),
];

/// Other numbers where the call is refused by this one, or accepted.
fn changed(
    sequence: &[u8],
    out: &mut [u8],
    spans: &mut [Part],
    number: u64,
    change: fn(&[u8], Recovered) -> Recovered,
) -> Recovered {
    match recover(sequence, out, spans) {
        recovered if recovered.number == number => change(sequence, recovered),
        recovered => recovered,
    }
}

const NUMBER_SLIPS: Slips = slips![changed:
    ("no place of 18", MANY, |_, _| refusal(MANY, 0)),
    ("the 64th's place of 18", MANY, |sequence, _| refusal(MANY, all_found(sequence)[63].start)),
    ("the 64th's end for the place of 18", MANY, |sequence, _| refusal(MANY, end(all_found(sequence)[63]))),
    ("the 65th's end for the place of 18", MANY, |sequence, _| refusal(MANY, end(all_found(sequence)[64]))),
    ("an index for the place of 18", MANY, |_, _| refusal(MANY, 64)),
    ("the place of 18 in the copies", MANY, |sequence, _| refusal(MANY, copied(&all_found(sequence)[..64]))),
    ("a length beside 18", MANY, |sequence, refused| {
        Recovered { length: copied(&all_found(sequence)[..64]), ..refused }
    }),
    ("spans beside 18", MANY, |sequence, refused| Recovered { spans: needed(sequence)[1] as u64, ..refused }),
    ("12 for 18", MANY, |_, _| refusal(ROOM, 0)),
    ("12 for 18, with its place", MANY, |_, refused| Recovered { number: ROOM, ..refused }),
    ("18 for 12", ROOM, |_, _| refusal(MANY, 0)),
    ("11 for 12", ROOM, |_, _| refusal(BIG, 0)),
    ("11 for 1", LENGTH, |_, _| refusal(BIG, 0)),
    ("a place of 12", ROOM, |sequence, _| refusal(ROOM, needed(sequence)[0] as u64)),
    ("the last one's end for the place of 12", ROOM, |sequence, _| {
        refusal(ROOM, all_found(sequence).last().map_or(0, |binary| end(*binary)))
    }),
    ("a length beside 12", ROOM, |sequence, refused| Recovered { length: needed(sequence)[0] as u64, ..refused }),
    ("spans beside 12", ROOM, |sequence, refused| Recovered { spans: needed(sequence)[1] as u64, ..refused }),
    ("a place of 1", LENGTH, |sequence, _| refusal(LENGTH, sequence.len() as u64)),
    ("spans beside 1", LENGTH, |_, refused| Recovered { spans: 1, ..refused }),
    ("a place of OK", OK, |sequence, sound| Recovered { place: sequence.len() as u64, ..sound }),
    ("the first span's place of OK", OK, |sequence, sound| {
        let spans = skipped(sequence.len() as u64, &all_found(sequence));
        Recovered { place: spans.first().map_or(0, |span| span.start), ..sound }
    }),
    ("19 for OK", OK, |_, sound| Recovered { number: END, ..sound }),
    ("a number where something is skipped", OK, |_, sound| match sound.spans {
        0 => sound,
        _ => Recovered { number: HEAD, ..sound },
    }),
    ("the length of the sequence", OK, |sequence, sound| Recovered { length: sequence.len() as u64, ..sound }),
    ("the length skipped", OK, |sequence, sound| Recovered { length: sequence.len() as u64 - sound.length, ..sound }),
    ("binaries for the length", OK, |sequence, sound| Recovered { length: all_found(sequence).len() as u64, ..sound }),
    ("binaries for the spans", OK, |sequence, sound| Recovered { spans: all_found(sequence).len() as u64, ..sound }),
    ("spans counted in bytes", OK, |_, sound| Recovered { spans: 16 * sound.spans, ..sound }),
    ("spans counted in numbers", OK, |_, sound| Recovered { spans: 2 * sound.spans, ..sound }),
    ("the length skipped for the spans", OK, |sequence, sound| {
        Recovered { spans: sequence.len() as u64 - sound.length, ..sound }
    }),
    ("length and spans exchanged", OK, |_, sound| Recovered { length: sound.spans, spans: sound.length, ..sound }),
];

/// Something is written beside an answer with this number, from what is written where that is nothing else.
fn writing(
    sequence: &[u8],
    out: &mut [u8],
    spans: &mut [Part],
    number: u64,
    write: fn(&[u8], &mut [u8], &mut [Part], Recovered),
) -> Recovered {
    let recovered = recover(sequence, out, spans);
    if recovered.number == number {
        write(sequence, out, spans, recovered);
    }
    recovered
}

type Write = fn(&[u8], &mut [u8], &mut [Part], Recovered);

/// As many bytes and as many spans as there is room for.
const COPIES: Write = |sequence, out, _, _| {
    let found = all_found(sequence);
    let fitting = found.iter().scan(0, |sum, binary| {
        *sum += binary.length;
        Some((*sum, *binary))
    });
    let bytes = copies_of(sequence, fitting.take_while(|(sum, _)| *sum <= out.len() as u64).map(|(_, binary)| binary));
    out[..bytes.len()].copy_from_slice(&bytes);
};
const SKIPPED: Write = |sequence, _, spans, _| {
    let skipped = skipped(sequence.len() as u64, &all_found(sequence));
    spans.iter_mut().zip(skipped).for_each(|(span, skipped)| *span = skipped);
};
const CLEAR: Write = |_, out, spans, recovered| {
    out[recovered.length as usize..].fill(0);
    spans[recovered.spans as usize..].fill(Part::default());
};

const WRITING_SLIPS: Slips = slips![writing:
    ("copies written by 12", ROOM, COPIES),
    ("spans written by 12", ROOM, SKIPPED),
    ("spans written where the list has room", ROOM, |sequence, out, spans, refused| {
        if needed(sequence)[1] <= spans.len() {
            SKIPPED(sequence, out, spans, refused);
        }
    }),
    ("copies written where the output has room", ROOM, |sequence, out, spans, refused| {
        if needed(sequence)[0] <= out.len() {
            COPIES(sequence, out, spans, refused);
        }
    }),
    ("a span written by 12", ROOM, |sequence, out, spans, refused| {
        if let Some(first) = spans.get_mut(..1) {
            SKIPPED(sequence, out, first, refused);
        }
    }),
    ("all cleared by 12", ROOM, CLEAR),
    ("copies written by 18", MANY, COPIES),
    ("spans written by 18", MANY, SKIPPED),
    ("all cleared by 18", MANY, CLEAR),
    ("all cleared by 1", LENGTH, CLEAR),
    ("what lies beyond cleared", OK, CLEAR),
    ("the byte beyond cleared", OK, |_, out, _, sound| {
        out.iter_mut().skip(sound.length as usize).take(1).for_each(|byte| *byte = 0);
    }),
    ("the span beyond cleared", OK, |_, _, spans, sound| {
        spans.iter_mut().skip(sound.spans as usize).take(1).for_each(|span| *span = Part::default());
    }),
    ("the last byte of the output cleared", OK, |_, out, _, sound| {
        out.iter_mut().skip(sound.length as usize).last().into_iter().for_each(|byte| *byte = 0);
    }),
    ("spans not written", OK, |_, _, spans, _| spans.fill(Part::default())),
    ("the last byte not copied", OK, |_, out, _, sound| {
        out[..sound.length as usize].iter_mut().last().into_iter().for_each(|byte| *byte ^= 1);
    }),
];

/// A library that has its own way.
fn whole(
    sequence: &[u8],
    out: &mut [u8],
    spans: &mut [Part],
    slip: fn(&[u8], &mut [u8], &mut [Part]) -> Recovered,
) -> Recovered {
    slip(sequence, out, spans)
}

/// Room enough, in memory of its own; then as much of it is written as fits.
fn as_much_as_fits(sequence: &[u8], out: &mut [u8], spans: &mut [Part]) -> Recovered {
    let found = all_found(sequence);
    let (copies, skipped) = (copies(sequence, &found), skipped(sequence.len() as u64, &found));
    let (length, count) = (copies.len().min(out.len()), skipped.len().min(spans.len()));
    out[..length].copy_from_slice(&copies[..length]);
    spans[..count].copy_from_slice(&skipped[..count]);
    Recovered { number: OK, place: 0, length: length as u64, spans: count as u64 }
}

const OTHER_SLIPS: Slips = slips![whole:
    ("a 65th copied", |sequence, out, spans| match all_found(sequence) {
        found if found.len() == 65 && copied(&found) <= out.len() as u64 => as_much_as_fits(sequence, out, spans),
        _ => recover(sequence, out, spans),
    }),
    ("as many spans as the list has items", |sequence, out, spans| match recover(sequence, out, spans) {
        refused if refused.number == ROOM && needed(sequence)[0] <= out.len() => as_much_as_fits(sequence, out, spans),
        recovered => recovered,
    }),
    ("as many bytes as the output has", |sequence, out, spans| match recover(sequence, out, spans) {
        refused if refused.number == ROOM && needed(sequence)[0] < 1 << 20 && needed(sequence)[1] <= spans.len() => {
            as_much_as_fits(sequence, out, spans)
        }
        recovered => recovered,
    }),
    ("an accepted sequence alone", |sequence, out, spans| match recover(sequence, out, spans) {
        sound if sound.spans > 0 => {
            let refused = next(sequence, Cursor { at: 0, taken: 0 }).0;
            refusal(refused.number.max(1), refused.place)
        }
        recovered => recovered,
    }),
];

const SLIPS: &[Slips] = &[FIND_SLIPS, SPAN_SLIPS, COPY_SLIPS, FIRST_SLIPS, NUMBER_SLIPS, WRITING_SLIPS, OTHER_SLIPS];

fn found_in_recover(calls: RecoverCalls) -> &'static str {
    found(Recover::new(calls))
}

#[test]
fn slips_of_damaged_sequences_are_found() {
    for &(name, recover) in SLIPS.iter().flat_map(|slips| slips.iter()) {
        assert_eq!(found_in_recover(RecoverCalls { recover, ..MODEL_RECOVER }), "recover", "{name}");
    }
}

/// The same steps, where they change nothing.
const SOUND: &[Slips] = &[
    slips![finding: ("finding", |sequence| searched(sequence, 0, PASSING, BYTE, end)),],
    slips![skipping: ("skipping", |_, _, spans| spans),],
    slips![skipping: ("gaps that are not empty", |length, found, _| without_short(all_gaps(length, found), 1)),],
    slips![copying: ("copying", copies),],
    slips![refused_first: ("refused first", ROOM, |sequence, rooms| {
        where_sound(sequence, |needed, _| rooms[0] < needed[0] || rooms[1] < needed[1])
    }),],
    slips![changed: ("changed", MANY, |sequence, _| refusal(MANY, all_found(sequence)[64].start)),],
    slips![writing: ("writing", OK, |sequence, out, spans, sound| {
        COPIES(sequence, out, spans, sound);
        SKIPPED(sequence, out, spans, sound);
    }),],
];

#[test]
fn steps_that_change_nothing_are_no_slip() {
    for &(name, recover) in SOUND.iter().flat_map(|slips| slips.iter()) {
        let result = run_generated(&mut Recover::new(RecoverCalls { recover, ..MODEL_RECOVER }), 1500);
        assert!(result.is_ok(), "{name}: {result:?}");
    }
}

/// The call for one of the numbers writes no copies, or no spans.
macro_rules! silent {
    ($($field:ident)*) => {
        [$(
            |sequence, out, spans, field| {
                let mut unwritten = out.to_vec();
                let out = if field == RecoverField::$field { &mut unwritten[..] } else { out };
                field.of(recover(sequence, out, spans))
            },
            |sequence, out, spans, field| {
                let mut unwritten = spans.to_vec();
                let spans = if field == RecoverField::$field { &mut unwritten[..] } else { spans };
                field.of(recover(sequence, out, spans))
            },
        )*]
    };
}

const SILENT: [Call; 8] = silent![Number Place Length Spans];

#[test]
fn a_call_for_one_number_that_writes_nothing_is_found() {
    for recover in SILENT {
        assert_eq!(found_in_recover(RecoverCalls { recover, ..MODEL_RECOVER }), "recover");
    }
}

#[test]
fn a_reader_that_differs_is_found() {
    let reader = |read: BinaryReader| found_in_recover(RecoverCalls { read, ..MODEL_RECOVER });
    assert_eq!(reader(|sequence, cursor| (Binary { number: KIND, ..next(sequence, cursor).0 }, cursor)), "recover");
    let lenient: BinaryReader = |sequence, cursor| match next(sequence, cursor) {
        (refused, after) if refused.number == STRINGS => (Binary { number: OK, ..refused }, after),
        answer => answer,
    };
    assert_eq!(reader(lenient), "recover");
    let short: BinaryReader = |sequence, cursor| {
        let (binary, after) = next(sequence, cursor);
        (Binary { size: binary.size.min(200), ..binary }, after)
    };
    assert_eq!(reader(short), "recover");
}
