//! Where names stand in the buffer and outside it, and how long they are.

use super::*;
use crate::gen::LIMIT;

pub fn aims() -> Vec<EachAim> {
    let mut aims: Vec<EachAim> = OUTSIDE.iter().map(|line| changed("outside", *line)).collect();
    aims.extend(INSIDE.iter().map(|line| changed("inside", *line)));
    aims.extend(length_aims());
    aims.extend(buffer_aims());
    aims
}

/// Another part, from the buffer's length and a name at the buffer's very end, for which there is an entry.
type Change = fn(u64, Part, &mut Random) -> Part;

const OUTSIDE: &[(&str, Change)] = &[
    ("1 byte longer", |_, name, _| Part { length: name.length + 1, ..name }),
    ("1 byte later", |_, name, _| Part { start: name.start + 1, ..name }),
    ("longer", |_, name, random| Part { length: name.length + random.between(1, 300) as u64, ..name }),
    ("later", |_, name, random| Part { start: name.start + random.between(1, 300) as u64, ..name }),
    ("from the end on", |end, name, _| Part { start: end, ..name }),
    ("from behind the end on", |end, name, _| Part { start: end + 1, ..name }),
    ("empty behind the end", |end, _, _| Part { start: end + 1, length: 0 }),
    ("1 byte at the end", |end, _, _| Part { start: end, length: 1 }),
    ("start of 2^64 - 1", |_, name, _| Part { start: u64::MAX, ..name }),
    ("start of 2^64 - 1, length 0", |_, _, _| Part { start: u64::MAX, length: 0 }),
    ("start of 2^64 - 1, length 1", |_, _, _| Part { start: u64::MAX, length: 1 }),
    ("length of 2^64 - 1", |_, name, _| Part { length: u64::MAX, ..name }),
    ("start 0, length of 2^64 - 1", |_, _, _| Part { start: 0, length: u64::MAX }),
    ("start 1, length of 2^64 - 1", |_, _, _| Part { start: 1, length: u64::MAX }),
    ("both of 2^64 - 1", |_, _, _| Part { start: u64::MAX, length: u64::MAX }),
    ("both of 2^63", |_, _, _| Part { start: 1 << 63, length: 1 << 63 }),
    ("sum of 2^64", |_, name, _| Part { start: name.length.wrapping_neg(), ..name }),
    ("start that wraps", |_, name, random| Part {
        start: name.length.wrapping_neg() + random.below(name.length as usize) as u64,
        ..name
    }),
    ("length that wraps", |_, name, random| {
        let start = name.start.max(1);
        Part { start, length: start.wrapping_neg() + random.below(start as usize) as u64 }
    }),
    ("start with one high bit more", |_, name, random| Part {
        start: name.start | 1 << random.between(20, 63),
        ..name
    }),
    ("start with 2^32 more", |_, name, _| Part { start: name.start + (1 << 32), ..name }),
    ("length with one high bit more", |_, name, random| Part {
        length: name.length | 1 << random.between(20, 63),
        ..name
    }),
    ("length with 2^32 more", |_, name, _| Part { length: name.length + (1 << 32), ..name }),
];

const INSIDE: &[(&str, Change)] = &[
    ("empty", |_, name, _| Part { length: 0, ..name }),
    ("empty at the start", |_, _, _| Part { start: 0, length: 0 }),
    ("empty at the end", |end, _, _| Part { start: end, length: 0 }),
    ("1 byte", |_, name, _| Part { length: 1, ..name }),
    ("the last byte", |end, _, _| Part { start: end - 1, length: 1 }),
];

/// A part that breaks the rules.
fn changed(kind: &str, (name, change): (&str, Change)) -> EachAim {
    Aim::new(SLOT, QUERY, &format!("part {kind}: {name}"), move |draft: &mut Draft, random| {
        let name = draft.part_with(random, OK);
        let part = change(draft.buffer_length(), name, random);
        draft.ask(random, part);
    })
}

/// Any part outside a buffer of this length, as if a name of some length stood at its end.
pub fn some_outside(random: &mut Random, end: u64) -> Part {
    let length = random.between(1, 40).min(end as usize) as u64;
    let (_, change) = random.choose(OUTSIDE);
    match change(end, Part { start: end - length, length }, random) {
        // An empty buffer has no name, so what is done to one may be nothing.
        Part { length: 0, .. } => Part { start: end + 1, length: 0 },
        part => part,
    }
}

fn slot(number: u64, name: &str, make: fn(&mut Draft, &mut Random)) -> EachAim {
    Aim::new(SLOT, number, name, make)
}

/// Lengths on both sides of 256.
fn length_aims() -> Vec<EachAim> {
    vec![
        slot(OK, "name of 256 bytes at the end", |draft, random| {
            let name = long_name(draft, random);
            draft.ask(random, name);
        }),
        slot(OK, "name of 256 bytes, another after it", |draft, random| {
            let name = long_name(draft, random);
            draft.ask_with(random, NONE);
            draft.ask(random, name);
        }),
        slot(QUERY, "name of 256 bytes and 1 more", |draft, random| {
            let name = long_name(draft, random);
            draft.buffer.push(b'x');
            draft.ask(random, Part { length: 257, ..name });
        }),
        slot(QUERY, "name of 256 bytes and many more", |draft, random| {
            let name = long_name(draft, random);
            extend(draft, random, 70_000);
            let more = *random.choose(&[256, 512, 1 << 16]);
            draft.ask(random, Part { length: 256 + more, ..name });
        }),
        slot(QUERY, "257 bytes that keep all other rules", |draft, random| {
            let text = ids::of_length(random, 6, 257);
            let name = draft.put_text(random, &text);
            draft.ask(random, name);
        }),
        slot(QUERY, "canonical form of 257 bytes", |draft, random| {
            let text = ids::of_length(random, 5, 256);
            let name = draft.put_text(random, &text);
            draft.ask(random, name);
        }),
        slot(QUERY, "256 bytes more than a name", |draft, random| {
            let name = draft.part_with(random, OK);
            extend(draft, random, 256);
            draft.ask(random, Part { length: name.length + 256, ..name });
        }),
        slot(QUERY, "65,536 bytes more than a name", |draft, random| {
            let name = draft.part_with(random, OK);
            extend(draft, random, 1 << 16);
            draft.ask(random, Part { length: name.length + (1 << 16), ..name });
        }),
    ]
}

/// So many bytes more in the buffer, all the same.
fn extend(draft: &mut Draft, random: &mut Random, count: usize) {
    draft.buffer.resize(draft.buffer.len() + count, random.byte());
}

/// A name of 256 bytes for which there is an entry.
fn long_name(draft: &mut Draft, random: &mut Random) -> Part {
    let id = ids::of_length(random, 6, 256);
    draft.bundle.put_id(random, id.clone());
    draft.put_text(random, &id)
}

/// Buffers of any length, and names that share bytes of them.
fn buffer_aims() -> Vec<EachAim> {
    vec![
        slot(OK, "name at the end of the buffer", |draft, random| draft.ask_with(random, OK)),
        slot(OK, "name at the start of the buffer", |draft, random| {
            draft.buffer.clear();
            draft.names.clear();
            let entry = draft.bundle.some_row(random);
            let text = draft.bundle.device_for(random, entry);
            draft.buffer.extend(&text);
            draft.ask_with(random, NONE);
            draft.ask(random, Part { start: 0, length: text.len() as u64 });
        }),
        slot(OK, "the whole buffer", |draft, random| {
            let entry = draft.bundle.some_row(random);
            draft.buffer = draft.bundle.device_for(random, entry);
            draft.ask(random, Part { start: 0, length: draft.buffer.len() as u64 });
        }),
        slot(OK, "name in a buffer above the size limit", |draft, random| {
            draft.ask_with(random, OK);
            draft.zeros = LIMIT + 1 - draft.buffer.len();
        }),
        slot(QUERY, "end of a buffer above the size limit", |draft, random| {
            draft.zeros = LIMIT + 1 - draft.buffer.len();
            let length = random.between(1, 256) as u64;
            draft.ask(random, Part { start: draft.buffer_length() - length, length });
        }),
        slot(QUERY, "empty buffer, empty part", |draft, random| {
            empty_buffer(draft, random);
            draft.ask(random, Part { start: 0, length: 0 });
        }),
        slot(QUERY, "empty buffer, 1 byte", |draft, random| {
            empty_buffer(draft, random);
            draft.ask(random, Part { start: 0, length: 1 });
        }),
        slot(QUERY, "empty buffer, part of a name's length", |draft, random| {
            empty_buffer(draft, random);
            let length = random.between(9, 256) as u64;
            draft.ask(random, Part { start: 0, length });
        }),
        slot(QUERY, "name before the buffer", |draft, random| begin_before(draft, random, |_, length| length)),
        slot(QUERY, "name that begins before the buffer", |draft, random| {
            begin_before(draft, random, |random, length| random.between(1, length - 1))
        }),
        slot(OK, "name inside another", |draft, random| draft.names = nested_names(draft, random)),
        slot(OK, "name around another", |draft, random| {
            draft.names = nested_names(draft, random);
            draft.aimed = 1;
        }),
        slot(OK, "names in falling order in the buffer", |draft, random| {
            draft.ask_only(random, &[OK, NONE, OK, OK]);
            draft.names.reverse();
        }),
    ]
}

fn empty_buffer(draft: &mut Draft, random: &mut Random) {
    draft.buffer.clear();
    draft.names.iter_mut().for_each(|name| *name = some_outside(random, 0));
}

/// A name of which so many bytes stand before the buffer, and the others in its front.
fn begin_before(draft: &mut Draft, random: &mut Random, before: fn(&mut Random, usize) -> usize) {
    let entry = draft.bundle.some_row(random);
    let mut text = draft.bundle.device_for(random, entry);
    let (length, count) = (text.len() as u64, before(random, text.len()));
    let rest = text.split_off(count);
    for name in &mut draft.names {
        name.start = name.start.saturating_add(rest.len() as u64);
    }
    draft.buffer.splice(..0, rest);
    draft.before = text;
    draft.ask(random, Part { start: (count as u64).wrapping_neg(), length });
}

/// Two names, of which the second goes on where the first ends, and is for another entry.
fn nested_names(draft: &mut Draft, random: &mut Random) -> Vec<Part> {
    let kind = *random.choose(&["hip", "hipv4", "openmp", "host"]);
    let [short, long] = ["inner-b-c", "inner-b-c-gnu"].map(|rest| format!("{kind}-{rest}").into_bytes());
    draft.bundle.put_id(random, short.clone());
    draft.bundle.put_id(random, long.clone());
    let long = draft.put_text(random, &long);
    vec![Part { length: short.len() as u64, ..long }, long]
}

#[cfg(test)]
mod tests {
    use super::*;
    use crate::model::bundle::pick;

    /// Whether a part is outside: the sum is made in 128 bits.
    fn is_outside(end: u64, part: Part) -> bool {
        part.start as u128 + part.length as u128 > end as u128
    }

    #[test]
    fn parts_lie_where_their_lines_say() {
        let mut random = Random::of_case(1, 4);
        for _ in 0..300 {
            let mut draft = some_draft(&mut random);
            let name = draft.part_with(&mut random, OK);
            let end = draft.buffer_length();
            assert_eq!(name.start + name.length, end);
            for (line, change) in OUTSIDE {
                assert!(is_outside(end, change(end, name, &mut random)), "{line}: {name:?}");
            }
            for (line, change) in INSIDE {
                assert!(!is_outside(end, change(end, name, &mut random)), "{line}: {name:?}");
            }
            for end in [0, 1, end] {
                assert!(is_outside(end, some_outside(&mut random, end)));
            }
        }
    }

    #[test]
    fn a_name_that_begins_before_the_buffer_is_one_in_memory() {
        let mut random = Random::of_case(1, 5);
        for _ in 0..300 {
            let mut draft = some_draft(&mut random);
            begin_before(&mut draft, &mut random, |random, length| random.between(1, length));
            let Case { bundle, before, buffer, names, aimed, .. } = draft.case();
            let Part { start, length } = names[aimed];
            assert_eq!(start, (before.len() as u64).wrapping_neg());
            let memory = [before, buffer].concat();
            assert_eq!(pick(&bundle, &memory[..length as usize]).number, OK);
        }
    }
}
