//! Libraries that read or write processors with hyphens in another way.

use super::*;
use crate::gen::ids::processors::hyphens_of;
use crate::gen::ids::read;
use crate::model::id::{begins_a_processor, Text};

/// The bundle writer of a library that reads IDs so.
fn write_read(reader: Reader, records: &[Record], ids: &[u8], images: &[u8], out: &mut [u8], field: Field) -> u64 {
    let number = MODEL_BUNDLE_WRITER(records, ids, images, &mut out.to_vec(), Field::Number);
    if ![OK, ID].contains(&number) {
        return MODEL_BUNDLE_WRITER(records, ids, images, out, field);
    }
    let id = |record: &Record| part(ids, record.id_start, record.id_length).unwrap();
    match refuse_at(records.len(), ID, |i| reader(id(&records[i])).is_none()) {
        Err(Refusal { number, place }) => field.of(Written { number, place, length: 0 }),
        Ok(()) if number == ID => field.of(Written::default()),
        Ok(()) => MODEL_BUNDLE_WRITER(records, ids, images, out, field),
    }
}

/// The fields of an ID before its first `:`, and the rest.
fn fields(id: &[u8]) -> (Vec<&[u8]>, &[u8]) {
    let colon = id.iter().position(|byte| *byte == b':').unwrap_or(id.len());
    (id[..colon].split(|byte| *byte == b'-').collect(), &id[colon..])
}

fn has_more_fields(id: &[u8], count: usize) -> bool {
    fields(id).0.len() > count
}

fn fifth(id: &[u8]) -> &[u8] {
    fields(id).0.get(4).copied().unwrap_or_default()
}

/// Whether the processor has these bytes somewhere.
fn has(meaning: &Meaning, bytes: &[u8]) -> bool {
    meaning.processor.iter().any(|name| name.windows(bytes.len()).any(|part| part == bytes))
}

/// The ID after a change to its fields, read by the rules.
fn read_with(id: &[u8], change: impl Fn(&mut Vec<&[u8]>)) -> Option<Meaning<'static>> {
    let (mut fields, rest) = fields(id);
    change(&mut fields);
    read(&[&fields.join(&b'-')[..], rest].concat())
}

/// The fifth field is an environment, whatever it begins with.
fn fifth_as_environment(id: &[u8]) -> Option<Meaning<'static>> {
    let environment = fifth(id).to_vec().into();
    read_with(id, |fields| fields[4] = b"e").map(|meaning| Meaning { environment, ..meaning })
}

/// The fifth field starts a processor, whatever it begins with.
fn fifth_as_processor(id: &[u8]) -> Option<Meaning<'static>> {
    read_with(id, |fields| fields.insert(4, b""))
}

/// A hyphen before the end, or before the first `:`, is not there.
fn without_last_hyphen(id: &[u8]) -> Option<Meaning<'static>> {
    read_with(id, |fields| {
        if fields.last().map_or(false, |last| last.is_empty()) {
            fields.pop();
        }
    })
}

/// The hyphen that a processor would begin with is not there.
fn without_hyphen_in_sixth(id: &[u8]) -> Option<Meaning<'static>> {
    read_with(id, |fields| {
        if fields.len() > 6 && fields[5].is_empty() {
            fields.remove(5);
        }
    })
}

/// No processor where all fields from the sixth on are empty.
fn without_hyphens_alone(id: &[u8]) -> Option<Meaning<'static>> {
    read_with(id, |fields| {
        if fields.iter().skip(5).all(|field| field.is_empty()) {
            fields.truncate(6);
        }
    })
}

/// Bytes of the fields from the seventh on are not looked at.
fn with_any_bytes(id: &[u8]) -> Option<Meaning<'static>> {
    read_with(id, |fields| {
        for field in fields.iter_mut().skip(6).filter(|field| !field.is_empty()) {
            *field = b"x";
        }
    })
}

/// What is read by the rules, with another processor.
fn with_processor(id: &[u8], change: fn(&[u8]) -> Vec<u8>) -> Option<Meaning<'static>> {
    read(id).map(|meaning| {
        let processor = meaning.processor.as_ref().map(|name| change(name).into());
        Meaning { processor, ..meaning }
    })
}

fn first_field(name: &[u8]) -> Vec<u8> {
    name[..hyphens_of(name).first().copied().unwrap_or(name.len())].to_vec()
}

fn last_field(name: &[u8]) -> Vec<u8> {
    name[hyphens_of(name).last().map_or(0, |at| at + 1)..].to_vec()
}

fn without_hyphens(name: &[u8]) -> Vec<u8> {
    name.iter().copied().filter(|byte| *byte != b'-').collect()
}

/// A pick that is not the rules.
type PickSlip = fn(&[u8], &[u8]) -> Picked;

/// A check and a pick with each reader.
macro_rules! slips {
    ($(($name:literal, $reader:expr),)*) => {
        &[$(($name, |bundle| check_read($reader, bundle), |bundle, device| pick_read(read, $reader, bundle, device)),)*]
    };
}

const READING_SLIPS: &[(&str, Slip, PickSlip)] = slips![
    ("no more than six fields", |id| read(id).filter(|_| !has_more_fields(id, 6))),
    ("no more than seven fields", |id| read(id).filter(|_| !has_more_fields(id, 7))),
    ("no more than eight fields", |id| read(id).filter(|_| !has_more_fields(id, 8))),
    ("no more than 16 fields", |id| read(id).filter(|_| !has_more_fields(id, 16))),
    ("six fields as before", |id| match fields(id).0.len() {
        6 if begins_a_processor(fifth(id)) => fifth_as_environment(id),
        _ => read(id),
    }),
    ("gfx only as the last field", |id| match has_more_fields(id, 5) {
        true if fifth(id).starts_with(b"gfx") => fifth_as_environment(id),
        _ => read(id),
    }),
    ("sm_ only as the last field", |id| match has_more_fields(id, 5) {
        true if fifth(id).starts_with(b"sm_") => fifth_as_environment(id),
        _ => read(id),
    }),
    ("gf is enough", |id| if fifth(id).starts_with(b"gf") { fifth_as_processor(id) } else { read(id) }),
    ("sm is enough", |id| if fifth(id).starts_with(b"sm") { fifth_as_processor(id) } else { read(id) }),
    ("GFX is gfx", |id| if fifth(id).starts_with(b"GFX") { fifth_as_processor(id) } else { read(id) }),
    ("gfx anywhere", |id| if fifth(id).windows(3).any(|w| w == b"gfx") { fifth_as_processor(id) } else { read(id) }),
    ("a hyphen at the end", |id| read(id).or_else(|| without_last_hyphen(id))),
    ("a hyphen at the end, from the fifth", |id| match begins_a_processor(fifth(id)) {
        true => read(id).or_else(|| without_last_hyphen(id)),
        false => read(id),
    }),
    ("a hyphen at the end, from the sixth", |id| match begins_a_processor(fifth(id)) {
        true => read(id),
        false => read(id).or_else(|| without_last_hyphen(id)),
    }),
    ("a hyphen before a colon", |id| match id.contains(&b':') {
        true => read(id).or_else(|| without_last_hyphen(id)),
        false => read(id),
    }),
    ("an environment like a processor", |id| match fields(id).0.len() {
        6 if id.ends_with(b"-") => read(id).or_else(|| fifth_as_environment(id)),
        _ => read(id),
    }),
    ("a hyphen at the start", |id| read(id).or_else(|| without_hyphen_in_sixth(id))),
    ("hyphens alone are no processor", |id| read(id).or_else(|| without_hyphens_alone(id))),
    ("no doubled hyphens", |id| read(id).filter(|meaning| !has(meaning, b"--"))),
    ("any bytes after a hyphen", |id| read(id).or_else(|| with_any_bytes(id))),
    ("the first field alone", |id| with_processor(id, first_field)),
    ("the last field alone", |id| with_processor(id, last_field)),
    ("hyphens left out", |id| with_processor(id, without_hyphens)),
    ("no environment before gfx", |id| read(id).map(|meaning| match &meaning.processor {
        Some(name) if name.starts_with(b"gfx") => Meaning { environment: Text::default(), ..meaning },
        _ => meaning,
    })),
    ("no feature after hyphens", |id| read(id).filter(|meaning| !has(meaning, b"-") || meaning.features.is_empty())),
    ("a form of 257 bytes", |id| match id.len() {
        256 => read(id).or_else(|| read(&id[..255]).filter(|meaning| has(meaning, b"-"))),
        _ => read(id),
    }),
    ("no form of 256 bytes", |id| read(id).filter(|meaning| !has(meaning, b"-") || canonical(meaning).len() < 256)),
];

#[test]
fn slips_of_reading_are_found() {
    for (name, check, pick) in READING_SLIPS {
        assert_eq!(found_in(BundleCalls { check: *check, ..MODEL }), "check", "{name}");
        assert_eq!(found_in(BundleCalls { pick: *pick, ..MODEL }), "pick", "{name}");
    }
}

#[test]
fn reading_by_the_rules_is_no_slip() {
    let check = |bundle: &[u8]| check_read(read, bundle);
    let pick = |bundle: &[u8], device: &[u8]| pick_read(read, read, bundle, device);
    run_generated(&mut bundles::Bundles::new(BundleCalls { check, pick, ..MODEL }), 1000).unwrap();
    let mut writer = writers::Writers::<records::Case>::new(|records, ids, images, out, field| {
        write_read(read, records, ids, images, out, field)
    });
    run_generated(&mut writer, 1000).unwrap();
}

#[test]
fn slips_of_a_writer_in_reading_are_found() {
    let few_fields = found(writers::Writers::<records::Case>::new(|records, ids, images, out, field| {
        write_read(|id| read(id).filter(|_| !has_more_fields(id, 6)), records, ids, images, out, field)
    }));
    assert_eq!(few_fields, "bundle writer");
    let hyphen_at_the_end = found(writers::Writers::<records::Case>::new(|records, ids, images, out, field| {
        write_read(|id| read(id).or_else(|| without_last_hyphen(id)), records, ids, images, out, field)
    }));
    assert_eq!(hyphen_at_the_end, "bundle writer");
}

/// The canonical form, but for a processor with hyphens that is written as the fifth field.
fn from_the_fifth(entry: &Entry) -> Vec<u8> {
    let Entry { meaning, .. } = entry;
    let mut form = canonical(meaning);
    if meaning.environment.is_empty() && has(meaning, b"-") {
        form.remove(hyphens_of(&form)[4]);
    }
    form
}

/// The canonical form with hyphens of a processor that come after `:`.
fn hyphens_after_colons(entry: &Entry) -> Vec<u8> {
    let moved = |byte: &u8| if *byte == b'-' { b';' } else { *byte };
    let processor = entry.meaning.processor.as_ref().map(|name| name.iter().map(moved).collect());
    canonical(&Meaning { processor, ..entry.meaning.clone() })
}

#[test]
fn slips_of_a_normal_form_are_found() {
    let from_the_fifth = with_normalise(|bundle, out, field| {
        normal_form_by(|entry| [canonical(&entry.meaning), from_the_fifth(entry)], bundle, out, field)
    });
    assert_eq!(found_in(from_the_fifth), "normalise");
    let hyphens_after_colons = with_normalise(|bundle, out, field| {
        normal_form_by(|entry| [hyphens_after_colons(entry), canonical(&entry.meaning)], bundle, out, field)
    });
    assert_eq!(found_in(hyphens_after_colons), "normalise");
}
