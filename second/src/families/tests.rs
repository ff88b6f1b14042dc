//! The comparison itself: against the model it finds nothing and meets every line; against a library with a slip it finds it.

mod differences;
mod each;
mod lookup;
mod processors;
mod profile;
mod recover;

use super::*;
use crate::calls::{BundleCalls, MODEL, MODEL_BINARY_READER, MODEL_BINARY_WRITER, MODEL_BUNDLE_WRITER, MODEL_PROFILE};
use crate::gen::{binary_contents, records};
use crate::model::binary_writer::Content;
use crate::model::bundle::{
    check, composition, entries, entry_at, normalise, packed, pick, Checked, Entry, Located, Picked,
};
use crate::model::bundle_writer::Record;
use crate::model::id::Reading::General;
use crate::model::id::{canonical, compared_kind, compatible, meaning, same_target, Meaning};
use crate::model::{
    integer, part, refuse_at, Refusal, COUNT, ID, LENGTH, MAGIC, MIXED, NONE, OVERLAP, QUERY, RANGE, TABLE, TWICE,
};

fn run_generated(family: &mut dyn Family, cases: u64) -> Result<(), Difference> {
    for case in 0..cases {
        family.run(&mut Random::of_case(1, case))?;
    }
    Ok(())
}

fn meets_every_line(mut family: impl Family) {
    family.run_fixed().unwrap();
    run_generated(&mut family, 8000).unwrap();
    assert_eq!(family.report().missing_lines(), Vec::<String>::new());
}

/// The cases that are no matter of chance meet every line, and nearly each case that is aimed at a line meets it.
fn meets_every_line_in_any_run(mut family: impl Family) {
    family.run_fixed().unwrap();
    assert_eq!(family.report().missing_lines(), Vec::<String>::new());
    run_generated(&mut family, 6000).unwrap();
    for AimTally { name, tried, met, .. } in &family.report().aims {
        assert!(10 * met >= 8 * tried, "{name}: {met} of {tried}");
    }
}

#[test]
fn bundles_meet_every_line() {
    meets_every_line(bundles::Bundles::new(MODEL));
}

#[test]
fn the_profile_meets_every_line() {
    meets_every_line(bundles::Bundles::profile(MODEL_PROFILE));
}

#[test]
fn the_bundle_writer_meets_every_line() {
    meets_every_line(writers::Writers::<records::Case>::new(MODEL_BUNDLE_WRITER));
}

#[test]
fn binaries_meet_every_line() {
    meets_every_line(binaries::Binaries::new(MODEL_BINARY_READER));
}

#[test]
fn the_binary_writer_meets_every_line() {
    meets_every_line(writers::Writers::<binary_contents::Case>::new(MODEL_BINARY_WRITER));
}

#[test]
fn half_of_the_generated_bundles_are_accepted_and_a_tenth_overlap() {
    let mut family = bundles::Bundles::new(MODEL);
    run_generated(&mut family, 4000).unwrap();
    for tally in &family.report().tallies {
        let [accepted, overlaps] = [OK, OVERLAP].map(|number| tally.seen[number as usize]);
        let least = if tally.call == "check" { 1800 } else { 800 };
        assert!(accepted > least && (300..600).contains(&overlaps), "{}: {accepted}, {overlaps}", tally.call);
    }
}

/// The call in which the first difference shows; generated cases alone must find it.
fn found(mut family: impl Family) -> &'static str {
    run_generated(&mut family, 8000).expect_err("a slip that was not found").call
}

fn found_in(calls: BundleCalls) -> &'static str {
    found(bundles::Bundles::new(calls))
}

/// Offset, size and ID of each row of a table that is whole.
fn rows(bundle: &[u8]) -> Vec<(u64, u64, &[u8])> {
    let mut at = 32;
    let mut rows = Vec::new();
    for _ in 0..integer(bundle, 24, 8) {
        let end = at + 24 + integer(bundle, at + 16, 8) as usize;
        rows.push((integer(bundle, at, 8), integer(bundle, at + 8, 8), &bundle[at + 24..end]));
        at = end;
    }
    rows
}

fn ids(bundle: &[u8]) -> impl Iterator<Item = &[u8]> {
    rows(bundle).into_iter().map(|row| row.2)
}

#[test]
fn a_lost_place_is_found() {
    let check = |bundle: &[u8]| Checked { place: 0, ..check(bundle) };
    assert_eq!(found_in(BundleCalls { check, ..MODEL }), "check");
}

#[test]
fn a_count_beside_a_refusal_is_found() {
    let check = |bundle: &[u8]| match check(bundle) {
        refused if refused.number > COUNT => Checked { count: integer(bundle, 24, 8), ..refused },
        checked => checked,
    };
    assert_eq!(found_in(BundleCalls { check, ..MODEL }), "check");
}

#[test]
fn a_size_limit_that_is_one_off_is_found() {
    let below = |bundle: &[u8]| match bundle.len() as u128 {
        SIZE_LIMIT => Checked { number: LENGTH, place: 0, count: 0 },
        _ => check(bundle),
    };
    assert_eq!(found_in(BundleCalls { check: below, ..MODEL }), "check");
    let above = |bundle: &[u8]| check(&bundle[..bundle.len().min(SIZE_LIMIT as usize)]);
    assert_eq!(found_in(BundleCalls { check: above, ..MODEL }), "check");
}

#[test]
fn a_sum_that_wraps_is_found() {
    let check = |bundle: &[u8]| {
        let checked = check(bundle);
        if checked.number != RANGE {
            return checked;
        }
        let (offset, size, _) = rows(bundle)[checked.place as usize];
        match offset.wrapping_add(size) <= bundle.len() as u64 && offset > 20_000 {
            true => Checked { number: OK, place: 0, count: integer(bundle, 24, 8) },
            false => checked,
        }
    };
    assert_eq!(found_in(BundleCalls { check, ..MODEL }), "check");
}

#[test]
fn twice_by_bytes_is_found() {
    let check = |bundle: &[u8]| {
        let checked = check(bundle);
        if checked.number != TWICE {
            return checked;
        }
        let (rows, place) = (rows(bundle), checked.place as usize);
        match rows[..place].iter().any(|row| row.2 == rows[place].2) {
            true => checked,
            false => Checked { number: OK, place: 0, count: rows.len() as u64 },
        }
    };
    assert_eq!(found_in(BundleCalls { check, ..MODEL }), "check");
}

#[test]
fn an_unstated_feature_taken_as_a_match_is_found() {
    let pick = |bundle: &[u8], device: &[u8]| {
        let picked = pick(bundle, device);
        if picked.number != NONE {
            return picked;
        }
        let device = meaning(device).unwrap();
        let fits = |entry: &Meaning| {
            entry.features.iter().all(|(name, sign)| device.features.get(name).unwrap_or(sign) == sign)
        };
        let found = entries(General, bundle)
            .unwrap()
            .into_iter()
            .find(|entry| same_target(&entry.meaning, &device) && fits(&entry.meaning));
        found.map_or(picked, |entry| Picked { number: OK, position: entry.offset, ..Picked::default() })
    };
    assert_eq!(found_in(BundleCalls { pick, ..MODEL }), "pick");
}

/// What a library takes a kind for.
type Kinds = fn(&[u8]) -> &[u8];

const AS_THEY_ARE: Kinds = |kind| kind;
const AS_SPELLED: Kinds = |kind| if kind == b"hipv4" { b"a kind of its own" } else { kind };
const ALL_ALIKE: Kinds = |_| b"hip";

/// What such a library takes an ID to mean that keeps the rules.
fn taken(kinds: Kinds, id: &[u8]) -> Meaning<'_> {
    let meaning = meaning(id).unwrap();
    let kind = kinds(&meaning.kind).to_vec().into();
    Meaning { kind, ..meaning }
}

fn composition_taken<'a>(kinds: Kinds, ids: impl Iterator<Item = &'a [u8]>) -> Result<(), Refusal> {
    composition(&ids.map(|id| taken(kinds, id)).collect::<Vec<_>>())
}

fn check_taken(kinds: Kinds, bundle: &[u8]) -> Checked {
    let checked = check(bundle);
    if ![OK, TWICE, MIXED].contains(&checked.number) {
        return checked;
    }
    answer(composition_taken(kinds, ids(bundle)), bundle)
}

/// What a check answers on a bundle with this refusal, or none.
fn answer(result: Result<(), Refusal>, bundle: &[u8]) -> Checked {
    match result {
        Ok(()) => Checked { number: OK, place: 0, count: integer(bundle, 24, 8) },
        Err(Refusal { number, place }) => Checked { number, place, count: 0 },
    }
}

fn pick_taken(kinds: Kinds, bundle: &[u8], device: &[u8]) -> Picked {
    let picked = pick(bundle, device);
    if ![OK, NONE].contains(&picked.number) {
        return picked;
    }
    let device = taken(kinds, device);
    pick_where(|id| compatible(&taken(kinds, id), &device), bundle)
}

/// What a pick answers that takes the first entry with such an ID.
fn pick_where(fits: impl Fn(&[u8]) -> bool, bundle: &[u8]) -> Picked {
    let rows = rows(bundle);
    match rows.iter().position(|row| fits(row.2)) {
        None => Picked { number: NONE, ..Picked::default() },
        Some(at) => Picked { number: OK, place: 0, index: at as u64, position: rows[at].0, size: rows[at].1 },
    }
}

/// What a library takes an ID to mean, or nothing where it refuses it.
type Reader = fn(&[u8]) -> Option<Meaning<'static>>;

/// The check of a library that reads IDs so.
fn check_read(reader: Reader, bundle: &[u8]) -> Checked {
    let checked = check(bundle);
    if [LENGTH, MAGIC, COUNT, TABLE].contains(&checked.number) {
        return checked;
    }
    let meanings: Vec<Option<Meaning>> = ids(bundle).map(reader).collect();
    let refused = refuse_at(meanings.len(), ID, |i| meanings[i].is_none());
    if refused.is_ok() && [RANGE, OVERLAP].contains(&checked.number) {
        return checked;
    }
    let meanings: Vec<Meaning> = meanings.into_iter().flatten().collect();
    answer(refused.and_then(|()| composition(&meanings)), bundle)
}

/// The pick of a library that reads the IDs of entries and device names so.
fn pick_read(entries: Reader, devices: Reader, bundle: &[u8], device: &[u8]) -> Picked {
    let Checked { number, place, .. } = check_read(entries, bundle);
    if number != OK {
        return Picked { number, place, ..Picked::default() };
    }
    match devices(device) {
        None => Picked { number: QUERY, ..Picked::default() },
        Some(device) => pick_where(|id| compatible(&entries(id).unwrap(), &device), bundle),
    }
}

fn write_taken(kinds: Kinds, records: &[Record], ids: &[u8], images: &[u8], out: &mut [u8], field: Field) -> u64 {
    let number = MODEL_BUNDLE_WRITER(records, ids, images, &mut out.to_vec(), Field::Number);
    if [OK, TWICE, MIXED].contains(&number) {
        let ids = records.iter().map(|record| part(ids, record.id_start, record.id_length).unwrap());
        match composition_taken(kinds, ids) {
            Err(Refusal { number, place }) => return field.of(Written { number, place, length: 0 }),
            Ok(()) if number != OK => return field.of(Written::default()),
            Ok(()) => {}
        }
    }
    MODEL_BUNDLE_WRITER(records, ids, images, out, field)
}

#[test]
fn kinds_taken_as_spelled_are_found() {
    let twice = |bundle: &[u8]| match check(bundle) {
        checked if checked.number == TWICE => check_taken(AS_SPELLED, bundle),
        checked => checked,
    };
    assert_eq!(found_in(BundleCalls { check: twice, ..MODEL }), "check");
    let mixed = |bundle: &[u8]| match check(bundle) {
        checked if checked.number == MIXED => check_taken(AS_SPELLED, bundle),
        checked => checked,
    };
    assert_eq!(found_in(BundleCalls { check: mixed, ..MODEL }), "check");
    let hip = |bundle: &[u8], device: &[u8]| match device.starts_with(b"hip-") {
        true => pick_taken(AS_SPELLED, bundle, device),
        false => pick(bundle, device),
    };
    assert_eq!(found_in(BundleCalls { pick: hip, ..MODEL }), "pick");
    let hipv4 = |bundle: &[u8], device: &[u8]| match device.starts_with(b"hipv4-") {
        true => pick_taken(AS_SPELLED, bundle, device),
        false => pick(bundle, device),
    };
    assert_eq!(found_in(BundleCalls { pick: hipv4, ..MODEL }), "pick");
    let writer = found(writers::Writers::<records::Case>::new(|records, ids, images, out, field| {
        write_taken(AS_SPELLED, records, ids, images, out, field)
    }));
    assert_eq!(writer, "bundle writer");
}

#[test]
fn kinds_taken_all_alike_are_found() {
    let check = |bundle: &[u8]| check_taken(ALL_ALIKE, bundle);
    assert_eq!(found_in(BundleCalls { check, ..MODEL }), "check");
    let pick = |bundle: &[u8], device: &[u8]| pick_taken(ALL_ALIKE, bundle, device);
    assert_eq!(found_in(BundleCalls { pick, ..MODEL }), "pick");
    let writer = found(writers::Writers::<records::Case>::new(|records, ids, images, out, field| {
        write_taken(ALL_ALIKE, records, ids, images, out, field)
    }));
    assert_eq!(writer, "bundle writer");
}

/// An image's first byte, and the byte after its last.
type Image = [u64; 2];

fn images(bundle: &[u8]) -> Vec<Image> {
    rows(bundle).iter().map(|(offset, size, _)| [*offset, offset.saturating_add(*size)]).collect()
}

fn share_a_byte(one: Image, other: Image) -> bool {
    one[0].max(other[0]) < one[1].min(other[1])
}

fn overlap(one: Image, other: Image) -> bool {
    share_a_byte(one, other) && one != other
}

fn overlaps(earlier: &[Image], image: Image) -> bool {
    earlier.iter().any(|other| overlap(*other, image))
}

fn inside(one: Image, other: Image) -> bool {
    other[0] <= one[0] && one[1] <= other[1]
}

fn empty_inside(one: Image, other: Image) -> bool {
    one[0] == one[1] && other[0] < one[0] && one[1] < other[1]
}

fn directly_before(one: Image, other: Image) -> bool {
    one[0] < one[1] && one[1] == other[0] && other[0] < other[1]
}

/// From the first byte of all to the last.
fn around(images: &[Image]) -> Image {
    let full = images.iter().filter(|image| image[0] < image[1]);
    full.fold([u64::MAX, 0], |all, image| [all[0].min(image[0]), all[1].max(image[1])])
}

/// The check of a library that has its own way to see whether an image overlaps one of those before it.
fn check_images(overlaps: impl Fn(&[Image], Image) -> bool, bundle: &[u8]) -> Checked {
    let checked = check(bundle);
    if ![OK, OVERLAP, TWICE, MIXED].contains(&checked.number) {
        return checked;
    }
    let images = images(bundle);
    let refused = refuse_at(images.len(), OVERLAP, |i| overlaps(&images[..i], images[i]));
    answer(refused.and_then(|()| composition_taken(AS_THEY_ARE, ids(bundle))), bundle)
}

/// The same, by its own way to compare an earlier image with a later one.
fn check_pairs(overlap: fn(Image, Image) -> bool, bundle: &[u8]) -> Checked {
    check_images(|earlier, image| earlier.iter().any(|other| overlap(*other, image)), bundle)
}

/// A check that is not the rules.
type Slip = fn(&[u8]) -> Checked;

const IMAGE_SLIPS: &[(&str, Slip)] = &[
    ("no overlap is seen", |bundle| check_pairs(|_, _| false, bundle)),
    ("the same span is one", |bundle| check_pairs(share_a_byte, bundle)),
    ("directly after is one", |bundle| check_pairs(|a, b| overlap(a, b) || directly_before(a, b), bundle)),
    ("directly before is one", |bundle| check_pairs(|a, b| overlap(a, b) || directly_before(b, a), bundle)),
    ("empty inside is one", |bundle| check_pairs(|a, b| overlap(a, b) || empty_inside(b, a), bundle)),
    ("around an empty one is one", |bundle| check_pairs(|a, b| overlap(a, b) || empty_inside(a, b), bundle)),
    ("inside is none", |bundle| check_pairs(|a, b| overlap(a, b) && !inside(b, a), bundle)),
    ("around is none", |bundle| check_pairs(|a, b| overlap(a, b) && !inside(a, b), bundle)),
    ("same start is none", |bundle| check_pairs(|a, b| overlap(a, b) && a[0] != b[0], bundle)),
    ("same end is none", |bundle| check_pairs(|a, b| overlap(a, b) && a[1] != b[1], bundle)),
    ("one byte from the end is none", |bundle| check_pairs(|a, b| overlap(a, b) && b[0] + 1 != a[1], bundle)),
    ("one byte from the start is none", |bundle| check_pairs(|a, b| overlap(a, b) && a[0] + 1 != b[1], bundle)),
    ("only with the one before", |bundle| {
        check_images(|earlier, image| overlaps(&earlier[earlier.len().saturating_sub(1)..], image), bundle)
    }),
    ("only with the first", |bundle| {
        check_images(|earlier, image| overlaps(&earlier[..earlier.len().min(1)], image), bundle)
    }),
    ("not with the first", |bundle| {
        check_images(|earlier, image| overlaps(&earlier[earlier.len().min(1)..], image), bundle)
    }),
    ("any between others is one", |bundle| {
        check_images(|earlier, image| share_a_byte(around(earlier), image) && !earlier.contains(&image), bundle)
    }),
    ("none between others is one", |bundle| {
        check_images(|earlier, image| overlaps(earlier, image) && !inside(image, around(earlier)), bundle)
    }),
];

#[test]
fn slips_of_images_are_found() {
    for (name, check) in IMAGE_SLIPS {
        assert_eq!(found_in(BundleCalls { check: *check, ..MODEL }), "check", "{name}");
    }
}

/// Slips of the number and of the place, the overlaps being seen.
const OVERLAP_SLIPS: &[(&str, Slip)] = &[
    ("the earlier of the two", |bundle| match check(bundle) {
        Checked { number: OVERLAP, place, .. } => {
            let images = images(bundle);
            let earlier = images.iter().position(|image| overlap(*image, images[place as usize]));
            answer(Err(Refusal { number: OVERLAP, place: earlier.unwrap() as u64 }), bundle)
        }
        checked => checked,
    }),
    ("the first in the order of bytes", |bundle| match check(bundle) {
        Checked { number: OVERLAP, .. } => {
            let mut images: Vec<(Image, usize)> = images(bundle).into_iter().zip(0..).collect();
            images.sort_unstable();
            let two = images.windows(2).find(|two| overlap(two[0].0, two[1].0)).map_or(0, |two| two[0].1.max(two[1].1));
            answer(Err(Refusal { number: OVERLAP, place: two as u64 }), bundle)
        }
        checked => checked,
    }),
    ("before 6", |bundle| match check(bundle) {
        checked if checked.number == RANGE => {
            let images = images(bundle);
            let refused = refuse_at(images.len(), OVERLAP, |i| overlaps(&images[..i], images[i]));
            refused.map_or_else(|refusal| answer(Err(refusal), bundle), |()| checked)
        }
        checked => checked,
    }),
    ("after 7", |bundle| check_after(TWICE, bundle)),
    ("after 8", |bundle| check_after(MIXED, bundle)),
];

/// The check of a library that asks for overlaps after this number.
fn check_after(number: u64, bundle: &[u8]) -> Checked {
    let checked = check(bundle);
    if checked.number != OVERLAP {
        return checked;
    }
    match composition_taken(AS_THEY_ARE, ids(bundle)) {
        Err(refusal) if refusal.number == number => answer(Err(refusal), bundle),
        _ => checked,
    }
}

#[test]
fn slips_of_an_overlap_are_found() {
    for (name, check) in OVERLAP_SLIPS {
        assert_eq!(found_in(BundleCalls { check: *check, ..MODEL }), "check", "{name}");
    }
}

#[test]
fn calls_that_leave_out_overlaps_are_found() {
    let pick = |bundle: &[u8], device: &[u8]| match pick(bundle, device) {
        picked if picked.number == OVERLAP => Picked { number: NONE, ..Picked::default() },
        picked => picked,
    };
    assert_eq!(found_in(BundleCalls { pick, ..MODEL }), "pick");
    let entry = |bundle: &[u8], index: u64| match entry_at(bundle, index) {
        located if located.number == OVERLAP => Located { number: NONE, ..Located::default() },
        located => located,
    };
    assert_eq!(found_in(BundleCalls { entry, ..MODEL }), "entry");
    let room_first = with_normalise(|bundle, out, field| match normalise(bundle, out) {
        written if written.number == OVERLAP && out.is_empty() => {
            field.of(Written { number: ROOM, place: 0, length: 0 })
        }
        written => field.of(written),
    });
    assert_eq!(found_in(room_first), "normalise");
}

/// A normal form sorted by IDs with some kinds, and written with IDs of others, none longer than as spelled.
fn normal_form_taken(order: Kinds, written: Kinds, bundle: &[u8], out: &mut [u8], field: Field) -> u64 {
    let texts = |entry: &Entry| [order, written].map(|kinds| canonical(&taken(kinds, entry.id)));
    normal_form_by(texts, bundle, out, field)
}

/// A normal form sorted by the first of two texts of each entry, and written with the second as its ID, which is not too long.
fn normal_form_by(texts: impl Fn(&Entry) -> [Vec<u8>; 2], bundle: &[u8], out: &mut [u8], field: Field) -> u64 {
    let lawful = normalise(bundle, &mut out.to_vec());
    if lawful.number != OK {
        return field.of(lawful);
    }
    let mut entries: Vec<_> =
        entries(General, bundle).unwrap().iter().map(|entry| (texts(entry), entry.image)).collect();
    entries.sort_by(|one, other| one.0[0].cmp(&other.0[0]));
    let entries: Vec<_> = entries.into_iter().map(|([_, id], image)| (id, image)).collect();
    let bytes = packed(&entries);
    out[..bytes.len()].copy_from_slice(&bytes);
    field.of(Written { number: OK, place: 0, length: bytes.len() as u64 })
}

#[test]
fn a_kind_respelled_in_a_normal_form_is_found() {
    let rewritten =
        with_normalise(|bundle, out, field| normal_form_taken(compared_kind, compared_kind, bundle, out, field));
    assert_eq!(found_in(rewritten), "normalise");
    let order_alone =
        with_normalise(|bundle, out, field| normal_form_taken(compared_kind, AS_THEY_ARE, bundle, out, field));
    assert_eq!(found_in(order_alone), "normalise");
}

#[test]
fn slips_of_an_index_are_found() {
    let with = |entry: fn(&[u8], u64) -> Located| BundleCalls { entry, ..MODEL };
    let last_for_the_count = with(|bundle, index| match check(bundle).count {
        count if count == index && count > 0 => entry_at(bundle, index - 1),
        _ => entry_at(bundle, index),
    });
    assert_eq!(found_in(last_for_the_count), "entry");
    let in_32_bits = with(|bundle, index| entry_at(bundle, index as u32 as u64));
    assert_eq!(found_in(in_32_bits), "entry");
    let id_at_its_row = with(|bundle, index| match entry_at(bundle, index) {
        located if located.number == OK => Located { id_position: located.id_position - 24, ..located },
        refused => refused,
    });
    assert_eq!(found_in(id_at_its_row), "entry");
    let canonical_id = with(|bundle, index| match entry_at(bundle, index) {
        located if located.number == OK => {
            let form = canonical(&entries(General, bundle).unwrap()[index as usize].meaning);
            Located { id_length: form.len() as u64, ..located }
        }
        refused => refused,
    });
    assert_eq!(found_in(canonical_id), "entry");
}

fn with_normalise(normalise: fn(&[u8], &mut [u8], Field) -> u64) -> BundleCalls {
    BundleCalls { normalise, ..MODEL }
}

#[test]
fn a_byte_written_beside_the_output_is_found() {
    let beyond = with_normalise(|bundle, out, field| {
        let written = normalise(bundle, out);
        if let Some(byte) = out.get_mut(written.length as usize) {
            *byte ^= 1;
        }
        field.of(written)
    });
    assert_eq!(found_in(beyond), "normalise");
    let on_refusal = with_normalise(|bundle, out, field| {
        let written = normalise(bundle, out);
        if written.number == ROOM && !out.is_empty() {
            out[0] = bundle[0];
        }
        field.of(written)
    });
    assert_eq!(found_in(on_refusal), "normalise");
}

#[test]
fn slips_of_a_writer_are_found() {
    let length_for_place =
        found(writers::Writers::<records::Case>::new(|records, ids, images, out, field| match field {
            Field::Place => MODEL_BUNDLE_WRITER(records, ids, images, out, Field::Length),
            _ => MODEL_BUNDLE_WRITER(records, ids, images, out, field),
        }));
    assert_eq!(length_for_place, "bundle writer");
    let no_flags = found(writers::Writers::<binary_contents::Case>::new(|content, strings, image, out, field| {
        MODEL_BINARY_WRITER(&Content { flags: 0, ..content.clone() }, strings, image, out, field)
    }));
    assert_eq!(no_flags, "binary writer");
}

#[test]
fn a_reader_that_stays_is_found() {
    assert_eq!(
        found(binaries::Binaries::new(|bytes, cursor| (MODEL_BINARY_READER(bytes, cursor).0, cursor))),
        "binaries"
    );
}
