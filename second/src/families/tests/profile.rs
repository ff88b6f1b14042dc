//! Libraries that read our own cards in another way than the profile does.

use super::*;
use crate::calls::{Check, Normalise, Pick, ReadingCalls};
use crate::gen::ids::{cards, read, read_by};
use crate::model::bundle::packed_length;
use crate::model::id::Reading::Profile;
use crate::model::id::{begins_a_processor, own_processor, Sign, Text};
use crate::model::processors::{known, Processor, PROCESSORS};
use crate::model::{big_or_room, write_or_refuse};

fn profile(id: &[u8]) -> Option<Meaning<'static>> {
    read_by(Profile, id)
}

/// What the profile takes an ID with this meaning for.
fn profile_of(meaning: &Meaning) -> Option<Meaning<'static>> {
    profile(&canonical(meaning))
}

/// Normalising in a library that reads IDs so, sorts by the form of the second, and writes that of the third.
fn normalise_read([read, sorted, written]: [Reader; 3], bundle: &[u8], out: &mut [u8], field: Field) -> u64 {
    let Checked { number, place, .. } = check_read(read, bundle);
    if number != OK {
        return field.of(Written { number, place, length: 0 });
    }
    let entry = |(offset, size, id): (u64, u64, _)| {
        let image = part(bundle, offset, size).unwrap_or_default();
        ([sorted, written].map(|reader| canonical(&reader(id).unwrap())), image)
    };
    let mut entries: Vec<_> = rows(bundle).into_iter().map(entry).collect();
    entries.sort_by(|one, other| one.0[0].cmp(&other.0[0]));
    let entries: Vec<_> = entries.into_iter().map(|([_, id], image)| (id, image)).collect();
    let output = big_or_room(packed_length(&entries), out.len()).map(|()| packed(&entries));
    field.of(write_or_refuse(output, out))
}

/// What the profile accepts, with the name that it has.
fn as_spelled(id: &[u8]) -> Option<Meaning<'static>> {
    profile(id).and_then(|_| read(id))
}

/// What a library makes of our own card, which has the name of this row or of none.
type Maker = fn(Meaning<'static>, Option<&'static Processor>) -> Option<Meaning<'static>>;

/// The general reading, but for our own cards.
fn own_read(id: &[u8], make: Maker) -> Option<Meaning<'static>> {
    let meaning = read(id)?;
    match own_processor(&meaning).map(known) {
        None => Some(meaning),
        Some(row) => make(meaning, row),
    }
}

fn with_name(meaning: Meaning<'static>, name: &[u8]) -> Meaning<'static> {
    Meaning { processor: Some(name.to_vec().into()), ..meaning }
}

/// The profile's own way, but for the limit of length.
fn renamed(meaning: Meaning<'static>, row: &Processor) -> Option<Meaning<'static>> {
    let supported = meaning.features.keys().all(|name| row.supports(name));
    supported.then(|| with_name(meaning, row.primary.as_bytes()))
}

/// What the profile reads, but for what is accepted of our own cards.
fn accepted_if(id: &[u8], accepts: fn(&Meaning, &[u8]) -> bool) -> Option<Meaning<'static>> {
    profile(id).filter(|meaning| own_processor(meaning).is_none() || accepts(meaning, id))
}

/// The name that an ID has.
fn name(id: &[u8]) -> Text<'static> {
    read(id).and_then(|meaning| meaning.processor).unwrap_or_default()
}

/// What the profile reads after a change to the meaning, with features, kind, arch and vendor as they were.
fn after(id: &[u8], change: fn(&mut Meaning<'static>)) -> Option<Meaning<'static>> {
    let meaning = read(id)?;
    let mut changed = meaning.clone();
    change(&mut changed);
    let Meaning { kind, arch, vendor, features, .. } = meaning;
    profile_of(&changed).map(|read| Meaning { kind, arch, vendor, features, ..read })
}

/// What the profile reads of our own card with another name, which the table has.
fn by_name(id: &[u8], fits: fn(&str, &[u8]) -> bool) -> Option<Meaning<'static>> {
    let meaning = read(id)?;
    let name = match own_processor(&meaning) {
        None => return Some(meaning),
        Some(name) => name.to_vec(),
    };
    let mut names = PROCESSORS.iter().flat_map(Processor::names);
    let found = if known(&name).is_some() { None } else { names.find(|other| fits(other, &name)) };
    profile_of(&with_name(meaning, found.map_or(&name, |found| found.as_bytes())))
}

/// What is read of IDs for which this does not hold.
fn profile_unless(id: &[u8], as_before: fn(&Meaning) -> bool) -> Option<Meaning<'static>> {
    let meaning = read(id)?;
    if as_before(&meaning) {
        return Some(meaning);
    }
    profile(id)
}

fn states(meaning: &Meaning, name: &[u8]) -> bool {
    meaning.features.keys().any(|stated| stated[..] == *name)
}

fn is_one_of_two(name: &[u8]) -> bool {
    name == b"sramecc" || name == b"xnack"
}

/// An environment that is an alternative name is a processor.
fn environment_as_processor(meaning: &mut Meaning<'static>) {
    if meaning.processor.is_none() && known(&meaning.environment).is_some() {
        meaning.processor = Some(std::mem::take(&mut meaning.environment));
    }
}

/// The primary of the row behind.
fn next_primary(row: &Processor) -> &'static str {
    let at = PROCESSORS.iter().position(|other| other == row).unwrap();
    PROCESSORS[(at + 1) % PROCESSORS.len()].primary
}

/// A library that reads IDs so: its check, its pick as to device names, and its normalising.
macro_rules! slips {
    ($(($name:literal, $reader:expr),)*) => {
        &[$((
            $name,
            |bundle| check_read($reader, bundle),
            |bundle, device| pick_read(profile, $reader, bundle, device),
            |bundle, out, field| normalise_read([$reader; 3], bundle, out, field),
        ),)*]
    };
}

const CARD_SLIPS: &[(&str, Check, Pick, Normalise)] = slips![
    // Names.
    ("an alternative name stays", as_spelled),
    ("an alternative name means the next row", |id| own_read(id, |meaning, row| match row {
        Some(row) if !begins_a_processor(meaning.processor.as_ref()?) => {
            Some(with_name(meaning, next_primary(row).as_bytes()))
        }
        row => renamed(meaning, row?),
    })),
    ("no alternative name is known", |id| accepted_if(id, |read, id| read.processor == Some(name(id)))),
    ("only one alternative name of a row", |id| {
        accepted_if(id, |_, id| {
            !PROCESSORS.iter().any(|row| row.alternatives.iter().skip(1).any(|other| other.as_bytes() == &name(id)[..]))
        })
    }),
    ("no first row", |id| accepted_if(id, |read, _| read.processor.as_deref() != Some(b"gfx600"))),
    ("no last row", |id| accepted_if(id, |read, _| read.processor.as_deref() != Some(b"gfx12-generic"))),
    ("no name with a hyphen", |id| accepted_if(id, |read, _| !read.processor.as_ref().unwrap().contains(&b'-'))),
    ("no name of 9 bytes", |id| accepted_if(id, |_, id| name(id).len() != 9)),
    ("unknown names stay", |id| own_read(id, |meaning, row| match row {
        None => Some(meaning),
        Some(row) => renamed(meaning, row),
    })),
    ("unknown names stay that begin with gfx", |id| own_read(id, |meaning, row| match row {
        None => Some(meaning).filter(|meaning| meaning.processor.as_ref().unwrap().starts_with(b"gfx")),
        Some(row) => renamed(meaning, row),
    })),
    ("unknown names stay that end with -generic", |id| own_read(id, |meaning, row| match row {
        None => Some(meaning).filter(|meaning| meaning.processor.as_ref().unwrap().ends_with(b"-generic")),
        Some(row) => renamed(meaning, row),
    })),
    ("names in any case", |id| by_name(id, |name, other| name.as_bytes().eq_ignore_ascii_case(other))),
    ("names that go on", |id| by_name(id, |name, other| other.starts_with(name.as_bytes()))),
    ("parts of names", |id| by_name(id, |name, other| name.as_bytes().starts_with(other))),
    ("names without their hyphens", |id| by_name(id, |name, other| name.replace('-', "").as_bytes() == other)),
    ("names but for their last byte", |id| {
        by_name(id, |name, other| other.len() == name.len() && other.starts_with(&name.as_bytes()[..name.len() - 1]))
    }),
    // Features.
    ("all features are supported", |id| own_read(id, |meaning, row| Some(with_name(meaning, row?.primary.as_bytes())))),
    ("sramecc is always supported", |id| after(id, |read| read.features.retain(|name, _| name[..] != *b"sramecc"))),
    ("xnack is always supported", |id| after(id, |read| read.features.retain(|name, _| name[..] != *b"xnack"))),
    ("other features are supported", |id| after(id, |read| read.features.retain(|name, _| is_one_of_two(name)))),
    ("what is off is supported", |id| after(id, |read| read.features.retain(|_, sign| *sign == Sign::On))),
    ("what is on is supported", |id| after(id, |read| read.features.retain(|_, sign| *sign == Sign::Off))),
    ("sramecc is never supported", |id| accepted_if(id, |read, _| !states(read, b"sramecc"))),
    ("xnack is never supported", |id| accepted_if(id, |read, _| !states(read, b"xnack"))),
    ("no two features", |id| accepted_if(id, |read, _| read.features.len() < 2)),
    ("sramecc for xnack", |id| own_read(id, |meaning, row| {
        let row = row?;
        let other = |name: &[u8]| if name == b"sramecc" { &b"xnack"[..] } else { b"sramecc" };
        let supported = meaning.features.keys().all(|name| is_one_of_two(name) && row.supports(other(name)));
        supported.then(|| with_name(meaning, row.primary.as_bytes()))
    })),
    ("no feature by an alternative name", |id| {
        accepted_if(id, |read, id| read.features.is_empty() || read.processor == Some(name(id)))
    }),
    // Which IDs are those of our own cards.
    ("host too", |id| after(id, |read| {
        if read.kind[..] == *b"host" {
            read.kind = b"hip"[..].into();
        }
    })),
    ("not hip", |id| profile_unless(id, |read| read.kind[..] == *b"hip")),
    ("not hipv4", |id| profile_unless(id, |read| read.kind[..] == *b"hipv4")),
    ("not openmp", |id| profile_unless(id, |read| read.kind[..] == *b"openmp")),
    ("any arch", |id| after(id, |read| read.arch = b"amdgcn"[..].into())),
    ("any arch that begins with amdgcn", |id| after(id, |read| {
        if read.arch.starts_with(b"amdgcn") {
            read.arch = b"amdgcn"[..].into();
        }
    })),
    ("amdgcn in any case", |id| after(id, |read| {
        if read.arch.eq_ignore_ascii_case(b"amdgcn") {
            read.arch = b"amdgcn"[..].into();
        }
    })),
    ("any beginning of amdgcn", |id| after(id, |read| {
        if b"amdgcn".starts_with(&read.arch) {
            read.arch = b"amdgcn"[..].into();
        }
    })),
    ("amdgcn as vendor too", |id| after(id, |read| {
        if read.vendor[..] == *b"amdgcn" {
            std::mem::swap(&mut read.arch, &mut read.vendor);
        }
    })),
    ("amd alone", |id| profile_unless(id, |read| read.vendor[..] != *b"amd")),
    ("amdhsa alone", |id| profile_unless(id, |read| read.system[..] != *b"amdhsa")),
    ("no environment", |id| profile_unless(id, |read| !read.environment.is_empty())),
    ("alternatives in the fifth field", |id| after(id, environment_as_processor)),
    // Lengths.
    ("the limit on the form as spelled", |id| own_read(id, |meaning, row| renamed(meaning, row?))),
    ("no form of 256 bytes", |id| accepted_if(id, |read, _| canonical(read).len() < 256)),
    ("no text of 256 bytes", |id| accepted_if(id, |_, id| id.len() < 256)),
    ("no text of 256 bytes with a longer name", |id| {
        accepted_if(id, |read, id| id.len() < 256 || canonical(read).len() == 256)
    }),
];

fn found_in_profile(calls: ReadingCalls) -> &'static str {
    found(bundles::Bundles::profile(calls))
}

#[test]
fn slips_of_our_own_cards_are_found_in_a_check() {
    for &(name, check, ..) in CARD_SLIPS {
        assert_eq!(found_in_profile(ReadingCalls { check, ..MODEL_PROFILE }), "check", "{name}");
    }
}

#[test]
fn slips_of_our_own_cards_are_found_in_a_pick() {
    for &(name, _, pick, _) in CARD_SLIPS {
        assert_eq!(found_in_profile(ReadingCalls { pick, ..MODEL_PROFILE }), "pick", "{name}");
    }
}

#[test]
fn slips_of_our_own_cards_are_found_in_a_normal_form() {
    for &(name, .., normalise) in CARD_SLIPS {
        assert_eq!(found_in_profile(ReadingCalls { normalise, ..MODEL_PROFILE }), "normalise", "{name}");
    }
}

#[test]
fn reading_by_the_profile_is_no_slip() {
    let check = |bundle: &[u8]| check_read(profile, bundle);
    let pick = |bundle: &[u8], device: &[u8]| pick_read(profile, profile, bundle, device);
    let normalise = |bundle: &[u8], out: &mut [u8], field: Field| normalise_read([profile; 3], bundle, out, field);
    run_generated(&mut bundles::Bundles::profile(ReadingCalls { check, pick, normalise }), 2000).unwrap();
}

#[test]
fn readers_that_change_nothing_read_by_the_profile() {
    let readers: [Reader; 4] = [
        |id| accepted_if(id, |_, _| true),
        |id| after(id, |_| {}),
        |id| by_name(id, |_, _| false),
        |id| profile_unless(id, |_| false),
    ];
    let mut random = Random::of_case(1, 9);
    for card in cards::ids() {
        let id = (card.make)(&mut random);
        assert!(readers.iter().all(|reader| reader(&id) == profile(&id)), "{}", String::from_utf8_lossy(&id));
    }
}

#[test]
fn the_general_calls_are_no_profile() {
    let BundleCalls { check, pick, normalise, .. } = MODEL;
    assert_eq!(found_in_profile(ReadingCalls { check, ..MODEL_PROFILE }), "check");
    assert_eq!(found_in_profile(ReadingCalls { pick, ..MODEL_PROFILE }), "pick");
    assert_eq!(found_in_profile(ReadingCalls { normalise, ..MODEL_PROFILE }), "normalise");
}

/// The profile's check, and what another answers where its number is this one.
fn check_but(number: u64, other: fn(&[u8]) -> Checked, bundle: &[u8]) -> Checked {
    match (MODEL_PROFILE.check)(bundle) {
        checked if checked.number == number => other(bundle),
        checked => checked,
    }
}

const CHECK_SLIPS: &[(&str, Check)] = &[
    ("7 by names", |bundle| check_but(TWICE, |bundle| check_read(as_spelled, bundle), bundle)),
    ("8 by names", |bundle| check_but(MIXED, |bundle| check_read(as_spelled, bundle), bundle)),
    ("names after all other IDs", |bundle| {
        check_but(
            ID,
            |bundle| match check(bundle) {
                checked if checked.number == ID => checked,
                _ => (MODEL_PROFILE.check)(bundle),
            },
            bundle,
        )
    }),
    ("names after 6", |bundle| {
        check_but(
            ID,
            |bundle| match check(bundle) {
                checked if checked.number == RANGE => checked,
                _ => (MODEL_PROFILE.check)(bundle),
            },
            bundle,
        )
    }),
    ("names after 21", |bundle| {
        check_but(
            ID,
            |bundle| match check(bundle) {
                checked if checked.number == OVERLAP => checked,
                _ => (MODEL_PROFILE.check)(bundle),
            },
            bundle,
        )
    }),
    ("no 21", |bundle| {
        check_but(
            OVERLAP,
            |bundle| answer(composition(&ids(bundle).map(|id| profile(id).unwrap()).collect::<Vec<_>>()), bundle),
            bundle,
        )
    }),
];

#[test]
fn slips_of_the_profiles_check_are_found() {
    for &(name, check) in CHECK_SLIPS {
        assert_eq!(found_in_profile(ReadingCalls { check, ..MODEL_PROFILE }), "check", "{name}");
    }
}

const PICK_SLIPS: &[(&str, Pick)] = &[
    ("entries by names", |bundle, device| pick_read(as_spelled, profile, bundle, device)),
    ("entries and devices by names", |bundle, device| pick_read(as_spelled, as_spelled, bundle, device)),
    ("no 9 of the profile", |bundle, device| pick_read(profile, |id| profile(id).or_else(|| read(id)), bundle, device)),
    ("5 for 9", |bundle, device| match (MODEL_PROFILE.pick)(bundle, device) {
        picked if picked.number == QUERY => Picked { number: ID, ..picked },
        picked => picked,
    }),
    ("9 before 7", |bundle, device| match (MODEL_PROFILE.pick)(bundle, device) {
        picked if picked.number == TWICE && profile(device).is_none() => Picked { number: QUERY, ..Picked::default() },
        picked => picked,
    }),
];

#[test]
fn slips_of_the_profiles_pick_are_found() {
    for &(name, pick) in PICK_SLIPS {
        assert_eq!(found_in_profile(ReadingCalls { pick, ..MODEL_PROFILE }), "pick", "{name}");
    }
}

const NORMAL_FORM_SLIPS: &[(&str, Normalise)] = &[
    ("names are written", |bundle, out, field| normalise_read([profile, profile, as_spelled], bundle, out, field)),
    ("sorted by names", |bundle, out, field| normalise_read([profile, as_spelled, profile], bundle, out, field)),
];

#[test]
fn slips_of_the_profiles_normal_form_are_found() {
    for &(name, normalise) in NORMAL_FORM_SLIPS {
        assert_eq!(found_in_profile(ReadingCalls { normalise, ..MODEL_PROFILE }), "normalise", "{name}");
    }
}
