//! Entry IDs and device names: meanings, their spellings, the limits, and broken ones.

pub mod cards;
pub mod processors;

use super::random::Random;
use crate::model::id::{
    begins_a_processor, compared_kind, meaning_by, same_meaning, same_target, sign_byte, Reading, Sign, Text,
};
use std::collections::BTreeMap;

/// A meaning with texts of its own.
pub type Meaning = crate::model::id::Meaning<'static>;

pub const KINDS: &[&str] = &["host", "hip", "hipv4", "openmp"];
const ARCHS: &[&str] = &["amdgcn", "amdgcn", "x86_64", "nvptx64", "spirv64", "a", "A", "_", "."];
const VENDORS: &[&str] = &["amd", "amd", "unknown", "nvidia", "pc", "b", "B.b"];
const SYSTEMS: &[&str] = &["amdhsa", "amdhsa", "linux", "cuda", "c", "gfx", "sm_"];
const ENVIRONMENTS: &[&str] = &["", "", "", "", "gnu", "musl", "gf", "sm", "GFX", "xgfx", "e"];
const PROCESSORS: &[&str] =
    &["gfx906", "gfx906", "gfx90a", "gfx1030", "sm_70", "sm_80", "gfx", "sm_", "generic", "g", "gf", "x.y_Z"];
const FEATURES: &[&str] =
    &["xnack", "xnack", "sramecc", "sramecc", "x", "xn", "xnac", "xnack_", "xnack0", "a", "b", "_", "0", "cumode"];
const WRONG_KINDS: &[&str] =
    &["", "Host", "HIP", "hi", "hos", "hosts", "hipv", "hipv3", "hipv5", "hipv44", "hip4", "openm", "openmp4", "cuda"];
const FIELD_BYTES: &[u8] = b"abcdefghijklmnopqrstuvwxyzABCDEFGHIJKLMNOPQRSTUVWXYZ0123456789_.";
const NAME_BYTES: &[u8] = b"abcdefghijklmnopqrstuvwxyz0123456789_";

fn word(random: &mut Random, alphabet: &[u8]) -> Text<'static> {
    let longest = if random.one_in(12) { 40 } else { 8 };
    let length = random.between(1, longest);
    (0..length).map(|_| *random.choose(alphabet)).collect()
}

pub fn choose(random: &mut Random, texts: &[&'static str]) -> Text<'static> {
    random.choose(texts).as_bytes().into()
}

fn field(random: &mut Random, usual: &[&'static str]) -> Text<'static> {
    if random.one_in(8) {
        return word(random, FIELD_BYTES);
    }
    choose(random, usual)
}

fn feature_name(random: &mut Random) -> Text<'static> {
    if random.one_in(8) {
        return word(random, NAME_BYTES);
    }
    choose(random, FEATURES)
}

fn sign(random: &mut Random) -> Sign {
    *random.choose(&[Sign::On, Sign::Off])
}

pub fn other_sign(sign: Sign) -> Sign {
    match sign {
        Sign::On => Sign::Off,
        Sign::Off => Sign::On,
    }
}

/// An environment. One that begins like a processor would be read as one.
fn environment(random: &mut Random) -> Text<'static> {
    loop {
        let environment = field(random, ENVIRONMENTS);
        if !begins_a_processor(&environment) {
            return environment;
        }
    }
}

/// A meaning with no feature.
pub fn target(random: &mut Random) -> Meaning {
    let has_processor = !random.one_in(3);
    Meaning {
        kind: choose(random, KINDS),
        arch: field(random, ARCHS),
        vendor: field(random, VENDORS),
        system: field(random, SYSTEMS),
        environment: environment(random),
        processor: has_processor.then(|| processors::any(random)),
        features: BTreeMap::new(),
    }
}

/// The meaning with `hipv4` for `hip`, and with `hip` for `hipv4`; any other kind has one spelling.
pub fn kind_respelled(meaning: &Meaning) -> Meaning {
    let kind = match &meaning.kind[..] {
        b"hip" => b"hipv4"[..].into(),
        b"hipv4" => b"hip"[..].into(),
        _ => meaning.kind.clone(),
    };
    Meaning { kind, ..meaning.clone() }
}

/// The meaning with its kind in either spelling, where the canonical form is not too long.
pub fn either_spelling(random: &mut Random, meaning: Meaning) -> Meaning {
    let respelled = kind_respelled(&meaning);
    if random.one_in(2) && canonical_length(&respelled) <= 256 {
        return respelled;
    }
    meaning
}

/// Another kind, and not another spelling of the same.
pub fn change_kind(meaning: &mut Meaning, random: &mut Random) {
    let kind = compared_kind(&meaning.kind);
    let others: Vec<&str> = KINDS.iter().copied().filter(|other| compared_kind(other.as_bytes()) != kind).collect();
    meaning.kind = choose(random, &others);
}

/// An ID of one of these kinds, whose target no other entry has: it is short, and has a processor and no feature.
pub fn own(random: &mut Random, kinds: &[&str]) -> String {
    let kind = *random.choose(kinds);
    format!("{kind}-own-b-c-gfx{}", random.below(1000))
}

/// So many different feature names.
pub fn feature_names(random: &mut Random, count: usize) -> Vec<Text<'static>> {
    let mut names = Vec::new();
    while names.len() < count {
        let name = feature_name(random);
        if !names.contains(&name) {
            names.push(name);
        }
    }
    names
}

/// The meaning with these features, each with some sign.
pub fn with_features(random: &mut Random, mut meaning: Meaning, names: &[Text<'static>]) -> Meaning {
    for name in names {
        meaning.features.insert(name.clone(), sign(random));
    }
    meaning
}

/// A meaning with a processor and so many features.
pub fn with_feature_count(random: &mut Random, count: usize) -> Meaning {
    let mut meaning = target(random);
    meaning.processor = Some(processors::any(random));
    let names = feature_names(random, count);
    with_features(random, meaning, &names)
}

/// Mostly none to two features.
pub fn some_feature_count(random: &mut Random) -> usize {
    match random.below(8) {
        0..=2 => 0,
        3..=4 => 1,
        5..=6 => 2,
        _ => random.between(3, 8),
    }
}

/// How long the canonical form is: six fields, the processor being one, with five dashes, and each feature with its colon and its sign.
fn canonical_length(meaning: &Meaning) -> usize {
    let Meaning { kind, arch, vendor, system, environment, processor, features } = meaning;
    let fields = kind.len() + arch.len() + vendor.len() + system.len() + environment.len();
    let processor = processor.as_ref().map_or(0, |name| name.len());
    fields + processor + 5 + features.keys().map(|name| name.len() + 2).sum::<usize>()
}

/// A meaning whose canonical form has at most so many bytes.
fn at_most(random: &mut Random, bytes: usize, make: impl Fn(&mut Random) -> Meaning) -> Meaning {
    loop {
        let meaning = make(random);
        if canonical_length(&meaning) <= bytes {
            return meaning;
        }
    }
}

/// Any meaning that keeps the general rules.
pub fn some_meaning(random: &mut Random) -> Meaning {
    at_most(random, 256, |random| match some_feature_count(random) {
        0 => target(random),
        count => with_feature_count(random, count),
    })
}

/// Any meaning that keeps the rules of a reading.
pub fn some_meaning_by(reading: Reading, random: &mut Random) -> Meaning {
    match reading {
        Reading::General => some_meaning(random),
        Reading::Profile => composed(reading, random, 1).remove(0),
    }
}

/// The meaning of an ID, which need not live as long; nothing where it breaks the rules.
pub fn read(id: &[u8]) -> Option<Meaning> {
    read_by(Reading::General, id)
}

/// The same by a reading.
pub fn read_by(reading: Reading, id: &[u8]) -> Option<Meaning> {
    let owned = |text: Text| Text::Owned(text.into_owned());
    meaning_by(reading, id).map(|meaning| Meaning {
        kind: owned(meaning.kind),
        arch: owned(meaning.arch),
        vendor: owned(meaning.vendor),
        system: owned(meaning.system),
        environment: owned(meaning.environment),
        processor: meaning.processor.map(owned),
        features: meaning.features.into_iter().map(|(name, sign)| (owned(name), sign)).collect(),
    })
}

/// The meaning of an ID that keeps the rules.
pub fn meaning_of(id: &[u8]) -> Meaning {
    read(id).expect("an ID that keeps the rules")
}

/// The meaning with features more than it states, up to 8 in all.
pub fn with_more_features(reading: Reading, random: &mut Random, meaning: &Meaning) -> Meaning {
    let mut more = meaning.clone();
    if let Some(row) = cards::row_of(reading, meaning) {
        for name in cards::some_features(random, row) {
            let sign = sign(random);
            more.features.entry(name).or_insert(sign);
        }
    } else if more.processor.is_some() {
        let total = random.between(more.features.len(), 8);
        while more.features.len() < total {
            let name = feature_name(random);
            let sign = sign(random);
            more.features.entry(name).or_insert(sign);
        }
    }
    if canonical_length(&more) <= 256 {
        more
    } else {
        meaning.clone()
    }
}

/// Meanings that may stand in one bundle, in any order.
pub fn composed(reading: Reading, random: &mut Random, count: usize) -> Vec<Meaning> {
    let mut meanings: Vec<Meaning> = Vec::new();
    while meanings.len() < count {
        let target = match reading {
            Reading::General => target(random),
            Reading::Profile => cards::target(random),
        };
        if !meanings.iter().any(|other| same_target(other, &target)) {
            let most = count - meanings.len();
            meanings.extend(group(reading, random, target, most));
        }
    }
    random.shuffle(&mut meanings);
    meanings
}

/// Different meanings of one target that all state the same feature names, `most` at most, each with its kind in either spelling.
fn group(reading: Reading, random: &mut Random, target: Meaning, most: usize) -> Vec<Meaning> {
    let mut group = Vec::new();
    let names = some_names(reading, random, &target);
    let tries = random.between(1, 4).min(most);
    for _ in 0..tries {
        let meaning = with_features(random, target.clone(), &names);
        let meaning = either_spelling(random, meaning);
        if canonical_length(&meaning) <= 256 && !group.iter().any(|other| same_meaning(other, &meaning)) {
            group.push(meaning);
        }
    }
    group
}

/// Names of features that a target may state.
fn some_names(reading: Reading, random: &mut Random, target: &Meaning) -> Vec<Text<'static>> {
    if let Some(row) = cards::row_of(reading, target) {
        return cards::some_features(random, row);
    }
    let count = if target.processor.is_some() { some_feature_count(random) } else { 0 };
    feature_names(random, count)
}

/// The numbers of fields with which a meaning can be spelled; a processor is one field, with its hyphens.
fn field_counts(meaning: &Meaning) -> Vec<usize> {
    let mut counts = vec![6];
    match &meaning.processor {
        Some(name) if meaning.environment.is_empty() && begins_a_processor(name) => counts.push(5),
        None => counts.push(5),
        _ => {}
    }
    if meaning.processor.is_none() && meaning.environment.is_empty() {
        counts.push(4);
    }
    counts
}

/// The fields of a meaning, so many of them; the processor is one, with its hyphens.
fn fields_of(meaning: &Meaning, count: usize) -> Vec<Text<'static>> {
    let mut fields = vec![
        meaning.kind.clone(),
        meaning.arch.clone(),
        meaning.vendor.clone(),
        meaning.system.clone(),
        meaning.environment.clone(),
        meaning.processor.clone().unwrap_or_default(),
    ];
    if count == 5 && meaning.processor.is_some() {
        fields.remove(4);
    }
    fields.truncate(count);
    fields
}

/// The features as they are written, in any order.
fn feature_texts(random: &mut Random, meaning: &Meaning) -> Vec<Vec<u8>> {
    let mut texts: Vec<Vec<u8>> =
        meaning.features.iter().map(|(name, sign)| [&name[..], &[sign_byte(*sign)]].concat()).collect();
    random.shuffle(&mut texts);
    texts
}

/// An ID of these fields and feature pieces.
fn text(fields: &[Text], pieces: &[Vec<u8>]) -> Vec<u8> {
    let mut text = Vec::with_capacity(256);
    for field in fields {
        text.extend(&field[..]);
        text.push(b'-');
    }
    text.pop();
    for piece in pieces {
        text.push(b':');
        text.extend(piece);
    }
    text
}

fn spelled_with(random: &mut Random, meaning: &Meaning, count: usize) -> Vec<u8> {
    let pieces = feature_texts(random, meaning);
    text(&fields_of(meaning, count), &pieces)
}

/// Any spelling of a meaning that is at most 256 bytes long.
pub fn spelled(reading: Reading, random: &mut Random, meaning: &Meaning) -> Vec<u8> {
    let renamed = cards::row_of(reading, meaning).map(|row| cards::renamed(random, meaning, row));
    as_named(random, renamed.as_ref().unwrap_or(meaning))
}

/// Any spelling of a meaning with its processor's name as it is.
pub fn as_named(random: &mut Random, meaning: &Meaning) -> Vec<u8> {
    let counts = field_counts(meaning);
    let count = *random.choose(&counts);
    spelled_with(random, meaning, count)
}

/// An ID with some property, by the way it is made.
#[derive(Clone, Copy)]
pub struct IdMaker {
    pub name: &'static str,
    pub make: MakeId,
}

pub type MakeId = fn(&mut Random) -> Vec<u8>;

/// IDs that keep the rules, at their limits.
const EDGES: &[IdMaker] = &[
    IdMaker { name: "ID of 256 bytes", make: |random| of_length(random, 6, 256) },
    IdMaker { name: "canonical form of 256 bytes, two dashes longer", make: |random| of_length(random, 4, 254) },
    IdMaker { name: "canonical form of 256 bytes, a dash longer", make: |random| of_length(random, 5, 255) },
    IdMaker { name: "8 features", make: |random| of_features(random, 8) },
    IdMaker { name: "shortest ID", make: |_| b"hip-a-b-c".to_vec() },
    IdMaker { name: "processor that does not begin like one", make: |_| b"hip-a-b-c--generic:x+".to_vec() },
    IdMaker { name: "names of which one begins with the other", make: |_| b"hip-a-b-c-gfx:ab-:a+:abc+".to_vec() },
];

/// IDs of at most 256 bytes that break the rules.
const BROKEN: &[IdMaker] = &[
    IdMaker { name: "ID of 1 byte", make: |random| random.bytes(1) },
    IdMaker { name: "three fields", make: |random| broken_fields(random, |fields, _| fields.truncate(3)) },
    IdMaker { name: "wrong kind", make: |random| broken_fields(random, wrong_kind) },
    IdMaker { name: "empty arch", make: |random| broken_fields(random, |fields, _| fields[1] = Text::default()) },
    IdMaker { name: "empty vendor", make: |random| broken_fields(random, |fields, _| fields[2] = Text::default()) },
    IdMaker { name: "empty system", make: |random| broken_fields(random, |fields, _| fields[3] = Text::default()) },
    IdMaker { name: "byte that no field has", make: |random| broken_fields(random, wrong_field_byte) },
    IdMaker { name: "no sign", make: |random| broken_piece(random, |_| b"xnack".to_vec()) },
    IdMaker { name: "sign before the name", make: |random| broken_piece(random, |_| b"+xnack".to_vec()) },
    IdMaker { name: "empty name", make: |random| broken_piece(random, |random| vec![*random.choose(b"+-")]) },
    IdMaker { name: "empty feature", make: |random| broken_piece(random, |_| Vec::new()) },
    IdMaker { name: "two signs", make: |random| broken_piece(random, two_signs) },
    IdMaker { name: "byte that no name has", make: |random| broken_piece(random, wrong_name) },
    IdMaker { name: "name twice, same sign", make: |random| name_twice(random, |sign| sign) },
    IdMaker { name: "name twice, other sign", make: |random| name_twice(random, other_sign) },
    IdMaker { name: "four fields and a feature", make: |random| no_processor(random, 4) },
    IdMaker { name: "five fields, no processor and a feature", make: |random| no_processor(random, 5) },
    IdMaker { name: "six fields, no processor and a feature", make: |random| no_processor(random, 6) },
    IdMaker { name: "9 features", make: |random| of_features(random, 9) },
    IdMaker { name: "canonical form of 257 bytes, two dashes longer", make: |random| of_length(random, 4, 255) },
    IdMaker { name: "canonical form of 258 bytes, two dashes longer", make: |random| of_length(random, 4, 256) },
    IdMaker { name: "canonical form of 257 bytes, a dash longer", make: |random| of_length(random, 5, 256) },
];

/// IDs that are 257 bytes long, and keep all other rules.
const TOO_LONG: &[IdMaker] = &[IdMaker { name: "257 bytes", make: |random| of_length(random, 6, 257) }];

/// `EDGES`, and those of processors with hyphens.
pub fn edges() -> impl Iterator<Item = &'static IdMaker> {
    EDGES.iter().chain(processors::EDGES)
}

/// `BROKEN`, and those of processors with hyphens.
pub fn broken() -> impl Iterator<Item = &'static IdMaker> {
    BROKEN.iter().chain(processors::BROKEN)
}

/// `TOO_LONG`, and those of processors with hyphens.
pub fn too_long() -> impl Iterator<Item = &'static IdMaker> {
    TOO_LONG.iter().chain(processors::TOO_LONG)
}

/// Any ID that is broken.
pub fn some_broken(random: &mut Random) -> Vec<u8> {
    let makers: Vec<&IdMaker> = broken().collect();
    (random.choose(&makers).make)(random)
}

/// A spelling of so many fields and so many bytes.
pub fn of_length(random: &mut Random, fields: usize, length: usize) -> Vec<u8> {
    filled(random, fields, length, some_meaning)
}

/// A spelling of so many fields, of a meaning that is made so, in so many bytes: one field is as long as it has to be.
fn filled(random: &mut Random, fields: usize, length: usize, make: impl Fn(&mut Random) -> Meaning) -> Vec<u8> {
    filled_in(random, fields, length, make, some_field)
}

/// The same, in this field.
fn filled_in(
    random: &mut Random,
    fields: usize,
    length: usize,
    make: impl Fn(&mut Random) -> Meaning,
    field: for<'a> fn(&mut Random, &'a mut Meaning) -> &'a mut Vec<u8>,
) -> Vec<u8> {
    loop {
        let mut meaning = make(random);
        if !field_counts(&meaning).contains(&fields) {
            continue;
        }
        let now = spelled_with(random, &meaning, fields).len();
        if now <= length {
            let more: Vec<u8> = (now..length).map(|_| *random.choose(FIELD_BYTES)).collect();
            field(random, &mut meaning).extend(more);
            return spelled_with(random, &meaning, fields);
        }
    }
}

/// Arch, vendor, system, or the processor if there is one.
fn some_field<'a>(random: &mut Random, meaning: &'a mut Meaning) -> &'a mut Vec<u8> {
    match (random.below(4), &mut meaning.processor) {
        (0, _) => meaning.arch.to_mut(),
        (1, _) => meaning.vendor.to_mut(),
        (2, Some(name)) => name.to_mut(),
        _ => meaning.system.to_mut(),
    }
}

fn of_features(random: &mut Random, count: usize) -> Vec<u8> {
    let meaning = at_most(random, 256, |random| with_feature_count(random, count));
    as_named(random, &meaning)
}

/// A meaning that is made so, short enough that no damage makes its ID longer than 256 bytes.
fn short_meaning(random: &mut Random, make: impl Fn(&mut Random) -> Meaning) -> Meaning {
    at_most(random, 180, make)
}

/// The ID of a meaning after damage to its fields.
fn broken_fields(random: &mut Random, damage: fn(&mut Vec<Text<'static>>, &mut Random)) -> Vec<u8> {
    let meaning = short_meaning(random, some_meaning);
    let counts = field_counts(&meaning);
    let mut fields = fields_of(&meaning, *random.choose(&counts));
    let pieces = feature_texts(random, &meaning);
    damage(&mut fields, random);
    text(&fields, &pieces)
}

fn wrong_kind(fields: &mut Vec<Text<'static>>, random: &mut Random) {
    fields[0] = choose(random, WRONG_KINDS);
}

/// A byte that is not in an alphabet and cuts nothing: its neighbours in ASCII, zero, and bytes above 127 are among them.
fn byte_outside(random: &mut Random, alphabet: &[u8]) -> u8 {
    loop {
        let byte = if random.one_in(2) { *random.choose(b"/@[`{+*,^\0\n \x7f\x80\xff") } else { random.byte() };
        if !alphabet.contains(&byte) && byte != b'-' && byte != b':' {
            return byte;
        }
    }
}

fn put_byte(text: &mut Vec<u8>, byte: u8, random: &mut Random) {
    let at = random.between(0, text.len());
    text.insert(at, byte);
}

fn wrong_field_byte(fields: &mut Vec<Text<'static>>, random: &mut Random) {
    let byte = byte_outside(random, FIELD_BYTES);
    let which = random.between(1, fields.len() - 1);
    put_byte(fields[which].to_mut(), byte, random);
}

/// The ID of a meaning with a processor, with one piece put among its features.
fn broken_piece(random: &mut Random, piece: fn(&mut Random) -> Vec<u8>) -> Vec<u8> {
    let meaning = short_meaning(random, |random| {
        let count = some_feature_count(random).min(7);
        with_feature_count(random, count)
    });
    let mut pieces = feature_texts(random, &meaning);
    let at = random.between(0, pieces.len());
    let piece = piece(random);
    pieces.insert(at, piece);
    text(&fields_of(&meaning, 6), &pieces)
}

fn two_signs(random: &mut Random) -> Vec<u8> {
    let mut piece = feature_name(random).into_owned();
    let middle = *random.choose(b"+-");
    put_byte(&mut piece, middle, random);
    piece.push(*random.choose(b"+-"));
    piece
}

fn wrong_name(random: &mut Random) -> Vec<u8> {
    let mut name = feature_name(random).into_owned();
    let byte = byte_outside(random, NAME_BYTES);
    put_byte(&mut name, byte, random);
    name.push(*random.choose(b"+-"));
    name
}

fn name_twice(random: &mut Random, second: fn(Sign) -> Sign) -> Vec<u8> {
    loop {
        let count = random.between(1, 7);
        let meaning = with_feature_count(random, count);
        let mut pieces = feature_texts(random, &meaning);
        let (name, sign) = meaning.features.iter().nth(random.below(count)).unwrap();
        let at = random.between(0, pieces.len());
        pieces.insert(at, [&name[..], &[sign_byte(second(*sign))]].concat());
        let id = text(&fields_of(&meaning, 6), &pieces);
        if id.len() <= 256 {
            return id;
        }
    }
}

fn no_processor(random: &mut Random, fields: usize) -> Vec<u8> {
    let mut meaning = short_meaning(random, some_meaning);
    meaning.processor = None;
    if fields == 4 {
        meaning.environment = Text::default();
    }
    if fields == 5 {
        meaning.environment = choose(random, &["", "gnu", "gf", "sm", "Gfx"]);
    }
    meaning.features.clear();
    meaning.features.insert(feature_name(random), sign(random));
    spelled_with(random, &meaning, fields)
}

#[cfg(test)]
mod tests {
    use super::*;
    use crate::model::id::{canonical, meaning};

    #[test]
    fn spellings_mean_what_they_spell() {
        let mut random = Random::of_case(1, 1);
        for _ in 0..20_000 {
            let expected = some_meaning(&mut random);
            let id = as_named(&mut random, &expected);
            assert_eq!(canonical_length(&expected), canonical(&expected).len());
            assert_eq!(meaning(&id), Some(expected), "{}", String::from_utf8_lossy(&id));
        }
    }

    #[test]
    fn edges_keep_the_rules_and_broken_ids_do_not() {
        let mut random = Random::of_case(1, 2);
        for maker in edges() {
            for _ in 0..500 {
                let id = (maker.make)(&mut random);
                assert!(meaning(&id).is_some(), "{}: {}", maker.name, String::from_utf8_lossy(&id));
            }
        }
        for maker in broken() {
            for _ in 0..500 {
                let id = (maker.make)(&mut random);
                assert!(!id.is_empty() && id.len() <= 256, "{}: {}", maker.name, id.len());
                assert!(meaning(&id).is_none(), "{}: {}", maker.name, String::from_utf8_lossy(&id));
            }
        }
    }
}
