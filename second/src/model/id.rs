//! "Entry IDs and what they mean", and "A profile for our own cards".

use super::processors::known;
use super::{FEATURE_LIMIT, ID_LIMIT};
use std::borrow::Cow;
use std::collections::BTreeMap;

/// "then `+` (on) or `-` (off)".
#[derive(Clone, Copy, Debug, PartialEq, Eq, PartialOrd, Ord)]
pub enum Sign {
    On,
    Off,
}

/// Bytes of an ID, or bytes that the generator made up.
pub type Text<'a> = Cow<'a, [u8]>;

/// "The meaning is kind, the four triple parts, processor, and the set of stated features with their signs." The kind is as spelled, in
/// `==` too: "The canonical form keeps the kind as spelled, and demand 3 still counts the two spellings as different entries."
#[derive(Clone, Debug, PartialEq, Eq)]
pub struct Meaning<'a> {
    pub kind: Text<'a>,
    pub arch: Text<'a>,
    pub vendor: Text<'a>,
    pub system: Text<'a>,
    pub environment: Text<'a>,
    pub processor: Option<Text<'a>>,
    pub features: BTreeMap<Text<'a>, Sign>,
}

/// How IDs are read.
#[derive(Clone, Copy, Debug, PartialEq, Eq)]
pub enum Reading {
    General,
    /// "a stricter reading beside the general one".
    Profile,
}

/// The meaning of an ID, or nothing where it breaks the rules. "the 256-byte limit is on the form written with the primary".
pub fn meaning_by(reading: Reading, id: &[u8]) -> Option<Meaning<'_>> {
    let as_spelled = spelled_meaning(id)?;
    let meaning = match reading {
        Reading::General => as_spelled,
        Reading::Profile => profile(as_spelled)?,
    };
    let keeps_limit = canonical(&meaning).len() as u64 <= ID_LIMIT;
    keeps_limit.then_some(meaning)
}

/// The meaning by the general reading.
pub fn meaning(id: &[u8]) -> Option<Meaning<'_>> {
    meaning_by(Reading::General, id)
}

/// What an ID spells, however long its canonical form is.
fn spelled_meaning(id: &[u8]) -> Option<Meaning<'_>> {
    if id.is_empty() || id.len() as u64 > ID_LIMIT {
        return None;
    }
    let (before, after) = cut_at_first_colon(id);
    let fields: Vec<&[u8]> = before.split(|byte| *byte == b'-').collect();
    let (environment, processor) = environment_and_processor(&fields)?;
    let meaning = Meaning {
        kind: fields[0].into(),
        arch: fields[1].into(),
        vendor: fields[2].into(),
        system: fields[3].into(),
        environment: environment.into(),
        processor,
        features: features(after)?,
    };
    let keeps_rules = is_kind(&meaning.kind)
        && !meaning.arch.is_empty()
        && !meaning.vendor.is_empty()
        && !meaning.system.is_empty()
        && fields[1..].iter().all(|field| field.iter().all(is_field_byte))
        && (meaning.features.is_empty() || meaning.processor.is_some())
        && meaning.features.len() <= FEATURE_LIMIT;
    keeps_rules.then_some(meaning)
}

/// "An unknown processor or an unsupported feature (any other name too) gets ID". "An alternative name means its primary". "All other
/// IDs read as before."
fn profile(meaning: Meaning) -> Option<Meaning> {
    let name = match own_processor(&meaning) {
        None => return Some(meaning),
        Some(name) => name,
    };
    let row = known(name)?;
    let supported = meaning.features.keys().all(|feature| row.supports(feature));
    supported.then_some(Meaning { processor: Some(row.primary.as_bytes().into()), ..meaning })
}

/// The processor of one of our own cards: "For kind `hip`, `hipv4` or `openmp` with arch `amdgcn` and a processor".
pub fn own_processor<'a>(meaning: &'a Meaning) -> Option<&'a [u8]> {
    let own_kind = matches!(&meaning.kind[..], b"hip" | b"hipv4" | b"openmp");
    let is_own = own_kind && meaning.arch[..] == *b"amdgcn";
    meaning.processor.as_deref().filter(|_| is_own)
}

/// "An ID is cut at its first `:`." The second part is nothing where there is no `:`.
fn cut_at_first_colon(id: &[u8]) -> (&[u8], Option<&[u8]>) {
    match id.iter().position(|byte| *byte == b':') {
        None => (id, None),
        Some(at) => (&id[..at], Some(&id[at + 1..])),
    }
}

/// Fewer than four fields are refused. From the fifth on: "if the fifth field begins with `gfx` or `sm_`, the processor starts there and
/// runs, hyphens included, to the first `:` or the end, and the environment is empty. Otherwise the sixth field starts it and it runs on
/// likewise." "an empty sixth means no processor", where no seventh follows.
fn environment_and_processor<'a>(fields: &[&'a [u8]]) -> Option<(&'a [u8], Option<Text<'a>>)> {
    match fields.get(4..)? {
        [] => Some((b"", None)),
        name @ [fifth, ..] if begins_a_processor(fifth) => Some((b"", Some(processor(name)?))),
        [environment] | [environment, b""] => Some((environment, None)),
        [environment, name @ ..] => Some((environment, Some(processor(name)?))),
    }
}

/// Whether a fifth field "begins with `gfx` or `sm_`".
pub fn begins_a_processor(field: &[u8]) -> bool {
    field.starts_with(b"gfx") || field.starts_with(b"sm_")
}

/// These fields joined again, "hyphens included". "A processor neither begins nor ends with a hyphen."
fn processor<'a>(fields: &[&[u8]]) -> Option<Text<'a>> {
    let name = fields.join(&b'-');
    let keeps_rules = !name.starts_with(b"-") && !name.ends_with(b"-");
    keeps_rules.then_some(name.into())
}

/// "Kind is exactly `host`, `hip`, `hipv4` or `openmp`."
fn is_kind(kind: &[u8]) -> bool {
    kind == b"host" || kind == b"hip" || kind == b"hipv4" || kind == b"openmp"
}

/// "Fields after the kind use ASCII letters, digits, `_` and `.`."
fn is_field_byte(byte: &u8) -> bool {
    byte.is_ascii_alphabetic() || byte.is_ascii_digit() || *byte == b'_' || *byte == b'.'
}

/// "Each piece after a `:` is a feature". "A name stated twice is refused".
fn features(text: Option<&[u8]>) -> Option<BTreeMap<Text<'_>, Sign>> {
    let mut features = BTreeMap::new();
    for piece in text.into_iter().flat_map(|text| text.split(|byte| *byte == b':')) {
        let (name, sign) = feature(piece)?;
        if features.insert(name.into(), sign).is_some() {
            return None;
        }
    }
    Some(features)
}

/// "a name of one or more of a-z, 0-9, `_`, then `+` (on) or `-` (off)".
fn feature(piece: &[u8]) -> Option<(&[u8], Sign)> {
    let (last, name) = piece.split_last()?;
    let sign = match *last {
        b'+' => Sign::On,
        b'-' => Sign::Off,
        _ => return None,
    };
    let is_name = !name.is_empty() && name.iter().all(is_name_byte);
    is_name.then_some((name, sign))
}

fn is_name_byte(byte: &u8) -> bool {
    byte.is_ascii_lowercase() || byte.is_ascii_digit() || *byte == b'_'
}

/// "The canonical form always writes six fields, then the features in byte order of their names, a shorter name before a longer one
/// that begins with it." The processor is one of the six, with its hyphens. The order is that of a `BTreeMap` over byte strings.
pub fn canonical(meaning: &Meaning) -> Vec<u8> {
    let processor: &[u8] = match &meaning.processor {
        None => b"",
        Some(name) => name,
    };
    let fields: [&[u8]; 6] =
        [&meaning.kind, &meaning.arch, &meaning.vendor, &meaning.system, &meaning.environment, processor];
    let mut text = fields.join(&b'-');
    for (name, sign) in &meaning.features {
        text.push(b':');
        text.extend(&name[..]);
        text.push(sign_byte(*sign));
    }
    text
}

pub fn sign_byte(sign: Sign) -> u8 {
    match sign {
        Sign::On => b'+',
        Sign::Off => b'-',
    }
}

/// The kind that a kind is compared as: "hip and hipv4 are one thing now." "From now on compatibility treats them as equal, and so do
/// TWICE and MIXED, so a bundle with both spellings of one entry is refused by 7."
pub fn compared_kind(kind: &[u8]) -> &[u8] {
    if kind == b"hipv4" {
        return b"hip";
    }
    kind
}

/// "kind, triple and processor are the same (both may lack a processor)".
pub fn same_target(one: &Meaning, other: &Meaning) -> bool {
    compared_kind(&one.kind) == compared_kind(&other.kind)
        && one.arch == other.arch
        && one.vendor == other.vendor
        && one.system == other.system
        && one.environment == other.environment
        && one.processor == other.processor
}

/// The "same meaning" of TWICE.
pub fn same_meaning(one: &Meaning, other: &Meaning) -> bool {
    same_target(one, other) && one.features == other.features
}

/// "every feature that the entry states is stated by the device with the same sign".
pub fn compatible(entry: &Meaning, device: &Meaning) -> bool {
    same_target(entry, device) && entry.features.iter().all(|(name, sign)| device.features.get(name) == Some(sign))
}

/// "Entries with the same kind, triple and processor state the same set of feature names": these two do not. A `BTreeMap` gives its
/// keys in order, so the sets are the same where the keys are.
pub fn mixed(one: &Meaning, other: &Meaning) -> bool {
    same_target(one, other) && one.features.keys().ne(other.features.keys())
}
