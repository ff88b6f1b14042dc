//! Our own cards, which the profile reads by its table: IDs with each name of it and with almost a name, with features on each side, on
//! both sides of the limits of length, and IDs beside them that are read as before.

use super::*;
use crate::model::id::own_processor;
use crate::model::processors::{known, Processor, PROCESSORS};
use crate::model::{ID, OK, TABLE};
use std::rc::Rc;

const OWN_KINDS: &[&str] = &["hip", "hipv4", "openmp"];
const ALMOST_AMDGCN: &[&str] =
    &["amdgcn_", "amdgcn.", "amdgcn0", "amdgc", "mdgcn", "Amdgcn", "AMDGCN", "amdgcN", "amdgpu", "r600"];
const FEATURE_SETS: &[&[&str]] = &[&[], &["sramecc"], &["xnack"], &["sramecc", "xnack"]];
const OTHER_FEATURES: &[&str] = &[
    "foo", "sramec", "ramecc", "sramecc_", "sramecc0", "sramecd", "xnac", "nack", "xnack_", "xnack0", "xnacl",
    "cumode", "tgsplit",
];

/// Names that are not in the table: parts of names, names that go on, those of later guides, and those of other cards.
const UNKNOWN: &str = "gfx gfx6 gfx60 gfx6000 gfx599 gfx603 gfx706 gfx804 gfx90 gfx9000 gfx90A gfx90b gfx910 gfx943 gfx950 \
    gfx1014 gfx1037 gfx1104 gfx1153 gfx1202 gfx9 gfx9- gfx9-gener gfx9-generi gfx9-generic- gfx9-generic1 gfx9-generic-1 \
    gfx9--generic gfx9_generic gfx9generic gfx9-4-generic gfx9-3-generic gfx10-generic gfx10-1 gfx10-1- gfx10-1-gener \
    gfx10-2-generic gfx10-3-generic-1 gfx12 gfx12-generi gfx12-generic1 gfx13-generic GFX906 Gfx906 gFx803 fij fijii Fiji \
    fiji- fiji-gfx803 gfx803-fiji tahit polaris polaris1 polaris12 tong tongap tongaproo generic sm_70 x";

/// The row of one of our own cards, where the reading has the table.
pub fn row_of(reading: Reading, meaning: &Meaning) -> Option<&'static Processor> {
    match reading {
        Reading::General => None,
        Reading::Profile => own_processor(meaning).and_then(known),
    }
}

/// A meaning with no feature, with a processor that the table has where the profile asks for it; more than half are our own cards.
pub fn target(random: &mut Random) -> Meaning {
    let target = super::target(random);
    if random.one_in(2) || own_processor(&target).is_some() {
        let name = random.choose(PROCESSORS).primary;
        return own(random, target, name);
    }
    target
}

/// What a target is as one of our own cards with this name.
fn own(random: &mut Random, target: Meaning, name: &'static str) -> Meaning {
    Meaning {
        kind: choose(random, OWN_KINDS),
        arch: b"amdgcn"[..].into(),
        processor: Some(name.as_bytes().into()),
        ..target
    }
}

/// One of our own cards with this name and these features, each with some sign.
pub fn card(random: &mut Random, name: &'static str, features: &[Text<'static>]) -> Meaning {
    let target = super::target(random);
    let card = own(random, target, name);
    with_features(random, card, features)
}

/// The ID of such a card.
pub fn card_text(random: &mut Random, name: &'static str, features: &[Text<'static>]) -> Vec<u8> {
    let card = card(random, name, features);
    as_named(random, &card)
}

/// Some of the features that are supported: none, one or all.
pub fn some_features(random: &mut Random, row: &Processor) -> Vec<Text<'static>> {
    texts(row.features).into_iter().filter(|_| random.one_in(2)).collect()
}

pub fn texts(names: &[&'static str]) -> Vec<Text<'static>> {
    names.iter().map(|name| name.as_bytes().into()).collect()
}

/// Any name of the table, with its row.
pub fn some_name(random: &mut Random) -> (&'static Processor, &'static str) {
    let names: Vec<_> = PROCESSORS.iter().flat_map(|row| row.names().map(move |name| (row, name))).collect();
    *random.choose(&names)
}

/// Any alternative name, with its row.
pub fn some_alternative(random: &mut Random) -> (&'static Processor, &'static str) {
    loop {
        let (row, name) = some_name(random);
        if name != row.primary {
            return (row, name);
        }
    }
}

/// The meaning with any name of its row that does not make its ID too long.
pub fn renamed(random: &mut Random, meaning: &Meaning, row: &Processor) -> Meaning {
    let named = |name: &'static str| Meaning { processor: Some(name.as_bytes().into()), ..meaning.clone() };
    let mut meanings: Vec<Meaning> = row.names().map(named).collect();
    meanings.retain(|meaning| canonical_length(meaning) <= 256);
    if meanings.is_empty() {
        return meaning.clone();
    }
    meanings.swap_remove(random.below(meanings.len()))
}

/// What makes another ID of one of our own cards, which is read as before.
pub type NotOwn = fn(&mut Meaning, &mut Random);

pub const NOT_OWN: &[(&str, NotOwn)] = &[
    ("host", |card, _| card.kind = b"host"[..].into()),
    ("arch amdgcn1", |card, _| card.arch = b"amdgcn1"[..].into()),
    ("arch almost amdgcn", |card, random| card.arch = choose(random, ALMOST_AMDGCN)),
    ("amdgcn as vendor", |card, _| std::mem::swap(&mut card.arch, &mut card.vendor)),
];

/// An ID, and the number that comes of it as that of an entry.
#[derive(Clone)]
pub struct CardId {
    pub number: u64,
    pub name: String,
    pub make: Rc<MakeCardId>,
}

type MakeCardId = dyn Fn(&mut Random) -> Vec<u8>;

fn card_id(number: u64, name: &str, make: impl Fn(&mut Random) -> Vec<u8> + 'static) -> CardId {
    CardId { number, name: name.to_string(), make: Rc::new(make) }
}

pub fn ids() -> Vec<CardId> {
    let mut ids = Vec::new();
    for row in PROCESSORS {
        ids.extend(row.names().flat_map(|name| by_features(row, name)));
        ids.extend(row.alternatives.iter().flat_map(|name| by_length(row, name)));
    }
    ids.extend([5, 6].into_iter().flat_map(primary_by_length));
    ids.extend(UNKNOWN.split(' ').map(unknown));
    ids.extend(ALMOST.iter().map(|(name, change)| {
        card_id(ID, &format!("almost a name: {name}"), move |random| {
            let card = almost(random, *change);
            as_named(random, &card)
        })
    }));
    ids.extend(KINDS.iter().map(with_kind));
    ids.extend(NOT_OWN.iter().flat_map(not_own));
    ids.extend(FIFTH_FIELDS.iter().map(|(number, name, make)| card_id(*number, name, *make)));
    ids
}

/// A name with each set of features.
fn by_features(row: &'static Processor, name: &'static str) -> Vec<CardId> {
    let stated = |features: &&'static [&'static str]| {
        let features = *features;
        let supported = features.iter().all(|feature| row.supports(feature.as_bytes()));
        let number = if supported { OK } else { ID };
        let line = [&[name][..], features].concat().join(":");
        card_id(number, &line, move |random| card_text(random, name, &texts(features)))
    };
    let another = card_id(ID, &format!("{name} with another feature"), move |random| {
        let mut names = some_features(random, row);
        names.push(other_feature(random));
        card_text(random, name, &names)
    });
    FEATURE_SETS.iter().map(stated).chain([another]).collect()
}

fn other_feature(random: &mut Random) -> Text<'static> {
    loop {
        let name = if random.one_in(2) { choose(random, OTHER_FEATURES) } else { feature_name(random) };
        if !texts(&["sramecc", "xnack"]).contains(&name) {
            return name;
        }
    }
}

/// An alternative name in texts on both sides of 256 bytes, and in those whose form with the primary is on both sides of it.
fn by_length(row: &'static Processor, name: &'static str) -> Vec<CardId> {
    let longest = 256 + name.len() - row.primary.len();
    let mut lengths = vec![longest, longest + 1, 256, 257];
    lengths.sort_unstable();
    lengths.dedup();
    let of_length = |length: usize| of_form(row, name, 6, length, length + row.primary.len() - name.len());
    lengths.into_iter().map(of_length).collect()
}

/// A primary name, the last of so many fields: before the fifth, the form has a dash more.
fn primary_by_length(fields: usize) -> Vec<CardId> {
    let row = known(b"gfx90a").expect("a name");
    [254, 255, 256, 257].map(|length| of_form(row, row.primary, fields, length, length + 6 - fields)).into()
}

/// A name in an ID of so many fields and bytes, whose form has so many bytes.
fn of_form(row: &'static Processor, name: &'static str, fields: usize, length: usize, form: usize) -> CardId {
    let number = match (length, form) {
        (257.., _) => TABLE,
        (_, 257..) => ID,
        _ => OK,
    };
    let line = format!("{name}, {fields} fields, {length} bytes, form of {form}");
    card_id(number, &line, move |random| of_length(random, row, name, fields, length))
}

/// The ID of a card with this name, in so many fields and bytes.
pub fn of_length(random: &mut Random, row: &Processor, name: &'static str, fields: usize, length: usize) -> Vec<u8> {
    let make = |random: &mut Random| {
        let features = some_features(random, row);
        card(random, name, &features)
    };
    filled_in(random, fields, length, make, vendor_or_system)
}

fn vendor_or_system<'a>(random: &mut Random, meaning: &'a mut Meaning) -> &'a mut Vec<u8> {
    if random.one_in(2) {
        return meaning.vendor.to_mut();
    }
    meaning.system.to_mut()
}

fn unknown(name: &'static str) -> CardId {
    card_id(ID, &format!("unknown: {name}"), move |random| card_text(random, name, &[]))
}

fn with_kind(kind: &&'static str) -> CardId {
    let kind = *kind;
    let number = if OWN_KINDS.contains(&kind) { ID } else { OK };
    card_id(number, &format!("{kind} with an unknown processor"), move |random| {
        let card = card(random, "gfx9000", &[]);
        as_named(random, &Meaning { kind: kind.as_bytes().into(), ..card })
    })
}

/// What makes almost a name of one. Where it has nothing to change, the name stays.
type Change = fn(&mut Vec<u8>, &mut Random);

const ALMOST: &[(&str, Change)] = &[
    ("a byte more at the end", |name, random| name.push(*random.choose(FIELD_BYTES))),
    ("a byte more at the start", |name, random| name.insert(0, *random.choose(FIELD_BYTES))),
    ("a byte more inside", |name, random| {
        let at = random.between(1, name.len() - 1);
        name.insert(at, *random.choose(FIELD_BYTES));
    }),
    ("a byte less at the end", |name, _| name.truncate(name.len() - 1)),
    ("a byte less at the start", |name, _| drop(name.drain(..1))),
    ("a byte less inside", |name, random| {
        let at = random.between(1, name.len() - 2);
        name.remove(at);
    }),
    ("another byte", |name, random| *some_byte(name, random) = *random.choose(FIELD_BYTES)),
    ("another byte at the end", |name, random| {
        name.pop();
        name.push(*random.choose(FIELD_BYTES));
    }),
    ("a letter in upper case", |name, random| some_byte(name, random).make_ascii_uppercase()),
    ("all in upper case", |name, _| name.make_ascii_uppercase()),
    ("two bytes in the other order", |name, random| {
        let at = random.below(name.len() - 1);
        name.swap(at, at + 1);
    }),
    ("twice", |name, _| *name = name.repeat(2)),
    ("twice, a hyphen between", |name, _| *name = [&name[..]; 2].join(&b'-')),
    ("another one behind a hyphen", |name, random| *name = [&name[..], some_name(random).1.as_bytes()].join(&b'-')),
    ("a field more", |name, random| name.extend(*random.choose(&[&b"-generic"[..], b"-x", b"-1", b"--x"]))),
    ("a hyphen more", |name, random| name.insert(random.between(1, name.len() - 1), b'-')),
    ("a hyphen at the end", |name, _| name.push(b'-')),
    ("the first field alone", |name, _| {
        let end = processors::hyphens_of(name).first().copied().unwrap_or(name.len());
        name.truncate(end);
    }),
    ("the last field alone", |name, _| {
        let start = processors::hyphens_of(name).last().map_or(0, |at| at + 1);
        name.drain(..start);
    }),
    ("a hyphen less", |name, random| {
        if let Some(at) = some_hyphen(name, random) {
            name.remove(at);
        }
    }),
    ("another byte for a hyphen", |name, random| {
        if let Some(at) = some_hyphen(name, random) {
            name[at] = *random.choose(b"_.0x");
        }
    }),
];

fn some_byte<'a>(name: &'a mut [u8], random: &mut Random) -> &'a mut u8 {
    let at = random.below(name.len());
    &mut name[at]
}

fn some_hyphen(name: &[u8], random: &mut Random) -> Option<usize> {
    let hyphens = processors::hyphens_of(name);
    (!hyphens.is_empty()).then(|| *random.choose(&hyphens))
}

/// One of our own cards but for its name, which is no longer in the table after a change.
fn almost(random: &mut Random, change: Change) -> Meaning {
    loop {
        let (row, name) = some_name(random);
        let mut almost = name.as_bytes().to_vec();
        change(&mut almost, random);
        if known(&almost).is_none() {
            let features = some_features(random, row);
            return Meaning { processor: Some(almost.into()), ..card(random, name, &features) };
        }
    }
}

/// The same, with a name that keeps the general rules.
fn some_almost(random: &mut Random) -> Meaning {
    loop {
        let (_, change) = random.choose(ALMOST);
        let almost = almost(random, *change);
        if !almost.processor.iter().any(|name| name.ends_with(b"-")) {
            return almost;
        }
    }
}

/// One of our own cards, by any of its names.
fn some_card(random: &mut Random) -> Meaning {
    let (row, name) = some_name(random);
    let features = some_features(random, row);
    card(random, name, &features)
}

/// A name, and almost one, with any features, where the table does not count.
fn not_own(&(name, change): &(&str, NotOwn)) -> [CardId; 2] {
    let with = |processor: &str, make: fn(&mut Random) -> Meaning| {
        card_id(OK, &format!("{name}, {processor} with any features"), move |random| {
            let meaning = at_most(random, 256, |random| {
                let count = random.between(1, 8);
                let names = feature_names(random, count);
                let mut card = Meaning { features: BTreeMap::new(), ..make(random) };
                change(&mut card, random);
                with_features(random, card, &names)
            });
            as_named(random, &meaning)
        })
    };
    [with("a name", some_card), with("almost a name", some_almost)]
}

/// What stands in the fifth field is no processor, unless it begins like one.
const FIFTH_FIELDS: &[(u64, &str, MakeId)] = &[
    (OK, "no processor, four fields", |random| no_processor(random, 4, "")),
    (OK, "no processor, empty fifth", |random| no_processor(random, 5, "")),
    (OK, "no processor, an environment", |random| no_processor(random, 5, "gnu")),
    (OK, "no processor, empty fifth and sixth", |random| no_processor(random, 6, "")),
    (OK, "no processor, an environment and an empty sixth", |random| no_processor(random, 6, "gnu")),
    (OK, "alternative in the fifth", |random| {
        let (_, name) = some_alternative(random);
        no_processor(random, 5, name)
    }),
    (OK, "alternative in the fifth, empty sixth", |random| {
        let (_, name) = some_alternative(random);
        no_processor(random, 6, name)
    }),
    (ID, "alternative in the fifth, and a feature", |random| {
        let (_, name) = some_alternative(random);
        [&no_processor(random, 5, name)[..], b":xnack+"].concat()
    }),
    (OK, "alternative in the fifth, a name in the sixth", |random| {
        let (_, name) = some_alternative(random);
        behind(random, name, some_card)
    }),
    (ID, "alternative in the fifth, almost a name in the sixth", |random| {
        let (_, name) = some_alternative(random);
        behind(random, name, some_almost)
    }),
    (OK, "an environment before a name", |random| behind(random, "gnu", some_card)),
    (ID, "an environment before almost a name", |random| behind(random, "gnu", some_almost)),
    (ID, "a name in the fifth and in the sixth", |random| {
        let row = random.choose(PROCESSORS);
        let name = [row.primary, some_name(random).1].join("-").into_bytes();
        let card = Meaning { environment: Text::default(), processor: Some(name.into()), ..card(random, "", &[]) };
        spelled_with(random, &card, 5)
    }),
];

/// An ID of so many fields with this environment, which would be one of our own cards if it had a processor.
fn no_processor(random: &mut Random, fields: usize, environment: &'static str) -> Vec<u8> {
    let environment = environment.as_bytes().into();
    let meaning = Meaning { environment, processor: None, ..card(random, "", &[]) };
    spelled_with(random, &meaning, fields)
}

/// The ID of what is made so, behind this environment.
fn behind(random: &mut Random, environment: &'static str, make: fn(&mut Random) -> Meaning) -> Vec<u8> {
    let meaning = Meaning { environment: environment.as_bytes().into(), ..make(random) };
    as_named(random, &meaning)
}

#[cfg(test)]
mod tests {
    use super::*;
    use crate::model::id::{canonical, meaning};

    fn number_of(id: &[u8]) -> u64 {
        match meaning_by(Reading::Profile, id) {
            _ if id.is_empty() || id.len() > 256 => TABLE,
            None => ID,
            Some(_) => OK,
        }
    }

    #[test]
    fn ids_have_their_numbers() {
        let mut random = Random::of_case(1, 6);
        for CardId { number, name, make } in ids() {
            for _ in 0..20 {
                let id = make(&mut random);
                assert_eq!(number_of(&id), number, "{name}: {}", String::from_utf8_lossy(&id));
            }
        }
    }

    #[test]
    fn what_the_profile_accepts_is_accepted_in_general() {
        let mut random = Random::of_case(1, 7);
        for CardId { number, name, make } in ids() {
            let id = make(&mut random);
            assert!(number != OK || meaning(&id).is_some(), "{name}: {}", String::from_utf8_lossy(&id));
        }
    }

    #[test]
    fn spellings_mean_what_they_spell() {
        let mut random = Random::of_case(1, 8);
        let (mut alternatives, mut fifth) = (0, 0);
        for _ in 0..20_000 {
            let expected = some_meaning_by(Reading::Profile, &mut random);
            let id = spelled(Reading::Profile, &mut random, &expected);
            let found = meaning(&id).expect("what the general reading accepts");
            alternatives += usize::from(found.processor != expected.processor);
            fifth += usize::from(id.len() < canonical(&expected).len() && own_processor(&expected).is_some());
            assert_eq!(meaning_by(Reading::Profile, &id), Some(expected), "{}", String::from_utf8_lossy(&id));
        }
        assert!(alternatives > 1000 && fifth > 1000, "{alternatives} by another name, {fifth} shorter");
    }
}
