//! Two IDs that are compared: two entries of one bundle, or an entry and a device name.

pub mod cards;

use super::ids::processors::{self, double_hyphen, hyphens_of};
use super::ids::{self, Meaning, KINDS};
use super::random::Random;
use crate::model::id::{Reading, Sign, Text};
use crate::model::{MIXED, NONE, OK, QUERY, TWICE};

const HIP: &[&str] = &["hip", "hipv4"];

/// Two meanings, and the number that comes of them.
pub struct Pair {
    pub number: u64,
    pub name: String,
    pub make: Box<Make>,
}

type Make = dyn Fn(&mut Random) -> [Meaning; 2];

fn pair(number: u64, name: &str, make: impl Fn(&mut Random) -> [Meaning; 2] + 'static) -> Pair {
    Pair { number, name: name.to_string(), make: Box::new(make) }
}

/// Two entries of one bundle: 7 and 8, and neighbours of them that are accepted.
pub fn entries() -> Vec<Pair> {
    let mut pairs: Vec<Pair> = ENTRY_CHANGES.iter().flat_map(by_change).collect();
    pairs.extend(respelled(TWICE));
    pairs.push(pair(OK, "hip beside another kind", |random| changed(random, HIP, ids::change_kind)));
    pairs.push(pair(OK, "hip beside another kind, other feature names", |random| {
        changed(random, HIP, |other, random| {
            ids::change_kind(other, random);
            feature_more(other, random);
        })
    }));
    pairs.push(hyphenated(TWICE, "the same meaning", |_, _| {}));
    pairs.push(hyphenated(MIXED, "a feature more", feature_more));
    pairs.push(environment_joined(OK));
    pairs.extend(processors_apart(OK));
    pairs
}

/// An entry and a device name: 10, and names that get the image.
pub fn devices() -> Vec<Pair> {
    let mut pairs: Vec<Pair> = DEVICE_CHANGES.iter().flat_map(by_change).collect();
    pairs.extend(respelled(OK));
    pairs.push(pair(NONE, "another kind", |random| changed(random, KINDS, ids::change_kind)));
    pairs.push(pair(NONE, "another kind than hip", |random| changed(random, HIP, ids::change_kind)));
    pairs.push(pair(QUERY, "hipv4 too long, hip not", |random| {
        let hip = longest(random, "hip");
        let hipv4 = ids::kind_respelled(&hip);
        [hip, hipv4]
    }));
    pairs.push(hyphenated(OK, "the same meaning", |_, _| {}));
    pairs.push(environment_joined(NONE));
    pairs.extend(processors_apart(NONE));
    pairs
}

/// An entry of `hipv4`, and one of `hip` that comes before it by its kind, and after it by all the rest.
pub fn ordered_by_kind(random: &mut Random) -> [Meaning; 2] {
    let [hipv4, mut hip] = across(random, "hipv4", |_, _| {});
    hip.arch.to_mut().push(b'x');
    [hipv4, hip]
}

/// An entry that comes first by its processor, and last by all its bytes: `:` stands where the other has a hyphen.
pub fn ordered_by_hyphen(random: &mut Random) -> [Meaning; 2] {
    changed(random, KINDS, |other, _| processor(other).extend(b"-x"))
}

/// What makes the second meaning of the first, which states features.
type Change = fn(&mut Meaning, &mut Random);

const ENTRY_CHANGES: &[(u64, &str, Change)] = &[
    (TWICE, "the same meaning", |_, _| {}),
    (MIXED, "a feature more", feature_more),
    (MIXED, "a feature less", |other, _| drop_first_feature(other)),
    (MIXED, "another feature", |other, random| {
        drop_last_feature(other);
        feature_more(other, random);
    }),
    (OK, "another sign", |other, _| change_sign(other)),
    (OK, "another processor", |other, random| {
        processor(other).push(*random.choose(b"abc_."));
        drop_first_feature(other);
    }),
];

const DEVICE_CHANGES: &[(u64, &str, Change)] = &[
    (OK, "the same meaning", |_, _| {}),
    (OK, "more features", |device, random| *device = ids::with_more_features(Reading::General, random, device)),
    (NONE, "another sign", |device, _| change_sign(device)),
    (NONE, "a feature less", |device, _| drop_last_feature(device)),
    (NONE, "no feature", |device, _| device.features.clear()),
    (NONE, "another arch", |device, _| device.arch.to_mut().push(b'x')),
    (NONE, "another vendor", |device, _| device.vendor.to_mut().push(b'x')),
    (NONE, "another system", |device, _| device.system.to_mut().push(b'x')),
    // With an x, `gf` would begin like a processor.
    (NONE, "another environment", |device, _| device.environment.to_mut().push(b'e')),
    (NONE, "another processor", |device, _| processor(device).push(b'x')),
    (NONE, "no processor", |device, _| {
        device.processor = None;
        device.features.clear();
    }),
];

/// What makes another processor of one with hyphens.
type ProcessorChange = fn(&mut Vec<u8>, &mut Random);

const PROCESSOR_CHANGES: &[(&str, ProcessorChange)] = &[
    ("the first field alone", |name, _| name.truncate(hyphens_of(name)[0])),
    ("the last field alone", |name, _| drop(name.drain(..=hyphens_of(name).pop().expect("a hyphen")))),
    ("a field more", |name, _| name.extend(b"-x")),
    ("one more", double_hyphen),
    ("one less", |name, random| {
        let at = *random.choose(&hyphens_of(name));
        name.remove(at);
    }),
    ("another byte for one", |name, random| {
        let at = *random.choose(&hyphens_of(name));
        name[at] = *random.choose(b"_.0x");
    }),
];

/// By one change: two of one kind, and `hip` with `hipv4`, both ways.
fn by_change(&(number, name, change): &(u64, &str, Change)) -> [Pair; 3] {
    [
        pair(number, name, move |random| changed(random, KINDS, change)),
        pair(number, &format!("{name}, hip and hipv4"), move |random| across(random, "hip", change)),
        pair(number, &format!("{name}, hipv4 and hip"), move |random| across(random, "hipv4", change)),
    ]
}

/// A meaning of one of these kinds with one to four features, and what a change makes of it.
fn changed(random: &mut Random, kinds: &[&'static str], change: Change) -> [Meaning; 2] {
    let count = random.between(1, 4);
    let one = ids::with_feature_count(random, count);
    let one = Meaning { kind: ids::choose(random, kinds), ..one };
    let mut other = one.clone();
    change(&mut other, random);
    [one, other]
}

/// A meaning of this kind, and what a change makes of it, with the kind in the other spelling.
fn across(random: &mut Random, kind: &'static str, change: Change) -> [Meaning; 2] {
    let [one, other] = changed(random, &[kind], change);
    [one, ids::kind_respelled(&other)]
}

/// One meaning of `hip` and of `hipv4`, in any order: without a processor, and as short and as long as can be.
fn respelled(number: u64) -> [Pair; 3] {
    let both = |name: &str, make: fn(&mut Random) -> Meaning| {
        pair(number, name, move |random| {
            let one = make(random);
            in_any_order(random, [ids::kind_respelled(&one), one])
        })
    };
    [
        both("hip and hipv4, both without a processor", |random| {
            let target = ids::target(random);
            Meaning { kind: ids::choose(random, HIP), processor: None, ..target }
        }),
        both("hip and hipv4, shortest", |_| ids::meaning_of(b"hip-a-b-c")),
        both("hip and hipv4, longest", |random| longest(random, "hipv4")),
    ]
}

/// A meaning whose processor has hyphens, with one to four features, and what a change makes of it, in any order.
fn hyphenated(number: u64, name: &str, change: impl Fn(&mut Meaning, &mut Random) + 'static) -> Pair {
    pair(number, &format!("hyphens, {name}"), move |random| {
        let count = random.between(1, 4);
        let one = processors::hyphenated(random, count);
        let mut other = one.clone();
        change(&mut other, random);
        in_any_order(random, [one, other])
    })
}

/// Two that differ in a processor with hyphens.
fn processors_apart(number: u64) -> Vec<Pair> {
    let by_change = |&(name, change): &(&str, ProcessorChange)| {
        hyphenated(number, name, move |other, random| change(processor(other), random))
    };
    PROCESSOR_CHANGES.iter().map(by_change).collect()
}

/// A processor with hyphens after an environment, and all of it as a processor, in any order.
fn environment_joined(number: u64) -> Pair {
    pair(number, "hyphens, the environment before them", |random| {
        let environment = ids::choose(random, &["gnu", "gf", "sm", "e"]);
        let one = Meaning { environment, ..processors::hyphenated(random, 1) };
        let name = [&one.environment[..], one.processor.as_ref().expect("a processor")].join(&b'-');
        let other = Meaning { environment: Text::default(), processor: Some(name.into()), ..one.clone() };
        in_any_order(random, [one, other])
    })
}

fn in_any_order(random: &mut Random, mut both: [Meaning; 2]) -> [Meaning; 2] {
    random.shuffle(&mut both);
    both
}

/// A meaning of this kind with a canonical form of 256 bytes.
fn longest(random: &mut Random, kind: &str) -> Meaning {
    loop {
        let meaning = ids::meaning_of(&ids::of_length(random, 6, 256));
        if meaning.kind == kind.as_bytes() {
            return meaning;
        }
    }
}

fn processor(meaning: &mut Meaning) -> &mut Vec<u8> {
    meaning.processor.as_mut().expect("a processor").to_mut()
}

fn feature_more(meaning: &mut Meaning, random: &mut Random) {
    meaning.features.insert(b"only_here"[..].into(), *random.choose(&[Sign::On, Sign::Off]));
}

fn drop_first_feature(meaning: &mut Meaning) {
    let name = meaning.features.keys().next().cloned();
    meaning.features.remove(&name.expect("a feature"));
}

fn drop_last_feature(meaning: &mut Meaning) {
    let name = meaning.features.keys().next_back().cloned();
    meaning.features.remove(&name.expect("a feature"));
}

fn change_sign(meaning: &mut Meaning) {
    let sign = meaning.features.values_mut().next().expect("a feature");
    *sign = ids::other_sign(*sign);
}

#[cfg(test)]
mod tests {
    use super::*;
    use crate::model::bundle::{check_of, entries as entries_of, packed, pick_of};
    use crate::model::id::canonical;
    use crate::model::ID;

    fn bundle(entries: &[&Meaning]) -> Vec<u8> {
        packed(&entries.iter().map(|entry| (canonical(entry), &b"image"[..])).collect::<Vec<_>>())
    }

    /// Each pair many times, but for the few that a change made too long.
    fn each_pair(reading: Reading, pairs: Vec<Pair>, run: impl Fn(&Pair, &Meaning, &Meaning)) {
        let mut random = Random::of_case(1, 3);
        for pair in pairs {
            for _ in 0..200 {
                let [one, other] = (pair.make)(&mut random);
                if check_of(&entries_of(reading, &bundle(&[&one, &other]))).number != ID || pair.number == QUERY {
                    run(&pair, &one, &other);
                }
            }
        }
    }

    pub fn entries_give_their_number(reading: Reading, pairs: Vec<Pair>) {
        each_pair(reading, pairs, |pair, one, other| {
            for both in [[one, other], [other, one]] {
                let checked = check_of(&entries_of(reading, &bundle(&both)));
                let place = if pair.number == OK { 0 } else { 1 };
                assert_eq!((checked.number, checked.place), (pair.number, place), "{}: {both:?}", pair.name);
            }
        });
    }

    pub fn device_gives_its_number(reading: Reading, pairs: Vec<Pair>) {
        each_pair(reading, pairs, |pair, entry, device| {
            let picked = pick_of(reading, &entries_of(reading, &bundle(&[entry])), &canonical(device));
            assert_eq!(picked.number, pair.number, "{}: {entry:?}, {device:?}", pair.name);
        });
    }

    #[test]
    fn two_entries_give_their_number_at_the_second() {
        entries_give_their_number(Reading::General, entries());
    }

    #[test]
    fn an_entry_and_a_device_give_their_number() {
        device_gives_its_number(Reading::General, devices());
    }
}
