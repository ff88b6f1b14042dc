//! Two of our own cards, which the profile compares by their primary names. The names are as their IDs have them.

use super::*;
use crate::gen::ids::cards::{card, some_alternative, some_features, some_name, texts, NotOwn, NOT_OWN};
use crate::model::processors::{known, Processor, PROCESSORS};

/// Two entries of one bundle.
pub fn entries() -> Vec<Pair> {
    let mut pairs = Vec::new();
    for (row, name) in alternatives() {
        pairs.push(pair(TWICE, &format!("{name} beside {}", row.primary), move |random| {
            let features = some_features(random, row);
            let both = by_names(random, [name, row.primary], &features);
            in_any_order(random, both)
        }));
        for &feature in row.features {
            pairs.push(mixed(&format!("{name} beside {}:{feature}", row.primary), [name, row.primary], feature));
            pairs.push(mixed(&format!("{} beside {name}:{feature}", row.primary), [row.primary, name], feature));
        }
    }
    pairs.extend(ENTRY_CARDS.iter().flat_map(by_card_change));
    pairs.extend(not_own(OK));
    pairs.extend(as_environment(OK));
    pairs
}

/// An entry and a device name.
pub fn devices() -> Vec<Pair> {
    let mut pairs = Vec::new();
    for (row, name) in alternatives() {
        for names in [[name, row.primary], [row.primary, name]] {
            pairs.push(pair(OK, &format!("{} for an entry {}", names[1], names[0]), move |random| {
                let features = some_features(random, row);
                by_names(random, names, &features)
            }));
        }
    }
    pairs.extend(DEVICE_CARDS.iter().flat_map(by_card_change));
    pairs.extend(not_own(NONE));
    pairs.extend(as_environment(NONE));
    pairs
}

/// Two cards of one kind and triple, of which one comes first by its name, and last by its primary.
pub fn ordered_by_primary(random: &mut Random) -> [Meaning; 2] {
    loop {
        let [(row, name), (other_row, other_name)] = [(); 2].map(|_| some_name(random));
        if name < other_name && row.primary > other_row.primary {
            let both = by_names(random, [name, other_name], &[]);
            return in_any_order(random, both);
        }
    }
}

/// A card by an alternative name and by the primary one.
pub fn two_names(random: &mut Random) -> [Meaning; 2] {
    let (row, name) = some_alternative(random);
    let both = by_names(random, [name, row.primary], &[]);
    in_any_order(random, both)
}

fn alternatives() -> impl Iterator<Item = (&'static Processor, &'static str)> {
    PROCESSORS.iter().flat_map(|row| row.alternatives.iter().map(move |name| (row, *name)))
}

/// One card by two names with these features, `hip` and `hipv4` in either spelling.
fn by_names(random: &mut Random, [one, other]: [&'static str; 2], features: &[Text<'static>]) -> [Meaning; 2] {
    let one = card(random, one, features);
    let other = Meaning { processor: Some(other.as_bytes().into()), ..one.clone() };
    [one, ids::either_spelling(random, other)]
}

/// One card by two names, of which the second alone states a feature.
fn mixed(name: &str, names: [&'static str; 2], feature: &'static str) -> Pair {
    pair(MIXED, name, move |random| {
        let [mut one, other] = by_names(random, names, &texts(&[feature]));
        one.features.clear();
        in_any_order(random, [one, other])
    })
}

/// Which rows can be changed so.
type Fits = fn(&Processor) -> bool;

const ANY: Fits = |_| true;
const WITH_A_FEATURE: Fits = |row| !row.features.is_empty();
const WITH_BOTH: Fits = |row| row.features.len() == 2;

/// What is done to one card by two names, with all features that it supports.
type BothChange = fn(&mut [Meaning; 2], &mut Random);

type CardChange = (u64, &'static str, Fits, BothChange);

const ENTRY_CARDS: &[CardChange] = &[
    (TWICE, "the same", ANY, |_, _| {}),
    (MIXED, "a feature less", WITH_A_FEATURE, |[_, other], _| drop_first_feature(other)),
    (MIXED, "the last feature less", WITH_A_FEATURE, |[_, other], _| drop_last_feature(other)),
    (MIXED, "one feature and the other", WITH_BOTH, |[one, other], _| {
        drop_first_feature(one);
        drop_last_feature(other);
    }),
    (OK, "another sign", WITH_A_FEATURE, |[_, other], _| change_sign(other)),
    (OK, "another row", ANY, |[_, other], random| change_row(other, random)),
    (OK, "another environment", ANY, |[_, other], _| other.environment.to_mut().push(b'e')),
    (OK, "another kind", ANY, |[_, other], random| ids::change_kind(other, random)),
    (OK, "another kind, a feature less", WITH_A_FEATURE, |[_, other], random| {
        ids::change_kind(other, random);
        drop_first_feature(other);
    }),
];

const DEVICE_CARDS: &[CardChange] = &[
    (OK, "the same", ANY, |_, _| {}),
    (OK, "a feature more", WITH_A_FEATURE, |[entry, _], _| drop_first_feature(entry)),
    (OK, "the last feature more", WITH_A_FEATURE, |[entry, _], _| drop_last_feature(entry)),
    (NONE, "a feature less", WITH_A_FEATURE, |[_, device], _| drop_first_feature(device)),
    (NONE, "the last feature less", WITH_A_FEATURE, |[_, device], _| drop_last_feature(device)),
    (NONE, "another sign", WITH_A_FEATURE, |[_, device], _| change_sign(device)),
    (NONE, "another row", ANY, |[_, device], random| change_row(device, random)),
    (NONE, "another environment", ANY, |[_, device], _| device.environment.to_mut().push(b'e')),
    (NONE, "another vendor", ANY, |[_, device], _| device.vendor.to_mut().push(b'x')),
    (NONE, "another kind", ANY, |[_, device], random| ids::change_kind(device, random)),
    (NONE, "no processor", ANY, |[_, device], _| {
        device.processor = None;
        device.features.clear();
    }),
];

/// By one change: one card by any two of its names, and by two that differ, where there is such a row.
fn by_card_change(&(number, name, fits, change): &CardChange) -> Vec<Pair> {
    let of_rows = |name: String, rows: Vec<&'static Processor>, apart: bool| {
        pair(number, &name, move |random| {
            let row = random.choose(&rows);
            let names = some_names(random, row, apart);
            let mut both = by_names(random, names, &texts(row.features));
            change(&mut both, random);
            both
        })
    };
    let rows: Vec<&Processor> = PROCESSORS.iter().filter(|row| fits(row)).collect();
    let named_twice: Vec<&Processor> = rows.iter().copied().filter(|row| !row.alternatives.is_empty()).collect();
    let mut pairs = vec![of_rows(format!("cards, {name}"), rows, false)];
    if !named_twice.is_empty() {
        pairs.push(of_rows(format!("cards by two names, {name}"), named_twice, true));
    }
    pairs
}

/// Two names of a row, which differ if asked for.
fn some_names(random: &mut Random, row: &Processor, apart: bool) -> [&'static str; 2] {
    let mut names: Vec<&str> = row.names().collect();
    random.shuffle(&mut names);
    [names[0], names[if apart { 1 } else { random.below(names.len()) }]]
}

/// Any name of another row, and no feature.
fn change_row(card: &mut Meaning, random: &mut Random) {
    let old = card.processor.as_deref().and_then(known);
    let others: Vec<&Processor> = PROCESSORS.iter().filter(|row| Some(*row) != old).collect();
    let row = random.choose(&others);
    card.processor = Some(some_names(random, row, false)[0].as_bytes().into());
    card.features.clear();
}

/// Where the table does not count, the names of a card are different processors, and none is that of our own card.
fn not_own(number: u64) -> Vec<Pair> {
    let by_change = |&(name, change): &(&str, NotOwn)| {
        let both_changed = pair(number, &format!("{name}, two names of a card"), move |random| {
            let (row, name) = some_alternative(random);
            let mut one = card(random, name, &[]);
            change(&mut one, random);
            let other = Meaning { processor: Some(row.primary.as_bytes().into()), ..one.clone() };
            in_any_order(random, [one, other])
        });
        let one_changed = pair(number, &format!("{name}, and our own card"), move |random| {
            let [one, mut other] = two_names(random);
            change(&mut other, random);
            in_any_order(random, [one, other])
        });
        [both_changed, one_changed]
    };
    NOT_OWN.iter().flat_map(by_change).collect()
}

/// A card, and an ID with one of its names as environment: with no processor, and with the primary.
fn as_environment(number: u64) -> [Pair; 2] {
    let beside = |name: &str, has_processor: bool| {
        pair(number, name, move |random| {
            let (row, name) = some_alternative(random);
            let card = Meaning { environment: Text::default(), ..card(random, name, &[]) };
            let processor = has_processor.then(|| row.primary.as_bytes().into());
            let other = Meaning { environment: name.as_bytes().into(), processor, ..card.clone() };
            in_any_order(random, [card, other])
        })
    };
    [beside("alternative as environment", false), beside("alternative as environment, and a processor", true)]
}

#[cfg(test)]
mod tests {
    use super::super::tests::{device_gives_its_number, entries_give_their_number};
    use super::*;

    #[test]
    fn two_entries_give_their_number_at_the_second() {
        entries_give_their_number(Reading::Profile, entries());
    }

    #[test]
    fn an_entry_and_a_device_give_their_number() {
        device_gives_its_number(Reading::Profile, devices());
    }
}
