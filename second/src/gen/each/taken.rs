//! Which entries are taken, and answers of every kind beside each other.

use super::*;

/// How many entries are taken.
pub const TAKEN: &str = "taken";
/// The lowest and the highest entry that is taken.
pub const LOWEST: &str = "lowest";
pub const HIGHEST: &str = "highest";

pub fn aims() -> Vec<EachAim> {
    let mut aims: Vec<EachAim> = (1..=16).map(different_entries).collect();
    aims.extend(none_taken_aims());
    aims.extend(same_entry_aims());
    aims.extend(index_aims());
    aims.extend(image_aims());
    aims.extend(ANSWERS.iter().flat_map(|first| ANSWERS.map(|second| neighbours(*first, second))));
    aims.push(Aim::new(CALL, OK, "every answer after every other", |draft: &mut Draft, random| {
        draft.ask_only(random, EVERY_ORDER);
    }));
    aims
}

fn taken(number: u64, name: &str, make: fn(&mut Draft, &mut Random)) -> EachAim {
    Aim::new(TAKEN, number, name, make)
}

impl Draft {
    /// Another bundle, and for each of these entries a name.
    fn ask_for(&mut self, random: &mut Random, entries: usize, asked: &[usize]) {
        *self = Draft::without_names(random, entries);
        self.names = asked.iter().map(|entry| self.part_for(random, *entry)).collect();
    }

    /// So many names for some one entry, and no other.
    fn ask_for_one(&mut self, random: &mut Random, count: usize) {
        let entry = self.bundle.some_row(random);
        self.names = (0..count).map(|_| self.part_for(random, entry)).collect();
    }
}

/// Names for so many entries, in any order.
fn different_entries(count: usize) -> EachAim {
    Aim::new(TAKEN, count as u64, &format!("names for {count} entries"), move |draft: &mut Draft, random| {
        let entries = random.between(count, count + 3);
        let mut asked: Vec<usize> = (0..entries).collect();
        random.shuffle(&mut asked);
        draft.ask_for(random, entries, &asked[..count]);
    })
}

fn none_taken_aims() -> Vec<EachAim> {
    vec![
        taken(0, "no names", |draft, _| draft.names.clear()),
        taken(0, "every name QUERY", |draft, random| draft.ask_only(random, &[QUERY; 5])),
        taken(0, "every name NONE", |draft, random| draft.ask_only(random, &[NONE; 5])),
        taken(0, "16 names, NONE and QUERY", |draft, random| {
            let numbers: Vec<u64> = (0..16).map(|_| *random.choose(&[NONE, QUERY])).collect();
            draft.ask_only(random, &numbers);
        }),
        taken(0, "no entries", |draft, random| {
            *draft = Draft::good(random, 0);
            draft.ask_with(random, NONE);
        }),
    ]
}

/// Several names for one entry.
fn same_entry_aims() -> Vec<EachAim> {
    vec![
        taken(1, "one part twice", |draft, random| {
            draft.ask_for_one(random, 1);
            draft.names = draft.names.repeat(2);
        }),
        taken(1, "one part 16 times", |draft, random| {
            draft.ask_for_one(random, 1);
            draft.names = draft.names.repeat(16);
        }),
        taken(1, "two names for one entry", |draft, random| draft.ask_for_one(random, 2)),
        taken(1, "16 names for one entry", |draft, random| draft.ask_for_one(random, 16)),
        taken(1, "hip and hipv4 for one entry", |draft, random| {
            draft.names.clear();
            let entry = put_hip(draft, random);
            for meaning in [draft.bundle.rows[entry].meaning.clone(), draft.other_spelling(entry)] {
                let text = ids::as_named(random, &meaning);
                let part = draft.put_text(random, &text);
                draft.ask(random, part);
            }
        }),
        Aim::new(SLOT, OK, "hip asked for as hipv4, or hipv4 as hip", |draft: &mut Draft, random| {
            let entry = put_hip(draft, random);
            let text = ids::as_named(random, &draft.other_spelling(entry));
            let part = draft.put_text(random, &text);
            draft.ask(random, part);
        }),
        taken(2, "two entries, each asked for twice", |draft, random| draft.ask_for(random, 2, &[0, 1, 1, 0])),
        taken(2, "two entries, one asked for 15 times", |draft, random| {
            let mut asked = [1; 16];
            asked[random.below(16)] = 0;
            draft.ask_for(random, 2, &asked);
        }),
        taken(15, "16 names for 15 entries", |draft, random| {
            let mut asked: Vec<usize> = (0..15).collect();
            asked.push(random.below(15));
            random.shuffle(&mut asked);
            draft.ask_for(random, 15, &asked);
        }),
    ]
}

impl Draft {
    fn other_spelling(&self, entry: usize) -> ids::Meaning {
        ids::kind_respelled(&self.bundle.rows[entry].meaning)
    }
}

/// An entry of kind `hip` or `hipv4`, which is short.
fn put_hip(draft: &mut Draft, random: &mut Random) -> usize {
    let id = format!("{}:x+", ids::own(random, &["hip", "hipv4"]));
    draft.bundle.put_meaning(random, ids::meaning_of(id.as_bytes()))
}

/// Entries whose bits are at both ends of the word, and bit 0, which is there only where entry 0 is taken.
fn index_aims() -> Vec<EachAim> {
    let lowest = |number: u64, name: &str, make: fn(&mut Draft, &mut Random)| Aim::new(LOWEST, number, name, make);
    let highest = |number: u64, name: &str, make: fn(&mut Draft, &mut Random)| Aim::new(HIGHEST, number, name, make);
    vec![
        lowest(0, "entry 0", |draft, random| draft.ask_for(random, 3, &[2, 0])),
        lowest(1, "entry 1", |draft, random| draft.ask_for(random, 3, &[2, 1])),
        lowest(4, "entry 4 beside QUERY and NONE", |draft, random| {
            draft.ask_for(random, 5, &[4]);
            draft.ask_with(random, QUERY);
            draft.ask_with(random, NONE);
        }),
        highest(63, "entry 63", |draft, random| draft.ask_for(random, 64, &[63])).large(),
        lowest(63, "entry 63 beside QUERY and NONE", |draft, random| {
            draft.ask_for(random, 64, &[63]);
            draft.ask_with(random, QUERY);
            draft.ask_with(random, NONE);
        })
        .large(),
        taken(2, "entries 0 and 63", |draft, random| draft.ask_for(random, 64, &[63, 0])).large(),
        highest(32, "entries 31 and 32", |draft, random| draft.ask_for(random, 64, &[32, 31])).large(),
        taken(16, "entries 48 to 63", |draft, random| {
            let mut asked: Vec<usize> = (48..64).collect();
            random.shuffle(&mut asked);
            draft.ask_for(random, 64, &asked);
        })
        .large(),
        taken(16, "16 of 64 entries", |draft, random| {
            let mut asked: Vec<usize> = (0..64).collect();
            random.shuffle(&mut asked);
            draft.ask_for(random, 64, &asked[..16]);
        })
        .large(),
    ]
}

fn image_aims() -> Vec<EachAim> {
    vec![
        Aim::new(SLOT, OK, "image of size 0", |draft: &mut Draft, random| {
            let entry = draft.bundle.some_row(random);
            draft.bundle.rows[entry].size = 0;
            let part = draft.part_for(random, entry);
            draft.ask(random, part);
        }),
        taken(2, "images of size 0", |draft, random| {
            draft.ask_for(random, 2, &[1, 0]);
            draft.bundle.rows.iter_mut().for_each(|row| row.size = 0);
        }),
        taken(2, "one image of two entries", |draft, random| {
            draft.ask_for(random, 2, &[0, 1]);
            let bundles::Row { offset, size, .. } = draft.bundle.rows[0];
            draft.bundle.rows[1].offset = offset;
            draft.bundle.rows[1].size = size;
        }),
    ]
}

const ANSWERS: [u64; 3] = [OK, QUERY, NONE];
/// Each answer directly after each.
const EVERY_ORDER: &[u64] = &[OK, OK, QUERY, QUERY, NONE, NONE, OK, NONE, QUERY, OK];

/// Two names, one directly after the other.
fn neighbours(first: u64, second: u64) -> EachAim {
    Aim::new(SLOT, second, &format!("number {second} directly after {first}"), move |draft: &mut Draft, random| {
        draft.names.truncate(14);
        let both = [first, second].map(|number| draft.part_with(random, number));
        let at = random.between(0, draft.names.len());
        draft.names.splice(at..at, both);
        draft.aimed = at + 1;
    })
}

#[cfg(test)]
mod tests {
    use super::*;
    use crate::model::each::{pick_each, Slot};
    use std::collections::BTreeSet;

    #[test]
    fn every_answer_comes_after_every_other_in_one_call() {
        let mut random = Random::of_case(1, 6);
        for _ in 0..100 {
            let mut draft = some_draft(&mut random);
            draft.ask_only(&mut random, EVERY_ORDER);
            let Case { bundle, buffer, names, slots, .. } = draft.case();
            let mut slots = vec![Slot::default(); slots];
            pick_each(&bundle, &buffer, &names, &mut slots);
            let numbers: Vec<u64> = slots[..names.len()].iter().map(|slot| slot.number).collect();
            assert_eq!(numbers, EVERY_ORDER);
            let pairs: BTreeSet<&[u64]> = numbers.windows(2).collect();
            assert_eq!(pairs.len(), ANSWERS.len() * ANSWERS.len());
        }
    }
}
