//! Our own cards in the profile.

use super::*;
use crate::gen::ids::cards::{self, CardId};

/// The lines that the profile alone has.
pub fn aims() -> Vec<BundleAim> {
    let mut aims: Vec<BundleAim> = cards::ids().iter().flat_map(|id| [entry_with(id), device_with(id)]).collect();
    aims.extend(pairs::cards::entries().into_iter().map(stand_together_as_named));
    aims.extend(pairs::cards::devices().into_iter().map(asks_as_named));
    aims.extend(normal_form_aims());
    aims.extend(other_number_aims());
    aims
}

impl Draft {
    /// An entry with its processor's name as it is.
    fn put_as_named(&mut self, random: &mut Random, meaning: &Meaning) {
        let id = ids::as_named(random, meaning);
        self.put_id(random, id);
    }

    /// Two entries with their processors' names as they are.
    fn put_pair_as_named(&mut self, random: &mut Random, pair: [Meaning; 2]) {
        self.rows.truncate(60);
        for meaning in &pair {
            self.put_as_named(random, meaning);
        }
    }

    /// Some entry's processor is not in the table.
    fn put_unknown(&mut self, random: &mut Random) {
        let at = self.some_row(random);
        self.rows[at].set_id(unknown(random));
    }

    /// Two entries with two names of one card.
    fn put_two_names(&mut self, random: &mut Random) {
        let names = pairs::cards::two_names(random);
        self.put_pair_as_named(random, names);
    }
}

/// An ID with a processor that is not in the table.
fn unknown(random: &mut Random) -> Vec<u8> {
    cards::card_text(random, "gfx9000", &[])
}

fn entry_with(id: &CardId) -> BundleAim {
    let CardId { number, name, make } = id.clone();
    Aim::new("check", number, &format!("entry: {name}"), move |draft: &mut Draft, random| {
        let id = make(random);
        if number == OK {
            return draft.put_id(random, id);
        }
        let at = draft.some_row(random);
        draft.rows[at].set_id(id);
    })
}

/// Where it keeps the rules, some entry has the same meaning, and any name of the same row.
fn device_with(id: &CardId) -> BundleAim {
    let CardId { number, name, make } = id.clone();
    let answer = if number == OK { OK } else { QUERY };
    Aim::new("pick", answer, &format!("device: {name}"), move |draft: &mut Draft, random| {
        draft.device = make(random);
        if number == OK {
            draft.put_meaning(random, ids::meaning_of(&draft.device));
        }
    })
}

fn stand_together_as_named(pair: Pair) -> BundleAim {
    Aim::new("check", pair.number, &pair.name, move |draft: &mut Draft, random| {
        let pair = (pair.make)(random);
        draft.put_pair_as_named(random, pair);
    })
}

fn asks_as_named(pair: Pair) -> BundleAim {
    Aim::new("pick", pair.number, &format!("device: {}", pair.name), move |draft: &mut Draft, random| {
        let [entry, device] = (pair.make)(random);
        draft.put_as_named(random, &entry);
        draft.device = ids::as_named(random, &device);
    })
}

/// Alternative names that are shorter than their primaries, and that are longer, in canonical forms but for them.
const SHORTER: [&[u8]; 3] = [b"hip-amdgcn-b-c--fiji", b"openmp-amdgcn-b-c--fiji", b"hip-amdgcn-b-c--tonga"];
const LONGER: [&[u8]; 3] = [b"hip-amdgcn-b-c--polaris10", b"openmp-amdgcn-b-c--polaris11", b"hip-amdgcn-b-c--pitcairn"];

fn normal_form_aims() -> Vec<BundleAim> {
    vec![
        normalise(OK, "order by primaries, not by names", |draft, random| {
            let pair = pairs::cards::ordered_by_primary(random);
            draft.put_pair_as_named(random, pair);
            draft.room = Room::Exact;
        }),
        normalise(OK, "names shorter than their primaries, room exactly", |draft, random| {
            remake_of(draft, random, SHORTER);
            draft.room = Room::Exact;
        }),
        normalise(ROOM, "names shorter than their primaries, room for the names", |draft, random| {
            remake_of(draft, random, SHORTER);
            draft.room = Room::Short(5);
        }),
        normalise(OK, "names longer than their primaries, room exactly", |draft, random| {
            remake_of(draft, random, LONGER);
            draft.room = Room::Exact;
        }),
        normalise(ROOM, "names longer than their primaries, room 1 byte short", |draft, random| {
            remake_of(draft, random, LONGER);
            draft.room = Room::Short(1);
        }),
        normalise(OK, "64 entries, forms of 256 bytes", |draft, random| {
            draft.remake(random, 0);
            for _ in 0..64 {
                let (row, name) = cards::some_name(random);
                let length = 256.min(256 + name.len() - row.primary.len());
                let id = cards::of_length(random, row, name, 6, length);
                draft.put_id(random, id);
            }
            draft.room = Room::Exact;
        })
        .large(),
        normalise(ROOM, "normal form of the size limit, shorter names", |draft, random| {
            normal_length(draft, random, SHORTER, LIMIT)
        }),
        normalise(BIG, "normal form 1 above the size limit, shorter names", |draft, random| {
            normal_length(draft, random, SHORTER, LIMIT + 1)
        }),
        normalise(ROOM, "normal form of the size limit, longer names", |draft, random| {
            normal_length(draft, random, LONGER, LIMIT)
        }),
        normalise(BIG, "normal form 1 above the size limit, longer names", |draft, random| {
            normal_length(draft, random, LONGER, LIMIT + 1)
        }),
    ]
}

/// A number of the profile's rules, and another one that comes before it or after it.
fn other_number_aims() -> Vec<BundleAim> {
    vec![
        check(TABLE, "unknown processor, and an ID length of 0", |draft, random| {
            draft.put_unknown(random);
            let at = draft.some_row(random);
            draft.rows[at].id_length = 0;
        }),
        check(ID, "unknown processors in many entries", |draft, random| {
            for _ in 0..random.between(2, 6) {
                draft.put_unknown(random);
            }
        }),
        check(ID, "unknown processor, and a broken ID", |draft, random| {
            draft.put_unknown(random);
            let at = draft.some_row(random);
            draft.rows[at].set_id(ids::some_broken(random));
        }),
        check(ID, "unknown processor, and an image out of range", |draft, random| {
            draft.put_unknown(random);
            let (at, length) = (draft.some_row(random), draft.length());
            draft.rows[at].set_image(length, 1);
        }),
        check(ID, "unknown processor, and an overlap", |draft, random| {
            draft.put_some_overlap(random);
            draft.put_unknown(random);
        }),
        check(ID, "unknown processor, and two names of one card", |draft, random| {
            draft.put_two_names(random);
            draft.put_unknown(random);
        }),
        check(RANGE, "two names of one card, and an image out of range", |draft, random| {
            draft.put_two_names(random);
            let (at, length) = (draft.some_row(random), draft.length());
            draft.rows[at].set_image(length, 1);
        }),
        check(OVERLAP, "two names of one card, and an overlap", |draft, random| {
            draft.put_two_names(random);
            draft.put_some_overlap(random);
        }),
        check(TWICE, "two names of one card, and a feature more", |draft, random| {
            let name = *random.choose(&["carrizo", "gfx801", "stoney", "gfx810"]);
            let plain = cards::card(random, name, &[]);
            let with_feature = ids::with_features(random, plain.clone(), &cards::texts(&["xnack"]));
            draft.put_pair(random, [plain.clone(), plain]);
            draft.put_meaning(random, with_feature);
        }),
        pick(QUERY, "no entries, unknown processor in the device name", |draft, random| {
            draft.remake(random, 0);
            draft.device = unknown(random);
        }),
        pick(QUERY, "no entry of our own cards, unknown processor in the device name", |draft, random| {
            remake_of(draft, random, CANONICAL);
            draft.device = unknown(random);
        }),
        pick(ID, "unknown processor, also in the device name", |draft, random| {
            draft.put_unknown(random);
            draft.device = unknown(random);
        }),
        pick(TWICE, "two names of one card, unknown processor in the device name", |draft, random| {
            draft.put_two_names(random);
            draft.device = unknown(random);
        }),
        normalise(ID, "unknown processor, no room", |draft, random| {
            draft.put_unknown(random);
            draft.room = Room::Nothing;
        }),
        normalise(TWICE, "two names of one card, no room", |draft, random| {
            draft.put_two_names(random);
            draft.room = Room::Nothing;
        }),
    ]
}
