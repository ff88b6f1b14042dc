//! What RULES 8.3, 10.6, 10.7, 16, 20 and 21 say of the rules as a whole, tried on generated cases by either reading; what the profile
//! leaves as it is; and which IDs there are, tried on all short ones.

use super::binaries::{next, read_all, Cursor};
use super::binary_writer::{write_binary, PairParts};
use super::bundle::{check_of, entries, entry_at_of, normalise_of, pick_of, Checked, Entries, Entry, Located, Picked};
use super::bundle_writer::write_bundle;
use super::differences::{compare, compared, read, report, Mark, Side};
use super::each::{pick_each, Part, Slot};
use super::id::{
    begins_a_processor, canonical, compatible, meaning, meaning_by, mixed, own_processor, same_meaning, Meaning,
    Reading,
};
use super::lookup::{lookup as lookup_in, LookedUp, MAIN, NEITHER, PATCH};
use super::processors::known;
use super::recover::{copied, end, found, recover as recover_from, skipped, Recovered};
use super::*;
use crate::gen::bundles::{some_count, Draft, Offset, Row};
use crate::gen::random::Random;
use crate::gen::{binaries, binary_contents, differences, each, ids, lookup, records, recover, Aim};
use std::cell::Cell;
use std::collections::{BTreeMap, BTreeSet};

const CASES: u64 = 3000;

fn each_case(run: impl Fn(&mut Random)) {
    for case in 0..CASES {
        run(&mut Random::of_case(2, case));
    }
}

/// Cases for each reading.
fn each_reading(run: impl Fn(Reading, &mut Random)) {
    for reading in [Reading::General, Reading::Profile] {
        each_case(|random| run(reading, random));
    }
}

fn some_bundle(reading: Reading, random: &mut Random) -> Draft {
    let count = some_count(random);
    Draft::good(reading, random, count)
}

fn check(reading: Reading, bundle: &[u8]) -> Checked {
    check_of(&entries(reading, bundle))
}

fn pick(reading: Reading, bundle: &[u8], device: &[u8]) -> Picked {
    pick_of(reading, &entries(reading, bundle), device)
}

fn normal_form(reading: Reading, bundle: &[u8]) -> Vec<u8> {
    let mut out = vec![0; 1 << 16];
    let written = normalise_of(&entries(reading, bundle), &mut out);
    assert_eq!((written.number, written.place), (OK, 0));
    out.truncate(written.length as usize);
    out
}

/// The bytes that a pick gives, or its number.
fn picked_bytes<'a>(reading: Reading, bundle: &'a [u8], entries: &Entries, device: &[u8]) -> Result<&'a [u8], u64> {
    let picked = pick_of(reading, entries, device);
    if picked.number != OK {
        return Err(picked.number);
    }
    Ok(&bundle[picked.position as usize..][..picked.size as usize])
}

/// "each entry of either has one in the other with the same kind as spelled, triple, processor, stated features and signs, and an image
/// of the same size and bytes".
fn same_entries(reading: Reading, one: &[u8], other: &[u8]) -> bool {
    let (one, other) = (entries(reading, one).unwrap(), entries(reading, other).unwrap());
    let all_in = |those: &[Entry], these: &[Entry]| {
        those.iter().all(|a| these.iter().any(|b| a.meaning == b.meaning && a.image == b.image))
    };
    all_in(&one, &other) && all_in(&other, &one)
}

#[test]
fn a_canonical_form_has_its_own_meaning_and_form() {
    each_reading(|reading, random| {
        let expected = ids::some_meaning_by(reading, random);
        let text = canonical(&expected);
        assert_eq!(meaning_by(reading, &text), Some(expected));
    });
}

/// Every text of so many pieces.
fn texts(pieces: usize) -> Vec<String> {
    if pieces == 0 {
        return vec![String::new()];
    }
    let longer = |text: &String| ["-", "gfx", "sm_", "x"].map(|piece| format!("{text}{piece}"));
    texts(pieces - 1).iter().flat_map(longer).collect()
}

/// Each environment and processor, if it has one, of which this is a spelling.
fn spelled_by(text: &str) -> Vec<(&str, Option<&str>)> {
    let is_environment = |text: &str| !text.contains('-') && !begins_a_processor(text.as_bytes());
    let is_processor = |text: &str| !text.is_empty() && !text.starts_with('-') && !text.ends_with('-');
    let mut spelled = Vec::new();
    if is_environment(text) {
        spelled.push((text, None));
    }
    if is_processor(text) && begins_a_processor(text.as_bytes()) {
        spelled.push(("", Some(text)));
    }
    for (at, _) in text.match_indices('-') {
        match (&text[..at], &text[at + 1..]) {
            (environment, "") if is_environment(environment) => spelled.push((environment, None)),
            (environment, name) if is_environment(environment) && is_processor(name) => {
                spelled.push((environment, Some(name)))
            }
            _ => {}
        }
    }
    spelled
}

#[test]
fn an_id_is_accepted_exactly_when_it_spells_one_meaning() {
    for text in (0..=7).flat_map(texts) {
        let id = format!("hip-a-b-c-{text}");
        let read = meaning(id.as_bytes());
        let found = read.iter().map(|read| (&read.environment[..], read.processor.as_deref()));
        let expected = spelled_by(&text);
        let expected = expected.iter().map(|(environment, name)| (environment.as_bytes(), name.map(str::as_bytes)));
        assert!(found.eq(expected), "{id}: {read:?}");
    }
}

#[test]
fn a_canonical_form_of_an_id_is_its_own_and_at_most_two_dashes_longer() {
    for id in (0..=6).flat_map(texts).map(|text| format!("hip-a-b-c{text}")) {
        if let Some(read) = meaning(id.as_bytes()) {
            let form = canonical(&read);
            assert!(form.len() - id.len() <= 2, "{id}");
            assert_eq!(meaning(&form), Some(read), "{id}");
        }
    }
}

#[test]
fn a_feature_changes_nothing_before_it_and_needs_a_processor() {
    for id in (0..=6).flat_map(texts).map(|text| format!("hip-a-b-c{text}")) {
        let with_feature = format!("{id}:x-");
        let read = meaning(with_feature.as_bytes()).map(|read| Meaning { features: BTreeMap::new(), ..read });
        assert_eq!(read, meaning(id.as_bytes()).filter(|read| read.processor.is_some()), "{id}");
    }
}

#[test]
fn a_device_gets_at_most_one_of_two_that_may_stand_together() {
    each_reading(|reading, random| {
        let one = ids::some_meaning_by(reading, random);
        let [device, other] = [(); 2].map(|_| {
            let more = ids::with_more_features(reading, random, &one);
            ids::either_spelling(random, more)
        });
        if compatible(&one, &device) && compatible(&other, &device) {
            assert!(same_meaning(&one, &other) || mixed(&one, &other));
        }
    });
}

#[test]
fn every_count_of_entries_is_accepted() {
    for reading in [Reading::General, Reading::Profile] {
        for count in 0..=64 {
            for case in 0..10 {
                let draft = Draft::good(reading, &mut Random::of_case(count, case), count as usize);
                assert_eq!(check(reading, &draft.bytes()), Checked { number: OK, place: 0, count });
            }
        }
    }
}

#[test]
fn an_index_gives_its_row_and_what_a_pick_gives() {
    each_case(|random| {
        let draft = some_bundle(Reading::General, random);
        let bundle = draft.bytes();
        let entries = entries(Reading::General, &bundle);
        for (index, row) in draft.rows.iter().enumerate() {
            let located = entry_at_of(&entries, index as u64);
            assert_eq!(part(&bundle, located.id_position, located.id_length), Some(&row.id[..]));
            assert_eq!(located.size, row.size);
        }
        assert_eq!(entry_at_of(&entries, draft.count), Located { number: NONE, ..Located::default() });
        let picked = pick_of(Reading::General, &entries, &draft.device);
        if picked.number == OK {
            let located = entry_at_of(&entries, picked.index);
            assert_eq!((located.position, located.size), (picked.position, picked.size));
        }
    });
}

#[test]
fn each_slot_is_a_pick_and_each_bit_an_entry_that_some_slot_has() {
    each_case(|random| {
        let case = each::some_draft(random).case();
        let mut slots = vec![Slot::default(); case.slots];
        let picked = pick_each(&case.bundle, &case.buffer, &case.names, &mut slots);
        assert_eq!((picked.number, picked.place, picked.slots), (OK, 0, case.names.len() as u64));
        slots.truncate(case.names.len());
        for (name, slot) in case.names.iter().zip(&slots) {
            let single = part(&case.buffer, name.start, name.length)
                .map_or(Picked { number: QUERY, ..Picked::default() }, |device| {
                    pick(Reading::General, &case.bundle, device)
                });
            let Picked { number, index, position, size, .. } = single;
            assert_eq!(*slot, Slot { number, index, position, size });
        }
        for entry in 0..64 {
            let took = slots.iter().any(|slot| slot.number == OK && slot.index == entry);
            assert_eq!(picked.word >> entry & 1 == 1, took);
        }
        assert_eq!(picked.taken, picked.word.count_ones() as u64);
    });
}

/// What a pick returns, as an answer of the bundle of this number.
fn as_looked_up(bundle: u64, picked: Picked) -> LookedUp {
    let Picked { number, place, position, size, .. } = picked;
    let is_named = ![QUERY, NONE].contains(&number);
    LookedUp { number, place, bundle: if is_named { bundle } else { NEITHER }, position, size }
}

/// Two bundles and a device name, sometimes with damage.
fn some_lookup(random: &mut Random) -> (Vec<u8>, Vec<u8>, Vec<u8>) {
    let mut case = lookup::some_draft(random).case();
    if random.one_in(3) {
        lookup::shake(&mut case, random);
    }
    if random.one_in(8) {
        case.device = ids::some_broken(random);
    }
    (case.patch, case.main, case.device)
}

#[test]
fn a_lookup_is_the_first_pick_that_is_not_none() {
    each_case(|random| {
        let (patch, main, device) = some_lookup(random);
        let [of_patch, of_main] = [&patch, &main].map(|bundle| pick(Reading::General, bundle, &device));
        let expected = match (of_patch.number, of_main.number) {
            // Main is checked where the patch answers too.
            (OK, OK | NONE) | (QUERY, QUERY) => as_looked_up(PATCH, of_patch),
            (OK | QUERY | NONE, _) => as_looked_up(MAIN, of_main),
            _ => as_looked_up(PATCH, of_patch),
        };
        assert_eq!(lookup_in(&patch, &main, &device).0, expected);
    });
}

#[test]
fn a_lookup_hands_back_the_part_that_it_names_and_an_empty_one_where_it_is_refused() {
    each_case(|random| {
        let (patch, main, device) = some_lookup(random);
        let (found, image) = lookup_in(&patch, &main, &device);
        let bundle = if found.bundle == PATCH { &patch } else { &main };
        match found.number {
            OK => assert!(std::ptr::eq(image, part(bundle, found.position, found.size).unwrap())),
            _ => assert_eq!((image, found.position, found.size), (&b""[..], 0, 0)),
        }
    });
}

#[test]
fn a_lookup_beside_no_entries_is_a_pick() {
    let none = Draft::good(Reading::General, &mut Random::of_case(2, 0), 0).bytes();
    each_case(|random| {
        let (bundle, _, device) = some_lookup(random);
        let picked = pick(Reading::General, &bundle, &device);
        assert_eq!(lookup_in(&none, &bundle, &device).0, as_looked_up(MAIN, picked));
        assert_eq!(lookup_in(&bundle, &none, &device).0, as_looked_up(PATCH, picked));
        assert_eq!(lookup_in(&bundle, &bundle, &device).0, as_looked_up(PATCH, picked));
    });
}

#[test]
fn two_bundles_exchanged_are_refused_alike_and_say_none_alike() {
    each_case(|random| {
        let (patch, main, device) = some_lookup(random);
        let (found, exchanged) = (lookup_in(&patch, &main, &device).0, lookup_in(&main, &patch, &device).0);
        assert_eq!(found.number == OK, exchanged.number == OK);
        assert_eq!(found.bundle == NEITHER, exchanged.bundle == NEITHER);
        if found.bundle == NEITHER {
            assert_eq!(found, exchanged);
        }
    });
}

#[test]
fn what_follows_the_tables_changes_no_lookup() {
    each_case(|random| {
        let mut draft = lookup::some_draft(random);
        let answer = |draft: &lookup::Draft| lookup_in(&draft.patch.bytes(), &draft.main.bytes(), &draft.device).0;
        let found = answer(&draft);
        draft.patch.body = random.bytes(draft.patch.body.len());
        draft.main.body = random.bytes(draft.main.body.len());
        assert_eq!(answer(&draft), found);
    });
}

/// Two bundles that are compared, at any line or at none.
fn some_two(random: &mut Random, aims: &[Aim<differences::Draft>]) -> [Vec<u8>; 2] {
    let mut draft = differences::some_draft(random);
    if random.one_in(2) {
        (random.choose(aims).make)(&mut draft, random);
    }
    draft.case().bundles
}

#[test]
fn no_line_exactly_where_both_hold_the_same_entries() {
    let aims = differences::aims();
    let same = Cell::new(0);
    each_case(|random| {
        let [left, right] = some_two(random, &aims);
        if let Ok(lines) = compared(&read(&left), &read(&right)) {
            assert_eq!(lines.is_empty(), same_entries(Reading::General, &left, &right));
            same.set(same.get() + u64::from(lines.is_empty()));
        }
    });
    assert!(same.get() > CASES / 10 && same.get() < CASES / 2, "{}", same.get());
}

#[test]
fn each_id_has_the_line_that_is_about_it_and_they_rise() {
    let aims = differences::aims();
    each_case(|random| {
        let [left, right] = some_two(random, &aims);
        let (of_left, of_right) = (read(&left), read(&right));
        if let (Ok(left), Ok(right), Ok(lines)) = (&of_left, &of_right, compared(&of_left, &of_right)) {
            assert!(lines.windows(2).all(|two| two[0].0 < two[1].0));
            let said: BTreeMap<&Vec<u8>, Mark> = lines.iter().map(|(id, mark)| (id, *mark)).collect();
            for id in left.keys().chain(right.keys()) {
                match (said.get(id), left.get(id), right.get(id)) {
                    (Some(Mark::Only(Side::Left)), Some(_), None) | (Some(Mark::Only(Side::Right)), None, Some(_)) => {}
                    (None, Some(left), Some(right)) => assert_eq!(left, right),
                    (Some(Mark::At(n)), Some(left), Some(right)) => {
                        let n = *n as usize;
                        assert!(left[..n] == right[..n] && left.get(n) != right.get(n));
                    }
                    line => panic!("{line:?}"),
                }
            }
        }
    });
}

#[test]
fn a_report_is_written_whole_or_not_at_all() {
    let aims = differences::aims();
    each_case(|random| {
        let [left, right] = some_two(random, &aims);
        let report = report(&compared(&read(&left), &read(&right)));
        assert!((14..=differences::REPORT_LIMIT).contains(&report.len()) && report.ends_with(b"\n"));
        let room = random.between(0, 2 * report.len());
        let mut out = vec![0xA5; room];
        assert_eq!(compare(&left, &right, &mut out), report.len() as u64);
        let written = if room < report.len() { 0 } else { report.len() };
        assert!(out[..written] == report[..written] && out[written..].iter().all(|byte| *byte == 0xA5));
    });
}

/// A sequence that is damaged at some of the lines, or anywhere.
fn some_sequence(random: &mut Random, aims: &[Aim<recover::Draft>]) -> Vec<u8> {
    let mut draft = recover::some_draft(random);
    (random.choose(aims).make)(&mut draft, random);
    let mut sequence = binaries::Case { zeros: 0, ..draft.case().sequence };
    if random.one_in(2) {
        recover::shake(&mut sequence, random);
    }
    sequence.binaries
}

/// Lines of recovering, but for large ones.
fn recover_aims() -> Vec<Aim<recover::Draft>> {
    let mut aims = recover::aims();
    aims.retain(|aim| !aim.large);
    aims
}

/// What is recovered, with room enough.
fn recovered(sequence: &[u8]) -> (Recovered, Vec<u8>, Vec<Part>) {
    let (mut out, mut spans) = (vec![0; sequence.len()], vec![Part::default(); 65]);
    let recovered = recover_from(sequence, &mut out, &mut spans);
    out.truncate(recovered.length as usize);
    spans.truncate(recovered.spans as usize);
    (recovered, out, spans)
}

#[test]
fn each_binary_that_is_found_is_the_first_that_is_whole() {
    let aims = recover_aims();
    each_case(|random| {
        let sequence = some_sequence(random, &aims);
        let found = found(&sequence).unwrap();
        let is_whole = |at: u64| next(&sequence, Cursor { at: at as usize, taken: 0 }).0.number == OK;
        assert!(found.iter().all(|binary| is_whole(binary.start)));
        assert!(skipped(sequence.len() as u64, &found).iter().all(|span| !(span.start..end(*span)).any(is_whole)));
    });
}

#[test]
fn each_byte_is_copied_or_skipped_once_in_its_order() {
    let aims = recover_aims();
    each_case(|random| {
        let sequence = some_sequence(random, &aims);
        let (answer, copies, spans) = recovered(&sequence);
        assert_eq!((answer.number, answer.place), (OK, 0));
        let skips = |at: &usize| spans.iter().any(|span| (span.start..end(*span)).contains(&(*at as u64)));
        let kept: Vec<u8> = (0..sequence.len()).filter(|at| !skips(at)).map(|at| sequence[at]).collect();
        assert_eq!(copies, kept);
        assert_eq!(copies.len() as u64 + copied(&spans), sequence.len() as u64);
        assert!(spans.windows(2).all(|two| end(two[0]) < two[1].start));
    });
}

#[test]
fn what_is_recovered_is_accepted_and_recovered_again() {
    let aims = recover_aims();
    each_case(|random| {
        let sequence = some_sequence(random, &aims);
        let (answer, copies, _) = recovered(&sequence);
        let mut answers = read_all(&copies);
        assert_eq!(answers.pop().map(|last| last.number), Some(END));
        let sizes: Vec<u64> = answers.iter().map(|binary| binary.size).collect();
        assert_eq!(sizes, found(&sequence).unwrap().iter().map(|binary| binary.length).collect::<Vec<_>>());
        assert_eq!(recovered(&copies), (Recovered { spans: 0, ..answer }, copies.clone(), Vec::new()));
    });
}

#[test]
fn an_accepted_tail_comes_out_unless_a_binary_of_the_front_reaches_into_it() {
    let aims = recover_aims();
    each_case(|random| {
        let (front, tail) = (some_sequence(random, &aims), binaries::some_draft(random).case().binaries);
        let sequence = [&front[..], &tail].concat();
        let first = front.len() as u64;
        let reaches = |binary: &Part| binary.start < first && end(*binary) > first;
        if !found(&sequence).unwrap().iter().any(reaches) {
            let (_, copies, spans) = recovered(&sequence);
            assert!(copies.ends_with(&recovered(&tail).1) && copies.ends_with(&tail));
            assert!(spans.iter().all(|span| end(*span) <= first));
        }
    });
}

#[test]
fn normal_form_is_accepted_and_its_own() {
    each_reading(|reading, random| {
        let draft = some_bundle(reading, random);
        let normal = normal_form(reading, &draft.bytes());
        assert_eq!(check(reading, &normal).count, draft.count);
        assert_eq!(normal_form(reading, &normal), normal);
        assert!(same_entries(reading, &draft.bytes(), &normal));
    });
}

#[test]
fn normal_form_gives_the_same_picks() {
    each_reading(|reading, random| {
        let draft = some_bundle(reading, random);
        let (bundle, normal) = (draft.bytes(), normal_form(reading, &draft.bytes()));
        let (entries, normal_entries) = (entries(reading, &bundle), entries(reading, &normal));
        let same_pick = |device: &[u8]| {
            let picked = picked_bytes(reading, &bundle, &entries, device);
            assert_eq!(picked, picked_bytes(reading, &normal, &normal_entries, device));
        };
        for row in &draft.rows {
            let device = ids::with_more_features(reading, random, &row.meaning);
            let device = ids::either_spelling(random, device);
            same_pick(&ids::spelled(reading, random, &device));
        }
        same_pick(&draft.device);
    });
}

#[test]
fn normal_forms_are_equal_exactly_when_the_entries_are() {
    each_reading(|reading, random| {
        let mut one = Draft::good(reading, random, 3);
        let mut other = one.clone();
        random.shuffle(&mut other.rows);
        if random.one_in(2) && !other.body.is_empty() {
            let at = random.below(other.body.len());
            other.body[at] ^= 1;
        }
        if random.one_in(3) {
            other.respell_kinds(random);
        }
        one.respell(random);
        other.respell(random);
        let (one, other) = (one.bytes(), other.bytes());
        let equal = normal_form(reading, &one) == normal_form(reading, &other);
        assert_eq!(equal, same_entries(reading, &one, &other));
    });
}

#[test]
fn the_spelling_of_a_kind_shows_in_the_normal_form_alone() {
    each_reading(|reading, random| {
        let one = some_bundle(reading, random);
        let mut other = one.clone();
        other.respell_kinds(random);
        other.respell(random);
        let (bundle, respelled) = (one.bytes(), other.bytes());
        assert_eq!(check(reading, &bundle), check(reading, &respelled));
        let [picked, again] = [&bundle, &respelled].map(|bundle| pick(reading, bundle, &one.device));
        assert_eq!((picked.number, picked.index, picked.size), (again.number, again.index, again.size));
        let same_kinds = one.rows.iter().zip(&other.rows).all(|(row, other)| row.meaning.kind == other.meaning.kind);
        assert_eq!(normal_form(reading, &bundle) == normal_form(reading, &respelled), same_kinds);
    });
}

#[test]
fn what_follows_the_table_changes_no_answer() {
    each_reading(|reading, random| {
        let mut draft = some_bundle(reading, random);
        if random.one_in(2) {
            draft.scatter_images(random);
        }
        let one = draft.bytes();
        draft.body = random.bytes(draft.body.len());
        let other = draft.bytes();
        assert_eq!(check(reading, &one), check(reading, &other));
        assert_eq!(pick(reading, &one, &draft.device), pick(reading, &other, &draft.device));
    });
}

#[test]
fn the_profile_differs_in_our_own_cards_alone() {
    let own_ids = ids::cards::ids();
    each_case(|random| {
        let any = ids::some_meaning(random);
        let id = if random.one_in(2) { (random.choose(&own_ids).make)(random) } else { ids::as_named(random, &any) };
        let (general, profile) = (meaning(&id), meaning_by(Reading::Profile, &id));
        match general {
            Some(general) if own_processor(&general).is_some() => {
                let row = general.processor.as_deref().and_then(known);
                let primary = row.map(|row| row.primary.as_bytes().into());
                let expected = Meaning { processor: primary, ..general };
                assert!(profile.is_none() || profile == Some(expected), "{}", String::from_utf8_lossy(&id));
            }
            as_before => assert_eq!(profile, as_before, "{}", String::from_utf8_lossy(&id)),
        }
    });
}

#[test]
fn the_name_of_a_card_changes_no_answer_of_the_profile() {
    each_case(|random| {
        let one = some_bundle(Reading::Profile, random);
        let mut other = one.clone();
        other.respell(random);
        let (bundle, respelled) = (one.bytes(), other.bytes());
        let [picked, again] = [&bundle, &respelled].map(|bundle| pick(Reading::Profile, bundle, &one.device));
        assert_eq!((picked.number, picked.index, picked.size), (again.number, again.index, again.size));
        let normal = normal_form(Reading::Profile, &bundle);
        assert_eq!(normal_form(Reading::Profile, &respelled), normal);
        assert_eq!(normal_form(Reading::General, &normal), normal);
    });
}

/// The bytes of the body that each image has, one by one.
fn image_bytes(draft: &Draft) -> Vec<BTreeSet<u64>> {
    let bytes = |row: &Row| match row.offset {
        Offset::AfterTable(start) => (start..start + row.size).collect(),
        Offset::Exactly(_) => unreachable!("images are counted from the table end"),
    };
    draft.rows.iter().map(bytes).collect()
}

#[test]
fn images_share_all_their_bytes_or_none() {
    each_case(|random| {
        let mut draft = Draft::good(Reading::General, random, 5);
        draft.body.truncate(12);
        draft.scatter_images(random);
        let images = image_bytes(&draft);
        let overlaps =
            |i: &usize| images[..*i].iter().any(|image| *image != images[*i] && !image.is_disjoint(&images[*i]));
        let expected = match (0..5).find(overlaps) {
            None => Checked { number: OK, place: 0, count: 5 },
            Some(place) => Checked { number: OVERLAP, place: place as u64, count: 0 },
        };
        assert_eq!(check(Reading::General, &draft.bytes()), expected, "{images:?}");
    });
}

#[test]
fn what_the_bundle_writer_writes_is_read_back() {
    each_case(|random| {
        let count = some_count(random);
        let case = records::Case::good(random, count);
        let mut out = vec![0; 1 << 16];
        let written = write_bundle(&case.records, &case.ids, &case.images, &mut out);
        assert_eq!(written.number, OK);
        let entries = entries(Reading::General, &out[..written.length as usize]).unwrap();
        assert_eq!(entries.len(), case.records.len());
        for (entry, record) in entries.iter().zip(&case.records) {
            assert_eq!(Some(entry.image), part(&case.images, record.image_start, record.image_length));
            let id = part(&case.ids, record.id_start, record.id_length).unwrap();
            assert_eq!(Some(&entry.meaning), meaning(id).as_ref());
        }
    });
}

#[test]
fn what_the_binary_writer_writes_is_read_back() {
    each_case(|random| {
        let case = binary_contents::some_case(random);
        let mut out = vec![0; 1 << 16];
        let written = write_binary(&case.content, &case.strings, &case.image, &mut out);
        assert_eq!(written.number, OK);
        out.truncate(written.length as usize);
        let answers = read_all(&out);
        assert_eq!((answers.len(), answers[1].number), (2, END));
        let binary = &answers[0];
        assert_eq!(binary.image_kind, case.content.image_kind);
        assert_eq!(binary.offload_kind, case.content.offload_kind);
        assert_eq!(binary.flags, case.content.flags as u64);
        assert_eq!(part(&out, binary.image_place, binary.image_length), Some(&case.image[..]));
        assert_eq!(binary.pairs.len(), case.content.pairs.len());
        for (pair, parts) in binary.pairs.iter().zip(&case.content.pairs) {
            let PairParts { key_start, key_length, text_start, text_length } = *parts;
            assert_eq!(part(&out, pair.key_place, pair.key_length), part(&case.strings, key_start, key_length));
            assert_eq!(part(&out, pair.text_place, pair.text_length), part(&case.strings, text_start, text_length));
        }
    });
}
