//! Several device names.

use super::*;
use crate::gen::each::{case_of, Case};
use crate::model::each::{pick_each, Part, PickedEach, Slot};

/// What no call writes.
const UNTOUCHED: Slot = Slot { number: 77, index: 78, position: 79, size: 80 };

/// What the call returns for a case, and all slots that are lent.
fn run(case: &Case) -> (PickedEach, Vec<Slot>) {
    let mut slots = vec![UNTOUCHED; case.slots];
    let picked = pick_each(&case.bundle, &case.buffer, &case.names, &mut slots);
    (picked, slots)
}

fn slot(number: u64, index: u64, position: u64, size: u64) -> Slot {
    Slot { number, index, position, size }
}

const NOT_NAMED: Slot = Slot { number: QUERY, index: 0, position: 0, size: 0 };
const NOT_THERE: Slot = Slot { number: NONE, index: 0, position: 0, size: 0 };

fn filled(slots: u64, word: u64, taken: u64) -> PickedEach {
    PickedEach { number: OK, place: 0, slots, word, taken }
}

/// The call is refused, and no slot is written.
fn refused_each(number: u64, place: u64, case: &Case) {
    let refusal = PickedEach { number, place, slots: 0, word: 0, taken: 0 };
    assert_eq!(run(case), (refusal, vec![UNTOUCHED; case.slots]));
}

#[test]
fn every_answer_stays_in_its_own_slot() {
    let expected = [slot(OK, 0, 192, 5), slot(OK, 1, 197, 0), NOT_THERE, NOT_NAMED, slot(OK, 1, 197, 0)];
    let case = ask(three_entries(), EACH_ANSWER);
    assert_eq!(run(&case), (filled(5, 0b011, 2), expected.to_vec()));
    let with_spare = [&expected[..], &[UNTOUCHED; 2]].concat();
    assert_eq!(run(&Case { slots: 7, ..case }), (filled(5, 0b011, 2), with_spare));
}

#[test]
fn a_slot_is_what_the_single_pick_gives() {
    let (_, slots) = run(&ask(three_entries(), EACH_ANSWER));
    for (device, found) in EACH_ANSWER.iter().zip(slots) {
        let Picked { number, place, index, position, size } = pick(&three_entries(), device.as_bytes());
        assert_eq!((place, slot(number, index, position, size)), (0, found), "{device}");
    }
}

#[test]
fn no_names_and_no_entries() {
    let nothing = (filled(0, 0, 0), Vec::new());
    assert_eq!(run(&ask(bundle(&[]), &[])), nothing);
    assert_eq!(run(&ask(three_entries(), &[])), nothing);
    assert_eq!(run(&ask(bundle(&[]), &[PLAIN])), (filled(1, 0, 0), vec![NOT_THERE]));
    let untouched = (filled(0, 0, 0), vec![UNTOUCHED; 2]);
    assert_eq!(run(&Case { slots: 2, ..ask(three_entries(), &[]) }), untouched);
}

#[test]
fn an_entry_is_taken_once() {
    for names in [&[PLAIN; 1][..], &[PLAIN; 16], &[PLAIN, PLAIN_V4], &[PLAIN, XNACK_ON, BOTH_STATED]] {
        let count = names.len();
        let expected = (filled(count as u64, 0b010, 1), vec![slot(OK, 1, 197, 0); count]);
        assert_eq!(run(&ask(three_entries(), names)), expected);
    }
    let (picked, _) = run(&ask(three_entries(), &[PLAIN_OPENMP, PLAIN_V4, HOST, PLAIN]));
    assert_eq!(picked, filled(4, 0b111, 3));
}

#[test]
fn an_image_of_size_0_is_taken() {
    assert_eq!(run(&ask(bundle(&[(PLAIN, b"")]), &[PLAIN])), (filled(1, 1, 1), vec![slot(OK, 0, 84, 0)]));
}

#[test]
fn bits_at_both_ends() {
    let word = |devices: &[&str]| run(&ask(many(64), devices)).0;
    assert_eq!(word(&["hip-a-b-c-e63"]), filled(1, 0x8000_0000_0000_0000, 1));
    assert_eq!(word(&["hip-a-b-c-e0"]), filled(1, 1, 1));
    assert_eq!(word(&["hip-a-b-c-e63", "hip-a-b-c-e0"]), filled(2, 0x8000_0000_0000_0001, 2));
    assert_eq!(word(&["hip-a-b-c-e32", "hip-a-b-c-e31"]), filled(2, 0x0000_0001_8000_0000, 2));
    let sixteen: Vec<String> = (48..64).map(|k| format!("hip-a-b-c-e{k}")).collect();
    let sixteen: Vec<&str> = sixteen.iter().map(String::as_str).collect();
    assert_eq!(word(&sixteen), filled(16, 0xFFFF_0000_0000_0000, 16));
}

#[test]
fn sixteen_names_and_no_more() {
    let case = |count: usize, slots: usize| Case { slots, ..ask(three_entries(), &vec![PLAIN; count]) };
    assert_eq!(run(&case(16, 16)).0, filled(16, 0b010, 1));
    for slots in [17, 100, 16, 1, 0] {
        refused_each(RACK, 0, &case(17, slots));
    }
    refused_each(RACK, 0, &case(1000, 1000));
}

#[test]
fn as_many_slots_as_names() {
    let case = |slots: usize| Case { slots, ..ask(three_entries(), EACH_ANSWER) };
    assert_eq!(run(&case(5)).0.number, OK);
    for slots in [4, 1, 0] {
        refused_each(ROOM, 0, &case(slots));
    }
    refused_each(ROOM, 0, &Case { slots: 15, ..ask(three_entries(), &[PLAIN; 16]) });
    refused_each(ROOM, 0, &Case { slots: 0, ..ask(three_entries(), &["gfx906"]) });
}

#[test]
fn a_refused_container_comes_first() {
    let containers = [
        (MAGIC, 0, Vec::new()),
        (COUNT, 0, many(65)),
        (TABLE, 0, with_field(bundle(&[(PLAIN, b"123")]), 48, u64::MAX)),
        (ID, 1, bundle(&[(PLAIN, b""), (NO_PROCESSOR, b"")])),
        (RANGE, 0, at_the_length(1)),
        (OVERLAP, 1, lying(&[(0, 3), (2, 2)])),
        (TWICE, 1, bundle(&[(PLAIN, b""), (PLAIN_V4, b"")])),
        (MIXED, 1, bundle(&[(PLAIN, b""), (XNACK_ON, b"")])),
    ];
    for (number, place, bytes) in containers {
        for count in [0, 1, 16, 17] {
            for slots in [count, count + 1, count / 2, 0] {
                refused_each(number, place, &Case { slots, ..ask(bytes.clone(), &vec![PLAIN; count]) });
            }
        }
    }
}

#[test]
fn parts_inside_the_buffer_and_outside() {
    let buffer = format!("{PLAIN}:xnack+{HOST}");
    let found = |start: u64, length: u64| {
        let (picked, slots) = run(&ask_parts(three_entries(), &buffer, &[(start, length)]));
        assert_eq!((picked.number, picked.slots), (OK, 1));
        slots[0]
    };
    assert_eq!(buffer.len(), 64);
    assert_eq!(found(0, 28), slot(OK, 1, 197, 0));
    assert_eq!(found(0, 35), slot(OK, 1, 197, 0));
    assert_eq!(found(35, 29), slot(OK, 0, 192, 5));
    assert_eq!(found(35, 25), NOT_THERE); // no environment
    let not_named = [
        (35, 30),
        (36, 29),
        (64, 0),
        (64, 1),
        (65, 0),
        (0, 0),
        (0, 1),
        (35, 28 + (1 << 32)),
        (35 + (1 << 32), 29),
        (35, u64::MAX),
        (u64::MAX, 1),
        (u64::MAX, 29),
        (u64::MAX - 28, 29),
        (u64::MAX, u64::MAX),
        (1 << 63, 1 << 63),
    ];
    for (start, length) in not_named {
        assert_eq!(found(start, length), NOT_NAMED, "{start}, {length}");
    }
}

#[test]
fn an_empty_buffer() {
    let parts = [(0, 0), (0, 1), (1, 0), (0, u64::MAX), (u64::MAX, 1)];
    assert_eq!(run(&ask_parts(three_entries(), "", &parts)), (filled(5, 0, 0), vec![NOT_NAMED; 5]));
}

#[test]
fn names_of_256_bytes() {
    let name = format!("hip-{}-b-c--", "a".repeat(246));
    let case = |device: &str| case_of(bundle(&[(&name, b"x")]), &[device.as_bytes()]);
    assert_eq!(name.len(), 256);
    assert_eq!(run(&case(&name)), (filled(1, 1, 1), vec![slot(OK, 0, 312, 1)]));
    assert_eq!(run(&case(&format!("{name}g"))).1, [NOT_NAMED]);
    assert_eq!(run(&case(&name[..254])).1, [slot(OK, 0, 312, 1)]);
    let longer = Case { names: vec![Part { start: 0, length: 257 }], ..case(&name) };
    assert_eq!(run(&longer).1, [NOT_NAMED]);
}

#[test]
fn names_are_read_by_the_general_rules() {
    let bytes = bundle(&[("hip-amdgcn-amd-amdhsa--fiji", b"1"), ("hip-amdgcn-amd-amdhsa-gfx9000:foo+", b"2")]);
    let names = ["hip-amdgcn-amd-amdhsa-gfx803", "hip-amdgcn-amd-amdhsa-gfx9000:foo+", "hip-amdgcn-amd-amdhsa--fiji"];
    let table_end = 32 + 24 + 27 + 24 + 34;
    let expected = vec![NOT_THERE, slot(OK, 1, table_end + 1, 1), slot(OK, 0, table_end, 1)];
    assert_eq!(run(&ask(bytes, &names)), (filled(3, 0b11, 2), expected));
}
