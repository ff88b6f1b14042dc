//! Damaged sequences. Binaries have 72 bytes, or 112 (RULES B.10).

use super::*;
use crate::model::each::Part;
use crate::model::recover::{recover, Recovered};

const RUBBISH: &[u8] = b"rubbish";
const BYTE: u8 = 0xA5;
const UNTOUCHED: Part = Part { start: 7, length: 9 };

/// What is returned, and all of the output and of the list, with so much room.
fn with_room(sequence: &[u8], room: usize, span_room: usize) -> (Recovered, Vec<u8>, Vec<Part>) {
    let (mut out, mut spans) = (vec![BYTE; room], vec![UNTOUCHED; span_room]);
    let recovered = recover(sequence, &mut out, &mut spans);
    (recovered, out, spans)
}

/// The copies and the spans, with exactly the room that they need.
fn gives(sequence: &[u8], copies: &[&[u8]], spans: &[(u64, u64)]) {
    let copies = copies.concat();
    let spans: Vec<Part> = spans.iter().map(|&(start, length)| Part { start, length }).collect();
    let (length, count) = (copies.len() as u64, spans.len() as u64);
    let expected = (Recovered { number: OK, place: 0, length, spans: count }, copies, spans);
    assert_eq!(with_room(sequence, expected.1.len(), expected.2.len()), expected);
}

/// The call is refused, and writes nothing.
fn refused_with(sequence: &[u8], room: usize, span_room: usize, number: u64, place: u64) {
    let refused = Recovered { number, place, length: 0, spans: 0 };
    assert_eq!(with_room(sequence, room, span_room), (refused, vec![BYTE; room], vec![UNTOUCHED; span_room]));
}

/// The binary with another number of 8 bytes at a place.
fn with(binary: &[u8], at: usize, value: u64) -> Vec<u8> {
    with_field(binary.to_vec(), at, value)
}

#[test]
fn nothing_is_damaged() {
    let (small, whole) = (binary_of_72(), binary_of_112());
    gives(b"", &[], &[]);
    gives(&small, &[&small], &[]);
    gives(&[&whole[..], &small, &whole].concat(), &[&whole, &small, &whole], &[]);
    gives(&repeated(64), &[&repeated(64)], &[]);
}

#[test]
fn only_rubbish() {
    gives(b"r", &[], &[(0, 1)]);
    gives(RUBBISH, &[], &[(0, 7)]);
    gives(&[0x10, 0xFF, 0x10, 0xAD], &[], &[(0, 4)]);
    gives(&binary_of_72()[..32], &[], &[(0, 32)]);
    gives(&binary_of_72()[..71], &[], &[(0, 71)]);
    gives(&binary_of_112()[..111], &[], &[(0, 111)]);
    gives(&[0; 5000], &[], &[(0, 5000)]);
}

#[test]
fn spans_at_the_start_between_and_at_the_end() {
    let (small, whole) = (binary_of_72(), binary_of_112());
    gives(&[RUBBISH, &whole].concat(), &[&whole], &[(0, 7)]);
    gives(&[&whole, RUBBISH].concat(), &[&whole], &[(112, 7)]);
    gives(&[&small, RUBBISH, &whole].concat(), &[&small, &whole], &[(72, 7)]);
    let all = [RUBBISH, &small, b"r", &whole, &small, RUBBISH].concat();
    gives(&all, &[&small, &whole, &small], &[(0, 7), (79, 1), (264, 7)]);
}

#[test]
fn the_first_four_bytes_before_themselves() {
    let small = binary_of_72();
    for front in
        [&small[..1], &small[..2], &small[..3], &small[..4], &small[..8], &small[..32], &[0x10, 0xFF, 0x10, 0xFF]]
    {
        gives(&[front, &small].concat(), &[&small], &[(0, front.len() as u64)]);
    }
}

#[test]
fn each_reason_for_which_a_binary_is_not_taken() {
    let (small, whole) = (binary_of_72(), binary_of_112());
    let reasons = [
        (0, 0),         // HEAD: the first four bytes, and the version
        (8, 71),        // SPAN: the size,
        (8, 113 + 72),  // above what is left,
        (24, 41),       // the entry size,
        (16, 73),       // 1 byte of the entry outside
        (32, 6),        // KIND: the image,
        (32, 4 << 16),  // the offload kind
        (48, 33),       // STRINGS: the count,
        (72, 31),       // an offset,
        (80, 112),      // no zero byte
        (56, 31),       // IMAGE: inside the header,
        (64, u64::MAX), // past the end
    ];
    for (at, value) in reasons {
        let sequence = [&with(&whole, at, value)[..], &small].concat();
        gives(&sequence, &[&small], &[(0, 112)]);
    }
}

#[test]
fn a_binary_inside_another() {
    let (small, whole) = (binary_of_72(), binary_of_112());
    let outer = binary_around(&whole);
    assert_eq!(outer.len(), 184);
    gives(&[&outer[..], &small].concat(), &[&outer, &small], &[]);
    gives(&[&broken(outer.clone())[..], &small].concat(), &[&whole, &small], &[(0, 72)]);
    let outermost = broken(binary_around(&outer));
    gives(&outermost, &[&outer], &[(0, 72)]);
    gives(&broken(binary_around(&broken(outer))), &[&whole], &[(0, 144)]);
    let three = broken(binary_around(&[&small[..], RUBBISH, &small].concat()));
    gives(&three, &[&small, &small], &[(0, 72), (144, 7), (223, 1)]);
}

#[test]
fn a_size_that_reaches_over_others() {
    let (small, whole) = (binary_of_72(), binary_of_112());
    let long = with(&whole, 8, 112 + 72);
    gives(&[&long[..], &small, &whole].concat(), &[&long, &small, &whole], &[]);
    let into = with(&whole, 8, 112 + 1);
    gives(&[&into[..], &small, &whole].concat(), &[&into, &small[..1], &whole], &[(113, 71)]);
    // Broken by its kind, it reaches over nothing; nor does a size of 0 hold the search.
    for size in [112 + 72, 0] {
        let sequence = [&with(&with(&whole, 8, size), 32, 6)[..], &small, &whole].concat();
        gives(&sequence, &[&small, &whole], &[(0, 112)]);
    }
}

#[test]
fn a_byte_lost_from_an_image_and_a_byte_too_many() {
    let (small, whole) = (binary_of_72(), binary_of_112());
    let lost = [&whole[..104], &whole[105..]].concat();
    // The first byte of the next binary is the last of this one.
    gives(&[&lost[..], &small, &whole].concat(), &[&lost, &small[..1], &whole], &[(112, 71)]);
    let more = [&whole[..104], b"x", &whole[104..]].concat();
    gives(&[&more[..], &small].concat(), &[&more[..112], &small], &[(112, 1)]);
}

#[test]
fn a_65th_binary() {
    let small = binary_of_72();
    refused_with(&repeated(65), 65 * 72, 65, MANY, 64 * 72);
    refused_with(&repeated(200), 200 * 72, 65, MANY, 64 * 72);
    gives(&[&repeated(64), RUBBISH].concat(), &[&repeated(64)], &[(4608, 7)]);
    gives(&[&repeated(64), &broken(small.clone())[..]].concat(), &[&repeated(64)], &[(4608, 72)]);
    refused_with(&[&repeated(64), RUBBISH, &small].concat(), 5000, 65, MANY, 4615);
    let inside = [&repeated(64)[..], &broken(binary_around(&small))].concat();
    refused_with(&inside, 5000, 65, MANY, 4608 + 72);
    let spread = [RUBBISH, &small].concat().repeat(64);
    let spans: Vec<(u64, u64)> = (0..64).map(|k| (79 * k, 7)).chain([(64 * 79, 7)]).collect();
    gives(&[&spread, RUBBISH].concat(), &[&repeated(64)], &spans);
}

#[test]
fn room_for_copies_and_spans() {
    let sequence = [RUBBISH, &binary_of_72(), RUBBISH, &binary_of_112(), RUBBISH].concat();
    gives(&sequence, &[&binary_of_72(), &binary_of_112()], &[(0, 7), (79, 7), (198, 7)]);
    for (room, span_room) in [(183, 3), (184, 2), (183, 2), (0, 3), (184, 0), (0, 0), (1000, 2), (183, 1000)] {
        refused_with(&sequence, room, span_room, ROOM, 0);
    }
    let (recovered, out, spans) = with_room(&sequence, 190, 5);
    assert_eq!(recovered, Recovered { number: OK, place: 0, length: 184, spans: 3 });
    assert_eq!((&out[184..], &spans[3..]), (&[BYTE; 6][..], &[UNTOUCHED; 2][..]));
    refused_with(&binary_of_72(), 71, 1, ROOM, 0);
    refused_with(RUBBISH, 1, 0, ROOM, 0);
}

#[test]
fn a_65th_binary_comes_before_the_room() {
    let sequence = [RUBBISH, &repeated(65)].concat();
    for (room, span_room) in [(0, 0), (5000, 0), (0, 65), (64 * 72, 1)] {
        refused_with(&sequence, room, span_room, MANY, 7 + 64 * 72);
    }
}

#[test]
fn a_sequence_above_the_size_limit_comes_before_both() {
    let mut sequence = vec![0; SIZE_LIMIT as usize + 1];
    sequence[..65 * 72].copy_from_slice(&repeated(65));
    refused_with(&sequence, 5000, 65, LENGTH, 0);
    refused_with(&sequence, 0, 0, LENGTH, 0);
    refused_with(&sequence[..SIZE_LIMIT as usize], 0, 0, MANY, 64 * 72);
    let limit = with(&binary_of_72(), 8, SIZE_LIMIT as u64);
    sequence[..72].copy_from_slice(&limit);
    refused_with(&sequence[..SIZE_LIMIT as usize], 72, 1, ROOM, 0);
}

#[test]
fn a_tail_behind_a_damaged_front() {
    let tail = [binary_of_112(), binary_of_72()].concat();
    let small = binary_of_72();
    gives(&[&small[..40], &tail].concat(), &[&tail], &[(0, 40)]);
    gives(&[RUBBISH, &small, &tail].concat(), &[&small, &tail], &[(0, 7)]);
    gives(&[&with(&broken(small.clone()), 8, 300)[..], &tail].concat(), &[&tail], &[(0, 72)]);
    // The last of the front ends 1 byte into the tail: the first of the tail is lost, and the second is not.
    let reaching = with(&small, 8, 73);
    gives(&[&reaching[..], &tail].concat(), &[&reaching, &tail[..1], &small], &[(73, 111)]);
}
