//! The examples of RULES B, the mistakes of RULES C, `hip` beside `hipv4`, entries by index, images that overlap, processors with hyphens,
//! our own cards, several device names, two bundles, their differences, and damaged sequences.

mod differences;
mod each;
mod lookup;
mod recover;

use super::binaries::{read_all, Binary, Pair};
use super::binary_writer::{write_binary, Content};
use super::bundle::{
    check, check_of, entries, entry_at, normalise, normalise_of, pick, pick_of, Checked, Located, Picked, MAGIC_BYTES,
};
use super::bundle_writer::{write_bundle, Record};
use super::id::Reading::Profile;
use super::id::{canonical, compatible, meaning, meaning_by, Meaning};
use super::*;
use crate::gen::examples::*;

fn known(id: &str) -> Meaning<'_> {
    meaning(id.as_bytes()).expect(id)
}

fn canonical_text(id: &str) -> String {
    String::from_utf8(canonical(&known(id))).unwrap()
}

fn refused(id: &str) -> bool {
    meaning(id.as_bytes()).is_none()
}

fn refusal(number: u64, place: u64) -> Checked {
    Checked { number, place, count: 0 }
}

fn accepted(count: u64) -> Checked {
    Checked { number: OK, place: 0, count }
}

/// The normal form, with room to spare; the bytes beyond it must stay.
fn normal(bundle: &[u8]) -> Vec<u8> {
    normal_by(|out| normalise(bundle, out), bundle.len())
}

fn normal_by(normalise: impl Fn(&mut [u8]) -> Written, length: usize) -> Vec<u8> {
    let mut out = vec![0xA5; length + 1000];
    let written = normalise(&mut out);
    assert_eq!((written.number, written.place), (OK, 0));
    let rest = out.split_off(written.length as usize);
    assert!(rest.iter().all(|byte| *byte == 0xA5));
    out
}

#[test]
fn empty_input() {
    assert_eq!(check(b""), refusal(MAGIC, 0));
    assert_eq!(read_all(b""), [Binary { number: END, place: 0, ..Binary::default() }]);
}

#[test]
fn no_entries() {
    let bytes = [&MAGIC_BYTES[..], &[0; 8]].concat();
    assert_eq!(check(&bytes), accepted(0));
    assert_eq!(normal(&bytes), bytes);
    assert_eq!(bytes.len(), 32);
}

#[test]
fn host_without_processor() {
    let text = canonical_text(HOST);
    assert_eq!(text, "host-x86_64-unknown-linux-gnu-");
    assert_eq!(text.len(), 30);
    let expected = [
        &MAGIC_BYTES[..],
        &1u64.to_le_bytes(),
        &86u64.to_le_bytes(),
        &5u64.to_le_bytes(),
        &30u64.to_le_bytes(),
        b"host-x86_64-unknown-linux-gnu-",
        b"12345",
    ]
    .concat();
    assert_eq!(expected.len(), 91);
    assert_eq!(normal(&bundle(&[(HOST, b"12345")])), expected);
    assert_eq!(normal(&expected), expected);
}

#[test]
fn features_in_order() {
    let text = canonical_text(SHUFFLED);
    assert_eq!(text, "hip-amdgcn-amd-amdhsa--gfx906:sramecc-:xnack+");
    assert_eq!(text, IN_ORDER);
    assert_eq!(text.len(), 45);
    assert_eq!(canonical_text("hip-a-b-c-gfx9:ab+:a-"), "hip-a-b-c--gfx9:a-:ab+");
}

#[test]
fn device_states_more() {
    let entry = known(PLAIN);
    assert!(compatible(&entry, &known(BOTH_STATED)));
}

#[test]
fn device_states_less() {
    let entry = known(XNACK_OFF);
    assert!(!compatible(&entry, &known(PLAIN)));
    assert!(!compatible(&entry, &known(XNACK_ON)));
}

#[test]
fn mixed_at_the_second() {
    let bytes = bundle(&[(PLAIN, b""), (XNACK_ON, b"")]);
    assert_eq!(check(&bytes), refusal(MIXED, 1));
}

#[test]
fn twice_in_two_spellings() {
    let bytes = bundle(&[(SHUFFLED, b""), (IN_ORDER, b"")]);
    assert_eq!(check(&bytes), refusal(TWICE, 1));
}

#[test]
fn twice_as_hip_and_as_hipv4() {
    for both in [[PLAIN, PLAIN_V4], [PLAIN_V4, PLAIN]] {
        assert_eq!(check(&bundle(&both.map(|id| (id, &b""[..])))), refusal(TWICE, 1));
        assert_eq!(check(&bundle(&[HOST, both[0], PLAIN_OPENMP, both[1]].map(|id| (id, &b""[..])))), refusal(TWICE, 3));
    }
    assert_eq!(check(&bundle(&[("hip-a-b-c", b""), ("hipv4-a-b-c--", b"")])), refusal(TWICE, 1));
}

#[test]
fn mixed_across_hip_and_hipv4() {
    assert_eq!(check(&bundle(&[(PLAIN, b""), (XNACK_ON_V4, b"")])), refusal(MIXED, 1));
    assert_eq!(check(&bundle(&[(XNACK_ON, b""), (XNACK_OFF, b""), (PLAIN_V4, b"")])), refusal(MIXED, 2));
    assert_eq!(check(&bundle(&[(XNACK_ON, b""), (XNACK_OFF_V4, b"")])), accepted(2));
}

#[test]
fn hip_and_other_kinds_are_apart() {
    let host = "host-amdgcn-amd-amdhsa-gfx906";
    for hip in [PLAIN, PLAIN_V4, XNACK_ON, XNACK_ON_V4] {
        assert_eq!(check(&bundle(&[(host, b""), (hip, b""), (PLAIN_OPENMP, b"")])), accepted(3));
    }
    for (entry, device) in [(PLAIN, PLAIN_OPENMP), (PLAIN_OPENMP, PLAIN_V4), (host, PLAIN_V4), (PLAIN_V4, host)] {
        assert_eq!(pick(&bundle(&[(entry, b"")]), device.as_bytes()).number, NONE, "{entry}, {device}");
    }
}

#[test]
fn picks_across_hip_and_hipv4() {
    for (on, off) in [(XNACK_ON, XNACK_OFF_V4), (XNACK_ON_V4, XNACK_OFF), (XNACK_ON_V4, XNACK_OFF_V4)] {
        let bytes = bundle(&[(on, b"on"), (off, b"off")]);
        let position = bytes.len() as u64 - 3;
        let found = Picked { number: OK, place: 0, index: 1, position, size: 3 };
        assert_eq!([XNACK_OFF, XNACK_OFF_V4].map(|device| pick(&bytes, device.as_bytes())), [found; 2]);
        assert_eq!([PLAIN, PLAIN_V4].map(|device| pick(&bytes, device.as_bytes()).number), [NONE; 2]);
    }
    assert_eq!(pick(&bundle(&[(XNACK_ON_V4, b"on")]), XNACK_OFF.as_bytes()).number, NONE);
    assert_eq!(pick(&bundle(&[(XNACK_ON, b"on")]), XNACK_OFF_V4.as_bytes()).number, NONE);
}

#[test]
fn canonical_forms_keep_the_kind() {
    assert_eq!(canonical_text("hipv4-a-b-c"), "hipv4-a-b-c--");
    assert_eq!(canonical_text("hip-a-b-c"), "hip-a-b-c--");
}

#[test]
fn normal_forms_of_hip_and_of_hipv4_differ() {
    let [hip, hipv4] = ["hip-a-b-c", "hipv4-a-b-c"].map(|id| normal(&bundle(&[(id, b"x")])));
    assert_eq!(hip, bundle(&[("hip-a-b-c--", b"x")]));
    assert_eq!(hipv4, bundle(&[("hipv4-a-b-c--", b"x")]));
    assert_ne!(hip, hipv4);
}

#[test]
fn hip_comes_before_hipv4_in_normal_forms() {
    let bytes = bundle(&[("hipv4-a-b-c", b"3"), ("hip-z-b-c", b"2"), ("openmp-a-b-c", b"4"), ("hip-b-b-c", b"1")]);
    let expected =
        bundle(&[("hip-b-b-c--", b"1"), ("hip-z-b-c--", b"2"), ("hipv4-a-b-c--", b"3"), ("openmp-a-b-c--", b"4")]);
    assert_eq!(normal(&bytes), expected);
}

#[test]
fn offset_at_the_length() {
    assert_eq!(check(&at_the_length(0)), accepted(1));
    assert_eq!(check(&at_the_length(1)), refusal(RANGE, 0));
}

#[test]
fn entries_by_index() {
    let bytes = bundle(&[(HOST, b"12345"), (PLAIN, b"")]);
    let first = Located { number: OK, place: 0, position: 137, size: 5, id_position: 56, id_length: 29 };
    let second = Located { number: OK, place: 0, position: 142, size: 0, id_position: 109, id_length: 28 };
    let none = Located { number: NONE, ..Located::default() };
    assert_eq!([0, 1, 2, u64::MAX].map(|index| entry_at(&bytes, index)), [first, second, none, none]);
    assert_eq!(entry_at(&bundle(&[]), 0), none);
    let mixed = bundle(&[(PLAIN, b""), (XNACK_ON, b"")]);
    assert_eq!(entry_at(&mixed, 0), Located { number: MIXED, place: 1, ..Located::default() });
    assert_eq!(entry_at(&mixed, 2), Located { number: MIXED, place: 1, ..Located::default() });
}

fn check_lying(images: &[(u64, u64)]) -> Checked {
    check(&lying(images))
}

#[test]
fn images_that_may_stand_together() {
    for images in [
        // The same span, once more after others, and of one byte.
        &[(0, 5), (0, 5)][..],
        &[(0, 5), (7, 2), (0, 5), (7, 2)],
        &[(39, 1), (39, 1)],
        // Touching on either side, and on both.
        &[(0, 5), (5, 5)],
        &[(5, 5), (0, 5)],
        &[(0, 5), (10, 5), (5, 5)],
        // Empty: inside, at either end, where another one is.
        &[(0, 5), (2, 0)],
        &[(2, 0), (0, 5)],
        &[(0, 5), (0, 0), (5, 0)],
        &[(3, 0), (3, 0), (0, 5), (3, 0)],
        // Rising, falling, and in between.
        &[(0, 9), (10, 9), (20, 9), (30, 9)],
        &[(30, 9), (20, 9), (10, 9), (0, 9)],
        &[(0, 9), (30, 9), (10, 9), (20, 9)],
    ] {
        assert_eq!(check_lying(images), accepted(images.len() as u64), "{images:?}");
    }
}

#[test]
fn overlap_of_two() {
    for (one, other) in [
        ((0, 5), (4, 5)),   // one byte in common
        ((0, 40), (39, 1)), // the last byte of the bundle
        ((3, 5), (3, 4)),   // the same start
        ((3, 5), (4, 4)),   // the same end
        ((0, 5), (1, 3)),   // inside
        ((0, 5), (2, 1)),   // one byte, inside
        ((0, 9), (4, 9)),   // across
    ] {
        for images in [[one, other], [other, one]] {
            assert_eq!(check_lying(&images), refusal(OVERLAP, 1), "{images:?}");
        }
    }
}

#[test]
fn place_of_an_overlap() {
    // A later pair alone, with the first of many, and with others between.
    assert_eq!(check_lying(&[(0, 5), (5, 5), (20, 5), (24, 5)]), refusal(OVERLAP, 3));
    assert_eq!(check_lying(&[(0, 5), (5, 5), (20, 5), (4, 1)]), refusal(OVERLAP, 3));
    assert_eq!(check_lying(&[(0, 5), (10, 5), (20, 5), (14, 2), (30, 5)]), refusal(OVERLAP, 3));
    // Below and above all of the others, and between them.
    assert_eq!(check_lying(&[(20, 5), (10, 5), (9, 2)]), refusal(OVERLAP, 2));
    assert_eq!(check_lying(&[(20, 5), (10, 5), (24, 2)]), refusal(OVERLAP, 2));
    assert_eq!(check_lying(&[(0, 5), (30, 5), (10, 5), (12, 5)]), refusal(OVERLAP, 3));
    // The later of the two, and the lowest of such.
    assert_eq!(check_lying(&[(0, 9), (3, 1), (5, 1)]), refusal(OVERLAP, 1));
    assert_eq!(check_lying(&[(3, 1), (5, 1), (0, 9)]), refusal(OVERLAP, 2));
    assert_eq!(check_lying(&[(20, 5), (24, 5), (0, 5), (4, 5)]), refusal(OVERLAP, 1));
    assert_eq!(check_lying(&[(0, 5), (20, 5), (24, 5), (4, 5)]), refusal(OVERLAP, 2));
    // The same span as an earlier one is no excuse for another.
    assert_eq!(check_lying(&[(0, 5), (0, 5), (4, 5), (4, 5)]), refusal(OVERLAP, 2));
    // Images of one byte one after the other, and one over the first two.
    let mut images: Vec<(u64, u64)> = (0..40).map(|start| (start, 1)).collect();
    assert_eq!(check_lying(&images), accepted(40));
    images.push((0, 2));
    assert_eq!(check_lying(&images), refusal(OVERLAP, 40));
}

#[test]
fn overlap_among_the_other_numbers() {
    // 5 and 6 before 21.
    let broken = with_images(&[(PLAIN, 0, 5), (HOST, 4, 5), (NO_PROCESSOR, 0, 0)]);
    assert_eq!(check(&broken), refusal(ID, 2));
    assert_eq!(check_lying(&[(0, 5), (4, 5), (40, 1)]), refusal(RANGE, 2));
    assert_eq!(check_lying(&[(0, 5), (4, 37)]), refusal(RANGE, 1));
    // 21 before 7 and 8, also where these would have a lower place.
    let twice = with_images(&[(PLAIN, 0, 5), (PLAIN, 0, 5), (HOST, 4, 5)]);
    assert_eq!(check(&twice), refusal(OVERLAP, 2));
    let mixed = with_images(&[(PLAIN, 0, 5), (XNACK_ON, 5, 5), (HOST, 4, 5)]);
    assert_eq!(check(&mixed), refusal(OVERLAP, 2));
    assert_eq!(check(&with_images(&[(PLAIN, 0, 5), (PLAIN_V4, 4, 5)])), refusal(OVERLAP, 1));
    // 21 before 9, 10 and 12, and nothing is written.
    let overlap = with_images(&[(PLAIN, 0, 5), (HOST, 4, 5)]);
    for device in [PLAIN, PLAIN_OPENMP, NO_PROCESSOR] {
        assert_eq!(pick(&overlap, device.as_bytes()), Picked { number: OVERLAP, place: 1, ..Picked::default() });
    }
    for index in [0, 1, 2] {
        assert_eq!(entry_at(&overlap, index), Located { number: OVERLAP, place: 1, ..Located::default() });
    }
    for room in [0, 1000] {
        let mut out = vec![0xA5; room];
        assert_eq!(normalise(&overlap, &mut out), Written { number: OVERLAP, place: 1, length: 0 });
        assert!(out.iter().all(|byte| *byte == 0xA5));
    }
}

#[test]
fn a_shared_image_is_written_twice_in_the_normal_form() {
    let bytes = with_images(&[("openmp-a-b-c--", 4, 3), ("hip-a-b-c--", 4, 3), ("host-a-b-c--", 5, 0)]);
    let expected = bundle(&[("hip-a-b-c--", b"456"), ("host-a-b-c--", b""), ("openmp-a-b-c--", b"456")]);
    assert_eq!(normal(&bytes), expected);
}

#[test]
fn binary_of_72_bytes() {
    let mut out = [0xA5; 80];
    let written = write_binary(&Content::default(), b"", b"", &mut out);
    assert_eq!(written, Written { number: OK, place: 0, length: 72 });
    assert_eq!(out[72..], [0xA5; 8]);
    assert_eq!(integer(&out, 40, 8), 72);
    let answers = read_all(&out[..72]);
    let binary = Binary { size: 72, image_place: 72, ..Binary::default() };
    assert_eq!(answers, [binary, Binary { number: END, place: 72, ..Binary::default() }]);
}

#[test]
fn binary_of_112_bytes() {
    let mut out = [0xA5; 112];
    let written = write_binary(&sm_70(), SM_70_STRINGS, SM_70_IMAGE, &mut out);
    assert_eq!(written, Written { number: OK, place: 0, length: 112 });
    assert_eq!(&out[88..112], b"arch\0sm_70\0\0\0\0\0\0img\0\0\0\0\0");
    let pairs = vec![Pair { key_place: 88, key_length: 4, text_place: 93, text_length: 5 }];
    let expected = Binary {
        size: 112,
        image_kind: 3,
        offload_kind: 2,
        flags: 7,
        image_place: 104,
        image_length: 3,
        pairs,
        ..Binary::default()
    };
    assert_eq!(read_all(&out)[0], expected);
}

#[test]
fn count_of_64_and_65() {
    assert_eq!(check(&many(64)), accepted(64));
    assert_eq!(check(&many(65)), refusal(COUNT, 0));
}

#[test]
fn id_length_of_all_ones() {
    let bytes = bundle(&[("hip-amdgcn-amd-amdhsa", b"123")]);
    assert_eq!(check(&with_field(bytes, 48, u64::MAX)), refusal(TABLE, 0));
}

#[test]
fn feature_without_processor() {
    assert!(refused(NO_PROCESSOR));
    assert_eq!(check(&bundle(&[(NO_PROCESSOR, b"")])), refusal(ID, 0));
}

#[test]
fn sum_that_wraps() {
    let bytes = bundle(&[("hip-amdgcn-amd-amdhsa", b"123")]);
    assert_eq!(check(&with_field(bytes.clone(), 40, u64::MAX)), refusal(RANGE, 0));
    assert_eq!(check(&with_field(bytes, 32, u64::MAX)), refusal(RANGE, 0));
}

/// Environment and processor of `hip-a-b-c` with more behind it; nothing where it is refused.
fn environment_and_processor(more: &str) -> Option<(String, Option<String>)> {
    let text = |bytes: &[u8]| String::from_utf8(bytes.to_vec()).unwrap();
    let id = format!("hip-a-b-c{more}");
    meaning(id.as_bytes()).map(|meaning| (text(&meaning.environment), meaning.processor.map(|name| text(&name))))
}

#[test]
fn ids_without_a_processor() {
    for (more, environment) in [
        ("", ""),
        ("-", ""),
        ("--", ""),
        ("-gnu", "gnu"),
        ("-gnu-", "gnu"),
        // Almost the beginning of a processor.
        ("-gf", "gf"),
        ("-gf-", "gf"),
        ("-sm", "sm"),
        ("-sm-", "sm"),
        ("-sm70", "sm70"),
        ("-GFX9", "GFX9"),
        ("-xgfx9-", "xgfx9"),
    ] {
        assert_eq!(environment_and_processor(more), Some((environment.to_string(), None)), "{more}");
        assert_eq!(canonical_text(&format!("hip-a-b-c{more}")), format!("hip-a-b-c-{environment}-"));
    }
}

#[test]
fn processors_from_the_fifth_field() {
    for processor in [
        "gfx906",
        "gfx",
        "sm_",
        "gfx9-generic",
        "gfx9-4-generic",
        "sm_70-x",
        "gfx-gfx",
        "sm_-sm_",
        "gfxenv-gfx906",
        "gfx906-gnu",
        "gfx9--x",
        "gfx9---x",
        "gfx-a-b-c-d-e-f-g",
    ] {
        for more in [format!("-{processor}"), format!("--{processor}")] {
            let expected = Some((String::new(), Some(processor.to_string())));
            assert_eq!(environment_and_processor(&more), expected, "{more}");
            assert_eq!(canonical_text(&format!("hip-a-b-c{more}")), format!("hip-a-b-c--{processor}"));
        }
    }
}

#[test]
fn processors_from_the_sixth_field() {
    for (environment, processor) in [
        ("gnu", "x"),
        ("gnu", "gfx906"),
        ("gnu", "gfx9-generic"),
        ("gnu", "sm_70-x"),
        ("gnu", "x-y"),
        ("gnu", "x--y"),
        ("gnu", "x-gfx9"),
        ("gnu", "a-b-c-d"),
        ("gf", "x"),
        ("gf", "gfx9-generic"),
        ("sm", "_-x"),
        ("GFX9", "generic"),
        ("", "generic"),
        ("", "x-y"),
        ("", "gnu-gfx9"),
    ] {
        let more = format!("-{environment}-{processor}");
        let expected = Some((environment.to_string(), Some(processor.to_string())));
        assert_eq!(environment_and_processor(&more), expected, "{more}");
        assert_eq!(canonical_text(&format!("hip-a-b-c{more}")), format!("hip-a-b-c{more}"));
    }
}

#[test]
fn processors_that_begin_or_end_with_a_hyphen() {
    for more in [
        "-gfxenv-",
        "-gfxenv--",
        "-gfx-",
        "-sm_-",
        "-gfx9-generic-",
        "--gfx9-",
        "---gfx9",
        "---",
        "----",
        "-gnu--",
        "-gnu---",
        "-gnu--x",
        "-gnu-x-",
        "-gnu--x-",
        "-gnu-x--",
        "-gnu--gfx9",
        "-gf--",
        "-sm--",
    ] {
        assert_eq!(environment_and_processor(more), None, "{more}");
        assert_eq!(environment_and_processor(&format!("{more}:x+")), None, "{more}");
    }
}

#[test]
fn generic_processors() {
    assert_eq!(canonical_text(GENERIC), GENERIC_FORM);
    assert_eq!(check(&bundle(&[(GENERIC, b""), (GENERIC_FORM, b"")])), refusal(TWICE, 1));
    assert_eq!(check(&bundle(&[(GENERIC, b""), (GENERIC_OFF, b"")])), refusal(MIXED, 1));
    let bytes = bundle(&[(GENERIC_ON, b"on"), (GENERIC_OFF, b"off"), (GFX9_ON, b"other")]);
    assert_eq!(check(&bytes), accepted(3));
    for (index, device) in [GENERIC_ON, GENERIC_OFF, GFX9_ON].iter().enumerate() {
        let picked = pick(&bytes, device.as_bytes());
        assert_eq!((picked.number, picked.index), (OK, index as u64), "{device}");
    }
    let apart = [(GENERIC, GFX9_ON), (GFX9_ON, GENERIC_ON), (GENERIC_ON, GENERIC_OFF), (GENERIC_ON, GENERIC)];
    for (entry, device) in apart {
        assert_eq!(pick(&bundle(&[(entry, b"")]), device.as_bytes()).number, NONE, "{entry}, {device}");
    }
}

#[test]
fn hyphens_in_entries_and_device_names() {
    for id in HYPHENS {
        let bytes = bundle(&[(PLAIN, b""), (id, b"image")]);
        assert_eq!(check(&bytes), accepted(2), "{id}");
        assert_eq!(pick(&bytes, id.as_bytes()).index, 1, "{id}");
    }
    for id in HYPHEN_AT_AN_END {
        assert_eq!(check(&bundle(&[(PLAIN, b""), (id, b"image")])), refusal(ID, 1), "{id}");
        assert_eq!(pick(&bundle(&[(PLAIN, b"")]), id.as_bytes()).number, QUERY, "{id}");
    }
}

#[test]
fn hyphens_come_before_colons_in_normal_forms() {
    let bytes = bundle(&[("hip-a-b-c-gfx9:x+", b"3"), ("hip-a-b-c-gfx9-x:x+", b"2"), ("hip-a-b-c-gfx9--x", b"1")]);
    let expected =
        bundle(&[("hip-a-b-c--gfx9--x", b"1"), ("hip-a-b-c--gfx9-x:x+", b"2"), ("hip-a-b-c--gfx9:x+", b"3")]);
    assert_eq!(normal(&bytes), expected);
}

#[test]
fn cards_by_the_profile() {
    for (ids, device, checked, picked) in CARD_EXAMPLES {
        let bytes = card_bundle(ids);
        let entries = entries(Profile, &bytes);
        let Checked { number, place, .. } = check_of(&entries);
        assert_eq!((number, place), *checked, "{ids:?}");
        let Picked { number, index, .. } = pick_of(Profile, &entries, device.as_bytes());
        assert_eq!((number, index), *picked, "{ids:?}, {device}");
    }
}

#[test]
fn normal_forms_have_primary_names() {
    let bytes = bundle(&[
        ("hip-amdgcn1-amd-amdhsa--fiji", b"5"),
        ("hip-amdgcn-amd-amdhsa--fiji", b"3"),
        ("hip-amdgcn-amd-amdhsa-gfx700", b"2"),
        ("hip-amdgcn-amd-amdhsa--tahiti", b"1"),
        ("hip-amdgcn-amd-amdhsa--stoney:xnack-", b"4"),
    ]);
    let expected = bundle(&[
        ("hip-amdgcn-amd-amdhsa--gfx600", b"1"),
        ("hip-amdgcn-amd-amdhsa--gfx700", b"2"),
        ("hip-amdgcn-amd-amdhsa--gfx803", b"3"),
        ("hip-amdgcn-amd-amdhsa--gfx810:xnack-", b"4"),
        ("hip-amdgcn1-amd-amdhsa--fiji", b"5"),
    ]);
    assert_eq!(normal_by(|out| normalise_of(&entries(Profile, &bytes), out), bytes.len()), expected);
    assert_eq!(normal_by(|out| normalise_of(&entries(Profile, &expected), out), bytes.len()), expected);
}

#[test]
fn limits_of_cards() {
    let form = |length: usize, name: &str| {
        let (kind_and_arch, tail) = ("hip-amdgcn-", format!("-c-{name}"));
        let text = format!("{kind_and_arch}{}{tail}", "b".repeat(length - kind_and_arch.len() - tail.len()));
        assert_eq!(text.len(), length);
        meaning_by(Profile, text.as_bytes()).map(|meaning| canonical(&meaning).len())
    };
    // Two bytes shorter than the primary, and one, as long, and one byte longer, and three.
    assert_eq!([254, 255, 256].map(|length| form(length, "-fiji")), [Some(256), None, None]);
    assert_eq!([254, 255, 256].map(|length| form(length, "-verde")), [Some(255), Some(256), None]);
    assert_eq!([255, 256, 257].map(|length| form(length, "-tahiti")), [Some(255), Some(256), None]);
    assert_eq!([256, 257].map(|length| form(length, "-mullins")), [Some(255), None]);
    assert_eq!([256, 257, 259].map(|length| form(length, "-polaris10")), [Some(253), None, None]);
    // A primary from the fifth field has one dash more in its form.
    assert_eq!([254, 255, 256].map(|length| form(length, "gfx803")), [Some(255), Some(256), None]);
    assert_eq!([255, 256, 257].map(|length| form(length, "-gfx803")), [Some(255), Some(256), None]);
}

#[test]
fn features_after_hyphens() {
    assert_eq!(canonical_text("hip-a-b-c-gfx9-x:b-:a+"), "hip-a-b-c--gfx9-x:a+:b-");
    assert_eq!(canonical_text("hip-a-b-c-gnu-x-y:a-"), "hip-a-b-c-gnu-x-y:a-");
    for id in ["hip-a-b-c-gfx9-x:", "hip-a-b-c-gfx9-x:a-b+", "hip-a-b-c-gfx9-x:a", "hip-a-b-c-gfx9-x:a+:a-"] {
        assert!(refused(id), "{id}");
    }
    let features = |count: usize| ["a+", "b+", "c+", "d+", "e+", "f+", "g+", "h+", "i+"][..count].join(":");
    assert!(!refused(&format!("hip-a-b-c-gfx9-x:{}", features(8))));
    assert!(refused(&format!("hip-a-b-c-gfx9-x:{}", features(9))));
}

#[test]
fn bytes_between_hyphens() {
    for piece in ["+", "/", " ", "x+", "\0", "é"] {
        for id in [
            format!("hip-a-b-c-gfx9-{piece}"),
            format!("hip-a-b-c-gfx9-{piece}-x"),
            format!("hip-a-b-c-gfx9{piece}-x"),
            format!("hip-a-b-c-gnu-x-{piece}"),
            format!("hip-a-b-c-gnu{piece}-x-y"),
        ] {
            assert!(refused(&id), "{id}");
        }
    }
    for piece in ["_", ".", "0", "A", "z", "_.0Az"] {
        assert!(!refused(&format!("hip-a-b-c-gfx9-{piece}-x")), "{piece}");
    }
}

#[test]
fn spelling_rules() {
    for id in [
        "",
        "hip",
        "hip-a-b",
        "hip-a-b:x-",
        "HIP-a-b-c",
        "hipv5-a-b-c",
        "-a-b-c",
        "hip--b-c",
        "hip-a--c",
        "hip-a-b-",
        "hip-a+-b-c",
        "hip-a-b-c d",
        "hip-a-b-c-gfx9:",
        "hip-a-b-c-gfx9:+",
        "hip-a-b-c-gfx9:x",
        "hip-a-b-c-gfx9:X+",
        "hip-a-b-c-gfx9:x.y+",
        "hip-a-b-c-gfx9:x+:x-",
        "hip-a-b-c-gfx9:x+:x+",
        "hip-a-b-c-gfx9::x+",
        "hip-a-b-c:x+",
        "hip-a-b-c-d:x+",
        "hip-a-b-c-gfx9:a+:b+:c+:d+:e+:f+:g+:h+:i+",
    ] {
        assert!(refused(id), "{id}");
    }
    for id in [
        "hip-a-b-c",
        "hip-a-b-c-d-e-f",
        "host-A_.9-b-c-",
        "openmp-a-b-c-sm_",
        "hipv4-a-b-c--x:_+:0-",
        "hip-a-b-c-gfx9:a+:b+:c+:d+:e+:f+:g+:h+",
    ] {
        assert!(!refused(id), "{id}");
    }
}

#[test]
fn id_limits() {
    let text = |length: usize| format!("hip-a-b-{}", "c".repeat(length - 8));
    assert_eq!(canonical_text(&text(254)).len(), 256);
    assert!(refused(&text(255)));
    let six_fields = |length: usize| format!("hip-a-b-{}--", "c".repeat(length - 10));
    assert!(!refused(&six_fields(256)));
    assert!(refused(&six_fields(257)));
    for filler in ["-", "x", "-x"] {
        // A processor from the fifth field on has one dash more in the canonical form.
        let text = |head: &str, length: usize| format!("{head}{}x", &filler.repeat(256)[..length - head.len() - 1]);
        assert_eq!(canonical_text(&text("hip-a-b-c-gfx", 255)).len(), 256);
        assert!(refused(&text("hip-a-b-c-gfx", 256)));
        assert_eq!(canonical_text(&text("hip-a-b-c-gnu-x", 256)).len(), 256);
        assert!(refused(&text("hip-a-b-c-gnu-x", 257)));
    }
}

#[test]
fn picks() {
    let bytes = bundle(&[(XNACK_ON, b"on"), (XNACK_OFF, b"off")]);
    let position = bytes.len() as u64 - 3;
    let found = Picked { number: OK, place: 0, index: 1, position, size: 3 };
    assert_eq!(pick(&bytes, b"hip-amdgcn-amd-amdhsa--gfx906:xnack-:sramecc+"), found);
    let none = Picked { number: NONE, ..Picked::default() };
    assert_eq!(pick(&bytes, b"hip-amdgcn-amd-amdhsa--gfx906"), none);
    assert_eq!(pick(&bytes, b"openmp-amdgcn-amd-amdhsa--gfx906:xnack-"), none);
    let query = Picked { number: QUERY, ..Picked::default() };
    assert_eq!(pick(&bytes, b""), query);
    assert_eq!(pick(&bytes, b"hip-amdgcn-amd-amdhsa--gfx906:xnack"), query);
}

#[test]
fn normal_form_sorts_and_packs() {
    let bytes = bundle(&[("openmp-a-b-c", b"three"), ("hip-a-b-c-gfx9:b+:a-", b""), ("hip-a-b-c", b"one")]);
    let expected = bundle(&[("hip-a-b-c--", b"one"), ("hip-a-b-c--gfx9:a-:b+", b""), ("openmp-a-b-c--", b"three")]);
    assert_eq!(normal(&bytes), expected);
}

#[test]
fn room_for_the_normal_form() {
    let bytes = bundle(&[("hip-a-b-c--", b"one")]);
    let mut short = vec![0xA5; bytes.len() - 1];
    assert_eq!(normalise(&bytes, &mut short), Written { number: ROOM, place: 0, length: 0 });
    assert!(short.iter().all(|byte| *byte == 0xA5));
    let mut exact = vec![0xA5; bytes.len()];
    let written = normalise(&bytes, &mut exact);
    assert_eq!(written, Written { number: OK, place: 0, length: bytes.len() as u64 });
    assert_eq!(exact, bytes);
}

#[test]
fn bundle_writer_keeps_the_order_and_separates_images() {
    let records = [
        Record { id_start: 9, id_length: 12, image_start: 1, image_length: 2 },
        Record { id_start: 0, id_length: 9, image_start: 0, image_length: 3 },
    ];
    let mut out = vec![0xA5; 200];
    let written = write_bundle(&records, b"hip-a-b-copenmp-a-b-c", b"xyz", &mut out);
    let expected = bundle(&[("openmp-a-b-c--", b"yz"), ("hip-a-b-c--", b"xyz")]);
    assert_eq!(written, Written { number: OK, place: 0, length: expected.len() as u64 });
    assert_eq!(out[..expected.len()], expected);
    assert!(out[expected.len()..].iter().all(|byte| *byte == 0xA5));
    assert_eq!(check(&expected), accepted(2));
}

#[test]
fn bundle_writer_refuses() {
    let good = Record { id_start: 0, id_length: 9, image_start: 0, image_length: 3 };
    let written = |records: &[Record]| {
        let mut out = vec![0xA5; 200];
        let written = write_bundle(records, b"hip-a-b-c", b"xyz", &mut out);
        assert!(written.number == OK || out.iter().all(|byte| *byte == 0xA5));
        (written.number, written.place)
    };
    assert_eq!(written(&[]), (OK, 0));
    assert_eq!(written(&[good; 65]), (COUNT, 0));
    assert_eq!(written(&[good, Record { id_start: 1, ..good }]), (TABLE, 1));
    assert_eq!(written(&[good, Record { id_start: u64::MAX, ..good }]), (TABLE, 1));
    assert_eq!(written(&[good, Record { id_length: 0, ..good }]), (TABLE, 1));
    assert_eq!(written(&[good, Record { id_length: 7, ..good }]), (ID, 1));
    assert_eq!(written(&[good, Record { image_start: 1, ..good }]), (RANGE, 1));
    assert_eq!(written(&[Record { image_start: 3, image_length: 0, ..good }]), (OK, 0));
    assert_eq!(written(&[Record { image_start: 4, image_length: 0, ..good }]), (RANGE, 0));
    assert_eq!(written(&[good, good]), (TWICE, 1));
}

#[test]
fn bundle_writer_compares_and_keeps_kinds() {
    let record = |id_start, id_length| Record { id_start, id_length, image_start: 0, image_length: 0 };
    let (hip, hipv4, openmp) = (record(0, 9), record(9, 11), record(20, 12));
    let write = |records: &[Record]| {
        let mut out = vec![0; 200];
        let written = write_bundle(records, b"hip-a-b-chipv4-a-b-copenmp-a-b-c", b"", &mut out);
        (written.number, written.place, out[..written.length as usize].to_vec())
    };
    assert_eq!(write(&[hip, openmp, hipv4]), (TWICE, 2, Vec::new()));
    assert_eq!(write(&[hipv4, openmp]), (OK, 0, bundle(&[("hipv4-a-b-c--", b""), ("openmp-a-b-c--", b"")])));
}

/// A container of so many binaries of 72 bytes.
fn repeated(count: usize) -> Vec<u8> {
    binary_of_72().repeat(count)
}

#[test]
fn binaries_64_and_65() {
    let last = |bytes: &[u8]| {
        let answers = read_all(bytes);
        let last = answers.last().unwrap();
        (answers.len(), last.number, last.place)
    };
    assert_eq!(last(&repeated(64)), (65, END, 64 * 72));
    assert_eq!(last(&repeated(65)), (65, MANY, 64 * 72));
    assert_eq!(last(&repeated(3)[..215]), (3, SPAN, 144));
    assert_eq!(last(&repeated(3)[..175]), (3, HEAD, 144));
}

#[test]
fn a_reader_stays_where_it_is() {
    for bytes in [repeated(2), repeated(65), repeated(2)[..100].to_vec()] {
        let mut cursor = binaries::Cursor::default();
        while binaries::next(&bytes, cursor).0.number == OK {
            cursor = binaries::next(&bytes, cursor).1;
        }
        let (first, after) = binaries::next(&bytes, cursor);
        assert_eq!(after, cursor);
        assert_eq!(binaries::next(&bytes, after), (first, after));
    }
}
