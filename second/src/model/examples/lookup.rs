//! Two bundles, a patch before a main one.

use super::*;
use crate::model::lookup::{lookup, LookedUp, MAIN, NEITHER, PATCH};
use crate::samples;

/// The bundle of RULES B.3: its image of 5 bytes is at 86.
fn host() -> Vec<u8> {
    bundle(&[(HOST_FORM, b"12345")])
}

/// The same with an empty image.
fn empty_host() -> Vec<u8> {
    bundle(&[(HOST_FORM, b"")])
}

/// The table end is 137, where the first image lies; that for the host is at 140.
fn other_host() -> Vec<u8> {
    bundle(&[(PLAIN, b"abc"), (HOST, b"other!")])
}

/// The bundle of RULES B.7: MIXED at the second entry.
fn mixed() -> Vec<u8> {
    bundle(&[(PLAIN, b""), (XNACK_ON, b"")])
}

fn answer(bundle: u64, position: u64, size: u64) -> LookedUp {
    LookedUp { number: OK, place: 0, bundle, position, size }
}

fn refused_in(bundle: u64, number: u64, place: u64) -> LookedUp {
    LookedUp { number, place, bundle, position: 0, size: 0 }
}

/// What the lookup returns, and the image.
fn found<'a>(patch: &'a [u8], main: &'a [u8], device: &str) -> (LookedUp, &'a [u8]) {
    lookup(patch, main, device.as_bytes())
}

/// The lookup is refused, and hands back an empty part.
fn refused_lookup(patch: &[u8], main: &[u8], device: &str, expected: LookedUp) {
    assert_eq!(found(patch, main, device), (expected, &b""[..]), "{device}");
}

#[test]
fn the_patch_answers_before_main() {
    assert_eq!(found(&host(), &other_host(), HOST), (answer(PATCH, 86, 5), &b"12345"[..]));
    assert_eq!(found(&other_host(), &host(), HOST), (answer(PATCH, 140, 6), &b"other!"[..]));
    assert_eq!(found(&host(), &bundle(&[]), HOST), (answer(PATCH, 86, 5), &b"12345"[..]));
}

#[test]
fn main_answers_where_the_patch_has_none() {
    assert_eq!(found(&bundle(&[]), &host(), HOST), (answer(MAIN, 86, 5), &b"12345"[..]));
    assert_eq!(found(&host(), &other_host(), PLAIN), (answer(MAIN, 137, 3), &b"abc"[..]));
    assert_eq!(found(&other_host(), &three_entries(), PLAIN_OPENMP), (answer(MAIN, 197, 3), &b"abc"[..]));
}

#[test]
fn an_image_of_size_0_is_an_answer() {
    assert_eq!(found(&empty_host(), &host(), HOST), (answer(PATCH, 86, 0), &b""[..]));
    assert_eq!(found(&host(), &empty_host(), HOST), (answer(PATCH, 86, 5), &b"12345"[..]));
    assert_eq!(found(&bundle(&[]), &empty_host(), HOST), (answer(MAIN, 86, 0), &b""[..]));
    assert_eq!(found(&other_host(), &three_entries(), PLAIN), (answer(PATCH, 137, 3), &b"abc"[..]));
    assert_eq!(found(&three_entries(), &other_host(), PLAIN), (answer(PATCH, 197, 0), &b""[..]));
}

#[test]
fn the_image_is_a_part_of_the_bundle_that_is_named() {
    let (patch, main) = (host(), other_host());
    assert!(std::ptr::eq(found(&patch, &main, HOST).1, &patch[86..91]));
    assert!(std::ptr::eq(found(&patch, &main, PLAIN).1, &main[137..140]));
    let (patch, main) = (empty_host(), host());
    assert!(std::ptr::eq(found(&patch, &main, HOST).1, &patch[86..86]));
}

#[test]
fn one_bundle_as_both() {
    assert_eq!(found(&host(), &host(), HOST), (answer(PATCH, 86, 5), &b"12345"[..]));
    refused_lookup(&host(), &host(), PLAIN, refused_in(NEITHER, NONE, 0));
    refused_lookup(&mixed(), &mixed(), PLAIN, refused_in(PATCH, MIXED, 1));
    assert_eq!(found(&bundle(&[]), &bundle(&[]), HOST).0, refused_in(NEITHER, NONE, 0));
}

#[test]
fn a_device_that_states_less_gets_none_from_the_patch() {
    let (off, plain) = (bundle(&[(XNACK_OFF, b"off")]), bundle(&[(PLAIN, b"plain")]));
    for (device, patch_first) in [(XNACK_OFF, PATCH), (BOTH_STATED, PATCH), (PLAIN, MAIN), (XNACK_ON, MAIN)] {
        assert_eq!(found(&off, &plain, device).0.bundle, patch_first, "{device}");
        assert_eq!(found(&plain, &off, device).0.bundle, PATCH, "{device}");
    }
    refused_lookup(&off, &off, PLAIN, refused_in(NEITHER, NONE, 0));
    // Neither 7 nor 8 is asked of the entries of both together.
    assert_eq!([check(&off), check(&plain)], [accepted(1); 2]);
}

#[test]
fn hip_and_hipv4_are_one_kind_in_either_bundle() {
    let (hip, hipv4) = (bundle(&[(PLAIN, b"hip")]), bundle(&[(PLAIN_V4, b"hipv4")]));
    for device in [PLAIN, PLAIN_V4] {
        assert_eq!(found(&hipv4, &hip, device).1, b"hipv4", "{device}");
        assert_eq!(found(&hip, &hipv4, device).1, b"hip", "{device}");
        assert_eq!(found(&bundle(&[]), &hipv4, device).1, b"hipv4", "{device}");
    }
    refused_lookup(&hip, &hipv4, PLAIN_OPENMP, refused_in(NEITHER, NONE, 0));
}

/// A number, a place, and a bundle that is refused so.
fn refused_bundles() -> Vec<(u64, u64, Vec<u8>)> {
    vec![
        (MAGIC, 0, Vec::new()),
        (COUNT, 0, many(65)),
        (TABLE, 0, with_field(host(), 48, u64::MAX)),
        (ID, 1, bundle(&[(HOST, b""), (NO_PROCESSOR, b"")])),
        (RANGE, 0, with_field(host(), 40, 6)),
        (OVERLAP, 2, lying(&[(0, 3), (5, 1), (2, 2)])),
        (TWICE, 1, bundle(&[(PLAIN, b""), (PLAIN_V4, b"")])),
        (MIXED, 2, bundle(&[(HOST, b"host"), (PLAIN, b""), (XNACK_ON, b"")])),
    ]
}

#[test]
fn a_refused_patch_comes_first() {
    for (number, place, patch) in refused_bundles() {
        for main in [Vec::new(), bundle(&[]), host(), other_host(), mixed()] {
            for device in [HOST, PLAIN, "gfx906", ""] {
                refused_lookup(&patch, &main, device, refused_in(PATCH, number, place));
            }
        }
    }
}

#[test]
fn a_refused_main_comes_next_whatever_the_patch_has() {
    for (number, place, main) in refused_bundles() {
        for patch in [bundle(&[]), host(), empty_host(), other_host(), many(64)] {
            for device in [HOST, PLAIN, "hip-a-b-c-e63", "gfx906", ""] {
                refused_lookup(&patch, &main, device, refused_in(MAIN, number, place));
            }
        }
    }
}

#[test]
fn of_two_that_are_refused_the_patch_is_named() {
    for (number, place, patch) in refused_bundles() {
        for (_, _, main) in refused_bundles() {
            refused_lookup(&patch, &main, HOST, refused_in(PATCH, number, place));
            refused_lookup(&patch, &main, "gfx906", refused_in(PATCH, number, place));
        }
    }
}

#[test]
fn above_the_size_limit() {
    let above = vec![0; SIZE_LIMIT as usize + 1];
    refused_lookup(&above, &host(), HOST, refused_in(PATCH, LENGTH, 0));
    refused_lookup(&host(), &above, HOST, refused_in(MAIN, LENGTH, 0));
    refused_lookup(&above, &mixed(), HOST, refused_in(PATCH, LENGTH, 0));
    refused_lookup(&mixed(), &above, HOST, refused_in(PATCH, MIXED, 1));
}

#[test]
fn a_broken_device_name_comes_after_both_bundles() {
    for (patch, main) in [(host(), other_host()), (bundle(&[]), host()), (bundle(&[]), bundle(&[]))] {
        for device in ["gfx906", "", NO_PROCESSOR, "host-x86_64-unknown-linux-gnu-:x+"] {
            refused_lookup(&patch, &main, device, refused_in(NEITHER, QUERY, 0));
        }
    }
    refused_lookup(&host(), &mixed(), "gfx906", refused_in(MAIN, MIXED, 1));
}

#[test]
fn neither_has_one() {
    for (patch, main) in [(host(), other_host()), (bundle(&[]), host()), (host(), bundle(&[])), (many(64), many(64))] {
        refused_lookup(&patch, &main, PLAIN_OPENMP, refused_in(NEITHER, NONE, 0));
    }
}

#[test]
fn first_and_last_of_64_entries_in_each() {
    // Each image is one byte; the table has 10 IDs of 12 bytes and 54 of 13.
    let table_end = 32 + 64 * 24 + 10 * 12 + 54 * 13;
    let others = lying(&[(0, 1); 64]);
    for (device, entry) in [("hip-a-b-c-e0", 0), ("hip-a-b-c-e63", 63)] {
        assert_eq!(found(&many(64), &others, device).0, answer(PATCH, table_end + entry, 1));
        assert_eq!(found(&others, &many(64), device).0, answer(PATCH, table_end, 1));
        assert_eq!(found(&many(63), &many(64), device).0.bundle, if entry == 63 { MAIN } else { PATCH });
    }
    assert_eq!(found(&many(63), &many(64), "hip-a-b-c-e63").0, answer(MAIN, table_end + 63, 1));
}

#[test]
fn bundles_and_names_are_read_by_the_general_rules() {
    let fiji = bundle(&[("hip-amdgcn-amd-amdhsa--fiji", b"fiji")]);
    let gfx803 = bundle(&[("hip-amdgcn-amd-amdhsa-gfx803", b"gfx803"), ("hip-amdgcn-amd-amdhsa-gfx9000:foo+", b"foo")]);
    assert_eq!(found(&fiji, &gfx803, "hip-amdgcn-amd-amdhsa-gfx803").1, b"gfx803");
    assert_eq!(found(&gfx803, &fiji, "hip-amdgcn-amd-amdhsa--fiji").1, b"fiji");
    assert_eq!(found(&fiji, &gfx803, "hip-amdgcn-amd-amdhsa-gfx9000:foo+").1, b"foo");
}

#[test]
fn a_bundle_of_clangs_driver_before_that_of_three_cards() {
    let bytes = |name: &str| samples::BUNDLES.iter().find(|sample| sample.name == name).unwrap().bytes;
    let (driver, cards) = (bytes("driver"), bytes("three-cards"));
    let answer_for = |device: &str| found(driver, cards, &format!("hip-amdgcn-amd-amdhsa-{device}")).0;
    assert_eq!(answer_for("gfx1030"), answer(PATCH, 4096, 3288));
    assert_eq!(answer_for("gfx906:xnack+:sramecc-"), answer(PATCH, 8192, 3048));
    assert_eq!(answer_for("gfx906:xnack-:sramecc+"), answer(MAIN, 2602, 2048));
    assert_eq!(answer_for("gfx906"), refused_in(NEITHER, NONE, 0));
    assert_eq!(found(cards, driver, PLAIN_OPENMP).0, refused_in(NEITHER, NONE, 0));
    assert_eq!(found(cards, driver, "hipv4-amdgcn-amd-amdhsa--gfx1030").0, answer(PATCH, 14922, 2248));
    for samples::RefusedSample { bytes, number, place, .. } in samples::REFUSED {
        assert_eq!(found(bytes, cards, HOST).0, refused_in(PATCH, *number, *place));
        assert_eq!(found(cards, bytes, HOST).0, refused_in(MAIN, *number, *place));
    }
}
