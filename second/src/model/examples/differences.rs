//! Reports on two bundles.

use super::*;
use crate::gen::differences::REPORT_LIMIT;
use crate::model::differences::{compare, COMPARE_LIMIT};

const BYTE: u8 = 0xA5;

/// What the call returns, and all of the output, with so much room.
fn with_room(left: &[u8], right: &[u8], room: usize) -> (u64, Vec<u8>) {
    let mut out = vec![BYTE; room];
    let length = compare(left, right, &mut out);
    (length, out)
}

/// These lines are the report, each with a newline at its end.
fn says(left: &[u8], right: &[u8], lines: &[&str]) {
    let report: String = lines.iter().map(|line| format!("{line}\n")).collect();
    assert_eq!(with_room(left, right, report.len()), (report.len() as u64, report.into_bytes()));
}

fn none() -> Vec<u8> {
    bundle(&[])
}

/// An ID in both, with images that differ at this byte.
fn differs_at(left: &[u8], right: &[u8], n: u64) {
    let line = format!("D {HOST_FORM} {n}");
    says(&host(left), &host(right), &[&line, "differences 1"]);
    says(&host(right), &host(left), &[&line, "differences 1"]);
}

#[test]
fn the_case_of_the_request() {
    let expected = b"D host-x86_64-unknown-linux-gnu- 2\ndifferences 1\n";
    assert_eq!(expected.len(), 49);
    assert_eq!(with_room(&host(&[1, 2, 3]), &host(&[1, 2, 4]), 49), (49, expected.to_vec()));
    assert_eq!(with_room(&host(&[1, 2, 3]), &host(&[1, 2, 4]), 48), (49, vec![BYTE; 48]));
}

#[test]
fn images_differ_first_at_a_byte() {
    differs_at(&[1, 2, 3], &[1, 2, 4], 2);
    differs_at(&[1, 2, 3], &[0, 2, 4], 0);
    differs_at(&[1, 2, 3], &[1, 0], 1);
    differs_at(&[0; 10_001], &[&[0; 10_000][..], &[1, 2]].concat(), 10_000);
}

#[test]
fn the_shorter_length_where_one_begins_with_the_other() {
    differs_at(&[1, 2, 3], &[1, 2], 2);
    differs_at(&[], &[1], 0);
    differs_at(&[], &[0; 30], 0);
    differs_at(&[1, 2], &[1, 2, 0], 2);
    differs_at(&[7; 999], &[7; 1000], 999);
}

#[test]
fn the_same_entries() {
    says(&host(&[1]), &host(&[1]), &["differences 0"]);
    says(&none(), &none(), &["differences 0"]);
    says(&none(), &filled(5000), &["differences 0"]);
    let (one, other) = (bundle(&[(HOST, b"1"), (PLAIN, b"2")]), bundle(&[(PLAIN, b"2"), (HOST_FORM, b"1")]));
    says(&one, &other, &["differences 0"]);
    says(&bundle(&[(SHUFFLED, b"x")]), &bundle(&[(IN_ORDER, b"x")]), &["differences 0"]);
    says(&bundle(&[(GENERIC, b"x")]), &bundle(&[(GENERIC_FORM, b"x")]), &["differences 0"]);
    says(&lying(&[(0, 5), (0, 5)]), &lying(&[(0, 5), (0, 5)]), &["differences 0"]);
    let once = with_images(&[(HOST, 3, 5), (PLAIN, 3, 5)]);
    says(&once, &bundle(&[(PLAIN, b"34567"), (HOST, b"34567")]), &["differences 0"]);
}

#[test]
fn an_id_in_one_of_the_two() {
    says(&host(&[1]), &none(), &["L host-x86_64-unknown-linux-gnu-", "differences 1"]);
    says(&none(), &host(&[1]), &["R host-x86_64-unknown-linux-gnu-", "differences 1"]);
    says(&none(), &host(&[]), &["R host-x86_64-unknown-linux-gnu-", "differences 1"]);
}

#[test]
fn hip_and_hipv4_are_two() {
    let (hip, hipv4) = (bundle(&[(PLAIN, b"abc")]), bundle(&[(PLAIN_V4, b"abc")]));
    let (in_hip, in_hipv4) = ("hip-amdgcn-amd-amdhsa--gfx906", "hipv4-amdgcn-amd-amdhsa--gfx906");
    says(&hip, &hipv4, &[&format!("L {in_hip}"), &format!("R {in_hipv4}"), "differences 2"]);
    says(&hipv4, &hip, &[&format!("R {in_hip}"), &format!("L {in_hipv4}"), "differences 2"]);
}

#[test]
fn lines_stand_in_the_order_of_their_ids() {
    let left = bundle(&[(PLAIN_OPENMP, b"left"), (HOST, b"abc"), (XNACK_ON, b"on"), (GENERIC, b"g")]);
    let right = bundle(&[(GENERIC, b"g"), (XNACK_OFF, b"off"), (PLAIN_OPENMP, b"lest"), ("hipv4-a-b-c", b"")]);
    let lines = [
        "L hip-amdgcn-amd-amdhsa--gfx906:xnack+",
        "R hip-amdgcn-amd-amdhsa--gfx906:xnack-",
        "R hipv4-a-b-c--",
        "L host-x86_64-unknown-linux-gnu-",
        "D openmp-amdgcn-amd-amdhsa--gfx906 2",
        "differences 5",
    ];
    says(&left, &right, &lines);
}

#[test]
fn a_prefix_comes_first() {
    let left = bundle(&[("hip-a-b-c-gfx9-x", b""), ("hip-a-b-c-gfx9", b""), ("hip-a-b-c-gfx9x:x+", b"")]);
    let lines = ["L hip-a-b-c--gfx9", "L hip-a-b-c--gfx9-x", "L hip-a-b-c--gfx9x:x+", "differences 3"];
    says(&left, &none(), &lines);
    let right = bundle(&[("hip-a-b-c-gfx9:x+", b"")]);
    let lines =
        ["L hip-a-b-c--gfx9", "L hip-a-b-c--gfx9-x", "R hip-a-b-c--gfx9:x+", "L hip-a-b-c--gfx9x:x+", "differences 4"];
    says(&left, &right, &lines);
}

#[test]
fn only_a_refused_bundle_is_named() {
    says(b"", b"", &["refused left 2"]);
    says(&none(), b"", &["refused right 2"]);
    says(&bundle(&[(PLAIN, b""), (XNACK_ON, b"")]), &none(), &["refused left 8"]);
    says(&none(), &lying(&[(0, 5), (4, 5)]), &["refused right 21"]);
    says(&lying(&[(0, 5), (4, 5)]), b"", &["refused left 21"]);
    says(b"", &lying(&[(0, 5), (4, 5)]), &["refused left 2"]);
    says(&host(&[1]), &many(65), &["refused right 3"]);
    says(&bundle(&[(PLAIN, b""), (PLAIN_V4, b"")]), &host(&[1]), &["refused left 7"]);
}

#[test]
fn a_bundle_above_32_kib_counts_as_length() {
    assert_eq!(COMPARE_LIMIT, 32_768);
    says(&filled(32_768), &none(), &["differences 0"]);
    says(&filled(32_769), &none(), &["refused left 1"]);
    says(&none(), &filled(32_769), &["refused right 1"]);
    says(&[0; 32_768], &none(), &["refused left 2"]);
    says(&[0; 32_769], b"", &["refused left 1"]);
    says(b"", &filled(32_769), &["refused left 2"]);
}

#[test]
fn the_longest_report() {
    let id = |k: usize| format!("hip-a-b-c--{k:0>245}");
    let many = |first: usize| {
        let ids: Vec<String> = (0..64).map(|k| id(first + k)).collect();
        bundle(&ids.iter().map(|id| (id.as_str(), &b""[..])).collect::<Vec<_>>())
    };
    let (left, right) = (many(64), many(0));
    let lines: Vec<String> = (0..128).map(|k| format!("{} {}", if k < 64 { "R" } else { "L" }, id(k))).collect();
    let mut lines: Vec<&str> = lines.iter().map(String::as_str).collect();
    lines.push("differences 128");
    says(&left, &right, &lines);
    assert_eq!(with_room(&left, &right, 0), (33_168, Vec::new()));
    assert_eq!(REPORT_LIMIT, 33_168);
}

#[test]
fn what_lies_beyond_the_report_stays() {
    let (length, out) = with_room(&host(&[1]), &host(&[1]), 20);
    assert_eq!((length, &out[..14], &out[14..]), (14, &b"differences 0\n"[..], &[BYTE; 6][..]));
    assert_eq!(with_room(b"", b"", 14), (15, vec![BYTE; 14]));
    assert_eq!(with_room(b"", b"", 0), (15, Vec::new()));
}
