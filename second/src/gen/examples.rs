//! The examples of RULES B, B.1 to B.13, B.16, B.17 and B.27, processors with hyphens, our own cards, several device names, two bundles,
//! and damaged sequences, as cases. `model/examples.rs` says what comes of them.

use super::{binaries, bundles, differences, each, lookup, Room};
use crate::model::binary_writer::{write_binary, Content, PairParts};
use crate::model::bundle::packed;
use crate::model::differences::COMPARE_LIMIT;
use crate::model::each::Part;
use crate::model::{ID, MIXED, NONE, OK, QUERY, TWICE};

/// A bundle with these IDs as spelled and these images, packed.
pub fn bundle(entries: &[(&str, &[u8])]) -> Vec<u8> {
    let entries: Vec<(Vec<u8>, &[u8])> = entries.iter().map(|(id, image)| (id.as_bytes().to_vec(), *image)).collect();
    packed(&entries)
}

/// The bundle with another number in an 8-byte field.
pub fn with_field(mut bundle: Vec<u8>, at: usize, value: u64) -> Vec<u8> {
    bundle[at..at + 8].copy_from_slice(&value.to_le_bytes());
    bundle
}

/// Environments e0, e1 .. make as many meanings as are asked for.
fn ids(count: usize) -> Vec<String> {
    (0..count).map(|k| format!("hip-a-b-c-e{k}")).collect()
}

/// So many entries with an image of one byte each.
pub fn many(count: usize) -> Vec<u8> {
    let ids = ids(count);
    let entries: Vec<(&str, &[u8])> = ids.iter().map(|id| (id.as_str(), &b"x"[..])).collect();
    bundle(&entries)
}

/// What follows the table of `with_images`.
pub const BODY: &[u8; 40] = b"0123456789abcdefghijklmnopqrstuvwxyzABCD";

/// A bundle with these IDs as spelled, each with the start of its image, counted from the table end, and the size.
pub fn with_images(entries: &[(&str, u64, u64)]) -> Vec<u8> {
    let mut bytes = bundle(&entries.iter().map(|(id, ..)| (*id, &b""[..])).collect::<Vec<_>>());
    let (mut row, table_end) = (32, bytes.len() as u64);
    for (id, start, size) in entries {
        bytes = with_field(with_field(bytes, row, table_end + start), row + 8, *size);
        row += 24 + id.len();
    }
    [&bytes[..], BODY].concat()
}

/// As many entries as there are images.
pub fn lying(images: &[(u64, u64)]) -> Vec<u8> {
    let ids = ids(images.len());
    let entries: Vec<_> = ids.iter().zip(images).map(|(id, (start, size))| (id.as_str(), *start, *size)).collect();
    with_images(&entries)
}

/// One entry whose image has this size and begins where the bundle ends.
pub fn at_the_length(size: u64) -> Vec<u8> {
    let bytes = bundle(&[("hip-amdgcn-amd-amdhsa", b"123")]);
    let length = bytes.len() as u64;
    with_field(with_field(bytes, 32, length), 40, size)
}

pub const HOST: &str = "host-x86_64-unknown-linux-gnu";
pub const HOST_FORM: &str = "host-x86_64-unknown-linux-gnu-";
pub const SHUFFLED: &str = "hip-amdgcn-amd-amdhsa-gfx906:xnack+:sramecc-";
pub const IN_ORDER: &str = "hip-amdgcn-amd-amdhsa--gfx906:sramecc-:xnack+";
pub const PLAIN: &str = "hip-amdgcn-amd-amdhsa-gfx906";
pub const BOTH_STATED: &str = "hip-amdgcn-amd-amdhsa-gfx906:sramecc+:xnack-";
pub const XNACK_OFF: &str = "hip-amdgcn-amd-amdhsa-gfx906:xnack-";
pub const XNACK_ON: &str = "hip-amdgcn-amd-amdhsa-gfx906:xnack+";
pub const PLAIN_V4: &str = "hipv4-amdgcn-amd-amdhsa-gfx906";
pub const XNACK_OFF_V4: &str = "hipv4-amdgcn-amd-amdhsa-gfx906:xnack-";
pub const XNACK_ON_V4: &str = "hipv4-amdgcn-amd-amdhsa-gfx906:xnack+";
pub const PLAIN_OPENMP: &str = "openmp-amdgcn-amd-amdhsa-gfx906";
pub const NO_PROCESSOR: &str = "hip-a-b-c-d-:xnack+";
pub const GENERIC: &str = "hip-amdgcn-amd-amdhsa-gfx9-generic";
pub const GENERIC_FORM: &str = "hip-amdgcn-amd-amdhsa--gfx9-generic";
pub const GENERIC_ON: &str = "hip-amdgcn-amd-amdhsa-gfx9-generic:xnack+";
pub const GENERIC_OFF: &str = "hip-amdgcn-amd-amdhsa--gfx9-generic:xnack-";
pub const GFX9_ON: &str = "hip-amdgcn-amd-amdhsa-gfx9:xnack+";

/// IDs with hyphens that are accepted, and IDs whose processor would begin or end with one.
pub const HYPHENS: &[&str] =
    &["hip-a-b-c-gfxenv-gfx906", "hip-a-b-c-gfx9--x:a-", "hip-a-b-c-d-e-f", "hip-a-b-c--e-f", "hip-a-b-c-gnu-"];
pub const HYPHEN_AT_AN_END: &[&str] =
    &["hip-a-b-c-gfxenv-", "hip-a-b-c-gfx9-x-:a-", "hip-a-b-c-gnu-x-", "hip-a-b-c-gnu--x", "hip-a-b-c-gnu--"];

fn case(bundle: Vec<u8>, device: &str) -> bundles::Case {
    bundles::Case { bundle, zeros: 0, device: device.as_bytes().to_vec(), index: 0, room: Room::Exact }
}

pub fn bundle_cases() -> Vec<bundles::Case> {
    let mut cases = vec![
        case(Vec::new(), PLAIN),
        case(bundle(&[]), PLAIN),
        case(bundle(&[(HOST, b"12345")]), HOST),
        case(bundle(&[(SHUFFLED, b"image")]), IN_ORDER),
        case(bundle(&[(IN_ORDER, b"image")]), SHUFFLED),
        case(bundle(&[(PLAIN, b"image")]), BOTH_STATED),
        case(bundle(&[(XNACK_OFF, b"image")]), PLAIN),
        case(bundle(&[(PLAIN, b""), (XNACK_ON, b"")]), PLAIN),
        case(bundle(&[(SHUFFLED, b""), (IN_ORDER, b"")]), PLAIN),
        case(at_the_length(0), HOST),
        case(at_the_length(1), HOST),
        case(many(64), "hip-a-b-c-e63"),
        case(many(65), "hip-a-b-c-e63"),
        case(with_field(bundle(&[(PLAIN, b"123")]), 48, u64::MAX), PLAIN),
        case(bundle(&[(NO_PROCESSOR, b"")]), PLAIN),
        case(bundle(&[(PLAIN, b"")]), NO_PROCESSOR),
        case(bundle(&[(PLAIN, b""), (PLAIN_V4, b"")]), PLAIN),
        case(bundle(&[(PLAIN_V4, b""), (PLAIN, b"")]), PLAIN),
        case(bundle(&[(PLAIN, b""), (XNACK_ON_V4, b"")]), PLAIN),
        case(bundle(&[(XNACK_ON_V4, b""), (PLAIN, b"")]), PLAIN),
        case(bundle(&[(XNACK_ON, b"on"), (XNACK_OFF_V4, b"off")]), XNACK_ON_V4),
        case(bundle(&[(XNACK_ON_V4, b"on"), (XNACK_OFF, b"off")]), XNACK_OFF_V4),
        case(bundle(&[(XNACK_ON, b"on")]), XNACK_ON_V4),
        case(bundle(&[(XNACK_ON_V4, b"on")]), XNACK_ON),
        case(bundle(&[(XNACK_ON_V4, b"on")]), XNACK_OFF),
        case(bundle(&[(PLAIN_OPENMP, b"openmp"), (PLAIN_V4, b"hip")]), PLAIN),
        case(bundle(&[(PLAIN_OPENMP, b"openmp")]), PLAIN_V4),
        case(lying(&[(0, 5), (0, 5)]), "hip-a-b-c-e1"),
        case(lying(&[(0, 5), (4, 5)]), "hip-a-b-c-e1"),
        case(lying(&[(0, 5), (1, 3)]), "hip-a-b-c-e1"),
        case(lying(&[(1, 3), (0, 5)]), "hip-a-b-c-e1"),
        case(lying(&[(0, 5), (5, 5)]), "hip-a-b-c-e1"),
        case(lying(&[(5, 5), (0, 5)]), "hip-a-b-c-e1"),
        case(lying(&[(0, 5), (2, 0)]), "hip-a-b-c-e1"),
        case(lying(&[(2, 0), (0, 5)]), "hip-a-b-c-e1"),
        case(lying(&[(0, 5), (4, 5), (40, 1)]), "hip-a-b-c-e1"),
        case(with_images(&[(PLAIN, 0, 5), (PLAIN, 0, 5), (HOST, 4, 5)]), PLAIN),
        case(bundle(&[(GENERIC, b"image")]), GENERIC_FORM),
        case(bundle(&[(GENERIC_FORM, b"image")]), GENERIC),
        case(bundle(&[(GENERIC, b""), (GENERIC_FORM, b"")]), GENERIC),
        case(bundle(&[(GENERIC, b""), (GENERIC_OFF, b"")]), GENERIC),
        case(bundle(&[(GENERIC_ON, b"on"), (GENERIC_OFF, b"off"), (GFX9_ON, b"other")]), GENERIC_OFF),
        case(bundle(&[(GENERIC, b"image")]), GFX9_ON),
    ];
    cases.extend(HYPHENS.iter().map(|id| case(bundle(&[(id, b"image")]), id)));
    cases.extend(HYPHEN_AT_AN_END.iter().map(|id| case(bundle(&[(id, b"image")]), PLAIN)));
    cases.extend(HYPHEN_AT_AN_END.iter().map(|id| case(bundle(&[(PLAIN, b"image")]), id)));
    cases
}

/// IDs of entries, a device name, and what the profile answers: number and place of the check, number and index of the pick.
pub type CardExample = (&'static [&'static str], &'static str, (u64, u64), (u64, u64));

pub const CARD_EXAMPLES: &[CardExample] = &[
    // An alternative name means its primary.
    (&["hip-amdgcn-amd-amdhsa--fiji"], "hip-amdgcn-amd-amdhsa-gfx803", (OK, 0), (OK, 0)),
    (&["hip-amdgcn-amd-amdhsa-gfx803"], "hipv4-amdgcn-amd-amdhsa--polaris11", (OK, 0), (OK, 0)),
    (&["hip-amdgcn-amd-amdhsa--polaris10"], "hip-amdgcn-amd-amdhsa--fiji", (OK, 0), (OK, 0)),
    (&["openmp-amdgcn-amd-amdhsa--tahiti"], "openmp-amdgcn-amd-amdhsa-gfx600", (OK, 0), (OK, 0)),
    (&["hip-amdgcn-amd-amdhsa--fiji", "hip-amdgcn-amd-amdhsa-gfx803"], "", (TWICE, 1), (TWICE, 0)),
    (&["hip-amdgcn-amd-amdhsa--fiji", "hip-amdgcn-amd-amdhsa--polaris10"], "", (TWICE, 1), (TWICE, 0)),
    (&["hipv4-amdgcn-amd-amdhsa--fiji", "hip-amdgcn-amd-amdhsa--gfx803"], "", (TWICE, 1), (TWICE, 0)),
    (
        &["openmp-amdgcn-amd-amdhsa--fiji", "hip-amdgcn-amd-amdhsa--gfx803"],
        "hip-amdgcn-amd-amdhsa--fiji",
        (OK, 0),
        (OK, 1),
    ),
    (&["hip-amdgcn-amd-amdhsa--fiji"], "hip-amdgcn-amd-amdhsa--tonga", (OK, 0), (NONE, 0)),
    (&["hip-amdgcn-amd-amdhsa-gnu-fiji"], "hip-amdgcn-amd-amdhsa-gnu-gfx803", (OK, 0), (OK, 0)),
    (&["hip-amdgcn-amd-amdhsa-gnu-fiji"], "hip-amdgcn-amd-amdhsa--gfx803", (OK, 0), (NONE, 0)),
    // Features that a row supports, and others.
    (&["hip-amdgcn-amd-amdhsa--carrizo", "hip-amdgcn-amd-amdhsa-gfx801:xnack+"], "", (MIXED, 1), (MIXED, 0)),
    (
        &["hip-amdgcn-amd-amdhsa--carrizo:xnack+", "hip-amdgcn-amd-amdhsa-gfx801:xnack-"],
        "hip-amdgcn-amd-amdhsa--carrizo:xnack-",
        (OK, 0),
        (OK, 1),
    ),
    (&["hip-amdgcn-amd-amdhsa--carrizo"], "hip-amdgcn-amd-amdhsa-gfx801:xnack-", (OK, 0), (OK, 0)),
    (&["hip-amdgcn-amd-amdhsa--carrizo:xnack-"], "hip-amdgcn-amd-amdhsa-gfx801", (OK, 0), (NONE, 0)),
    (&["hip-amdgcn-amd-amdhsa-gfx90a:xnack+:sramecc-"], "hip-amdgcn-amd-amdhsa-gfx90a:foo+", (OK, 0), (QUERY, 0)),
    (&["hip-amdgcn-amd-amdhsa-gfx900:xnack+"], "hip-amdgcn-amd-amdhsa-gfx900:sramecc+", (OK, 0), (QUERY, 0)),
    (&["hip-amdgcn-amd-amdhsa-gfx900:sramecc+"], "", (ID, 0), (ID, 0)),
    (&["hip-amdgcn-amd-amdhsa-gfx900:sramecc-"], "", (ID, 0), (ID, 0)),
    (&["hip-amdgcn-amd-amdhsa-gfx90a:foo+"], "", (ID, 0), (ID, 0)),
    (&["hip-amdgcn-amd-amdhsa-gfx90a:xnack+:foo+:sramecc+"], "", (ID, 0), (ID, 0)),
    (&["hip-amdgcn-amd-amdhsa-gfx803:xnack+"], "", (ID, 0), (ID, 0)),
    (&["hip-amdgcn-amd-amdhsa--fiji:xnack+"], "", (ID, 0), (ID, 0)),
    (&["hip-amdgcn-amd-amdhsa-gfx12-generic"], "hip-amdgcn-amd-amdhsa-gfx12-generic:xnack+", (OK, 0), (QUERY, 0)),
    (&["hip-amdgcn-amd-amdhsa--gfx9-generic:xnack+"], "hip-amdgcn-amd-amdhsa-gfx9-generic:xnack+", (OK, 0), (OK, 0)),
    // Processors that the table has not.
    (&["hip-amdgcn-amd-amdhsa--fiji", "openmp-amdgcn-amd-amdhsa-gfx9-4-generic"], "", (ID, 1), (ID, 0)),
    (&["hip-amdgcn-amd-amdhsa--fiji", "hip-amdgcn-amd-amdhsa--Fiji", "hip"], "", (ID, 1), (ID, 0)),
    (&["hip-amdgcn-amd-amdhsa--fiji", "hip", "hipv4-amdgcn-amd-amdhsa-gfx9000"], "", (ID, 1), (ID, 0)),
    (&["hip-amdgcn-amd-amdhsa-gfx906"], "hip-amdgcn-amd-amdhsa--Gfx906", (OK, 0), (QUERY, 0)),
    (&["hip-amdgcn-amd-amdhsa-gfx906"], "hip-amdgcn-amd-amdhsa-gfx90", (OK, 0), (QUERY, 0)),
    (&["hip-amdgcn-amd-amdhsa-gfx906"], "openmp-amdgcn-amd-amdhsa-sm_70", (OK, 0), (QUERY, 0)),
    (&["hip-amdgcn-x-y-gfx9000"], "", (ID, 0), (ID, 0)),
    // All other IDs read as before.
    (&["host-amdgcn-amd-amdhsa--fiji:foo+"], "host-amdgcn-amd-amdhsa--fiji:foo+", (OK, 0), (OK, 0)),
    (
        &["host-amdgcn-amd-amdhsa--fiji", "host-amdgcn-amd-amdhsa--gfx803"],
        "host-amdgcn-amd-amdhsa--gfx803",
        (OK, 0),
        (OK, 1),
    ),
    (
        &["hip-amdgcn1-amd-amdhsa--fiji", "hip-amdgcn1-amd-amdhsa-gfx803:foo+"],
        "hip-amdgcn1-amd-amdhsa-gfx803:foo+",
        (OK, 0),
        (OK, 1),
    ),
    (&["hip-amdgc-amd-amdhsa--fiji"], "hip-amdgc-amd-amdhsa-gfx803", (OK, 0), (NONE, 0)),
    (&["hip-amd-amdgcn-amdhsa-gfx9000"], "hip-amd-amdgcn-amdhsa-gfx9000:foo-", (OK, 0), (OK, 0)),
    (&["hip-amdgcn-amd-amdhsa"], "hip-amdgcn-amd-amdhsa--", (OK, 0), (OK, 0)),
    (&["hip-amdgcn-amd-amdhsa-gnu"], "hip-amdgcn-amd-amdhsa-gnu-", (OK, 0), (OK, 0)),
    // An alternative name in the fifth field is an environment.
    (&["hip-amdgcn-amd-amdhsa-fiji", "hip-amdgcn-amd-amdhsa--fiji"], "hip-amdgcn-amd-amdhsa-fiji-", (OK, 0), (OK, 0)),
    (&["hip-amdgcn-amd-amdhsa-fiji"], "hip-amdgcn-amd-amdhsa-gfx803", (OK, 0), (NONE, 0)),
    (&["hip-amdgcn-amd-amdhsa-fiji-gfx906"], "hip-amdgcn-amd-amdhsa-fiji-gfx906:xnack-", (OK, 0), (OK, 0)),
    (&["hip-amdgcn-amd-amdhsa-fiji-tonga"], "hip-amdgcn-amd-amdhsa-fiji-gfx802", (OK, 0), (OK, 0)),
    (&["hip-amdgcn-amd-amdhsa-fiji-foo"], "", (ID, 0), (ID, 0)),
    (&["hip-amdgcn-amd-amdhsa-fiji:xnack+"], "", (ID, 0), (ID, 0)),
];

/// The examples of our own cards, each entry with an image of its own.
pub fn profile_cases() -> Vec<bundles::Case> {
    CARD_EXAMPLES.iter().map(|(ids, device, ..)| case(card_bundle(ids), device)).collect()
}

pub fn card_bundle(ids: &[&str]) -> Vec<u8> {
    bundle(&ids.iter().map(|id| (*id, &b"image"[..])).collect::<Vec<_>>())
}

/// Three entries. The table end is 192, where the first image lies, of 5 bytes; at 197 lie an empty one and one of 3 bytes.
pub fn three_entries() -> Vec<u8> {
    bundle(&[(HOST, b"12345"), (PLAIN, b""), (PLAIN_OPENMP, b"abc")])
}

/// A call with these device names, and as many slots.
pub fn ask(bundle: Vec<u8>, devices: &[&str]) -> each::Case {
    let devices: Vec<&[u8]> = devices.iter().map(|device| device.as_bytes()).collect();
    each::case_of(bundle, &devices)
}

/// A call with these parts of a buffer, and as many slots.
pub fn ask_parts(bundle: Vec<u8>, buffer: &str, parts: &[(u64, u64)]) -> each::Case {
    let names: Vec<Part> = parts.iter().map(|&(start, length)| Part { start, length }).collect();
    each::Case { bundle, buffer: buffer.as_bytes().to_vec(), slots: names.len(), names, ..each::Case::default() }
}

/// Names of every answer: entries 0 and 1, NONE, QUERY, and entry 1 again.
pub const EACH_ANSWER: &[&str] = &[HOST, PLAIN_V4, "openmp-amdgcn-amd-amdhsa-gfx90a", "gfx906", BOTH_STATED];

pub fn each_cases() -> Vec<each::Case> {
    let first_and_last = ["hip-a-b-c-e63", "hip-a-b-c-e0"];
    let plain = PLAIN.len() as u64;
    vec![
        ask(Vec::new(), &[PLAIN]),
        ask(bundle(&[]), &[]),
        ask(bundle(&[]), &[PLAIN]),
        ask(three_entries(), EACH_ANSWER),
        each::Case { slots: 7, ..ask(three_entries(), EACH_ANSWER) },
        each::Case { slots: 4, ..ask(three_entries(), EACH_ANSWER) },
        ask(three_entries(), &[PLAIN; 16]),
        ask(three_entries(), &[PLAIN; 17]),
        each::Case { slots: 0, ..ask(three_entries(), &[PLAIN; 17]) },
        ask(many(64), &first_and_last),
        ask(many(65), &first_and_last),
        ask(bundle(&[(PLAIN, b""), (XNACK_ON, b"")]), &[PLAIN; 17]),
        ask(lying(&[(0, 3), (2, 2)]), &first_and_last),
        ask_parts(three_entries(), PLAIN, &[(0, plain), (0, plain + 1), (1, plain), (plain, 0), (u64::MAX, 1)]),
        ask_parts(three_entries(), "", &[(0, 0), (0, 1), (1, 0), (1 << 63, 1 << 63)]),
    ]
}

/// Bundles that are accepted and refused: each of them is a patch before each, and is compared with each.
fn some_bundles() -> Vec<Vec<u8>> {
    vec![
        Vec::new(),
        bundle(&[]),
        bundle(&[(HOST_FORM, b"12345")]),
        bundle(&[(HOST, b"")]),
        bundle(&[(PLAIN, b"abc"), (HOST, b"other")]),
        bundle(&[(PLAIN_V4, b"")]),
        bundle(&[(XNACK_OFF, b"off"), (XNACK_ON_V4, b"on")]),
        bundle(&[(PLAIN, b""), (XNACK_ON, b"")]),
        bundle(&[(HOST, b""), (PLAIN, b""), (PLAIN_V4, b"")]),
        bundle(&[(HOST, b""), (NO_PROCESSOR, b"")]),
        lying(&[(0, 5), (4, 5)]),
        with_field(bundle(&[(PLAIN, b"123")]), 48, u64::MAX),
        at_the_length(1),
        many(64),
        many(65),
    ]
}

pub fn lookup_cases() -> Vec<lookup::Case> {
    let devices = [HOST, PLAIN, PLAIN_V4, XNACK_OFF, BOTH_STATED, "hip-a-b-c-e63", NO_PROCESSOR, ""];
    let mut cases = Vec::new();
    for patch in some_bundles() {
        for main in some_bundles() {
            let case = |device: &&str| lookup::case_of(patch.clone(), main.clone(), device.as_bytes());
            cases.extend(devices.iter().map(case));
        }
    }
    cases
}

/// The bundles of RULES B.27: one entry for the host, with these image bytes.
pub fn host(image: &[u8]) -> Vec<u8> {
    bundle(&[(HOST_FORM, image)])
}

/// The bundle of no entries, with so many bytes in all.
pub fn filled(length: usize) -> Vec<u8> {
    let mut bytes = bundle(&[]);
    bytes.resize(length, 0);
    bytes
}

pub fn differences_cases() -> Vec<differences::Case> {
    let mut bundles = some_bundles();
    bundles.extend([&[][..], &[1], &[1, 2], &[1, 2, 3], &[1, 2, 4]].map(host));
    bundles.extend([filled(COMPARE_LIMIT), filled(COMPARE_LIMIT + 1), bundle(&[(PLAIN, b"abc")]), three_entries()]);
    let mut cases = Vec::new();
    for left in &bundles {
        cases.extend(bundles.iter().map(|right| differences::case_of([left.clone(), right.clone()])));
    }
    cases
}

/// The kinds, flags and string pair of the binary with `arch`/`sm_70`; its strings and its image follow.
pub fn sm_70() -> Content {
    let pair = PairParts { key_start: 0, key_length: 4, text_start: 4, text_length: 5 };
    Content { image_kind: 3, offload_kind: 2, flags: 7, pairs: vec![pair] }
}
pub const SM_70_STRINGS: &[u8] = b"archsm_70";
pub const SM_70_IMAGE: &[u8] = b"img";

fn written(content: &Content, strings: &[u8], image: &[u8]) -> Vec<u8> {
    let mut out = vec![0; 200 + image.len()];
    let length = write_binary(content, strings, image, &mut out).length;
    out.truncate(length as usize);
    out
}

/// The binary of 72 bytes, without strings and image.
pub fn binary_of_72() -> Vec<u8> {
    written(&Content::default(), b"", b"")
}

/// The binary of 112 bytes, with `arch`/`sm_70`: its image of 3 bytes is at 104.
pub fn binary_of_112() -> Vec<u8> {
    written(&sm_70(), SM_70_STRINGS, SM_70_IMAGE)
}

/// A binary without strings: its image is at 72.
pub fn binary_around(image: &[u8]) -> Vec<u8> {
    written(&Content::default(), b"", image)
}

pub fn binaries_cases() -> Vec<binaries::Case> {
    let (empty, whole) = (binary_of_72(), binary_of_112());
    let containers = [Vec::new(), empty.clone(), whole.clone(), [whole, empty].concat()];
    containers.into_iter().map(|binaries| binaries::Case { binaries, zeros: 0 }).collect()
}

/// The binary with its first byte changed.
pub fn broken(mut binary: Vec<u8>) -> Vec<u8> {
    binary[0] ^= 1;
    binary
}

/// Sequences of which some binaries are found.
pub fn recover_cases() -> Vec<Vec<u8>> {
    let (small, whole) = (binary_of_72(), binary_of_112());
    let (outer, rubbish) = (binary_around(&whole), b"rubbish".to_vec());
    let mut sequences: Vec<Vec<u8>> = binaries_cases().into_iter().map(|case| case.binaries).collect();
    sequences.extend([
        rubbish.clone(),
        vec![0; 1 << 20],
        [&rubbish[..], &whole].concat(),
        [&whole[..], &rubbish].concat(),
        [&small[..], &rubbish, &whole].concat(),
        [&rubbish[..], &small, &rubbish, &whole, &rubbish].concat(),
        [&broken(whole.clone())[..], &small].concat(),
        [&outer[..], &small].concat(),
        [&broken(outer)[..], &small].concat(),
        whole[..111].to_vec(),
        small.repeat(64),
        [&small.repeat(64)[..], &rubbish].concat(),
        small.repeat(65),
    ]);
    sequences
}
