//! Containers as LLVM's tools write them.

use second::model::binary_writer::{write_binary, Content, PairParts};
use second::model::bundle::{check, packed};
use second::model::id::{canonical, meaning};
use second::model::{integer, MIXED, OK};
use second::samples::BINARIES;

/// The size of an image where nothing hangs on it.
pub const IMAGE: usize = 2048;

const KINDS: [&str; 3] = ["hip", "hipv4", "openmp"];
const PROCESSORS: [&str; 21] = [
    "gfx906", "gfx908", "gfx90a", "gfx940", "gfx941", "gfx942", "gfx900", "gfx902", "gfx904", "gfx909", "gfx90c",
    "gfx801", "gfx810", "gfx1010", "gfx1011", "gfx1012", "gfx1013", "gfx1030", "gfx1031", "gfx1032", "gfx1100",
];

/// The four settings of one processor after another, for one kind after another: `hipv4`, which is compared as `hip`, has other
/// processors than `hip`, and `openmp` has those of `hip`.
pub fn id(entry: usize) -> String {
    let (kind, processor) = (KINDS[entry / 24], PROCESSORS[entry / 4 % 12]);
    format!("{kind}-amdgcn-amd-amdhsa--{processor}{}", features(entry))
}

/// One of four settings after another.
fn features(entry: usize) -> &'static str {
    [":sramecc+:xnack+", ":sramecc+:xnack-", ":sramecc-:xnack+", ":sramecc-:xnack-"][entry % 4]
}

const GENERIC: [&str; 6] =
    ["gfx9-generic", "gfx9-4-generic", "gfx10-1-generic", "gfx10-3-generic", "gfx11-generic", "gfx12-generic"];

/// The four settings of one generic processor after another, for `hip`, `openmp` and `host`; every second ID is spelled without the empty
/// environment.
pub fn generic_id(entry: usize) -> String {
    let (kind, processor) = (["hip", "openmp", "host"][entry / 24], GENERIC[entry / 4 % 6]);
    let dashes = ["--", "-"][entry % 2];
    format!("{kind}-amdgcn-amd-amdhsa{dashes}{processor}{}", features(entry))
}

/// How many entries `host`, `hip` and `openmp` make for each of 21 processors.
pub const THREE_KINDS: usize = 63;

/// `host`, `hip` and `openmp` for one processor after another.
pub fn three_kinds_id(entry: usize) -> String {
    format!("{}-amdgcn-amd-amdhsa--{}", ["host", "hip", "openmp"][entry % 3], PROCESSORS[entry / 3])
}

/// A canonical ID of 256 bytes, the most that one may have; given a place, one that differs from it there first.
pub fn long_id(place: Option<usize>) -> Vec<u8> {
    let kind = if place == Some(0) { "openmp" } else { "hip" };
    let mut id = format!("{kind}-amdgcn-amd-amdhsa--gfx").into_bytes();
    id.resize(256, b'0');
    if let Some(place @ 1..) = place {
        id[place] += 1;
    }
    assert_eq!(meaning(&id).as_ref().map(canonical).as_ref(), Some(&id));
    id
}

/// One of the 64 bytes that a field may have, in rising order.
fn field_byte(k: usize) -> char {
    let in_field = |byte: &u8| byte.is_ascii_alphanumeric() || b"._".contains(byte);
    (b'.'..=b'z').filter(in_field).nth(k).expect("one of 64").into()
}

/// One of 128 canonical IDs of 256 bytes, in rising order. The first 64 agree up to the last byte, the others too.
pub fn longest_id(entry: usize) -> String {
    let mut id = String::from_utf8(long_id(None)).expect("ASCII");
    id.truncate(254);
    id.extend([field_byte(1 + entry / 64), field_byte(entry % 64)]);
    id
}

/// One of 128 IDs of 9 bytes, the fewest that one can have, in rising order.
pub fn shortest_id(entry: usize) -> String {
    format!("hip-a-{}-{}", field_byte(entry / 64), field_byte(entry % 64))
}

/// One of 128 IDs of 252 bytes with eight features, in rising order. They differ in signs alone. Names agree up to the last byte, and fall.
pub fn eight_features_id(entry: usize) -> String {
    let feature = |k: usize| {
        format!(":{}{}{}", "x".repeat(27), ["h", "g", "f", "e", "d", "c", "b", "a"][k], ["+", "-"][entry >> k & 1])
    };
    (0..8).map(feature).fold("hip-a-a-a--p".to_string(), |id, feature| id + &feature)
}

/// IDs that the profile for AMD's GPUs accepts: the four settings of each processor that supports both features, as `hip` and as `openmp`, then
/// the two of processors that support `xnack` alone.
pub fn profile_id(entry: usize) -> String {
    let (kind, processor, features) = if entry < 48 {
        (["hip", "openmp"][entry / 24], PROCESSORS[entry / 4 % 6], features(entry))
    } else {
        ("hip", PROCESSORS[6 + (entry - 48) / 2], [":xnack+", ":xnack-"][entry % 2])
    };
    format!("{kind}-amdgcn-amd-amdhsa--{processor}{features}")
}

/// Processors whose rows stand late in the profile's table, which support neither feature, for `hip` and `openmp`, in two environments.
pub fn late_row_id(entry: usize) -> String {
    let (kind, environment) = (["hip", "openmp"][entry / 16 % 2], ["", "a"][entry / 32]);
    format!("{kind}-amdgcn-amd-amdhsa-{environment}-{}", LATE[entry % 16])
}

/// The longest name of the profile's table, with both settings, in one environment after another.
pub fn longest_name_id(entry: usize) -> String {
    format!("hip-amdgcn-amd-amdhsa-e{:02}-gfx10-1-generic:xnack{}", entry / 2, ["+", "-"][entry % 2])
}

const LATE: [&str; 16] = [
    "gfx1030", "gfx1031", "gfx1032", "gfx1033", "gfx1034", "gfx1035", "gfx1036", "gfx1100", "gfx1101", "gfx1102",
    "gfx1103", "gfx1150", "gfx1151", "gfx1152", "gfx1200", "gfx1201",
];

const ALTERNATIVE: [&str; 12] = [
    "tahiti", "pitcairn", "hainan", "kaveri", "hawaii", "kabini", "bonaire", "carrizo", "iceland", "fiji", "tongapro",
    "stoney",
];

/// An alternative name of one processor after another, for `hip` and `openmp`, in one environment after another.
pub fn alternative_name_id(entry: usize) -> String {
    let (kind, environment) = (["hip", "openmp"][entry / 12 % 2], ["", "a", "b"][entry / 24]);
    format!("{kind}-amdgcn-amd-amdhsa-{environment}-{}", ALTERNATIVE[entry % 12])
}

/// The IDs of `profile_id` with an arch that is none of the profile's.
pub fn other_arch_id(entry: usize) -> String {
    profile_id(entry).replace("amdgcn", "amdgpu")
}

/// The IDs of `profile_id`, with a processor at this entry that the profile does not know.
pub fn unknown_at(unknown: usize) -> impl Fn(usize) -> String {
    move |entry| if entry == unknown { "hip-amdgcn-amd-amdhsa--gfx907".to_string() } else { profile_id(entry) }
}

/// A bundle of so many entries with these IDs, each with an image of this size.
pub fn bundle_of(id: impl Fn(usize) -> String, entries: usize, image: usize) -> Vec<u8> {
    accepted((0..entries).map(id), image)
}

/// A bundle of so many entries, each with an image of this size.
pub fn bundle(entries: usize, image: usize) -> Vec<u8> {
    accepted((0..entries).map(id), image)
}

/// The same bundle with its entries in falling order of their IDs, which takes most comparisons to sort.
pub fn falling(entries: usize, image: usize) -> Vec<u8> {
    let mut ids: Vec<String> = (0..entries).map(id).collect();
    ids.sort_by(|a, b| b.cmp(a));
    accepted(ids.into_iter(), image)
}

/// Where the rows of a bundle's table start.
fn rows(bundle: &[u8]) -> Vec<usize> {
    let mut rows = vec![32];
    for k in 1..integer(bundle, 24, 8) as usize {
        rows.push(rows[k - 1] + 24 + integer(bundle, rows[k - 1] + 16, 8) as usize);
    }
    rows
}

/// The bundle with its images, which have one size, in other places: that of entry k is where that of entry `place(k)` was.
pub fn with_places(mut bundle: Vec<u8>, place: impl Fn(usize) -> usize) -> Vec<u8> {
    let rows = rows(&bundle);
    let offsets: Vec<u64> = rows.iter().map(|row| integer(&bundle, *row, 8)).collect();
    for (k, row) in rows.iter().enumerate() {
        bundle[*row..row + 8].copy_from_slice(&offsets[place(k)].to_le_bytes());
    }
    assert_eq!(check(&bundle).number, OK);
    bundle
}

/// A bundle of this length, of so many entries with these IDs that share one image: all that follows the table.
pub fn sharing(id: impl Fn(usize) -> String, entries: usize, length: usize) -> Vec<u8> {
    let image = length - bundle_of(&id, entries, 0).len();
    let mut bundle = with_places(bundle_of(id, entries, image), |_| 0);
    bundle.truncate(length);
    bundle
}

/// The bundle with another last byte in each image; none is empty.
pub fn with_other_last_bytes(bundle: &[u8]) -> Vec<u8> {
    let mut other = bundle.to_vec();
    for row in rows(bundle) {
        let end = integer(bundle, row, 8) + integer(bundle, row + 8, 8);
        let last = end as usize - 1;
        other[last] = !bundle[last];
    }
    other
}

/// A bundle of so many entries with generic processors, each with an image of this size.
pub fn generic(entries: usize, image: usize) -> Vec<u8> {
    accepted((0..entries).map(generic_id), image)
}

/// The bundle of all entries of three kinds, each with an image of this size.
pub fn three_kinds(image: usize) -> Vec<u8> {
    accepted((0..THREE_KINDS).map(three_kinds_id), image)
}

/// A bundle of so many entries, of which this is the last.
pub fn ending_with(last: usize, entries: usize, image: usize) -> Vec<u8> {
    accepted((last + 1 - entries..=last).map(id), image)
}

/// The same, but the last entry states no feature, while those before it of the same processor do: MIXED, which is tried last.
pub fn mixed_at(last: usize, entries: usize, image: usize) -> Vec<u8> {
    let bare = id(last).replace(features(last), "");
    answered(MIXED, (last + 1 - entries..last).map(id).chain([bare]), image)
}

fn accepted(ids: impl Iterator<Item = String>, image: usize) -> Vec<u8> {
    answered(OK, ids, image)
}

/// A bundle that a check answers with this number.
fn answered(number: u64, ids: impl Iterator<Item = String>, image: usize) -> Vec<u8> {
    let image = image_of(image);
    let bundle = packed(&ids.map(|id| (id.into_bytes(), image.as_slice())).collect::<Vec<_>>());
    assert_eq!(check(&bundle).number, number);
    bundle
}

fn image_of(size: usize) -> Vec<u8> {
    (0..size).map(|k| (k * 37 % 251) as u8).collect()
}

/// So many offload binaries: one of LLVM's packager, again and again. It has two string pairs.
pub fn binaries(count: usize) -> Vec<u8> {
    BINARIES[0].bytes.repeat(count)
}

/// So many offload binaries with two string pairs each, and an image of this size.
pub fn sequence(count: usize, image: usize) -> Vec<u8> {
    let pair = |[key_start, key_length, text_start, text_length]: [u64; 4]| PairParts {
        key_start,
        key_length,
        text_start,
        text_length,
    };
    let pairs = [[0, 6, 6, 17], [23, 4, 27, 6]].map(pair).to_vec();
    let content = Content { image_kind: 1, offload_kind: 3, flags: 0, pairs };
    let mut binary = vec![0; image + 256];
    let written = write_binary(&content, b"tripleamdgcn-amd-amdhsaarchgfx906", &image_of(image), &mut binary);
    assert_eq!(written.number, OK);
    binary.truncate(written.length as usize);
    binary.repeat(count)
}

/// The sequence of so many binaries, all of one size, with a byte of every other header broken: in turn one of the eight of magic and version.
pub fn broken_headers(mut sequence: Vec<u8>, count: usize) -> Vec<u8> {
    let size = sequence.len() / count;
    for broken in (0..count).step_by(2) {
        sequence[size * broken + broken / 2 % 8] ^= 0xFF;
    }
    sequence
}
