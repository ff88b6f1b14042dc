//! The report on two bundles, beside a check of each, and beside both normal forms and their comparison.

use crate::clock::{black_box, job, time, Timed, Whose};
use crate::sample;
use crate::table::{self, digits, Table};
use crate::{baseline, library};
use second::gen::lookup as gen;
use second::gen::random::Random;
use std::cell::RefCell;

/// A comparison of 64 entries with 64 takes at most this many times as long as two checks and a copy of the report,
const OF_CHECKS: f64 = 3.0;

/// and one of any number of entries as both normal forms and their comparison.
const OF_NORMAL_FORMS: f64 = 1.5;

/// A hostile pair takes at most this many nanoseconds for each byte of the two bundles: 1 ns for each of 30 KiB in 64 comparisons would be 30.
const EACH_BYTE: f64 = 12.0;

/// As long as a bundle can be that is compared,
const LENGTH: usize = 32_768;

/// and a report.
const ROOM: usize = 33_168;

/// Always enough for a normal form.
const NORMAL_ROOM: usize = 64 * (LENGTH + 2);

/// The sizes of images where all fit in with IDs of ordinary length, and with IDs of 256 bytes.
const IMAGE: usize = 400;
const IMAGE_OF_LONG: usize = 200;

/// Two bundles, and the last line of the report on them.
struct Pair {
    ids: &'static str,
    name: &'static str,
    left: Vec<u8>,
    right: Vec<u8>,
    last_line: String,
}

impl Pair {
    fn new(ids: &'static str, name: &'static str, left: &[u8], right: Vec<u8>, last_line: String) -> Pair {
        Pair { ids, name, left: left.to_vec(), right, last_line }
    }

    fn entries(&self) -> u64 {
        baseline::check(&self.left).count
    }

    /// The report, after asserting that the library gives it as the plain C does.
    fn report(&self) -> Vec<u8> {
        let report = compared(&self.left, &self.right);
        let Pair { ids, name, last_line, .. } = self;
        assert!(report.ends_with(last_line.as_bytes()), "{ids}, {name}: the report does not end with {last_line:?}");
        report
    }
}

/// Bundles with the same entries; with another last byte in each image; with no ID in common, where the right has as many entries.
fn three_pairs(ids: &'static str, [left, right]: [Vec<u8>; 2]) -> [Pair; 3] {
    let entries = baseline::check(&left).count;
    let pair = |name, right, differences| Pair::new(ids, name, &left, right, format!("differences {differences}\n"));
    [
        pair("equal", left.clone(), 0),
        pair("last bytes differ", sample::with_other_last_bytes(&left), entries),
        pair("disjoint", right, 2 * entries),
    ]
}

fn ordinary_pairs(entries: usize) -> [Pair; 3] {
    let right = sample::bundle_of(sample::other_arch_id, entries, IMAGE);
    three_pairs("ordinary", [sample::bundle(entries, IMAGE), right])
}

/// The same entries in falling order of their IDs; and a bundle that is refused by its last entry.
fn other_pairs() -> [Pair; 2] {
    let pair =
        |name, right, last: &str| Pair::new("ordinary", name, &sample::bundle(64, IMAGE), right, last.to_string());
    [
        pair("equal, right in falling order", sample::falling(64, IMAGE), "differences 0\n"),
        pair("right is refused", sample::mixed_at(67, 64, IMAGE), "refused right 8\n"),
    ]
}

/// The first 64 IDs are those of the left.
fn long_pairs() -> [Pair; 3] {
    let bundle = |first| sample::bundle_of(|k| sample::longest_id(first + k), 64, IMAGE_OF_LONG);
    three_pairs("256 bytes", [0, 64].map(bundle))
}

/// One of 128 IDs, in rising order.
type Id = fn(usize) -> String;

const HOSTILE: &[(&str, Id)] = &[
    ("9 bytes", sample::shortest_id),
    ("256 bytes", sample::longest_id),
    ("252 bytes, eight features", sample::eight_features_id),
];

/// As long as they can be, with one image for all entries of a bundle. IDs of the left and of the right take turns, and stand in falling order.
fn hostile_pairs(ids: &'static str, id: Id) -> [Pair; 3] {
    three_pairs(ids, [126, 127].map(|last| sample::sharing(|k| id(last - 2 * k), 64, LENGTH)))
}

/// The plain C's report, after asserting that the library gives it, and leaves the same in an output with room, with just enough and with too little.
fn compared(left: &[u8], right: &[u8]) -> Vec<u8> {
    let (length, mut report) = lent(baseline::report, left, right, ROOM);
    for room in [ROOM, length, length - 1] {
        let (library, plain) = (lent(library::report, left, right, room), lent(baseline::report, left, right, room));
        assert!(library == plain, "the library differs from the plain C, with {room} bytes of output");
    }
    report.truncate(length);
    report
}

/// What a call returns, and the output lent to it, which was filled with a byte that no report has.
fn lent(call: fn(&[u8], &[u8], &mut [u8]) -> u64, left: &[u8], right: &[u8], room: usize) -> (usize, Vec<u8>) {
    let mut out = vec![0xA5; room];
    (call(left, right, &mut out) as usize, out)
}

/// Compares what is not timed too: generated and real bundles, some of them damaged, and bundles above the limit.
fn compare(cases: u64) {
    for case in 0..cases {
        let random = &mut Random::of_case(1, case);
        let mut pair = if random.one_in(4) { gen::sample_case(random) } else { gen::some_draft(random).case() };
        if random.one_in(4) {
            gen::shake(&mut pair, random);
        }
        compared(&pair.patch, &pair.main);
    }
    let [longest, longer] = [LENGTH, LENGTH + 1].map(|length| sample::sharing(sample::shortest_id, 64, length));
    assert_eq!(compared(&longer, &longer), b"refused left 1\n");
    assert_eq!(compared(&longest, &longer), b"refused right 1\n");
}

/// The comparison; two checks and a copy of the report; both normal forms and their comparison; the comparison in plain C.
fn measured(Pair { left, right, .. }: &Pair, report: &[u8]) -> Vec<Timed> {
    let (out, forms) = (&RefCell::new(vec![0; ROOM]), &RefCell::new([(); 2].map(|_| vec![0; NORMAL_ROOM])));
    let one = job(|| library::report(black_box(left), right, &mut out.borrow_mut()));
    let checks = job(|| {
        black_box(&mut out.borrow_mut()[..report.len()]).copy_from_slice(black_box(report));
        [left, right].map(|bundle| library::check(black_box(bundle)))
    });
    let normal_forms = job(|| {
        let [one, other] = &mut *forms.borrow_mut();
        let lengths = [library::normalise(black_box(left), one), library::normalise(black_box(right), other)];
        one[..lengths[0] as usize] == other[..lengths[1] as usize]
    });
    let plain = job(|| baseline::report(black_box(left), right, &mut out.borrow_mut()));
    time(Whose::Thread, vec![one, checks, normal_forms, plain])
}

/// Prints the tables, and fails where a comparison takes too long.
pub fn jobs() {
    compare(2000);
    let [of_checks, of_normal_forms] = usual();
    let each = hostile();
    assert!(
        of_checks <= OF_CHECKS,
        "a comparison takes {of_checks:.2} times as long as two checks and a copy of the report, above {OF_CHECKS}"
    );
    assert!(
        of_normal_forms <= OF_NORMAL_FORMS,
        "a comparison takes {of_normal_forms:.2} times as long as two normal forms, above {OF_NORMAL_FORMS}"
    );
    assert!(each <= EACH_BYTE, "a hostile pair takes {each:.2} ns for each byte, above {EACH_BYTE}");
}

/// How many times as long as two checks and a copy of the report a comparison of 64 entries takes at most, and as two normal forms one of any number.
fn usual() -> [f64; 2] {
    let table = Table::new(
        "Comparing two bundles",
        &format!(
            "Time of one comparison of two bundles, of at most 32 KiB, with as many entries each; beside that of a check of each and a memcpy of the\n\
             report, and of both normal forms and a memcmp of them, which tell no more than whether the bundles are equal. Images of {IMAGE} bytes, with\n\
             IDs of 256 bytes of {IMAGE_OF_LONG}; those IDs agree up to the last byte, and disjoint ones up to the last but one. Refused: MIXED, by the last\n\
             entry. Limits: {OF_CHECKS:.2} times two checks and a copy with 64 entries, {OF_NORMAL_FORMS:.2} times two normal forms with any number."
        ),
        &[
            "IDs",
            "Bundles",
            "Entries of each",
            "Report, bytes",
            "One comparison",
            "Two checks and a copy",
            "One comparison / two checks and a copy",
            "Two normal forms",
            "One comparison / two normal forms",
            "Plain C",
            "Library / plain C",
        ],
    );
    let pairs = [1, 8, 64].into_iter().flat_map(ordinary_pairs).chain(other_pairs()).chain(long_pairs());
    let mut most = [0.0; 2];
    for pair in pairs {
        let [of_checks, of_normal_forms] = usual_row(&table, &pair);
        let limited = if pair.entries() == 64 { of_checks } else { 0.0 };
        most = [limited.max(most[0]), of_normal_forms.max(most[1])];
    }
    table.end();
    most
}

/// How many times as long as two checks and a copy of the report the comparison takes, and as two normal forms.
fn usual_row(table: &Table, pair: &Pair) -> [f64; 2] {
    let report = pair.report();
    let timed = measured(pair, &report);
    let [of_checks, of_normal_forms, of_plain] = [1, 2, 3].map(|other| 1.0 / timed[other].of_first);
    let [one, checks, normal_forms, plain] = [0, 1, 2, 3].map(|job| table::time(timed[job].time));
    table.row(&[
        pair.ids.to_string(),
        pair.name.to_string(),
        pair.entries().to_string(),
        report.len().to_string(),
        one,
        checks,
        digits(of_checks),
        normal_forms,
        digits(of_normal_forms),
        plain,
        digits(of_plain),
    ]);
    [of_checks, of_normal_forms]
}

/// How many nanoseconds each byte of a hostile pair takes at most.
fn hostile() -> f64 {
    let table = Table::new(
        "Comparing two bundles: hostile ones",
        &format!(
            "Time of one comparison of two bundles of 32 KiB with 64 entries each, in falling order of their IDs. In each bundle all entries share one\n\
             image, which is compared for each ID that both have. IDs of 256 bytes agree up to the last two. Eight features: all IDs have the same, in\n\
             falling order of their names, which agree up to the last byte, and differ in signs. Disjoint: IDs of the left and of the right take turns.\n\
             Limit: {EACH_BYTE:.1} ns for each byte of both bundles."
        ),
        &[
            "IDs",
            "Bundles",
            "Image, bytes",
            "Bytes compared",
            "Report, bytes",
            "One comparison",
            "For each byte of both",
            "For each byte compared",
            "Two checks and a copy",
            "Two normal forms",
            "Plain C",
            "For each byte compared",
            "Library / plain C",
        ],
    );
    let mut most: f64 = 0.0;
    for (ids, id) in HOSTILE {
        for (pair, times) in hostile_pairs(ids, *id).iter().zip([64, 64, 0]) {
            most = most.max(hostile_row(&table, pair, times));
        }
    }
    table.end();
    most
}

/// How many nanoseconds each byte of both bundles takes. The image is compared so many times.
fn hostile_row(table: &Table, pair: &Pair, times: u64) -> f64 {
    let report = pair.report();
    let timed = measured(pair, &report);
    let [one, checks, normal_forms, plain] = [0, 1, 2, 3].map(|job: usize| timed[job].time);
    let image = baseline::entry(&pair.left, 0).size;
    let of_both = one / (pair.left.len() + pair.right.len()) as f64;
    let of_compared = |time: f64| if times == 0 { String::new() } else { table::time(time / (times * image) as f64) };
    table.row(&[
        pair.ids.to_string(),
        pair.name.to_string(),
        image.to_string(),
        (times * image).to_string(),
        report.len().to_string(),
        table::time(one),
        table::time(of_both),
        of_compared(one),
        table::time(checks),
        table::time(normal_forms),
        table::time(plain),
        of_compared(plain),
        digits(1.0 / timed[3].of_first),
    ]);
    of_both
}
