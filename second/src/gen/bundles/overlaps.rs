//! 21, and images beside others that are accepted.

use super::*;
use crate::gen::images::{Order, Relation, ORDERS};

pub fn aims() -> Vec<BundleAim> {
    let mut aims = Vec::new();
    aims.extend(images::relations().into_iter().map(two_images));
    aims.extend(POSITIONS.iter().map(two_of_many));
    aims.extend(ORDERS.iter().flat_map(all_in_order));
    aims.extend(many_images_aims());
    aims.extend(limit_aims());
    aims.extend(other_number_aims());
    aims
}

impl Draft {
    /// Another bundle, whose images lie so.
    fn remake_with(&mut self, random: &mut Random, spans: &[Span]) {
        self.remake(random, spans.len());
        self.body = random.bytes(images::end_of(spans));
        self.rows.iter_mut().zip(spans).for_each(|(row, span)| row.set_span(*span));
    }

    /// Each image lies anywhere, whatever else lies there.
    pub fn scatter_images(&mut self, random: &mut Random) {
        for row in &mut self.rows {
            row.set_span(images::anywhere(random, self.body.len()));
        }
    }

    /// So many rows, in any order.
    fn some_rows<const N: usize>(&mut self, random: &mut Random) -> [usize; N] {
        if self.rows.len() < N {
            let count = random.between(N, N + 4);
            self.remake(random, count);
        }
        let mut rows: Vec<usize> = (0..self.rows.len()).collect();
        random.shuffle(&mut rows);
        [(); N].map(|_| rows.pop().expect("as many rows"))
    }

    /// Puts in so many bytes, before some image or after all. Where they begin, from the table end on.
    fn put_bytes(&mut self, random: &mut Random, count: usize) -> u64 {
        let image_start = |row: &Row| match row.offset {
            Offset::AfterTable(start) if row.size > 0 => Some(start),
            _ => None,
        };
        let mut places: Vec<u64> = self.rows.iter().filter_map(image_start).collect();
        places.push(self.body.len() as u64);
        let place = *random.choose(&places);
        self.body.splice(place as usize..place as usize, random.bytes(count));
        for row in &mut self.rows {
            if matches!(row.offset, Offset::AfterTable(start) if start >= place) {
                row.offset = row.offset.later(count as u64);
            }
        }
        place
    }

    /// The images of these rows lie so to each other, and apart from all others.
    fn put_images(&mut self, random: &mut Random, rows: &[usize], spans: &[Span]) {
        let place = self.put_bytes(random, images::end_of(spans));
        for (row, span) in rows.iter().zip(spans) {
            self.rows[*row].set_span(Span { start: place + span.start, size: span.size });
        }
    }

    /// An image of so many bytes of its own.
    pub(in crate::gen) fn put_image(&mut self, random: &mut Random, row: usize, size: u64) {
        self.put_images(random, &[row], &[Span { start: 0, size }]);
    }

    /// An image of its own, with these bytes.
    pub(in crate::gen) fn put_image_of(&mut self, random: &mut Random, row: usize, image: &[u8]) {
        self.put_image(random, row, image.len() as u64);
        let start = (self.rows[row].offset.of(self.table_end()) - self.table_end()) as usize;
        self.body[start..start + image.len()].copy_from_slice(image);
    }

    /// The images of two rows overlap.
    pub(in crate::gen) fn put_overlap(&mut self, random: &mut Random, rows: [usize; 2]) {
        let spans = images::overlapping(random);
        self.put_images(random, &rows, &spans);
    }

    /// The images of some two rows overlap.
    pub(super) fn put_some_overlap(&mut self, random: &mut Random) {
        let rows = self.some_rows(random);
        self.put_overlap(random, rows);
    }
}

/// A later image lies so to an earlier one.
fn two_images(relation: Relation) -> BundleAim {
    let name = format!("image beside an earlier one: {}", relation.name);
    Aim::new("check", relation.number, &name, move |draft: &mut Draft, random| {
        let mut rows: [usize; 2] = draft.some_rows(random);
        rows.sort_unstable();
        let spans = relation.spans(random);
        draft.put_images(random, &rows, &spans);
    })
}

/// Two of so many rows.
type Position = fn(usize, &mut Random) -> [usize; 2];

const POSITIONS: &[(&str, Position)] = &[
    ("the first two", |_, _| [0, 1]),
    ("the last two", |count, _| [count - 2, count - 1]),
    ("the first and the last", |count, _| [0, count - 1]),
    ("others between them", |count, random| {
        let first = random.below(count - 2);
        [first, random.between(first + 2, count - 1)]
    }),
];

/// Only these two of many images overlap.
fn two_of_many(&(name, position): &(&str, Position)) -> BundleAim {
    Aim::new("check", OVERLAP, &format!("two of many overlap: {name}"), move |draft: &mut Draft, random| {
        let count = random.between(5, 20);
        let spans = some_apart(random, count);
        draft.remake_with(random, &spans);
        let rows = position(count, random);
        draft.put_overlap(random, rows);
    })
}

/// So many images that lie apart, in some order.
fn some_apart(random: &mut Random, count: usize) -> Vec<Span> {
    let mut spans = images::apart(random, count);
    let (_, order) = random.choose(ORDERS);
    order(&mut spans, random);
    spans
}

/// Images in this order, apart, and one byte of two neighbours in common.
fn all_in_order(&(name, order): &(&str, Order)) -> [BundleAim; 2] {
    let aim = move |number: u64, name: String| {
        Aim::new("check", number, &name, move |draft: &mut Draft, random| {
            let count = random.between(2, 16);
            let mut spans = images::apart(random, count);
            if number == OVERLAP {
                images::reach_into_next(&mut spans, random);
            }
            order(&mut spans, random);
            draft.remake_with(random, &spans);
        })
    };
    [aim(OK, format!("images apart, {name}")), aim(OVERLAP, format!("images with a byte in common, {name}"))]
}

fn many_images_aims() -> Vec<BundleAim> {
    vec![
        check(OVERLAP, "three images over each other", |draft, random| {
            let rows: [usize; 3] = draft.some_rows(random);
            let ([one, other], [third, _]) = (images::overlapping(random), images::overlapping(random));
            draft.put_images(random, &rows, &[one, other, third]);
        }),
        check(OVERLAP, "two pairs overlap", |draft, random| {
            let [a, b, c, d] = draft.some_rows(random);
            draft.put_overlap(random, [a, b]);
            draft.put_overlap(random, [c, d]);
        }),
        check(OVERLAP, "one image around all others", |draft, random| {
            let count = random.between(2, 12);
            let mut spans = some_apart(random, count);
            let at = random.below(count);
            spans[at] = Span { start: 0, size: images::end_of(&spans) as u64 };
            draft.remake_with(random, &spans);
        }),
        check(OVERLAP, "images anywhere", |draft, random| {
            let count = random.between(2, 8);
            draft.remake(random, count);
            draft.scatter_images(random);
        }),
        check(OVERLAP, "images anywhere in a few bytes", |draft, random| {
            let (count, length) = (random.between(2, 6), random.between(2, 7));
            draft.remake(random, count);
            draft.body = random.bytes(length);
            draft.scatter_images(random);
        }),
        check(OK, "64 images apart", |draft, random| {
            let spans = some_apart(random, 64);
            draft.remake_with(random, &spans);
        })
        .large(),
        check(OVERLAP, "64 images, the last overlaps another", |draft, random| {
            let spans = some_apart(random, 64);
            draft.remake_with(random, &spans);
            let other = if random.one_in(2) { 62 } else { random.below(63) };
            draft.put_overlap(random, [other, 63]);
        })
        .large(),
    ]
}

fn limit_aims() -> Vec<BundleAim> {
    vec![
        check(OK, "container of the size limit, images touch before its last byte", |draft, random| {
            two_at_limit(draft, random, |_, start, end| [Span::from_to(start, end - 1), Span::from_to(end - 1, end)])
        }),
        check(OVERLAP, "container of the size limit, its last byte in common", |draft, random| {
            two_at_limit(draft, random, |_, start, end| [Span::from_to(start, end), Span::from_to(end - 1, end)])
        }),
        normalise(OVERLAP, "overlap, normal form above the size limit", |draft, random| {
            two_at_limit(draft, random, |start, _, end| [Span::from_to(start, end), Span::from_to(start, end / 2)])
        }),
    ]
}

/// Two images in a container of the size limit, from its table end, some place before the last byte, and its length.
fn two_at_limit(draft: &mut Draft, random: &mut Random, images: fn(u64, u64, u64) -> [Span; 2]) {
    let rows: [usize; 2] = draft.some_rows(random);
    draft.drop_images();
    fill_to(draft, LIMIT);
    let start = draft.table_end();
    let place = random.between(start as usize, LIMIT - 2) as u64;
    for (row, image) in rows.into_iter().zip(images(start, place, LIMIT as u64)) {
        draft.rows[row].set_image(image.start, image.size);
    }
}

/// An overlap, and another number that comes before it or after it.
fn other_number_aims() -> Vec<BundleAim> {
    let mut aims = vec![
        check(ID, "overlap, and a broken ID", |draft, random| {
            draft.put_some_overlap(random);
            let at = draft.some_row(random);
            draft.rows[at].set_id(ids::some_broken(random));
        }),
        check(RANGE, "overlap, and another image out of range", |draft, random| {
            let [a, b, c] = draft.some_rows(random);
            draft.put_overlap(random, [a, b]);
            let length = draft.length();
            draft.rows[c].set_image(length, 1);
        }),
        check(RANGE, "overlap past the length", |draft, random| {
            let rows = draft.some_rows(random);
            draft.put_overlap(random, rows);
            let (at, table_end, length) = (rows[0], draft.table_end(), draft.length());
            let offset = draft.rows[at].offset.of(table_end);
            draft.rows[at].set_image(offset, length - offset + 1);
        }),
        pick(OVERLAP, "overlap, and a broken device name", |draft, random| {
            draft.put_some_overlap(random);
            draft.device = ids::some_broken(random);
        }),
        entry(OVERLAP, "overlap, and an index above the count", |draft, random| {
            draft.put_some_overlap(random);
            draft.index = draft.count.saturating_add(random.below(3) as u64);
        }),
        normalise(OVERLAP, "overlap, and no room", |draft, random| {
            draft.put_some_overlap(random);
            draft.room = Room::Nothing;
        }),
    ];
    aims.extend([TWICE, MIXED].map(and_refused_together));
    aims
}

/// An overlap in a bundle with two entries that are refused by this number too.
fn and_refused_together(number: u64) -> BundleAim {
    let pairs: Vec<Pair> = pairs::entries().into_iter().filter(|pair| pair.number == number).collect();
    Aim::new("check", OVERLAP, &format!("overlap, and number {number}"), move |draft: &mut Draft, random| {
        let pair = (random.choose(&pairs).make)(random);
        draft.put_pair(random, pair);
        draft.put_some_overlap(random);
    })
}
