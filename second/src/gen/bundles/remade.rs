//! Bundles of given entries, and the same entries once more: in another order, spelled otherwise, with their images elsewhere.

use super::*;
use std::collections::BTreeMap;

impl Draft {
    /// A bundle of these entries in this order, with images of their own.
    pub(in crate::gen) fn of(random: &mut Random, entries: &[(Meaning, Vec<u8>)]) -> Draft {
        let mut bundle = Draft::good(Reading::General, random, 0);
        for (meaning, _) in entries {
            bundle.rows.push(Row::new(Reading::General, random, meaning.clone(), Span { start: 0, size: 0 }));
        }
        bundle.count = entries.len() as u64;
        let images: Vec<Vec<u8>> = entries.iter().map(|(_, image)| image.clone()).collect();
        bundle.lay_images(random, &images, Lay::Apart(0));
        bundle
    }

    /// The bytes of each image; none where it lies outside of what follows the table.
    pub(in crate::gen) fn images(&self) -> Vec<Vec<u8>> {
        let table_end = self.table_end();
        let image = |row: &Row| {
            let start = row.offset.of(table_end).checked_sub(table_end)?;
            part(&self.body, start, row.size).map(<[u8]>::to_vec)
        };
        self.rows.iter().map(|row| image(row).unwrap_or_default()).collect()
    }

    /// These images for the rows, laid anew.
    pub(in crate::gen) fn lay_images(&mut self, random: &mut Random, images: &[Vec<u8>], lay: Lay) {
        let together = lay == Lay::Together || images.iter().map(Vec::len).sum::<usize>() > MOST_APART;
        let mut placed: BTreeMap<&[u8], Span> = BTreeMap::new();
        self.body.clear();
        for (row, image) in self.rows.iter_mut().zip(images) {
            let earlier = placed.get(&image[..]).copied().filter(|_| together);
            let span = earlier.unwrap_or_else(|| put_last(&mut self.body, random, image, lay));
            placed.insert(image, span);
            row.set_span(span);
        }
    }

    /// The images as they are, laid anew.
    fn lay(&mut self, random: &mut Random, lay: Lay) {
        let images = self.images();
        self.lay_images(random, &images, lay);
    }

    pub(in crate::gen) fn move_images_back(&mut self, random: &mut Random) {
        let count = random.between(1, 9);
        self.body.splice(..0, random.bytes(count));
        self.rows.iter_mut().for_each(|row| row.offset = row.offset.later(count as u64));
    }

    /// The rows in the order of their canonical IDs.
    fn sort(&mut self) {
        self.rows.sort_by_key(|row| canonical(&row.meaning));
    }

    /// The same entries, after some of the remakings.
    pub(in crate::gen) fn remake_some(&mut self, random: &mut Random) {
        for (_, remaking) in REMAKINGS {
            if random.one_in(3) {
                remaking(self, random);
            }
        }
    }
}

/// How images lie.
#[derive(Clone, Copy, Debug, PartialEq, Eq)]
pub(in crate::gen) enum Lay {
    /// One after another, with gaps up to a size.
    Apart(usize),
    /// Equal ones in one place.
    Together,
}

/// Images that are longer than this in all lie together: a bundle that is compared has 32 KiB at most.
const MOST_APART: usize = 12_000;

/// An image behind all others, and where it lies.
fn put_last(body: &mut Vec<u8>, random: &mut Random, image: &[u8], lay: Lay) -> Span {
    if let Lay::Apart(most) = lay {
        let gap = random.between(0, most);
        body.extend(random.bytes(gap));
    }
    let start = body.len() as u64;
    body.extend(image);
    Span { start, size: image.len() as u64 }
}

/// What makes another bundle of the same entries.
pub type Remaking = fn(&mut Draft, &mut Random);

pub const REMAKINGS: &[(&str, Remaking)] = &[
    ("as they are", |_, _| {}),
    ("spelled otherwise", Draft::respell),
    ("with images one after another", |bundle, random| bundle.lay(random, Lay::Apart(0))),
    ("with gaps between images", |bundle, random| bundle.lay(random, Lay::Apart(9))),
    ("with equal images in one place", |bundle, random| bundle.lay(random, Lay::Together)),
    ("with images further back", Draft::move_images_back),
    ("with images in falling order", |bundle, random| {
        bundle.rows.reverse();
        bundle.lay(random, Lay::Apart(0));
        bundle.rows.reverse();
    }),
    ("with more bytes behind the images", |bundle, random| {
        let count = random.between(1, 40);
        bundle.body.extend(random.bytes(count));
    }),
    ("in another order", |bundle, random| random.shuffle(&mut bundle.rows)),
    ("in rising order", |bundle, _| bundle.sort()),
    ("in falling order", |bundle, _| {
        bundle.sort();
        bundle.rows.reverse();
    }),
    ("in normal form", |bundle, random| {
        bundle.sort();
        bundle.rows.iter_mut().for_each(|row| row.set_id(canonical(&row.meaning)));
        bundle.lay(random, Lay::Apart(0));
    }),
];

#[cfg(test)]
mod tests {
    use super::*;
    use crate::model::bundle::{entries, normalise};

    fn normal_form(bundle: &Draft) -> Vec<u8> {
        let mut out = vec![0; 1 << 20];
        let written = normalise(&bundle.bytes(), &mut out);
        assert_eq!(written.number, OK);
        out.truncate(written.length as usize);
        out
    }

    #[test]
    fn remakings_leave_the_entries() {
        let mut random = Random::of_case(1, 14);
        for (name, remaking) in REMAKINGS {
            for count in 0..40 {
                let one = Draft::good(Reading::General, &mut random, count);
                let mut other = one.clone();
                remaking(&mut other, &mut random);
                assert!(normal_form(&one) == normal_form(&other), "{name}");
                other.remake_some(&mut random);
                assert!(normal_form(&one) == normal_form(&other), "{name}, and others");
                remaking(&mut other, &mut random);
                assert!(*name != "in normal form" || other.bytes() == normal_form(&other), "{name}");
            }
        }
    }

    #[test]
    fn a_bundle_of_given_entries_has_them_in_their_order() {
        let mut random = Random::of_case(1, 15);
        for count in 0..40 {
            let image = |random: &mut Random| {
                let length = random.between(0, 3);
                random.bytes(length)
            };
            let given: Vec<_> = ids::composed(Reading::General, &mut random, count)
                .into_iter()
                .map(|meaning| (meaning, image(&mut random)))
                .collect();
            let bundle = Draft::of(&mut random, &given).bytes();
            let read = entries(Reading::General, &bundle).unwrap();
            assert!(read.iter().map(|entry| (&entry.meaning, entry.image)).eq(given.iter().map(|(a, b)| (a, &b[..]))));
        }
    }
}
