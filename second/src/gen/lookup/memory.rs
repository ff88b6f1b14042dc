//! Where images lie in the two bundles, how long these are, and where they stand in memory.

use super::*;
use crate::gen::bundles::fill_to;
use crate::gen::LIMIT;

pub fn aims() -> Vec<LookupAim> {
    let mut aims = vec![shorter_in_main()];
    for side in Side::BOTH {
        aims.extend(IMAGES.iter().map(|image| image_of(side, *image)));
    }
    for (patch, main) in [(Held::Image, Held::Image), (Held::Nothing, Held::Image), (Held::Nothing, Held::Nothing)] {
        aims.push(both_of_the_limit(patch, main));
        aims.extend(Side::BOTH.map(|inner| inside_the_other(inner, patch, main)));
    }
    aims.extend(Held::ALL.map(one_and_the_same));
    aims
}

/// Two bundles that are equal but for the size of the image.
fn shorter_in_main() -> LookupAim {
    answered_by(Side::Patch, "image 1 byte shorter in main", |draft, random| {
        let meaning = ids::some_meaning(random);
        let entry = draft.hold(random, Side::Patch, &meaning, Held::Image).expect("an entry");
        draft.ask(random, &meaning);
        draft.main = draft.patch.clone();
        draft.main.rows[entry].size -= 1;
    })
}

/// Another image of an entry.
type Place = fn(&mut bundles::Draft, usize, &mut Random);

const IMAGES: &[(&str, Place)] = &[
    ("empty at the end", |bundle, entry, _| {
        let start = bundle.body.len() as u64;
        bundle.rows[entry].set_span(Span { start, size: 0 });
    }),
    ("up to the last byte", |bundle, entry, random| {
        let size = random.between(1, 9);
        put_last(bundle, entry, random.bytes(size));
    }),
    ("past the other one's end", |bundle, entry, random| {
        bundle.body.extend([0; 3000]);
        let size = random.between(0, 9);
        put_last(bundle, entry, random.bytes(size));
    }),
    ("anywhere, container of the size limit", |bundle, _, _| fill_to(bundle, LIMIT)),
    ("the last byte, container of the size limit", |bundle, entry, _| {
        fill_to(bundle, LIMIT);
        bundle.rows[entry].set_image(LIMIT as u64 - 1, 1);
    }),
];

/// These bytes come last, and are the image of an entry.
fn put_last(bundle: &mut bundles::Draft, entry: usize, bytes: Vec<u8>) {
    bundle.rows[entry].set_span(Span { start: bundle.body.len() as u64, size: bytes.len() as u64 });
    bundle.body.extend(bytes);
}

/// The image of the bundle that answers lies so. The other one is short, and has an image too if it is main.
fn image_of(side: Side, (name, place): (&str, Place)) -> LookupAim {
    let other = if side == Side::Patch { Held::Image } else { Held::Nothing };
    answered_by(side, &format!("image of {}: {name}", side.number()), move |draft, random| {
        let meaning = ids::some_meaning(random);
        draft.empty(random, side.other());
        draft.hold(random, side.other(), &meaning, other);
        let entry = draft.hold(random, side, &meaning, Held::Image).expect("an entry");
        draft.ask(random, &meaning);
        place(draft.side(side), entry, random);
    })
}

/// Far more than the size limit together.
fn both_of_the_limit(patch: Held, main: Held) -> LookupAim {
    let (call, number) = answer_of(patch, main);
    Aim::new(call, number, "both of the size limit", move |draft: &mut Draft, random| {
        draft.hold_both(random, patch, main);
        Side::BOTH.iter().for_each(|side| fill_to(draft.side(*side), LIMIT));
    })
}

/// One bundle is the end of the other, in the same memory, and the image of the other one's entry for the device.
fn inside_the_other(inner: Side, patch: Held, main: Held) -> LookupAim {
    let (call, number) = answer_of(patch, main);
    Aim::new(call, number, &format!("{} inside the other one", inner.number()), move |draft: &mut Draft, random| {
        let meaning = ids::some_meaning(random);
        let held = |side: Side| if side == Side::Patch { patch } else { main };
        draft.hold(random, inner, &meaning, held(inner));
        let entry = draft.hold(random, inner.other(), &meaning, held(inner.other()));
        draft.ask(random, &meaning);
        let bytes = draft.side(inner).bytes();
        let outer = draft.side(inner.other());
        match entry {
            Some(entry) => put_last(outer, entry, bytes),
            None => outer.body.extend(bytes),
        }
        draft.shared = true;
    })
}

/// One bundle is lent as both.
fn one_and_the_same(held: Held) -> LookupAim {
    let (call, number) = answer_of(held, held);
    let name = format!("one and the same bundle, with {}", held.name());
    Aim::new(call, number, &name, move |draft: &mut Draft, random| {
        draft.hold_both(random, held, held);
        draft.main = draft.patch.clone();
        draft.shared = true;
    })
}

#[cfg(test)]
mod tests {
    use super::*;
    use crate::gen::lookup::tests::picks;

    /// Cases of each of these lines.
    fn each_draft(aims: &[LookupAim], run: impl Fn(&str, &Draft)) {
        let mut random = Random::of_case(1, 12);
        for aim in aims {
            for _ in 0..50 {
                let mut draft = some_draft(&mut random);
                (aim.make)(&mut draft, &mut random);
                run(&aim.name, &draft);
            }
        }
    }

    #[test]
    fn images_lie_where_their_lines_say() {
        for side in Side::BOTH {
            let aims: Vec<LookupAim> = IMAGES[..3].iter().map(|image| image_of(side, *image)).collect();
            each_draft(&aims, |name, draft| {
                let picked = picks(draft)[side as usize];
                let lengths = [&draft.patch, &draft.main].map(bundles::Draft::length);
                let (end, length, other) =
                    (picked.position + picked.size, lengths[side as usize], lengths[side.other() as usize]);
                assert_eq!(end, length, "{name}");
                assert!(picked.position > other || !name.contains("past"), "{name}");
                assert!(picked.size == 0 || !name.contains("empty"), "{name}");
            });
        }
    }

    #[test]
    fn a_bundle_inside_the_other_is_its_end_and_its_image() {
        for inner in Side::BOTH {
            each_draft(&[inside_the_other(inner, Held::Image, Held::Image)], |name, draft| {
                let Case { patch, main, shared, .. } = draft.case();
                let (inner_bytes, outer_bytes) = if inner == Side::Patch { (patch, main) } else { (main, patch) };
                let picked = picks(draft)[inner.other() as usize];
                assert!(shared && outer_bytes.ends_with(&inner_bytes), "{name}");
                assert!(part(&outer_bytes, picked.position, picked.size) == Some(&inner_bytes[..]), "{name}");
            });
        }
    }
}
