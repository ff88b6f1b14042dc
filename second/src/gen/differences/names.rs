//! IDs of the two bundles that are one or two, and the order in which two stand.

use super::images::of_one;
use super::*;

pub fn aims() -> Vec<DifferencesAim> {
    let mut aims = Vec::new();
    for (name, ids) in ONE {
        aims.extend(Side::BOTH.map(|side| spelled_in(side, name, *ids)));
        aims.push(spelled_with_other_images(name, *ids));
    }
    for (name, ids) in TWO {
        aims.extend(Side::BOTH.map(|side| apart(side, name, ids.map(str::to_string))));
        aims.push(among_others(name, *ids));
    }
    for (name, ids) in ORDERED {
        aims.extend(in_order(name, ids.map(str::to_string)));
        aims.extend(["D=", "=D", "LL", "RR"].map(|marks| together(name, &ids.map(str::to_string), marks)));
    }
    aims.extend(long_ids().flat_map(|(name, ids)| in_order(name, ids)));
    aims
}

/// Two spellings of one ID.
const ONE: &[(&str, [&str; 2])] = &[
    ("five fields and six", ["openmp-own-b-c-gfx7", "openmp-own-b-c--gfx7"]),
    ("five fields and six, sm_", ["openmp-own-b-c-sm_70", "openmp-own-b-c--sm_70"]),
    ("five fields and six, features", ["hip-own-b-c-gfx7:x+", "hip-own-b-c--gfx7:x+"]),
    ("five fields and six, hyphens", ["hip-own-b-c-gfx9-generic", "hip-own-b-c--gfx9-generic"]),
    ("four fields and five", ["host-own-b-c", "host-own-b-c-"]),
    ("four fields and six", ["hipv4-own-b-c", "hipv4-own-b-c--"]),
    ("an environment and a hyphen", ["host-own-b-c-gnu", "host-own-b-c-gnu-"]),
    ("features in another order", ["hip-own-b-c--gfx7:y-:x+", "hip-own-b-c--gfx7:x+:y-"]),
    ("features in another order, one a prefix", ["hip-own-b-c--g:xx+:x-", "hip-own-b-c--g:x-:xx+"]),
    (
        "eight features in another order",
        ["hip-own-b-c--g:h+:g-:f+:e-:d+:c-:b+:a-", "hip-own-b-c--g:a-:b+:c-:d+:e-:f+:g-:h+"],
    ),
    ("one spelling", ["hip-own-b-c-e-p:x+", "hip-own-b-c-e-p:x+"]),
];

/// Two IDs that are not one, in their order. No bundle may have both.
const TWO: &[(&str, [&str; 2])] = &[
    ("hip and hipv4", ["hip-own-b-c-gfx7", "hipv4-own-b-c-gfx7"]),
    ("hip and hipv4, no processor", ["hip-own-b-c", "hipv4-own-b-c"]),
    ("hip and hipv4, features", ["hip-own-b-c--g:x+", "hipv4-own-b-c--g:x+"]),
    ("no feature and one", ["hip-own-b-c-gfx7", "hip-own-b-c-gfx7:x+"]),
    ("a feature and one more", ["hip-own-b-c-gfx7:x+", "hip-own-b-c-gfx7:x+:y-"]),
    ("another feature", ["hip-own-b-c-gfx7:x+", "hip-own-b-c-gfx7:y+"]),
];

/// Two IDs that are not one, in their order. One bundle may have both.
const ORDERED: &[(&str, [&str; 2])] = &[
    ("kinds", ["hip-own-b-c", "host-own-b-c"]),
    ("kinds, the longer first by the rest", ["host-own-b-c", "openmp-own-b-c"]),
    ("hip and hipv4, another arch", ["hip-ownx-b-c", "hipv4-own-b-c"]),
    ("another sign", ["hip-own-b-c-gfx7:x+", "hip-own-b-c-gfx7:x-"]),
    ("an environment and a processor", ["host-own-b-c--g", "host-own-b-c-g-"]),
    ("an alternative name and its primary", ["hip-amdgcn-own-c--fiji", "hip-amdgcn-own-c--gfx803"]),
    ("capital letters first", ["hip-own-B-c", "hip-own-b-c"]),
    ("capital letters, then _, then others", ["hip-own-b-Z", "hip-own-b-_"]),
    ("_ before letters", ["hip-own-b-_", "hip-own-b-a"]),
    ("digits by bytes, not by value", ["hip-own-b-c-gfx10", "hip-own-b-c-gfx9"]),
    ("the shorter arch first", ["hip-own-z-c", "hip-own.-b-c"]),
    ("a processor that another begins with", ["hip-own-b-c-gfx90", "hip-own-b-c-gfx906"]),
    ("no processor, and one", ["hip-own-b-c-e", "hip-own-b-c-e-p"]),
    ("no processor, and one with hyphens", ["hip-own-b-c-e", "hip-own-b-c-e-p-q"]),
    ("a processor, and more of it behind a hyphen", ["hip-own-b-c-gfx9", "hip-own-b-c-gfx9-generic"]),
    ("a processor, and features of one that begins with it", ["hip-own-b-c-gfx9", "hip-own-b-c-gfx9-x:x+"]),
    ("a hyphen before a colon", ["hip-own-b-c-gfx9-x", "hip-own-b-c-gfx9:x+"]),
    ("a dot before a colon", ["hip-own-b-c-gfx9.x", "hip-own-b-c-gfx9:x+"]),
    ("a digit before a colon", ["hip-own-b-c-gfx9:x+", "hip-own-b-c-gfx9x:x+"]),
    ("as spelled the other way round", ["hip-own-b-c-gfx9", "hip-own-b-c-a-p"]),
    ("of other lengths, as spelled the other way round", ["hip-own-b-c--a", "hip-own-b-c--gfx9"]),
];

/// Bytes at which two IDs of 256 bytes differ, and lengths of an ID that one of 256 bytes begins with: around blocks of 16.
const BYTES: &[usize] = &[14, 15, 16, 17, 31, 32, 33, 63, 64, 127, 128, 239, 240, 241, 254, 255];

/// Long IDs that differ late.
fn long_ids() -> impl Iterator<Item = (&'static str, [String; 2])> {
    let letters = |count: usize| format!("hip-own-b-c--{}", "g".repeat(count - 13));
    let byte = move |at: usize| [letters(at) + "g" + &"g".repeat(255 - at), letters(at) + "h" + &"g".repeat(255 - at)];
    let prefix = move |length: usize| [letters(length), letters(256)];
    let bytes = BYTES.iter().map(move |at| ("a byte of a long ID", byte(*at)));
    bytes.chain(BYTES.iter().map(move |length| ("the start of a long ID", prefix(*length))))
}

/// The first spelling in one of the bundles, the second in the other, among the same entries.
fn spelled_in(side: Side, name: &str, ids: [&'static str; 2]) -> DifferencesAim {
    let name = format!("one ID, {name}, the first in {}", side.name());
    Aim::new(LINES, 0, &name, move |draft: &mut Draft, random| {
        let image = some_image(random);
        put_spelled(draft, random, ids, [&image, &image]);
        if side == Side::Right {
            std::mem::swap(&mut draft.left, &mut draft.right);
        }
    })
}

fn spelled_with_other_images(name: &str, ids: [&'static str; 2]) -> DifferencesAim {
    Aim::new(ONLY_AT, 2, &format!("one ID, {name}, other images"), move |draft: &mut Draft, random| {
        put_spelled(draft, random, ids, [b"image", b"imAge"]);
    })
}

/// One entry of both bundles, as it is spelled in each; all others are the same.
fn put_spelled(draft: &mut Draft, random: &mut Random, ids: [&str; 2], images: [&[u8]; 2]) {
    let meaning = ids::meaning_of(ids[0].as_bytes());
    draft.put_in_both(random, &meaning, images);
    for (bundle, id) in [&mut draft.left, &mut draft.right].into_iter().zip(ids) {
        let row = bundle.rows.iter_mut().find(|row| row.meaning == meaning).expect("the entry");
        row.set_id(id.as_bytes().to_vec());
    }
}

/// The first alone in one of the bundles, the second alone in the other, with one image.
fn apart(side: Side, name: &str, ids: [String; 2]) -> DifferencesAim {
    let (name, marks) = (format!("two IDs, {name}"), if side == Side::Left { "LR" } else { "RL" });
    Aim::new(MARKS, marks_number(marks), &name, move |draft: &mut Draft, random| {
        let image = some_image(random);
        let [first, second] = [0, 1].map(|which| of_one(random, ids[which].as_bytes(), &image));
        *draft.side(side) = first;
        *draft.side(side.other()) = second;
    })
}

/// The first of two in left, in right, and both in both bundles.
fn in_order(name: &str, ids: [String; 2]) -> [DifferencesAim; 3] {
    let [left, right] = Side::BOTH.map(|side| apart(side, name, ids.clone()));
    [left, right, together(name, &ids, "DD")]
}

/// The same among entries that are the same.
fn among_others(name: &str, ids: [&'static str; 2]) -> DifferencesAim {
    Aim::new(LINES, 2, &format!("two IDs among others, {name}"), move |draft: &mut Draft, random| {
        let image = some_image(random);
        draft.left.drop_target(&ids::meaning_of(ids[1].as_bytes()));
        put_spelled(draft, random, [ids[0]; 2], [&image, &image]);
        let respelled = ids::meaning_of(ids[0].as_bytes());
        let row = draft.right.rows.iter_mut().find(|row| row.meaning == respelled).expect("the entry");
        row.meaning = ids::meaning_of(ids[1].as_bytes());
        row.set_id(ids[1].as_bytes().to_vec());
    })
}

/// Each in both bundles or in one.
fn together(name: &str, ids: &[String; 2], marks: &'static str) -> DifferencesAim {
    let meanings: Vec<Meaning> = ids.iter().map(|id| ids::meaning_of(id.as_bytes())).collect();
    Aim::new(MARKS, marks_number(marks), &format!("{marks} of two IDs, {name}"), move |draft: &mut Draft, random| {
        draft.mark(random, &meanings, marks);
    })
}

#[cfg(test)]
mod tests {
    use super::*;
    use crate::model::bundle::composition;
    use crate::model::id::canonical;

    fn forms(ids: [&str; 2]) -> [Vec<u8>; 2] {
        ids.map(|id| canonical(&ids::meaning_of(id.as_bytes())))
    }

    fn may_stand_together(ids: [&str; 2]) -> bool {
        composition(&ids.map(|id| ids::meaning_of(id.as_bytes()))).is_ok()
    }

    #[test]
    fn ids_are_one_or_two_in_their_order() {
        for (name, ids) in ONE {
            let [one, other] = forms(*ids);
            assert_eq!(one, other, "{name}");
        }
        for (name, ids) in TWO {
            let [one, other] = forms(*ids);
            assert!(one < other && !may_stand_together(*ids), "{name}");
        }
        let ordered = ORDERED.iter().map(|(name, ids)| (*name, ids.map(str::to_string)));
        for (name, ids) in ordered.chain(long_ids()) {
            let ids = [&ids[0][..], &ids[1]];
            let [one, other] = forms(ids);
            assert!(one < other && may_stand_together(ids), "{name}");
        }
    }

    #[test]
    fn long_ids_differ_where_they_are_said_to() {
        let long: Vec<[String; 2]> = long_ids().map(|(_, ids)| ids).collect();
        for (at, ids) in BYTES.iter().zip(&long) {
            let forms = forms([&ids[0], &ids[1]]);
            let first = (0..256).find(|k| forms[0][*k] != forms[1][*k]);
            assert_eq!((forms[0].len(), forms[1].len(), first), (256, 256, Some(*at)));
        }
        for (length, ids) in BYTES.iter().zip(&long[BYTES.len()..]) {
            let [short, whole] = forms([&ids[0], &ids[1]]);
            assert!(short.len() == *length && whole.len() == 256 && whole.starts_with(&short));
        }
    }
}
