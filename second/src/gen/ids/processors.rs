//! Processors with hyphens: the field that starts them, their ends, what stands around them, and how long their IDs are.

use super::*;

/// The field that starts a processor. So many fields are written then, the processor being the last of them.
const FIFTH: usize = 5;
const SIXTH: usize = 6;

/// What starts a processor as the fifth field, and what almost does.
const STARTS: &[&str] = &["gfx", "sm_", "gfx9", "gfx10", "sm_70", "gfxenv", "sm_env", "gfx_", "gfx.", "sm__"];
const ALMOST: &[&str] =
    &["g", "gf", "gf9", "gf.x", "Gfx", "GFX906", "xgfx", "_gfx", "s", "sm", "sm70", "sm.70", "SM_", "xsm_"];

/// Whole processors.
const HYPHENATED: &[&str] = &["gfx9-generic", "gfx9-4-generic", "gfx10-1-generic", "gfx11-generic", "gfx9--x", "x-y"];

/// IDs that keep the rules.
pub const EDGES: &[IdMaker] = &[
    IdMaker { name: "five fields, processor from the fifth", make: |random| of_fields(random, FIFTH, 5) },
    IdMaker { name: "six fields, processor from the fifth", make: |random| of_fields(random, FIFTH, 6) },
    IdMaker { name: "seven fields, processor from the fifth", make: |random| of_fields(random, FIFTH, 7) },
    IdMaker { name: "eight fields, processor from the fifth", make: |random| of_fields(random, FIFTH, 8) },
    IdMaker { name: "nine fields, processor from the fifth", make: |random| of_fields(random, FIFTH, 9) },
    IdMaker { name: "six fields, processor from the sixth", make: |random| of_fields(random, SIXTH, 6) },
    IdMaker { name: "seven fields, processor from the sixth", make: |random| of_fields(random, SIXTH, 7) },
    IdMaker { name: "eight fields, processor from the sixth", make: |random| of_fields(random, SIXTH, 8) },
    IdMaker { name: "nine fields, processor from the sixth", make: |random| of_fields(random, SIXTH, 9) },
    IdMaker { name: "gfx in the fifth, and more", make: |random| beside(random, FIFTH, &[""], &["gfx"]) },
    IdMaker { name: "sm_ in the fifth, and more", make: |random| beside(random, FIFTH, &[""], &["sm_"]) },
    IdMaker { name: "gfx or sm_ in the fifth and in the sixth", make: |random| changed(random, FIFTH, 0, two_starts) },
    IdMaker { name: "environment before gfx", make: |random| beside(random, SIXTH, &["gnu", "e"], &["gfx", "gfx9"]) },
    IdMaker { name: "environment before sm_", make: |random| beside(random, SIXTH, &["gnu", "e"], &["sm_", "sm_70"]) },
    IdMaker { name: "empty environment before gfx or sm_", make: |random| beside(random, SIXTH, &[""], STARTS) },
    IdMaker { name: "almost gfx or sm_ in the fifth", make: |random| alone(random, 5, ALMOST) },
    IdMaker { name: "almost gfx or sm_ in the fifth, and more", make: |random| beside(random, SIXTH, ALMOST, STARTS) },
    IdMaker { name: "empty fifth", make: |random| alone(random, 5, &[""]) },
    IdMaker { name: "empty sixth", make: |random| alone(random, 6, &["gnu", "gf", "sm", "e"]) },
    IdMaker { name: "empty fifth and sixth", make: |random| alone(random, 6, &[""]) },
    IdMaker { name: "hyphens from the fifth, doubled", make: |random| changed(random, FIFTH, 0, double_hyphen) },
    IdMaker { name: "hyphens from the sixth, doubled", make: |random| changed(random, SIXTH, 0, double_hyphen) },
    IdMaker { name: "hyphens from the fifth, a feature", make: |random| changed(random, FIFTH, 1, |_, _| {}) },
    IdMaker { name: "hyphens from the sixth, 8 features", make: |random| changed(random, SIXTH, 8, |_, _| {}) },
    IdMaker { name: "hyphens from the fifth, form of 255 bytes", make: |random| of_bytes(random, FIFTH, 254) },
    IdMaker { name: "hyphens from the fifth, form of 256 bytes", make: |random| of_bytes(random, FIFTH, 255) },
    IdMaker { name: "hyphens from the sixth, 255 bytes", make: |random| of_bytes(random, SIXTH, 255) },
    IdMaker { name: "hyphens from the sixth, 256 bytes", make: |random| of_bytes(random, SIXTH, 256) },
    IdMaker { name: "nearly all hyphens, form of 256 bytes", make: |random| nearly_all_hyphens(random, FIFTH, 255) },
    IdMaker { name: "nearly all hyphens, 256 bytes", make: |random| nearly_all_hyphens(random, SIXTH, 256) },
];

/// IDs of at most 256 bytes that break the rules.
pub const BROKEN: &[IdMaker] = &[
    IdMaker { name: "environment that begins like a processor", make: |random| alone(random, 6, STARTS) },
    IdMaker { name: "hyphens from the fifth, one at the end", make: |random| changed(random, FIFTH, 0, behind) },
    IdMaker { name: "hyphens from the sixth, one at the end", make: |random| changed(random, SIXTH, 0, behind) },
    IdMaker { name: "hyphens from the fifth, more at the end", make: |random| changed(random, FIFTH, 0, more_behind) },
    IdMaker { name: "hyphens from the sixth, more at the end", make: |random| changed(random, SIXTH, 0, more_behind) },
    IdMaker { name: "hyphens from the fifth, one before a colon", make: |random| changed(random, FIFTH, 1, behind) },
    IdMaker { name: "hyphens from the sixth, one before a colon", make: |random| changed(random, SIXTH, 1, behind) },
    IdMaker { name: "hyphens from the sixth, one at the start", make: |random| changed(random, SIXTH, 0, ahead) },
    IdMaker { name: "hyphens from the sixth, more at the start", make: |random| changed(random, SIXTH, 0, more_ahead) },
    IdMaker { name: "hyphens from the sixth, at both ends", make: |random| changed(random, SIXTH, 0, at_both_ends) },
    IdMaker { name: "processor of a hyphen", make: |random| changed(random, SIXTH, 0, |name, _| *name = vec![b'-']) },
    IdMaker { name: "processor of hyphens", make: |random| changed(random, SIXTH, 0, hyphens_alone) },
    IdMaker { name: "processor of hyphens, and a feature", make: |random| changed(random, SIXTH, 1, hyphens_alone) },
    IdMaker { name: "hyphens from the fifth, no field's byte", make: |random| changed(random, FIFTH, 0, wrong_byte) },
    IdMaker { name: "hyphens from the sixth, no field's byte", make: |random| changed(random, SIXTH, 0, wrong_byte) },
    IdMaker { name: "hyphens from the fifth, 9 features", make: |random| changed(random, FIFTH, 9, |_, _| {}) },
    IdMaker { name: "hyphens from the fifth, form of 257 bytes", make: |random| of_bytes(random, FIFTH, 256) },
    IdMaker { name: "nearly all hyphens, form of 257 bytes", make: |random| nearly_all_hyphens(random, FIFTH, 256) },
];

/// IDs that are 257 bytes long, and keep all other rules.
pub const TOO_LONG: &[IdMaker] = &[
    IdMaker { name: "257 bytes, hyphens from the fifth", make: |random| of_bytes(random, FIFTH, 257) },
    IdMaker { name: "257 bytes, hyphens from the sixth", make: |random| of_bytes(random, SIXTH, 257) },
];

/// Any processor; one in four has hyphens.
pub fn any(random: &mut Random) -> Text<'static> {
    match random.below(8) {
        0 => choose(random, HYPHENATED),
        1 => {
            let (first, fields) = (field(random, PROCESSORS), random.between(2, 4));
            joined(random, first, fields)
        }
        _ => field(random, PROCESSORS),
    }
}

/// A processor of so many fields, of which this is the first. One between others is empty now and then.
fn joined(random: &mut Random, first: Text<'static>, count: usize) -> Text<'static> {
    let mut fields = vec![first];
    while fields.len() < count {
        let empty = fields.len() + 1 < count && random.one_in(6);
        fields.push(if empty { Text::default() } else { field(random, PROCESSORS) });
    }
    fields.join(&b'-').into()
}

/// A meaning with one of these environments, a processor of so many fields that starts with one of these, and so many features.
fn made(
    random: &mut Random,
    environments: &[&'static str],
    starts: &[&'static str],
    fields: usize,
    features: usize,
) -> Meaning {
    let (environment, first) = (choose(random, environments), choose(random, starts));
    let processor = Some(joined(random, first, fields));
    Meaning { environment, processor, ..with_feature_count(random, features) }
}

/// A meaning with a processor of so many fields, which can start with this field of an ID, and so many features.
fn starting(random: &mut Random, start: usize, fields: usize, features: usize) -> Meaning {
    match start {
        FIFTH => made(random, &[""], STARTS, fields, features),
        _ => made(random, ENVIRONMENTS, PROCESSORS, fields, features),
    }
}

/// A meaning whose processor has hyphens, with so many features.
pub fn hyphenated(random: &mut Random, features: usize) -> Meaning {
    let (start, fields) = (*random.choose(&[FIFTH, SIXTH]), random.between(2, 4));
    starting(random, start, fields, features)
}

/// The ID of a meaning that is made so, its processor starting with this field.
fn spelled_from(random: &mut Random, start: usize, make: impl Fn(&mut Random) -> Meaning) -> Vec<u8> {
    let meaning = short_meaning(random, make);
    spelled_with(random, &meaning, start)
}

/// An ID of so many fields, all of those from the start on its processor.
fn of_fields(random: &mut Random, start: usize, count: usize) -> Vec<u8> {
    spelled_from(random, start, |random| {
        let features = some_feature_count(random);
        starting(random, start, count + 1 - start, features)
    })
}

/// An ID with one of these environments, and a processor of two fields or more that starts with one of these.
fn beside(random: &mut Random, start: usize, environments: &[&'static str], starts: &[&'static str]) -> Vec<u8> {
    spelled_from(random, start, |random| {
        let (fields, features) = (random.between(2, 4), some_feature_count(random));
        made(random, environments, starts, fields, features)
    })
}

/// An ID of five or six fields with one of these environments, and no processor.
fn alone(random: &mut Random, fields: usize, environments: &[&'static str]) -> Vec<u8> {
    let environment = choose(random, environments);
    let meaning = Meaning { environment, processor: None, ..target(random) };
    spelled_with(random, &meaning, fields)
}

/// An ID whose processor had hyphens before it was changed, with so many features.
fn changed(random: &mut Random, start: usize, features: usize, change: fn(&mut Vec<u8>, &mut Random)) -> Vec<u8> {
    spelled_from(random, start, |random| {
        let fields = random.between(2, 4);
        let mut meaning = starting(random, start, fields, features);
        change(meaning.processor.as_mut().expect("a processor").to_mut(), random);
        meaning
    })
}

/// Where hyphens stand.
pub fn hyphens_of(name: &[u8]) -> Vec<usize> {
    (0..name.len()).filter(|at| name[*at] == b'-').collect()
}

/// A hyphen more beside one that stands there.
pub fn double_hyphen(name: &mut Vec<u8>, random: &mut Random) {
    let at = *random.choose(&hyphens_of(name));
    name.insert(at, b'-');
}

fn two_starts(name: &mut Vec<u8>, random: &mut Random) {
    *name = [choose(random, STARTS), choose(random, STARTS)].join(&b'-');
}

fn behind(name: &mut Vec<u8>, _: &mut Random) {
    name.push(b'-');
}

fn more_behind(name: &mut Vec<u8>, random: &mut Random) {
    name.extend(hyphens(random));
}

fn ahead(name: &mut Vec<u8>, _: &mut Random) {
    name.insert(0, b'-');
}

fn more_ahead(name: &mut Vec<u8>, random: &mut Random) {
    name.splice(..0, hyphens(random));
}

fn at_both_ends(name: &mut Vec<u8>, random: &mut Random) {
    ahead(name, random);
    behind(name, random);
}

fn hyphens_alone(name: &mut Vec<u8>, random: &mut Random) {
    *name = hyphens(random);
}

fn hyphens(random: &mut Random) -> Vec<u8> {
    vec![b'-'; random.between(2, 5)]
}

fn wrong_byte(name: &mut Vec<u8>, random: &mut Random) {
    let byte = byte_outside(random, FIELD_BYTES);
    put_byte(name, byte, random);
}

/// An ID of so many bytes, its processor with hyphens.
fn of_bytes(random: &mut Random, start: usize, length: usize) -> Vec<u8> {
    filled(random, start, length, |random| {
        let (fields, features) = (random.between(2, 4), some_feature_count(random));
        starting(random, start, fields, features)
    })
}

/// An ID of so many bytes, most of them hyphens of its processor.
fn nearly_all_hyphens(random: &mut Random, start: usize, length: usize) -> Vec<u8> {
    let mut id = if start == FIFTH { b"hip-a-b-c-gfx".to_vec() } else { b"hip-a-b-c-e-f".to_vec() };
    while id.len() < length - 1 {
        id.push(if random.one_in(20) { b'x' } else { b'-' });
    }
    id.push(b'x');
    id
}

#[cfg(test)]
mod tests {
    use super::*;
    use crate::model::id::{canonical, meaning};

    #[test]
    fn ids_have_the_fields_and_the_lengths_they_are_made_with() {
        let mut random = Random::of_case(1, 4);
        for start in [FIFTH, SIXTH] {
            for count in start..=9 {
                let id = of_fields(&mut random, start, count);
                let before = id.split(|byte| *byte == b':').next().expect("a piece");
                assert_eq!(before.split(|byte| *byte == b'-').count(), count, "{}", String::from_utf8_lossy(&id));
            }
            for length in 240..=257 {
                for id in [of_bytes(&mut random, start, length), nearly_all_hyphens(&mut random, start, length)] {
                    let form = meaning(&id).map(|meaning| canonical(&meaning).len());
                    let expected = length + SIXTH - start;
                    assert_eq!((id.len(), form), (length, Some(expected).filter(|form| *form <= 256)));
                }
            }
        }
    }

    #[test]
    fn one_processor_in_four_has_hyphens() {
        let mut random = Random::of_case(1, 5);
        let hyphens = (0..4000).filter(|_| any(&mut random).contains(&b'-')).count();
        assert!((900..1100).contains(&hyphens), "{hyphens}");
    }
}
