//! Where spans lie, how long they are, and rubbish that looks like the start of a binary.

use super::*;

pub fn aims() -> Vec<RecoverAim> {
    let mut aims: Vec<RecoverAim> = LAYOUTS.iter().flat_map(|layout| laid_out(layout)).collect();
    aims.extend(LENGTHS.iter().flat_map(|length| of_length(*length)));
    aims.extend(STARTS.iter().map(directly_before));
    aims.extend(CUTS.iter().map(cut_at_the_end));
    aims.extend(equal_aims());
    aims
}

/// Nothing skipped; a span at the start, between, at the end; several of them. A broken binary is a span like rubbish, and so are several
/// side by side.
const LAYOUTS: &[&str] = &[
    "",
    "r",
    "x",
    "B",
    "BB",
    "BBBBBBBB",
    "rB",
    "xB",
    "Br",
    "Bx",
    "rBr",
    "xBx",
    "BrB",
    "BxB",
    "BBrBB",
    "BBxBB",
    "rBB",
    "BBr",
    "rBBr",
    "BrBrB",
    "BxBxB",
    "rBrBr",
    "xBxBx",
    "rBrBrBrBr",
    "xx",
    "rx",
    "xr",
    "rxr",
    "BxxB",
    "BxrB",
    "BrxB",
    "xxB",
    "Bxx",
    "xrxBrxrBxrx",
];

/// How many runs of letters other than that of a whole binary there are.
fn spans_of(layout: &str) -> u64 {
    layout.split(WHOLE).filter(|run| !run.is_empty()).count() as u64
}

fn laid_out(layout: &'static str) -> [RecoverAim; 2] {
    let name = format!("layout {layout:?}");
    let found = layout.matches(WHOLE).count() as u64;
    [(FOUND, found), (SPANS, spans_of(layout))]
        .map(|(call, number)| Aim::new(call, number, &name, move |draft: &mut Draft, random| draft.lay(random, layout)))
}

/// Around the widths of a field, the first four bytes, a header and the smallest binary; every way to lie beside a multiple of 8.
const LENGTHS: &[usize] = &[1, 2, 3, 4, 5, 6, 7, 8, 9, 15, 16, 17, 31, 32, 33, 71, 72, 73, 4096];

fn of_length(length: usize) -> [RecoverAim; 4] {
    let around = move |draft: &mut Draft, random: &mut Random, before: &str, behind: &str| {
        draft.pieces = laid(random, before);
        draft.pieces.push(rubbish_of(random, length));
        draft.aimed = (draft.pieces.len(), 0);
        draft.pieces.extend(laid(random, behind));
    };
    [
        found_at(&format!("{length} bytes before a binary"), move |draft, random| around(draft, random, "", "B")),
        found_at(&format!("{length} bytes between two"), move |draft, random| around(draft, random, "B", "B")),
        Aim::new(SPANS, 1, &format!("{length} bytes behind the last"), move |draft: &mut Draft, random| {
            around(draft, random, "BB", "")
        }),
        Aim::new(FOUND, 0, &format!("{length} bytes and no binary"), move |draft: &mut Draft, random| {
            around(draft, random, "", "")
        }),
    ]
}

/// What looks like the first four bytes of a binary, or of a header, before those of a whole one.
const STARTS: &[&[u8]] = &[
    &[0x10],
    &[0x10, 0xFF],
    &[0x10, 0xFF, 0x10],
    &[0x10, 0xFF, 0x10, 0xAD],
    &[0x10, 0x10],
    &[0x10, 0xFF, 0x10, 0xFF],
    &[0x10, 0xFF, 0x10, 0x10],
    &[0x10, 0xFF, 0x10, 0xAD, 0x10],
    &[0x10, 0xFF, 0x10, 0xAD, 0x10, 0xFF, 0x10, 0xAD],
    &[0x10, 0xFF, 0x10, 0xAD, 1, 0, 0, 0],
    &[0x10, 0xFF, 0x10, 0xAD, 1, 0, 0, 0, 72, 0, 0, 0, 0, 0, 0, 0],
    &[0xFF, 0x10, 0xAD],
    &[0xAD],
];

fn directly_before(start: &&'static [u8]) -> RecoverAim {
    let start = *start;
    found_at(&format!("{start:02X?} directly before a binary"), move |draft, random| {
        let pieces = vec![start.to_vec(), whole(random)];
        draft.put(random, pieces, 1);
    })
}

/// So many bytes of a binary of 72 at the end of the sequence.
const CUTS: &[usize] = &[1, 2, 3, 4, 5, 8, 16, 24, 31, 32, 33, 40, 64, 71, 72];

fn cut_at_the_end(length: &usize) -> RecoverAim {
    let length = *length;
    Aim::new(
        AT,
        (length == 72).into(),
        &format!("{length} bytes of 72 at the end"),
        move |draft: &mut Draft, random| {
            let mut cut = BinaryDraft::smallest(random).bytes();
            cut.truncate(length);
            draft.put_last(vec![cut], 0);
        },
    )
}

fn equal_aims() -> Vec<RecoverAim> {
    vec![
        Aim::new(FOUND, 5, "one binary 5 times", |draft: &mut Draft, random| draft.pieces = vec![whole(random); 5]),
        Aim::new(SPANS, 0, "one binary 5 times", |draft: &mut Draft, random| draft.pieces = vec![whole(random); 5]),
        Aim::new(SPANS, 3, "one rubbish 3 times", |draft: &mut Draft, random| {
            let rubbish = rubbish(random);
            draft.pieces = (0..3).flat_map(|_| [rubbish.clone(), whole(random)]).collect();
        }),
    ]
}
