//! "Bundle bytes", the check, the pick, the entry at an index, and "Normal form".

use super::id::{canonical, compatible, meaning_by, mixed, same_meaning, Meaning, Reading};
use super::*;

pub const MAGIC_BYTES: &[u8; 24] = b"__CLANG_OFFLOAD_BUNDLE__";

/// What the bundle check returns.
#[derive(Clone, Copy, Debug, Default, PartialEq, Eq)]
pub struct Checked {
    pub number: u64,
    pub place: u64,
    pub count: u64,
}

/// What a pick returns: "entry index, image position and size".
#[derive(Clone, Copy, Debug, Default, PartialEq, Eq)]
pub struct Picked {
    pub number: u64,
    pub place: u64,
    pub index: u64,
    pub position: u64,
    pub size: u64,
}

/// What a call by an entry's index returns: position and size of its image, and where its ID, as spelled, stands in the bundle.
#[derive(Clone, Copy, Debug, Default, PartialEq, Eq)]
pub struct Located {
    pub number: u64,
    pub place: u64,
    pub position: u64,
    pub size: u64,
    pub id_position: u64,
    pub id_length: u64,
}

/// An entry of the table as it stands. Positions count "from the bundle's first byte".
#[derive(Clone, Copy, Debug)]
pub struct Row<'a> {
    pub offset: u64,
    pub size: u64,
    pub id_position: u64,
    pub id: &'a [u8],
}

/// An entry of an accepted bundle.
#[derive(Clone, Debug)]
pub struct Entry<'a> {
    pub meaning: Meaning<'a>,
    pub id_position: u64,
    pub id: &'a [u8],
    pub offset: u64,
    pub image: &'a [u8],
}

/// What is read of a bundle, which every call starts from: its entries, or a refusal of the check.
pub type Entries<'a> = Result<Vec<Entry<'a>>, Refusal>;

/// 1 to 8, in this order, "each of 4 to 8 .. tried over all entries before the next". OVERLAP is "checked after 6 over all entries and
/// before 7", and "joins every list that says 1 to 8".
pub fn entries(reading: Reading, bundle: &[u8]) -> Entries<'_> {
    let length = bundle.len() as u128;
    refuse_if(length > SIZE_LIMIT, LENGTH)?;
    refuse_if(length < 24 || bundle[..24] != MAGIC_BYTES[..], MAGIC)?;
    refuse_if(length < 32 || integer(bundle, 24, 8) > ENTRY_LIMIT, COUNT)?;
    let (rows, table_end) = table(bundle)?;
    let meanings: Vec<Option<Meaning>> = rows.iter().map(|row| meaning_by(reading, row.id)).collect();
    refuse_at(rows.len(), ID, |i| meanings[i].is_none())?;
    let meanings: Vec<Meaning> = meanings.into_iter().flatten().collect();
    refuse_at(rows.len(), RANGE, |i| out_of_range(&rows[i], table_end, length))?;
    refuse_at(rows.len(), OVERLAP, |i| rows[..i].iter().any(|earlier| overlap(earlier, &rows[i])))?;
    composition(&meanings)?;
    Ok(meanings.into_iter().zip(&rows).map(|(meaning, row)| entry(bundle, meaning, row)).collect())
}

/// "an entry's 24 bytes or its ID not wholly inside; ID length 0 or above 256". Else the rows, and "the byte after the last ID".
fn table(bundle: &[u8]) -> Result<(Vec<Row<'_>>, u128), Refusal> {
    let mut rows = Vec::new();
    let mut at = 32;
    for index in 0..integer(bundle, 24, 8) {
        let row = row(bundle, at).ok_or(Refusal { number: TABLE, place: index })?;
        at += 24 + row.id.len();
        rows.push(row);
    }
    Ok((rows, at as u128))
}

/// The entry that starts at a byte of the table.
fn row(bundle: &[u8], at: usize) -> Option<Row<'_>> {
    if at as u128 + 24 > bundle.len() as u128 {
        return None;
    }
    let id_length = integer(bundle, at + 16, 8);
    if id_length == 0 || id_length > ID_LIMIT {
        return None;
    }
    let id_position = at as u64 + 24;
    let id = part(bundle, id_position, id_length)?;
    Some(Row { offset: integer(bundle, at, 8), size: integer(bundle, at + 8, 8), id_position, id })
}

/// "image offset before table end, or offset + size above the length".
fn out_of_range(row: &Row, table_end: u128, length: u128) -> bool {
    (row.offset as u128) < table_end || row.offset as u128 + row.size as u128 > length
}

/// "two images of size above 0 are either the same span or share no byte": these two are neither. An image of size 0 has no byte to share.
fn overlap(one: &Row, other: &Row) -> bool {
    let end = |row: &Row| row.offset as u128 + row.size as u128;
    let share_a_byte = (one.offset.max(other.offset) as u128) < end(one).min(end(other));
    share_a_byte && (one.offset, one.size) != (other.offset, other.size)
}

/// TWICE: "an earlier entry has the same meaning". MIXED: "an earlier entry of equal kind, triple and processor states other feature
/// names".
pub fn composition(meanings: &[Meaning]) -> Result<(), Refusal> {
    refuse_at(meanings.len(), TWICE, |i| meanings[..i].iter().any(|earlier| same_meaning(earlier, &meanings[i])))?;
    refuse_at(meanings.len(), MIXED, |i| meanings[..i].iter().any(|earlier| mixed(earlier, &meanings[i])))
}

fn entry<'a>(bundle: &'a [u8], meaning: Meaning<'a>, row: &Row<'a>) -> Entry<'a> {
    let image = part(bundle, row.offset, row.size).expect("an accepted image lies inside");
    Entry { meaning, id_position: row.id_position, id: row.id, offset: row.offset, image }
}

/// The bundle check. This one and the other calls that are given a bundle as bytes read it by the general reading.
pub fn check(bundle: &[u8]) -> Checked {
    check_of(&entries(Reading::General, bundle))
}

/// What the check returns for a bundle of which this was read.
pub fn check_of(entries: &Entries) -> Checked {
    match entries {
        Err(refusal) => Checked { number: refusal.number, place: refusal.place, count: 0 },
        Ok(entries) => Checked { number: OK, place: 0, count: entries.len() as u64 },
    }
}

/// "A pick checks 1 to 8, then 9, then 10."
pub fn pick(bundle: &[u8], device: &[u8]) -> Picked {
    pick_of(Reading::General, &entries(Reading::General, bundle), device)
}

/// What a pick returns for a bundle of which this was read, by the same reading.
pub fn pick_of(reading: Reading, entries: &Entries, device: &[u8]) -> Picked {
    match picked_entry(reading, entries, device) {
        Err(refusal) => Picked { number: refusal.number, place: refusal.place, ..Picked::default() },
        Ok((index, entry)) => {
            Picked { number: OK, place: 0, index: index as u64, position: entry.offset, size: entry.image.len() as u64 }
        }
    }
}

fn picked_entry<'a>(reading: Reading, entries: &'a Entries, device: &[u8]) -> Result<(usize, &'a Entry<'a>), Refusal> {
    let entries = entries.as_ref().map_err(|refusal| *refusal)?;
    let device = meaning_by(reading, device).ok_or(Refusal { number: QUERY, place: 0 })?;
    compatible_entry(entries, &device).ok_or(Refusal { number: NONE, place: 0 })
}

/// The "one compatible entry" of an accepted bundle, with its index, if it has one.
pub fn compatible_entry<'e, 'a>(entries: &'e [Entry<'a>], device: &Meaning) -> Option<(usize, &'e Entry<'a>)> {
    let mut found: Vec<(usize, &Entry)> =
        entries.iter().enumerate().filter(|(_, entry)| compatible(&entry.meaning, device)).collect();
    assert!(found.len() <= 1, "an accepted bundle has two entries that are compatible with one device name");
    found.pop()
}

/// What the check tries, then 10: the index is not below the count.
pub fn entry_at(bundle: &[u8], index: u64) -> Located {
    entry_at_of(&entries(Reading::General, bundle), index)
}

/// What a call by an entry's index returns for a bundle of which this was read.
pub fn entry_at_of(entries: &Entries, index: u64) -> Located {
    match located_entry(entries, index) {
        Err(refusal) => Located { number: refusal.number, place: refusal.place, ..Located::default() },
        Ok(entry) => Located {
            number: OK,
            place: 0,
            position: entry.offset,
            size: entry.image.len() as u64,
            id_position: entry.id_position,
            id_length: entry.id.len() as u64,
        },
    }
}

fn located_entry<'a>(entries: &'a Entries, index: u64) -> Result<&'a Entry<'a>, Refusal> {
    let entries = entries.as_ref().map_err(|refusal| *refusal)?;
    refuse_if(index >= entries.len() as u64, NONE)?;
    Ok(&entries[index as usize])
}

/// "Normalising checks 1 to 8, 11, 12."
pub fn normalise(bundle: &[u8], out: &mut [u8]) -> Written {
    normalise_of(&entries(Reading::General, bundle), out)
}

/// What normalising does for a bundle of which this was read.
pub fn normalise_of(entries: &Entries, out: &mut [u8]) -> Written {
    write_or_refuse(normal_form(entries, out.len()), out)
}

/// "entries sorted by canonical ID in byte order (a prefix first), each ID canonical, images packed directly after the table in entry
/// order".
fn normal_form(entries: &Entries, room: usize) -> Result<Vec<u8>, Refusal> {
    let entries = entries.as_ref().map_err(|refusal| *refusal)?;
    let mut entries: Vec<(Vec<u8>, &[u8])> =
        entries.iter().map(|entry| (canonical(&entry.meaning), entry.image)).collect();
    entries.sort_by(|one, other| one.0.cmp(&other.0));
    big_or_room(packed_length(&entries), room)?;
    Ok(packed(&entries))
}

/// "Its length is 32 plus, for each entry, 24 plus ID length plus image size."
pub fn packed_length(entries: &[(Vec<u8>, &[u8])]) -> u128 {
    32 + entries.iter().map(|(id, image)| 24 + id.len() as u128 + image.len() as u128).sum::<u128>()
}

/// The bundle of IDs and images in this order, "images packed directly after the table". "A size-0 image takes the offset where it
/// would have gone."
pub fn packed(entries: &[(Vec<u8>, &[u8])]) -> Vec<u8> {
    let mut table = MAGIC_BYTES.to_vec();
    let mut images: Vec<u8> = Vec::new();
    let table_end = 32 + entries.iter().map(|(id, _)| 24 + id.len()).sum::<usize>();
    table.extend((entries.len() as u64).to_le_bytes());
    for (id, image) in entries {
        table.extend(((table_end + images.len()) as u64).to_le_bytes());
        table.extend((image.len() as u64).to_le_bytes());
        table.extend((id.len() as u64).to_le_bytes());
        table.extend(id);
        images.extend(*image);
    }
    table.extend(images);
    table
}
