//! "The bundle writer is given a lent list of entry records, each naming a part of a buffer of IDs and a part of a buffer of images."

use super::bundle::{composition, packed, packed_length};
use super::id::{canonical, meaning, Meaning};
use super::*;

#[derive(Clone, Copy, Debug, Default, PartialEq, Eq)]
pub struct Record {
    pub id_start: u64,
    pub id_length: u64,
    pub image_start: u64,
    pub image_length: u64,
}

/// "It uses the same packing, keeps the given order, and writes IDs in canonical form."
pub fn write_bundle(records: &[Record], ids: &[u8], images: &[u8], out: &mut [u8]) -> Written {
    write_or_refuse(output(records, ids, images, out.len()), out)
}

/// "checks 3 (over 64 records), 4 (ID part outside its buffer or of bad length), 5, 6 (image part outside its buffer), 7, 8, 11, 12,
/// over all records".
fn output(records: &[Record], ids: &[u8], images: &[u8], room: usize) -> Result<Vec<u8>, Refusal> {
    refuse_if(records.len() as u64 > ENTRY_LIMIT, COUNT)?;
    refuse_at(records.len(), TABLE, |i| id_part(&records[i], ids).is_none())?;
    let meanings: Vec<Option<Meaning>> = records.iter().map(|record| id_part(record, ids).and_then(meaning)).collect();
    refuse_at(records.len(), ID, |i| meanings[i].is_none())?;
    let meanings: Vec<Meaning> = meanings.into_iter().flatten().collect();
    let parts: Vec<Option<&[u8]>> =
        records.iter().map(|record| part(images, record.image_start, record.image_length)).collect();
    refuse_at(records.len(), RANGE, |i| parts[i].is_none())?;
    composition(&meanings)?;
    let entries: Vec<(Vec<u8>, &[u8])> = meanings.iter().map(canonical).zip(parts.into_iter().flatten()).collect();
    big_or_room(packed_length(&entries), room)?;
    Ok(packed(&entries))
}

/// The ID part, if it lies inside its buffer and is 1 to 256 bytes long.
fn id_part<'a>(record: &Record, ids: &'a [u8]) -> Option<&'a [u8]> {
    part(ids, record.id_start, record.id_length).filter(|id| !id.is_empty() && id.len() as u64 <= ID_LIMIT)
}
