//! "The binary writer is given the kinds, flags, an image and a lent list naming each pair's parts of one string buffer."

use super::binaries::MAGIC_BYTES;
use super::*;
use std::collections::BTreeSet;

#[derive(Clone, Copy, Debug, Default, PartialEq, Eq)]
pub struct PairParts {
    pub key_start: u64,
    pub key_length: u64,
    pub text_start: u64,
    pub text_length: u64,
}

/// What a binary is made of, beside the two buffers.
#[derive(Clone, Debug, Default, PartialEq, Eq)]
pub struct Content {
    pub image_kind: u64,
    pub offload_kind: u64,
    pub flags: u32,
    pub pairs: Vec<PairParts>,
}

pub fn write_binary(content: &Content, strings: &[u8], image: &[u8], out: &mut [u8]) -> Written {
    write_or_refuse(output(content, strings, image, out.len()), out)
}

/// "checks 15, 16 (..), 11, 12, all with place 0".
fn output(content: &Content, strings: &[u8], image: &[u8], room: usize) -> Result<Vec<u8>, Refusal> {
    refuse_if(content.image_kind > 5 || content.offload_kind > 3, KIND)?;
    let texts = texts(&content.pairs, strings).ok_or(Refusal { number: STRINGS, place: 0 })?;
    let image_offset = to_multiple_of_8(texts_end(&texts));
    let size = to_multiple_of_8(image_offset + image.len() as u128);
    big_or_room(size, room)?;
    Ok(binary(content, &texts, image, image_offset as usize, size as usize))
}

/// Key, text, key, text .. of the pairs, or nothing: "counts, a part outside its buffer, lengths, empty or equal keys, a zero byte
/// inside a string".
fn texts<'a>(pairs: &[PairParts], strings: &'a [u8]) -> Option<Vec<&'a [u8]>> {
    if pairs.len() as u64 > PAIR_LIMIT {
        return None;
    }
    let mut texts = Vec::new();
    let mut keys = BTreeSet::new();
    for pair in pairs {
        let key = text(strings, pair.key_start, pair.key_length)?;
        let value = text(strings, pair.text_start, pair.text_length)?;
        if key.is_empty() || !keys.insert(key) {
            return None;
        }
        texts.push(key);
        texts.push(value);
    }
    Some(texts)
}

/// A part inside its buffer, at most 256 bytes long, with no zero byte.
fn text(strings: &[u8], start: u64, length: u64) -> Option<&[u8]> {
    part(strings, start, length).filter(|text| text.len() as u64 <= STRING_LIMIT && !text.contains(&0))
}

/// The byte after the last string's zero: 72, 16 for each pair, and "each key and text .. with its zero".
fn texts_end(texts: &[&[u8]]) -> u128 {
    72 + 8 * texts.len() as u128 + texts.iter().map(|text| text.len() as u128 + 1).sum::<u128>()
}

fn to_multiple_of_8(length: u128) -> u128 {
    (length + 7) / 8 * 8
}

/// "It puts the entry at 32, string pairs at 72 .., then each key and text in the given order with its zero, zero bytes to a multiple of
/// 8, the image, and zero bytes to a multiple of 8. The size counts all of it."
fn binary(content: &Content, texts: &[&[u8]], image: &[u8], image_offset: usize, size: usize) -> Vec<u8> {
    let mut bytes = header(size);
    bytes.extend(entry(content, image_offset, image.len()));
    let mut text_offset = 72 + 8 * texts.len();
    for text in texts {
        bytes.extend((text_offset as u64).to_le_bytes());
        text_offset += text.len() + 1;
    }
    for text in texts {
        bytes.extend(*text);
        bytes.push(0);
    }
    bytes.resize(image_offset, 0);
    bytes.extend(image);
    bytes.resize(size, 0);
    bytes
}

/// "bytes 10 FF 10 AD, 4-byte version 1, 8-byte size, entry offset, entry size".
fn header(size: usize) -> Vec<u8> {
    let mut bytes = MAGIC_BYTES.to_vec();
    bytes.extend(1u32.to_le_bytes());
    bytes.extend((size as u64).to_le_bytes());
    bytes.extend(32u64.to_le_bytes());
    bytes.extend(40u64.to_le_bytes());
    bytes
}

/// "2-byte image kind .., 2-byte offload kind .., 4-byte flags .., then 8 bytes each: string table offset, number of strings, image
/// offset, image size".
fn entry(content: &Content, image_offset: usize, image_length: usize) -> Vec<u8> {
    let mut bytes = (content.image_kind as u16).to_le_bytes().to_vec();
    bytes.extend((content.offload_kind as u16).to_le_bytes());
    bytes.extend(content.flags.to_le_bytes());
    bytes.extend(72u64.to_le_bytes());
    bytes.extend((content.pairs.len() as u64).to_le_bytes());
    bytes.extend((image_offset as u64).to_le_bytes());
    bytes.extend((image_length as u64).to_le_bytes());
    bytes
}
