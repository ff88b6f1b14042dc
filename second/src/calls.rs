//! What is compared with the model, behind plain functions: for the library `src/linked.rs` has them.

use crate::model::binaries::{Binary, Cursor};
use crate::model::binary_writer::Content;
use crate::model::bundle::{check_of, entries, normalise_of, pick_of, Checked, Located, Picked};
use crate::model::bundle_writer::Record;
use crate::model::each::{Part, PickedEach, Slot};
use crate::model::id::Reading::Profile;
use crate::model::lookup::LookedUp;
use crate::model::recover::Recovered;
use crate::model::{binaries, binary_writer, bundle, bundle_writer, differences, each, lookup, recover, Written};

/// A C call that writes returns one number of what it has to return. So it is called once for each, and writes each time.
#[derive(Clone, Copy, Debug, PartialEq, Eq)]
pub enum Field {
    Number,
    Place,
    Length,
}

impl Field {
    pub const ALL: [Field; 3] = [Field::Number, Field::Place, Field::Length];

    pub fn of(self, written: Written) -> u64 {
        match self {
            Field::Number => written.number,
            Field::Place => written.place,
            Field::Length => written.length,
        }
    }
}

/// The same of a pick for each name, which writes slots.
#[derive(Clone, Copy, Debug, PartialEq, Eq)]
pub enum EachField {
    Number,
    Place,
    Slots,
    Word,
    Taken,
}

impl EachField {
    pub const ALL: [EachField; 5] =
        [EachField::Number, EachField::Place, EachField::Slots, EachField::Word, EachField::Taken];

    pub fn of(self, picked: PickedEach) -> u64 {
        match self {
            EachField::Number => picked.number,
            EachField::Place => picked.place,
            EachField::Slots => picked.slots,
            EachField::Word => picked.word,
            EachField::Taken => picked.taken,
        }
    }
}

/// The same of recovering, which writes copies and spans.
#[derive(Clone, Copy, Debug, PartialEq, Eq)]
pub enum RecoverField {
    Number,
    Place,
    Length,
    Spans,
}

impl RecoverField {
    pub const ALL: [RecoverField; 4] =
        [RecoverField::Number, RecoverField::Place, RecoverField::Length, RecoverField::Spans];

    pub fn of(self, recovered: Recovered) -> u64 {
        match self {
            RecoverField::Number => recovered.number,
            RecoverField::Place => recovered.place,
            RecoverField::Length => recovered.length,
            RecoverField::Spans => recovered.spans,
        }
    }
}

pub type Check = fn(&[u8]) -> Checked;
pub type Pick = fn(&[u8], &[u8]) -> Picked;
pub type EntryAt = fn(&[u8], u64) -> Located;
pub type Normalise = fn(&[u8], &mut [u8], Field) -> u64;

/// The calls of the general reading.
#[derive(Clone, Copy)]
pub struct BundleCalls {
    pub check: Check,
    pub pick: Pick,
    pub entry: EntryAt,
    pub normalise: Normalise,
}

/// The calls that each reading has: "its own check, pick and normalise".
#[derive(Clone, Copy)]
pub struct ReadingCalls {
    pub check: Check,
    pub pick: Pick,
    pub normalise: Normalise,
}

/// A bundle, the buffer, the names and the slots.
pub type PickEach = fn(&[u8], &[u8], &[Part], &mut [Slot], EachField) -> u64;

/// A pick for each name, and the single one that it goes by.
#[derive(Clone, Copy)]
pub struct EachCalls {
    pub each: PickEach,
    pub pick: Pick,
}

/// The patch, the main bundle and a device name.
pub type LookUp = fn(&[u8], &[u8], &[u8]) -> LookedUp;

/// A lookup in two bundles, and the check and the pick of one that it goes by.
#[derive(Clone, Copy)]
pub struct LookupCalls {
    pub lookup: LookUp,
    pub check: Check,
    pub pick: Pick,
}

/// The left bundle, the right one and the output. A call returns the length of the report alone.
pub type Compare = fn(&[u8], &[u8], &mut [u8]) -> u64;

/// The comparison of two bundles, and the check and the normal form of one that it goes by.
#[derive(Clone, Copy)]
pub struct DifferencesCalls {
    pub compare: Compare,
    pub check: Check,
    pub normalise: Normalise,
}

pub type BundleWriter = fn(&[Record], &[u8], &[u8], &mut [u8], Field) -> u64;
pub type BinaryReader = fn(&[u8], Cursor) -> (Binary, Cursor);
pub type BinaryWriter = fn(&Content, &[u8], &[u8], &mut [u8], Field) -> u64;

/// The sequence, the output and the list of spans.
pub type Recover = fn(&[u8], &mut [u8], &mut [Part], RecoverField) -> u64;

/// Recovering, and the reader that it goes by.
#[derive(Clone, Copy)]
pub struct RecoverCalls {
    pub recover: Recover,
    pub read: BinaryReader,
}

/// The model in the library's place: for tests of the comparison itself.
pub const MODEL: BundleCalls = BundleCalls {
    check: bundle::check,
    pick: bundle::pick,
    entry: bundle::entry_at,
    normalise: |bundle, out, field| field.of(bundle::normalise(bundle, out)),
};
pub const MODEL_PROFILE: ReadingCalls = ReadingCalls {
    check: |bundle| check_of(&entries(Profile, bundle)),
    pick: |bundle, device| pick_of(Profile, &entries(Profile, bundle), device),
    normalise: |bundle, out, field| field.of(normalise_of(&entries(Profile, bundle), out)),
};
pub const MODEL_EACH: EachCalls = EachCalls {
    each: |bundle, buffer, names, slots, field| field.of(each::pick_each(bundle, buffer, names, slots)),
    pick: bundle::pick,
};
pub const MODEL_LOOKUP: LookupCalls = LookupCalls {
    lookup: |patch, main, device| lookup::lookup(patch, main, device).0,
    check: bundle::check,
    pick: bundle::pick,
};
pub const MODEL_DIFFERENCES: DifferencesCalls =
    DifferencesCalls { compare: differences::compare, check: bundle::check, normalise: MODEL.normalise };
pub const MODEL_BUNDLE_WRITER: BundleWriter =
    |records, ids, images, out, field| field.of(bundle_writer::write_bundle(records, ids, images, out));
pub const MODEL_BINARY_READER: BinaryReader = binaries::next;
pub const MODEL_BINARY_WRITER: BinaryWriter =
    |content, strings, image, out, field| field.of(binary_writer::write_binary(content, strings, image, out));
pub const MODEL_RECOVER: RecoverCalls = RecoverCalls {
    recover: |sequence, out, spans, field| field.of(recover::recover(sequence, out, spans)),
    read: MODEL_BINARY_READER,
};
