//! The bundle writer and the binary writer. Both are given a list that names parts of two lent buffers, and a lent output.

use super::*;
use crate::gen::{binary_contents, records, Room};
use crate::guard::{Inputs, Output};
use crate::model::binary_writer::{write_binary, Content, PairParts};
use crate::model::bundle_writer::{write_bundle, Record};
use crate::samples;

/// What a writer is given.
pub trait Given: Sized + 'static {
    /// The list, and what is given by value beside it.
    type List: ?Sized + Debug;
    /// The writer, and the numbers that must come.
    const CALL: (&'static str, &'static [u64]);
    const BUFFERS: [&'static str; 2];

    /// What the real files hold; and the file, where LLVM's tool wrote the same bytes.
    fn real() -> Vec<(Self, Option<&'static [u8]>)>;
    fn some(random: &mut Random) -> Self;
    fn aims() -> Vec<Aim<Self>>;
    fn list(&self) -> &Self::List;
    /// The bytes of each buffer, and how many zero bytes follow them.
    fn buffers(&self) -> [(&[u8], usize); 2];
    fn room(&self) -> Room;
    fn model(list: &Self::List, first: &[u8], second: &[u8], out: &mut [u8]) -> Written;
}

pub struct Writers<G: Given> {
    write: fn(&G::List, &[u8], &[u8], &mut [u8], Field) -> u64,
    aims: Vec<Aim<G>>,
    report: Report,
    buffers: [Inputs; 2],
    output: Output,
    scratch: Vec<u8>,
    case: Option<G>,
}

impl<G: Given> Writers<G> {
    pub fn new(write: fn(&G::List, &[u8], &[u8], &mut [u8], Field) -> u64) -> Writers<G> {
        let aims = G::aims();
        Writers {
            write,
            report: Report::new(&[G::CALL], &aims),
            aims,
            buffers: [Inputs::new(), Inputs::new()],
            output: Output::new(),
            scratch: scratch(),
            case: None,
        }
    }

    /// Runs a case. Its number.
    fn run_case(&mut self, case: G) -> Result<u64, Difference> {
        let (write, case) = (self.write, self.case.insert(case));
        for (inputs, (bytes, zeros)) in self.buffers.iter_mut().zip(case.buffers()) {
            inputs.lend(bytes, zeros);
        }
        let (list, first, second) = (case.list(), self.buffers[0].lent(), self.buffers[1].lent());
        let written = compare_writing(
            G::CALL.0,
            case.room(),
            &mut self.scratch,
            &mut self.output,
            |out| G::model(list, first, second, out),
            |out, field| write(list, first, second, out, field),
        )?;
        let kept =
            case.buffers().iter().zip(&self.buffers).all(|((bytes, _), inputs)| inputs.lent().starts_with(bytes));
        holds(G::CALL.0, kept, KEPT, &"changed")?;
        self.report.count(G::CALL.0, written.number);
        Ok(written.number)
    }
}

impl<G: Given> Family for Writers<G> {
    fn name(&self) -> &'static str {
        G::CALL.0
    }

    fn run_fixed(&mut self) -> Result<u64, Difference> {
        let cases = G::real();
        let count = cases.len() as u64;
        for (case, file) in cases {
            let number = self.run_case(case)?;
            holds(G::CALL.0, number == OK, "what a real file holds can be written", &number)?;
            let same = file.map_or(true, |file| self.output.holds(file));
            holds(G::CALL.0, same, "the bytes that LLVM's tool wrote", &"other bytes")?;
        }
        Ok(count)
    }

    fn run(&mut self, random: &mut Random) -> Result<(), Difference> {
        let mut case = G::some(random);
        let aim = apply_aims(&self.aims, &mut case, random);
        let number = self.run_case(case)?;
        aim.into_iter().for_each(|aim| self.report.aimed(aim, number));
        Ok(())
    }

    fn report(&self) -> &Report {
        &self.report
    }

    fn files(&self) -> Vec<(&'static str, Vec<u8>)> {
        let case = match &self.case {
            Some(case) => case,
            None => return Vec::new(),
        };
        let [(first, _), (second, zeros)] = case.buffers();
        let notes =
            format!("{:#?}\nzero bytes after the {}: {zeros}\nroom: {:?}\n", case.list(), G::BUFFERS[1], case.room());
        vec![(G::BUFFERS[0], first.to_vec()), (G::BUFFERS[1], second.to_vec()), ("notes.txt", notes.into_bytes())]
    }
}

impl Given for records::Case {
    type List = [Record];
    const CALL: (&'static str, &'static [u64]) = ("bundle writer", &[0, 3, 4, 5, 6, 7, 8, 11, 12]);
    const BUFFERS: [&'static str; 2] = ["ids", "images"];

    fn real() -> Vec<(Self, Option<&'static [u8]>)> {
        let case = |sample: &samples::BundleSample| {
            let mut case =
                records::Case { records: Vec::new(), ids: Vec::new(), images: Vec::new(), zeros: 0, room: Room::Exact };
            for (id, image) in sample.entries {
                case.records.push(Record {
                    id_start: case.ids.len() as u64,
                    id_length: id.len() as u64,
                    image_start: case.images.len() as u64,
                    image_length: image.len() as u64,
                });
                case.ids.extend(id.as_bytes());
                case.images.extend(*image);
            }
            (case, Some(sample.bytes).filter(|_| sample.as_written))
        };
        samples::BUNDLES.iter().map(case).collect()
    }

    fn some(random: &mut Random) -> Self {
        records::some_case(random)
    }

    fn aims() -> Vec<Aim<Self>> {
        records::aims()
    }

    fn list(&self) -> &[Record] {
        &self.records
    }

    fn buffers(&self) -> [(&[u8], usize); 2] {
        [(&self.ids, 0), (&self.images, self.zeros)]
    }

    fn room(&self) -> Room {
        self.room
    }

    fn model(records: &[Record], ids: &[u8], images: &[u8], out: &mut [u8]) -> Written {
        write_bundle(records, ids, images, out)
    }
}

impl Given for binary_contents::Case {
    type List = Content;
    const CALL: (&'static str, &'static [u64]) = ("binary writer", &[0, 11, 12, 15, 16]);
    const BUFFERS: [&'static str; 2] = ["strings", "image"];

    fn real() -> Vec<(Self, Option<&'static [u8]>)> {
        let case = |sample: &samples::BinarySample| {
            let mut strings = Vec::new();
            let mut put = |text: &str| {
                strings.extend(text.as_bytes());
                ((strings.len() - text.len()) as u64, text.len() as u64)
            };
            let pair = |(key, text): &(&str, &str)| {
                let ((key_start, key_length), (text_start, text_length)) = (put(key), put(text));
                PairParts { key_start, key_length, text_start, text_length }
            };
            let pairs = sample.pairs.iter().map(pair).collect();
            let (image_kind, offload_kind) = (sample.image_kind, sample.offload_kind);
            let content = Content { image_kind, offload_kind, flags: 0, pairs };
            let image = sample.image.to_vec();
            (binary_contents::Case { content, strings, image, zeros: 0, room: Room::Exact }, None)
        };
        samples::BINARIES.iter().flat_map(|sample| sample.binaries).map(case).collect()
    }

    fn some(random: &mut Random) -> Self {
        binary_contents::some_case(random)
    }

    fn aims() -> Vec<Aim<Self>> {
        binary_contents::aims()
    }

    fn list(&self) -> &Content {
        &self.content
    }

    fn buffers(&self) -> [(&[u8], usize); 2] {
        [(&self.strings, 0), (&self.image, self.zeros)]
    }

    fn room(&self) -> Room {
        self.room
    }

    fn model(content: &Content, strings: &[u8], image: &[u8], out: &mut [u8]) -> Written {
        write_binary(content, strings, image, out)
    }
}
