//! Offload binaries laid end to end: the reader.

use super::*;
use crate::calls::BinaryReader;
use crate::gen::binaries::{aims, sample_case, shake, some_draft, Case, Draft};
use crate::gen::examples::binaries_cases;
use crate::guard::Inputs;
use crate::model::binaries::{next, Binary, Cursor};
use crate::model::END;
use crate::samples::{self, BinariesSample};

const READ: (&str, &[u64]) = ("binaries", &[0, 1, 13, 14, 15, 16, 17, 18, 19]);

pub struct Binaries {
    read: BinaryReader,
    aims: Vec<Aim<Draft>>,
    report: Report,
    binaries: Inputs,
    case: Case,
}

impl Binaries {
    pub fn new(read: BinaryReader) -> Binaries {
        let aims = aims();
        Binaries {
            read,
            report: Report::new(&[READ], &aims),
            aims,
            binaries: Inputs::new(),
            case: Case { binaries: Vec::new(), zeros: 0 },
        }
    }

    /// Every answer up to the first that is no binary, and that one a second time. The library's answers, without the second.
    fn compare(&mut self) -> Result<Vec<Binary>, Difference> {
        self.binaries.lend(&self.case.binaries, self.case.zeros);
        let lent = self.binaries.lent();
        let (mut cursor, mut answers) = (Cursor::default(), Vec::new());
        loop {
            let model = next(lent, cursor);
            let library = (self.read)(lent, cursor);
            same(READ.0, &model, &library)?;
            self.report.count(READ.0, model.0.number);
            answers.push(library.0);
            if model.0.number != OK {
                same(READ.0, &model, &(self.read)(lent, library.1))?;
                holds(READ.0, lent.starts_with(&self.case.binaries), KEPT, &"changed")?;
                return Ok(answers);
            }
            cursor = library.1;
        }
    }

    /// A real file is read to its end, and has the kinds, images and strings that it was made of.
    fn read_real(&mut self, sample: &BinariesSample) -> Result<(), Difference> {
        self.case = Case { binaries: sample.bytes.to_vec(), zeros: 0 };
        let mut answers = self.compare()?;
        let last = answers.pop().map(|answer| answer.number);
        let as_made = answers.len() == sample.binaries.len()
            && answers.iter().zip(sample.binaries).all(|(answer, binary)| binary.is(sample.bytes, answer));
        holds(READ.0, last == Some(END) && as_made, "every binary as it was made, then END", &answers)
    }
}

impl Family for Binaries {
    fn name(&self) -> &'static str {
        READ.0
    }

    fn run_fixed(&mut self) -> Result<u64, Difference> {
        let cases = binaries_cases();
        let count = cases.len() + samples::BINARIES.len();
        for case in cases {
            self.case = case;
            self.compare()?;
        }
        for sample in samples::BINARIES {
            self.read_real(sample)?;
        }
        Ok(count as u64)
    }

    fn run(&mut self, random: &mut Random) -> Result<(), Difference> {
        let (case, aim) = some_case(&self.aims, random, sample_case, some_draft, Draft::case, shake);
        self.case = case;
        let number = self.compare()?.last().map_or(OK, |answer| answer.number);
        aim.into_iter().for_each(|aim| self.report.aimed(aim, number));
        Ok(())
    }

    fn report(&self) -> &Report {
        &self.report
    }

    fn files(&self) -> Vec<(&'static str, Vec<u8>)> {
        let notes = format!("zero bytes after the binaries: {}\n", self.case.zeros);
        vec![("binaries", self.case.binaries.clone()), ("notes.txt", notes.into_bytes())]
    }
}
