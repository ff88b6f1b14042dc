//! The seeded generator of cases: good ones of every shape, and damage aimed at each number on both sides of each limit.

pub mod binaries;
pub mod binary_contents;
pub mod bundles;
pub mod differences;
pub mod each;
pub mod examples;
pub mod ids;
pub mod images;
pub mod lookup;
pub mod pairs;
pub mod random;
pub mod records;
pub mod recover;

use crate::model::SIZE_LIMIT;
use random::Random;

/// What an aim does to a case that is being made.
pub type Make<Draft> = Box<dyn Fn(&mut Draft, &mut Random)>;

/// One thing a case can be aimed at: one side of a line that RULES draws. The number is what the call has to give.
pub struct Aim<Draft> {
    pub name: String,
    pub call: &'static str,
    pub number: u64,
    pub make: Make<Draft>,
    /// Its cases are far larger than others: fewer are aimed at it.
    pub large: bool,
}

impl<Draft> Aim<Draft> {
    /// Hundreds of aims are listed: compiled into each line of the lists, this would take long.
    #[inline(never)]
    pub fn new(
        call: &'static str,
        number: u64,
        name: &str,
        make: impl Fn(&mut Draft, &mut Random) + 'static,
    ) -> Aim<Draft> {
        Aim { name: name.to_string(), call, number, make: Box::new(make), large: false }
    }

    pub fn large(self) -> Aim<Draft> {
        Aim { large: true, ..self }
    }
}

/// How long a lent output is, in bytes or in items, seen from the length that would be written.
#[derive(Clone, Copy, Debug)]
pub enum Room {
    Exact,
    Spare(usize),
    Short(usize),
    Nothing,
    /// So long, whatever is written.
    Of(usize),
}

impl Room {
    pub fn any(random: &mut Random) -> Room {
        match random.below(6) {
            0 | 1 => Room::Exact,
            2 | 3 => Room::Spare(random.between(1, 40)),
            4 => Room::Short(random.between(1, 40)),
            _ => Room::Nothing,
        }
    }

    /// Outputs above a mebibyte are never lent: the model says BIG or ROOM there.
    pub fn lent(self, length: u128) -> usize {
        if length > 1 << 20 {
            return 64;
        }
        let length = length as usize;
        match self {
            Room::Exact => length,
            Room::Spare(more) => length + more,
            Room::Short(less) => length.saturating_sub(less),
            Room::Nothing => 0,
            Room::Of(length) => length,
        }
    }
}

/// A container of the size limit, in bytes.
pub const LIMIT: usize = SIZE_LIMIT as usize;
