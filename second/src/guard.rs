//! Memory that ends at a page which may not be touched, so that a byte read or written past the end of a lent slice is seen.

use crate::model::each::{Part, Slot};
use std::ffi::c_void;
use std::mem::{align_of, size_of, size_of_val};
use std::ptr::null_mut;

extern "C" {
    fn mmap(address: *mut c_void, length: usize, protection: i32, flags: i32, file: i32, offset: i64) -> *mut c_void;
    fn mprotect(address: *mut c_void, length: usize, protection: i32) -> i32;
    fn munmap(address: *mut c_void, length: usize) -> i32;
}

const PROT_NONE: i32 = 0;
const PROT_READ_AND_WRITE: i32 = 1 + 2;
const MAP_PRIVATE: i32 = 0x02;
const MAP_ANONYMOUS: i32 = 0x20;
const MAP_NORESERVE: i32 = 0x4000;
const PAGE: usize = 4096;

/// Pages that can be used, zero at first and not taken from memory before they are touched, between two that cannot be.
struct Pages {
    base: *mut u8,
    capacity: usize,
}

impl Pages {
    fn new(capacity: usize) -> Pages {
        let capacity = (capacity + PAGE - 1) / PAGE * PAGE;
        let flags = MAP_PRIVATE | MAP_ANONYMOUS | MAP_NORESERVE;
        // SAFETY: new pages of its own; none of them is used before the two calls have succeeded.
        unsafe {
            let all = mmap(null_mut(), capacity + 2 * PAGE, PROT_NONE, flags, -1, 0);
            assert!(all as isize != -1, "mmap");
            let base = all.cast::<u8>().add(PAGE);
            assert!(mprotect(base.cast(), capacity, PROT_READ_AND_WRITE) == 0, "mprotect");
            Pages { base, capacity }
        }
    }

    /// The last bytes before the page that may not be touched.
    fn end(&self, length: usize) -> &[u8] {
        assert!(length <= self.capacity, "a lent slice longer than its pages");
        // SAFETY: inside the pages, which live as long as `self`.
        unsafe { std::slice::from_raw_parts(self.base.add(self.capacity - length), length) }
    }

    fn end_mut(&mut self, length: usize) -> &mut [u8] {
        assert!(length <= self.capacity, "a lent slice longer than its pages");
        // SAFETY: as above, and `self` is borrowed mutably.
        unsafe { std::slice::from_raw_parts_mut(self.base.add(self.capacity - length), length) }
    }
}

impl Drop for Pages {
    fn drop(&mut self) {
        // SAFETY: the pages of `new`; no slice of them outlives `self`.
        unsafe {
            munmap(self.base.sub(PAGE).cast(), self.capacity + 2 * PAGE);
        }
    }
}

/// A slice to read.
pub struct Input {
    pages: Pages,
    head: usize,
    length: usize,
}

impl Input {
    pub fn new(capacity: usize) -> Input {
        Input { pages: Pages::new(capacity), head: 0, length: 0 }
    }

    /// Lends these bytes, followed by so many zero bytes.
    pub fn lend(&mut self, bytes: &[u8], zeros: usize) -> &[u8] {
        let (head, length) = (self.head, self.length);
        self.pages.end_mut(length)[..head].fill(0);
        self.head = bytes.len();
        self.length = bytes.len() + zeros;
        self.pages.end_mut(bytes.len() + zeros)[..bytes.len()].copy_from_slice(bytes);
        self.lent()
    }

    pub fn lent(&self) -> &[u8] {
        self.pages.end(self.length)
    }
}

/// Small slices and ones above the size limit: the pages of the second are made when the first such slice is lent.
pub struct Inputs {
    small: Input,
    large: Option<Input>,
    uses_large: bool,
}

const SMALL: usize = 1 << 20;
const LARGE: usize = (1 << 30) + (1 << 20);

impl Inputs {
    pub fn new() -> Inputs {
        Inputs { small: Input::new(SMALL), large: None, uses_large: false }
    }

    pub fn lend(&mut self, bytes: &[u8], zeros: usize) {
        self.uses_large = bytes.len() + zeros > SMALL;
        if self.uses_large {
            self.large.get_or_insert_with(|| Input::new(LARGE)).lend(bytes, zeros);
        } else {
            self.small.lend(bytes, zeros);
        }
    }

    pub fn lent(&self) -> &[u8] {
        match &self.large {
            Some(large) if self.uses_large => large.lent(),
            _ => self.small.lent(),
        }
    }
}

impl Default for Inputs {
    fn default() -> Inputs {
        Inputs::new()
    }
}

/// Two slices to read, of which one may be lent as the end of the other.
#[derive(Default)]
pub struct TwoInputs {
    both: [Inputs; 2],
    shared: bool,
}

impl TwoInputs {
    /// Lends both, each followed by so many zero bytes. Where it is wanted, the shorter is lent as the end of the longer one, if that ends
    /// with the same bytes.
    pub fn lend(&mut self, bytes: [&[u8]; 2], zeros: [usize; 2], shared: bool) {
        for (inputs, (bytes, zeros)) in self.both.iter_mut().zip(bytes.into_iter().zip(zeros)) {
            inputs.lend(bytes, zeros);
        }
        let [one, other] = bytes;
        let is_end = one.ends_with(other) || other.ends_with(one);
        self.shared = shared && is_end && zeros == [0; 2];
    }

    pub fn lent(&self) -> [&[u8]; 2] {
        let [one, other] = [self.both[0].lent(), self.both[1].lent()];
        match self.shared {
            true if one.len() <= other.len() => [&other[other.len() - one.len()..], other],
            true => [one, &one[one.len() - other.len()..]],
            false => [one, other],
        }
    }
}

/// Bytes before a lent output that must stay as they were.
const MARGIN: usize = 128;

/// A slice to write, filled with a pattern.
pub struct Output {
    pages: Pages,
    pattern: Vec<u8>,
}

impl Output {
    pub fn new() -> Output {
        let every_byte: Vec<u8> = (0..=255u8).map(|k| k.wrapping_mul(37) ^ 0xA5).collect();
        Output { pages: Pages::new(2 * SMALL), pattern: every_byte.repeat(2 * SMALL / 256) }
    }

    pub fn pattern(&self, length: usize) -> &[u8] {
        &self.pattern[..length]
    }

    /// Lends an output of this length, filled with the pattern, with a margin before it.
    pub fn lend(&mut self, length: usize) -> &mut [u8] {
        let all = self.pages.end_mut(MARGIN + length);
        all[..MARGIN].copy_from_slice(&self.pattern[..MARGIN]);
        all[MARGIN..].copy_from_slice(&self.pattern[..length]);
        &mut all[MARGIN..]
    }

    /// Whether the lent output holds these bytes, and the margin is as it was.
    pub fn holds(&self, expected: &[u8]) -> bool {
        let all = self.pages.end(MARGIN + expected.len());
        all[..MARGIN] == *self.pattern(MARGIN) && all[MARGIN..] == *expected
    }

    /// The first byte that is not as it should be, counted from the start of the lent output: one of the margin lies before it.
    pub fn differs_at(&self, expected: &[u8]) -> Option<isize> {
        if self.holds(expected) {
            return None;
        }
        let all = self.pages.end(MARGIN + expected.len());
        let at = all.iter().zip(self.pattern(MARGIN).iter().chain(expected)).position(|(found, byte)| found != byte);
        at.map(|at| at as isize - MARGIN as isize)
    }
}

impl Default for Output {
    fn default() -> Output {
        Output::new()
    }
}

/// Items of a lent list: numbers of 64 bits as C lays them out.
///
/// # Safety
/// Any bytes of an item's size are an item, and every byte of an item counts.
pub unsafe trait Item: Copy {}

// SAFETY: `repr(C)` structs of numbers of 64 bits.
unsafe impl Item for Part {}
unsafe impl Item for Slot {}

/// The bytes of a list.
pub fn bytes_of<T: Item>(list: &[T]) -> &[u8] {
    // SAFETY: the same memory, and every byte of an item counts.
    unsafe { std::slice::from_raw_parts(list.as_ptr().cast(), size_of_val(list)) }
}

/// How many items so many bytes at this place are.
fn item_count<T: Item>(start: *const u8, length: usize) -> usize {
    assert!(start as usize % align_of::<T>() == 0 && length % size_of::<T>() == 0, "bytes that are no list");
    length / size_of::<T>()
}

/// The list that these bytes are. An empty one begins where they do.
pub fn list_of<T: Item>(bytes: &[u8]) -> &[T] {
    let count = item_count::<T>(bytes.as_ptr(), bytes.len());
    // SAFETY: the same memory, and any bytes are items.
    unsafe { std::slice::from_raw_parts(bytes.as_ptr().cast(), count) }
}

pub fn list_of_mut<T: Item>(bytes: &mut [u8]) -> &mut [T] {
    let count = item_count::<T>(bytes.as_ptr(), bytes.len());
    // SAFETY: as above, and the bytes are borrowed mutably.
    unsafe { std::slice::from_raw_parts_mut(bytes.as_mut_ptr().cast(), count) }
}

#[cfg(test)]
mod tests {
    use super::*;

    #[test]
    fn a_lent_slice_ends_at_a_page() {
        let mut input = Input::new(100);
        for length in [0, 1, 17, 4096] {
            let lent = input.lend(&vec![7; length], 0);
            assert_eq!(lent, vec![7; length]);
            assert_eq!(lent.as_ptr_range().end as usize % PAGE, 0);
        }
    }

    #[test]
    fn zero_bytes_follow() {
        let mut inputs = Inputs::new();
        inputs.lend(b"abc", 1 << 30);
        assert_eq!(inputs.lent().len(), (1 << 30) + 3);
        assert_eq!(inputs.lent()[..5], *b"abc\0\0");
        inputs.lend(b"x", (1 << 30) + 5);
        assert_eq!(inputs.lent()[..5], *b"x\0\0\0\0");
        inputs.lend(b"small", 0);
        assert_eq!(inputs.lent(), b"small");
    }

    #[test]
    fn one_of_two_is_lent_as_the_end_of_the_other() {
        let mut inputs = TwoInputs::default();
        for bytes in [[&b"ab"[..], b"cdab"], [b"cdab", b"ab"], [b"ab", b"ab"], [b"", b"x"], [b"ab", b"abc"]] {
            for (zeros, shared) in [([0, 0], true), ([0, 0], false), ([0, 1], true)] {
                inputs.lend(bytes, zeros, shared);
                let [one, other] = inputs.lent();
                assert!(one.starts_with(bytes[0]) && other.starts_with(bytes[1]));
                let same_end = one.as_ptr_range().end == other.as_ptr_range().end;
                assert_eq!(same_end, shared && zeros == [0, 0] && bytes[1] != b"abc");
            }
        }
    }

    #[test]
    fn outputs_are_compared_whole() {
        let mut output = Output::new();
        let pattern = output.pattern(10).to_vec();
        output.lend(10);
        assert!(output.holds(&pattern));
        assert_eq!(output.differs_at(&pattern), None);
        output.lend(10)[3] = 0;
        assert!(!output.holds(&pattern));
        assert_eq!(output.differs_at(&pattern), Some(3));
        output.lend(10);
        output.pages.end_mut(11)[0] ^= 1;
        assert!(!output.holds(&pattern));
        assert_eq!(output.differs_at(&pattern), Some(-1));
    }
    #[test]
    fn a_lent_list_ends_at_a_page() {
        let parts: Vec<Part> = (0..17).map(|k| Part { start: k, length: u64::MAX - k }).collect();
        let mut input = Input::new(1000);
        for count in [0, 1, 17] {
            let lent = list_of::<Part>(input.lend(bytes_of(&parts[..count]), 0));
            assert_eq!(lent, &parts[..count]);
            assert_eq!(lent.as_ptr_range().end as usize % PAGE, 0);
        }
    }

    #[test]
    fn lent_slots_are_filled_with_the_pattern() {
        let mut output = Output::new();
        for count in [0, 1, 40] {
            let pattern = output.pattern(32 * count).to_vec();
            let slots = list_of_mut::<Slot>(output.lend(pattern.len()));
            assert_eq!((slots.len(), bytes_of(slots)), (count, &pattern[..]));
            slots.iter_mut().for_each(|slot| slot.size ^= 1);
            assert_eq!(output.holds(&pattern), count == 0);
        }
    }
}
