//! The baseline's calls, and the proof by cases that it gives the same answers: the second program's comparison, with the baseline in the
//! library's place.

use crate::baseline_binaries;
use second::calls::{BundleCalls, ReadingCalls};
use second::families::binaries::Binaries;
use second::families::bundles::Bundles;
use second::families::Family;
use second::gen::random::Random;
use second::model::bundle::{Checked, Located, Picked};
use second::model::Written;

#[repr(C)]
struct CChecked {
    number: u64,
    place: u64,
    count: u64,
}

#[repr(C)]
struct CPicked {
    number: u64,
    place: u64,
    index: u64,
    position: u64,
    size: u64,
}

#[repr(C)]
struct CPickedEach {
    number: u64,
    place: u64,
    slots: u64,
    word: u64,
    taken: u64,
}

#[repr(C)]
struct CLookedUp {
    number: u64,
    place: u64,
    bundle: u64,
    position: u64,
    size: u64,
}

#[repr(C)]
struct CLocated {
    number: u64,
    place: u64,
    position: u64,
    size: u64,
    id_position: u64,
    id_length: u64,
}

#[repr(C)]
struct CWritten {
    number: u64,
    place: u64,
    length: u64,
}

extern "C" {
    fn baseline_check(bundle: *const u8, length: usize) -> CChecked;
    fn baseline_pick(bundle: *const u8, length: usize, device: *const u8, device_length: usize) -> CPicked;
    fn baseline_pick_each(
        bundle: *const u8,
        length: usize,
        buffer: *const u8,
        buffer_length: usize,
        names: *const [u64; 2],
        count: usize,
        slots: *mut [u64; 4],
        room: usize,
    ) -> CPickedEach;
    fn baseline_lookup(
        patch: *const u8,
        patch_length: usize,
        main: *const u8,
        main_length: usize,
        device: *const u8,
        device_length: usize,
    ) -> CLookedUp;
    fn baseline_entry(bundle: *const u8, length: usize, index: u64) -> CLocated;
    fn baseline_normalise(bundle: *const u8, length: usize, out: *mut u8, room: usize) -> CWritten;
    fn baseline_report(
        left: *const u8,
        left_length: usize,
        right: *const u8,
        right_length: usize,
        out: *mut u8,
        room: usize,
    ) -> u64;
    fn baseline_amdgpu_check(bundle: *const u8, length: usize) -> CChecked;
    fn baseline_amdgpu_pick(bundle: *const u8, length: usize, device: *const u8, device_length: usize) -> CPicked;
    fn baseline_amdgpu_normalise(bundle: *const u8, length: usize, out: *mut u8, room: usize) -> CWritten;
}

impl From<CChecked> for Checked {
    fn from(CChecked { number, place, count }: CChecked) -> Checked {
        Checked { number, place, count }
    }
}

impl From<CPicked> for Picked {
    fn from(CPicked { number, place, index, position, size }: CPicked) -> Picked {
        Picked { number, place, index, position, size }
    }
}

impl From<CWritten> for Written {
    fn from(CWritten { number, place, length }: CWritten) -> Written {
        Written { number, place, length }
    }
}

pub fn check(bundle: &[u8]) -> Checked {
    // SAFETY: the slice is as long as it says.
    unsafe { baseline_check(bundle.as_ptr(), bundle.len()) }.into()
}

pub fn pick(bundle: &[u8], device: &[u8]) -> Picked {
    // SAFETY: the slices are as long as they say.
    unsafe { baseline_pick(bundle.as_ptr(), bundle.len(), device.as_ptr(), device.len()) }.into()
}

/// The word.
pub fn pick_each(bundle: &[u8], buffer: &[u8], names: &[[u64; 2]], slots: &mut [[u64; 4]]) -> u64 {
    // SAFETY: the slices are as long as they say, and the slots share no byte with the others.
    let picked = unsafe {
        baseline_pick_each(
            bundle.as_ptr(),
            bundle.len(),
            buffer.as_ptr(),
            buffer.len(),
            names.as_ptr(),
            names.len(),
            slots.as_mut_ptr(),
            slots.len(),
        )
    };
    picked.word
}

/// Number, place, bundle, position and size.
pub fn lookup(patch: &[u8], main: &[u8], device: &[u8]) -> [u64; 5] {
    // SAFETY: the slices are as long as they say.
    let looked_up = unsafe {
        baseline_lookup(patch.as_ptr(), patch.len(), main.as_ptr(), main.len(), device.as_ptr(), device.len())
    };
    let CLookedUp { number, place, bundle, position, size } = looked_up;
    [number, place, bundle, position, size]
}

pub fn entry(bundle: &[u8], index: u64) -> Located {
    // SAFETY: the slice is as long as it says.
    let located = unsafe { baseline_entry(bundle.as_ptr(), bundle.len(), index) };
    let CLocated { number, place, position, size, id_position, id_length } = located;
    Located { number, place, position, size, id_position, id_length }
}

pub fn normalise(bundle: &[u8], out: &mut [u8]) -> Written {
    // SAFETY: the slices are as long as they say, and the output shares no byte with the bundle.
    unsafe { baseline_normalise(bundle.as_ptr(), bundle.len(), out.as_mut_ptr(), out.len()) }.into()
}

/// The length of the report on two bundles.
pub fn report(left: &[u8], right: &[u8], out: &mut [u8]) -> u64 {
    // SAFETY: the slices are as long as they say, and the output shares no byte with the bundles.
    unsafe { baseline_report(left.as_ptr(), left.len(), right.as_ptr(), right.len(), out.as_mut_ptr(), out.len()) }
}

/// By the profile for AMD's GPUs.
pub mod amdgpu {
    use super::*;

    pub fn check(bundle: &[u8]) -> Checked {
        // SAFETY: the slice is as long as it says.
        unsafe { baseline_amdgpu_check(bundle.as_ptr(), bundle.len()) }.into()
    }

    pub fn pick(bundle: &[u8], device: &[u8]) -> Picked {
        // SAFETY: the slices are as long as they say.
        unsafe { baseline_amdgpu_pick(bundle.as_ptr(), bundle.len(), device.as_ptr(), device.len()) }.into()
    }

    pub fn normalise(bundle: &[u8], out: &mut [u8]) -> Written {
        // SAFETY: the slices are as long as they say, and the output shares no byte with the bundle.
        unsafe { baseline_amdgpu_normalise(bundle.as_ptr(), bundle.len(), out.as_mut_ptr(), out.len()) }.into()
    }
}

const CALLS: BundleCalls =
    BundleCalls { check, pick, entry, normalise: |bundle, out, field| field.of(normalise(bundle, out)) };

const PROFILE: ReadingCalls = ReadingCalls {
    check: amdgpu::check,
    pick: amdgpu::pick,
    normalise: |bundle, out, field| field.of(amdgpu::normalise(bundle, out)),
};

/// Compares the baseline with the second program on the samples and on generated containers; ends the program where it differs.
pub fn compare(cases: u64) {
    compare_family(Box::new(Bundles::new(CALLS)), cases);
    compare_family(Box::new(Bundles::profile(PROFILE)), cases);
    compare_family(Box::new(Binaries::new(baseline_binaries::next)), cases);
}

fn compare_family(mut family: Box<dyn Family>, cases: u64) {
    let name = family.name();
    let fixed = family.run_fixed().unwrap_or_else(|difference| panic!("{name}: the plain C differs: {difference:?}"));
    for case in 0..cases {
        let result = family.run(&mut Random::of_case(1, case));
        result.unwrap_or_else(|difference| panic!("{name}: the plain C differs in case {case}: {difference:?}"));
    }
    println!("{name}: the plain C answers as the second program does, in {cases} generated cases and {fixed} examples and real files.\n");
}
