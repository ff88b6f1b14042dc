//! The library's calls that are timed: one call does the whole job.

extern "C" {
    fn offload_check_number(bundle: *const u8, bundle_length: usize) -> u64;
    fn offload_pick_number(bundle: *const u8, bundle_length: usize, device: *const u8, device_length: usize) -> u64;
    fn offload_pick_size(bundle: *const u8, bundle_length: usize, device: *const u8, device_length: usize) -> u64;
    fn offload_pick_each_word(
        bundle: *const u8,
        bundle_length: usize,
        buffer: *const u8,
        buffer_length: usize,
        names: *const [u64; 2],
        name_count: usize,
        slots: *mut [u64; 4],
        slot_count: usize,
    ) -> u64;
    fn offload_entry_number(bundle: *const u8, bundle_length: usize, index: usize) -> u64;
    fn offload_normalise_length(bundle: *const u8, bundle_length: usize, out: *mut u8, out_length: usize) -> u64;
    fn offload_compare_length(
        left: *const u8,
        left_length: usize,
        right: *const u8,
        right_length: usize,
        out: *mut u8,
        out_length: usize,
    ) -> u64;
    fn offload_amdgpu_check_number(bundle: *const u8, bundle_length: usize) -> u64;
    fn offload_amdgpu_pick_number(
        bundle: *const u8,
        bundle_length: usize,
        device: *const u8,
        device_length: usize,
    ) -> u64;
    fn offload_amdgpu_normalise_length(bundle: *const u8, bundle_length: usize, out: *mut u8, out_length: usize)
        -> u64;
    fn offload_canonical_length(id: *const u8, id_length: usize, out: *mut u8, out_length: usize) -> u64;
    fn offload_comes_before(a: *const u8, a_length: usize, b: *const u8, b_length: usize) -> bool;
    fn offload_binaries_next_size(binaries: *const u8, length: usize, position: usize, taken: usize) -> u64;
}

/// The calls of one family, which take the same.
macro_rules! family {
    ($taken:tt $($name:ident)*) => {
        extern "C" {
            $(fn $name $taken -> u64;)*
        }
    };
}

family! {
    (
        patch: *const u8,
        patch_length: usize,
        main: *const u8,
        main_length: usize,
        device: *const u8,
        device_length: usize,
    )
    offload_lookup_number offload_lookup_place offload_lookup_bundle offload_lookup_position offload_lookup_size
}

family! {
    (
        binaries: *const u8,
        binaries_length: usize,
        out: *mut u8,
        out_length: usize,
        spans: *mut [u64; 2],
        span_count: usize,
    )
    offload_recover_number offload_recover_place offload_recover_length offload_recover_spans
}

pub fn check(bundle: &[u8]) -> u64 {
    // SAFETY: the slice is as long as it says.
    unsafe { offload_check_number(bundle.as_ptr(), bundle.len()) }
}

pub fn pick(bundle: &[u8], device: &[u8]) -> u64 {
    // SAFETY: the slices are as long as they say.
    unsafe { offload_pick_number(bundle.as_ptr(), bundle.len(), device.as_ptr(), device.len()) }
}

/// The size of the image, as `lookup_size` gives it.
pub fn pick_size(bundle: &[u8], device: &[u8]) -> u64 {
    // SAFETY: the slices are as long as they say.
    unsafe { offload_pick_size(bundle.as_ptr(), bundle.len(), device.as_ptr(), device.len()) }
}

/// Each name is a part of the buffer: start and length. A slot has number, index, position and size.
pub fn pick_each(bundle: &[u8], buffer: &[u8], names: &[[u64; 2]], slots: &mut [[u64; 4]]) -> u64 {
    // SAFETY: the slices are as long as they say, and the slots share no byte with the others.
    unsafe {
        offload_pick_each_word(
            bundle.as_ptr(),
            bundle.len(),
            buffer.as_ptr(),
            buffer.len(),
            names.as_ptr(),
            names.len(),
            slots.as_mut_ptr(),
            slots.len(),
        )
    }
}

type LookupNumber = unsafe extern "C" fn(*const u8, usize, *const u8, usize, *const u8, usize) -> u64;

fn lookup_number(call: LookupNumber, patch: &[u8], main: &[u8], device: &[u8]) -> u64 {
    // SAFETY: the slices are as long as they say.
    unsafe { call(patch.as_ptr(), patch.len(), main.as_ptr(), main.len(), device.as_ptr(), device.len()) }
}

pub fn lookup_size(patch: &[u8], main: &[u8], device: &[u8]) -> u64 {
    lookup_number(offload_lookup_size, patch, main, device)
}

/// Number, place, bundle, position and size, each by its own call: to compare, not to time.
pub fn lookup(patch: &[u8], main: &[u8], device: &[u8]) -> [u64; 5] {
    let calls: [LookupNumber; 5] = [
        offload_lookup_number,
        offload_lookup_place,
        offload_lookup_bundle,
        offload_lookup_position,
        offload_lookup_size,
    ];
    calls.map(|call| lookup_number(call, patch, main, device))
}

pub fn entry(bundle: &[u8], index: usize) -> u64 {
    // SAFETY: the slice is as long as it says.
    unsafe { offload_entry_number(bundle.as_ptr(), bundle.len(), index) }
}

pub fn normalise(bundle: &[u8], out: &mut [u8]) -> u64 {
    // SAFETY: the slices are as long as they say, and the output shares no byte with the bundle.
    unsafe { offload_normalise_length(bundle.as_ptr(), bundle.len(), out.as_mut_ptr(), out.len()) }
}

/// The length of the report on two bundles.
pub fn report(left: &[u8], right: &[u8], out: &mut [u8]) -> u64 {
    // SAFETY: the slices are as long as they say, and the output shares no byte with the bundles.
    unsafe {
        offload_compare_length(left.as_ptr(), left.len(), right.as_ptr(), right.len(), out.as_mut_ptr(), out.len())
    }
}

/// By the profile for AMD's GPUs.
pub mod amdgpu {
    use super::*;

    pub fn check(bundle: &[u8]) -> u64 {
        // SAFETY: the slice is as long as it says.
        unsafe { offload_amdgpu_check_number(bundle.as_ptr(), bundle.len()) }
    }

    pub fn pick(bundle: &[u8], device: &[u8]) -> u64 {
        // SAFETY: the slices are as long as they say.
        unsafe { offload_amdgpu_pick_number(bundle.as_ptr(), bundle.len(), device.as_ptr(), device.len()) }
    }

    pub fn normalise(bundle: &[u8], out: &mut [u8]) -> u64 {
        // SAFETY: the slices are as long as they say, and the output shares no byte with the bundle.
        unsafe { offload_amdgpu_normalise_length(bundle.as_ptr(), bundle.len(), out.as_mut_ptr(), out.len()) }
    }
}

pub fn canonical(id: &[u8], out: &mut [u8]) -> u64 {
    // SAFETY: the slices are as long as they say, and the output shares no byte with the ID.
    unsafe { offload_canonical_length(id.as_ptr(), id.len(), out.as_mut_ptr(), out.len()) }
}

pub fn comes_before(a: &[u8], b: &[u8]) -> bool {
    // SAFETY: the slices are as long as they say.
    unsafe { offload_comes_before(a.as_ptr(), a.len(), b.as_ptr(), b.len()) }
}

/// How many binaries there are before the first answer that is none.
pub fn read_all(binaries: &[u8]) -> u64 {
    let (mut position, mut taken) = (0, 0);
    loop {
        // SAFETY: the slice is as long as it says.
        let size = unsafe { offload_binaries_next_size(binaries.as_ptr(), binaries.len(), position, taken) };
        if size == 0 {
            return taken as u64;
        }
        position += size as usize;
        taken += 1;
    }
}

type RecoverNumber = unsafe extern "C" fn(*const u8, usize, *mut u8, usize, *mut [u64; 2], usize) -> u64;

/// Number, place, length and spans.
pub const RECOVER: [RecoverNumber; 4] =
    [offload_recover_number, offload_recover_place, offload_recover_length, offload_recover_spans];

/// What one of these calls returns. A span has start and length.
pub fn recover(call: RecoverNumber, binaries: &[u8], out: &mut [u8], spans: &mut [[u64; 2]]) -> u64 {
    // SAFETY: the slices are as long as they say, and output and spans share no byte with the others.
    unsafe { call(binaries.as_ptr(), binaries.len(), out.as_mut_ptr(), out.len(), spans.as_mut_ptr(), spans.len()) }
}
