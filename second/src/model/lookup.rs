//! "Two bundles, patch before main": the image for a device name from whichever of two bundles holds it, by the general reading.

use super::bundle::{compatible_entry, entries, Entries, Entry};
use super::id::{meaning, Meaning, Reading};
use super::*;

// "a number that says which (1 patch, 2 main, else 0)".
pub const NEITHER: u64 = 0;
pub const PATCH: u64 = 1;
pub const MAIN: u64 = 2;

/// What the lookup returns beside the image. The place of a refusal by 1 to 8, the position and the size count in the bundle that is named.
#[derive(Clone, Copy, Debug, Default, PartialEq, Eq)]
pub struct LookedUp {
    pub number: u64,
    pub place: u64,
    pub bundle: u64,
    pub position: u64,
    pub size: u64,
}

/// "Lend both and get back the image itself, a part of whichever of the two holds it, with a number that says which".
pub fn lookup<'a>(patch: &'a [u8], main: &'a [u8], device: &[u8]) -> (LookedUp, &'a [u8]) {
    lookup_of(&entries(Reading::General, patch), &entries(Reading::General, main), device)
}

/// The same for two bundles of which this was read. "A refusal hands back an empty part".
pub fn lookup_of<'a>(patch: &Entries<'a>, main: &Entries<'a>, device: &[u8]) -> (LookedUp, &'a [u8]) {
    match held(patch, main, device) {
        Err((bundle, Refusal { number, place })) => (LookedUp { number, place, bundle, position: 0, size: 0 }, &[]),
        Ok((bundle, entry)) => {
            let (position, size) = (entry.offset, entry.image.len() as u64);
            (LookedUp { number: OK, place: 0, bundle, position, size }, entry.image)
        }
    }
}

/// An entry, or a refusal, with the number of the bundle that holds it or is refused.
type Held<'e, 'a> = Result<(u64, &'e Entry<'a>), (u64, Refusal)>;

/// "Patch is checked 1 to 8, then main 1 to 8, then QUERY, then NONE if neither has one." A refusal "by 1 to 8 names the bundle by the same
/// number, despite 01's zeros".
fn held<'e, 'a>(patch: &'e Entries<'a>, main: &'e Entries<'a>, device: &[u8]) -> Held<'e, 'a> {
    let patch = patch.as_ref().map_err(|refusal| (PATCH, *refusal))?;
    let main = main.as_ref().map_err(|refusal| (MAIN, *refusal))?;
    let device = meaning(device).ok_or((NEITHER, Refusal { number: QUERY, place: 0 }))?;
    answer(patch, main, &device).ok_or((NEITHER, Refusal { number: NONE, place: 0 }))
}

/// "The patch answers where it has a compatible entry; the main bundle answers only where the patch would say NONE." "An image in the patch
/// of size 0 is an answer too."
fn answer<'e, 'a>(patch: &'e [Entry<'a>], main: &'e [Entry<'a>], device: &Meaning) -> Option<(u64, &'e Entry<'a>)> {
    match compatible_entry(patch, device) {
        Some((_, entry)) => Some((PATCH, entry)),
        None => compatible_entry(main, device).map(|(_, entry)| (MAIN, entry)),
    }
}
