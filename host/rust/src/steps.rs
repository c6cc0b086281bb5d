//! Steps over the sides of triangles.

use crate::c;
use crate::refusal::{code_or_refusal, Refusal};

/// The code of the triangle across a side: the one other cell of the same solid and depth that has both end corners of
/// that side, within the face or over a seam; or else [`Refusal::Solid`], [`Refusal::Face`], [`Refusal::Depth`],
/// [`Refusal::Tail`] or [`Refusal::Direction`].
///
/// The direction is 0 for the left side, 1 for the right and 2 for the vertical one. Worked out on the whole path at
/// once.
///
/// ```
/// use urdinhosa::{step, Refusal};
///
/// // to the right on face 7 of the icosahedron, and back to the left
/// assert_eq!(step(0xce96000000000006, 1), Ok(0xce98a00000000006));
/// assert_eq!(step(0xce98a00000000006, 0), Ok(0xce96000000000006));
/// assert_eq!(step(0xce96000000000006, 3), Err(Refusal::Direction));
/// ```
pub fn step(code: u64, direction: u64) -> Result<u64, Refusal> {
    // SAFETY: takes and answers plain numbers.
    code_or_refusal(unsafe { c::urdinhosa_step(code, direction) })
}

/// The same triangle as [`step`] answers, for every input, worked out digit by digit.
///
/// ```
/// use urdinhosa::{step, walk};
///
/// // over the seam between faces 3 and 0 of the tetrahedron
/// assert_eq!(walk(0x4780000000000001, 1), Ok(0x4000000000000001));
/// assert_eq!(walk(0x4780000000000001, 1), step(0x4780000000000001, 1));
/// ```
pub fn walk(code: u64, direction: u64) -> Result<u64, Refusal> {
    // SAFETY: takes and answers plain numbers.
    code_or_refusal(unsafe { c::urdinhosa_walk(code, direction) })
}
