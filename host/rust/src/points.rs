//! Locating points.

use crate::c;
use crate::refusal::{code_or_refusal, Refusal};

/// The code of the cell of a depth in which a point is located: the least code of the point's face and that depth
/// whose closed triangle holds the point; or else [`Refusal::Solid`], [`Refusal::Face`], [`Refusal::Depth`] or
/// [`Refusal::Point`].
///
/// The point is given by its face and its weights at the face's tip `t`, left corner `l` and right corner `r`. Their
/// true sum is 2^26; one that wraps around to it is refused.
///
/// ```
/// use urdinhosa::{locate, Refusal};
///
/// // the middle of the side between the left and the right corner, where three cells of depth 1 meet
/// assert_eq!(locate(1, 0, 0, 1 << 25, 1 << 25, 1), Ok(0x4080000000000001));
/// assert_eq!(locate(1, 0, 1, 1 << 25, 1 << 25, 1), Err(Refusal::Point));
/// ```
pub fn locate(solid: u64, face: u64, t: u64, l: u64, r: u64, depth: u64) -> Result<u64, Refusal> {
    // SAFETY: takes and answers plain numbers.
    code_or_refusal(unsafe { c::urdinhosa_locate(solid, face, t, l, r, depth) })
}
