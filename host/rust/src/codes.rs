//! Codes of cells: their parts, parent and children.

use crate::c;
use crate::refusal::{code_or_refusal, Refusal};

/// The parts of a code.
#[derive(Clone, Copy, Debug, PartialEq, Eq, Hash)]
pub struct Fields {
    /// 1 tetrahedron, 2 octahedron, 3 icosahedron.
    pub solid: u64,
    /// From 0, below the solid's number of faces (4, 8, 20).
    pub face: u64,
    /// 52 bits, the first digit on top (bits 51 and 50), zeros after the last digit.
    pub path: u64,
    /// 0 to 26.
    pub depth: u64,
}

/// The code of the cell with these parts, each as [`Fields`] describes it; or else [`Refusal::Solid`],
/// [`Refusal::Face`], [`Refusal::Depth`] or [`Refusal::Tail`].
///
/// ```
/// use urdinhosa::{pack, Refusal};
///
/// // digits 01, 11 on face 7 of the octahedron
/// assert_eq!(pack(2, 7, 0b0111 << 48, 2), Ok(0x8ee0000000000002));
/// assert_eq!(pack(2, 8, 0, 0), Err(Refusal::Face));
/// ```
pub fn pack(solid: u64, face: u64, path: u64, depth: u64) -> Result<u64, Refusal> {
    // SAFETY: takes and answers plain numbers.
    code_or_refusal(unsafe { c::urdinhosa_pack(solid, face, path, depth) })
}

/// The parts of a code; or else [`Refusal::Solid`], [`Refusal::Face`], [`Refusal::Depth`] or [`Refusal::Tail`].
/// [`pack`] of these parts is the code again.
///
/// ```
/// use urdinhosa::{unpack, Fields, Refusal};
///
/// let fields = Fields { solid: 2, face: 7, path: 0b0111 << 48, depth: 2 };
/// assert_eq!(unpack(0x8ee0000000000002), Ok(fields));
/// assert_eq!(unpack(0), Err(Refusal::Solid));
/// ```
pub fn unpack(code: u64) -> Result<Fields, Refusal> {
    let mut fields = [0; 4];
    // SAFETY: the room for four numbers is our own.
    let number = unsafe { c::urdinhosa_unpack(code, &mut fields) };
    let [solid, face, path, depth] = fields;
    match number {
        0 => Ok(Fields { solid, face, path, depth }),
        refused => Err(Refusal::of_number(refused)),
    }
}

/// The code of the cell that a cell is a child of; or else [`Refusal::Solid`], [`Refusal::Face`], [`Refusal::Depth`],
/// [`Refusal::Tail`] or [`Refusal::Root`].
///
/// ```
/// use urdinhosa::{parent, Refusal};
///
/// assert_eq!(parent(0x4180000000000001), Ok(0x4000000000000000));
/// assert_eq!(parent(0x4000000000000000), Err(Refusal::Root));
/// ```
pub fn parent(code: u64) -> Result<u64, Refusal> {
    // SAFETY: takes and answers plain numbers.
    code_or_refusal(unsafe { c::urdinhosa_parent(code) })
}

/// The code of a child of a cell, by its digit, 0 to 3; or else [`Refusal::Solid`], [`Refusal::Face`],
/// [`Refusal::Depth`], [`Refusal::Tail`], [`Refusal::Digit`] or [`Refusal::Deep`].
///
/// ```
/// use urdinhosa::{child, Refusal};
///
/// assert_eq!(child(0x4000000000000000, 3), Ok(0x4180000000000001));
/// assert_eq!(child(0x4000000000000000, 4), Err(Refusal::Digit));
/// ```
pub fn child(code: u64, digit: u64) -> Result<u64, Refusal> {
    // SAFETY: takes and answers plain numbers.
    code_or_refusal(unsafe { c::urdinhosa_child(code, digit) })
}
