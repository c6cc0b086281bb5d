//! Meshes of leaves, in slices that the caller lends.

use crate::c;
use crate::refusal::{done_or_refusal, done_or_stopped, Refusal, Stopped};

/// What lies across a side of a leaf.
#[derive(Clone, Copy, Debug, PartialEq, Eq, Hash)]
pub enum Across {
    /// One leaf, a level above.
    Larger(u64),
    /// One leaf of the same level.
    Equal(u64),
    /// Two leaves, a level below, the lesser code first.
    Smaller(u64, u64),
}

/// Whether a slice is a sound mesh of at most 8192 slots.
///
/// ```
/// use urdinhosa::{fresh, is_sound};
///
/// let mut slots = [0; 10];
/// assert!(!is_sound(&slots));
/// fresh(&mut slots, 1).unwrap();
/// assert!(is_sound(&slots));
/// slots.swap(0, 1);
/// assert!(!is_sound(&slots));
/// ```
pub fn is_sound(slots: &[u64]) -> bool {
    // SAFETY: a slice is as long as it says.
    unsafe { c::urdinhosa_sound(slots.as_ptr(), slots.len()) }
}

/// Makes the mesh whose leaves are the faces of a solid, with zeros after them, whatever stood there; or else
/// [`Refusal::Buffer`], [`Refusal::Solid`] or [`Refusal::Room`].
///
/// ```
/// use urdinhosa::{fresh, Refusal};
///
/// let mut slots = [9; 5];
/// assert_eq!(fresh(&mut slots, 2), Err(Refusal::Room));
/// assert_eq!(slots, [9; 5]);
/// assert_eq!(fresh(&mut slots, 1), Ok(()));
/// assert_eq!(slots, [0x4000000000000000, 0x4200000000000000, 0x4400000000000000, 0x4600000000000000, 0]);
/// ```
pub fn fresh(slots: &mut [u64], solid: u64) -> Result<(), Refusal> {
    // SAFETY: a slice is as long as it says, and ours to write.
    done_or_refusal(unsafe { c::urdinhosa_fresh(slots.as_mut_ptr(), slots.len(), solid) })
}

/// Puts the four children of a leaf in its place and moves the later leaves up three slots; or else
/// [`Stopped::Blocked`] by a larger leaf across a side, or [`Refusal::Buffer`], [`Refusal::Mesh`], [`Refusal::Solid`],
/// [`Refusal::Face`], [`Refusal::Depth`], [`Refusal::Tail`], [`Refusal::NotLeaf`] or [`Refusal::Deep`], which come
/// before it, or [`Refusal::Room`], which comes after it.
///
/// ```
/// use urdinhosa::{fresh, refine, Stopped};
///
/// let mut slots = [0; 7];
/// fresh(&mut slots, 1).unwrap();
/// assert_eq!(refine(&mut slots, 0x4000000000000000), Ok(()));
/// assert_eq!(slots[..5], [
///     0x4000000000000001, 0x4080000000000001, 0x4100000000000001, 0x4180000000000001, 0x4200000000000000,
/// ]);
/// // face 1 of the tetrahedron lies across a side
/// assert_eq!(refine(&mut slots, 0x4000000000000001), Err(Stopped::Blocked(0x4200000000000000)));
/// ```
pub fn refine(slots: &mut [u64], leaf: u64) -> Result<(), Stopped> {
    let mut blocker = 0;
    // SAFETY: a slice is as long as it says, and ours to write; the blocker is our own.
    let number = unsafe { c::urdinhosa_refine(slots.as_mut_ptr(), slots.len(), leaf, &mut blocker) };
    done_or_stopped(number, blocker)
}

/// Puts a cell in the place of its four children, which are leaves, moves the later leaves down three slots and makes
/// the freed slots zero; or else [`Stopped::Blocked`] by a smaller leaf across a side of a child, or
/// [`Refusal::Buffer`], [`Refusal::Mesh`], [`Refusal::Solid`], [`Refusal::Face`], [`Refusal::Depth`],
/// [`Refusal::Tail`], [`Refusal::Deep`] or [`Refusal::NotFour`], which come before it.
///
/// ```
/// use urdinhosa::{coarsen, fresh, refine, Refusal, Stopped};
///
/// let mut slots = [0; 7];
/// fresh(&mut slots, 1).unwrap();
/// let before = slots;
/// refine(&mut slots, 0x4200000000000000).unwrap();
/// assert_eq!(coarsen(&mut slots, 0x4400000000000000), Err(Stopped::Refused(Refusal::NotFour)));
/// assert_eq!(coarsen(&mut slots, 0x4200000000000000), Ok(()));
/// assert_eq!(slots, before);
/// ```
pub fn coarsen(slots: &mut [u64], cell: u64) -> Result<(), Stopped> {
    let mut blocker = 0;
    // SAFETY: a slice is as long as it says, and ours to write; the blocker is our own.
    let number = unsafe { c::urdinhosa_coarsen(slots.as_mut_ptr(), slots.len(), cell, &mut blocker) };
    done_or_stopped(number, blocker)
}

/// What lies across a side of a leaf; or else [`Refusal::Buffer`], [`Refusal::Mesh`], [`Refusal::Solid`],
/// [`Refusal::Face`], [`Refusal::Depth`], [`Refusal::Tail`], [`Refusal::Direction`] or [`Refusal::NotLeaf`].
///
/// The direction is 0 for the left side, 1 for the right and 2 for the vertical one.
///
/// ```
/// use urdinhosa::{across, fresh, refine, Across};
///
/// let mut slots = [0; 7];
/// fresh(&mut slots, 1).unwrap();
/// refine(&mut slots, 0x4000000000000000).unwrap();
/// assert_eq!(across(&slots, 0x4000000000000001, 1), Ok(Across::Larger(0x4200000000000000)));
/// assert_eq!(across(&slots, 0x4200000000000000, 1), Ok(Across::Equal(0x4400000000000000)));
/// assert_eq!(across(&slots, 0x4200000000000000, 0), Ok(Across::Smaller(0x4000000000000001, 0x4180000000000001)));
/// ```
pub fn across(slots: &[u64], leaf: u64, direction: u64) -> Result<Across, Refusal> {
    let (mut level, mut first, mut second) = (0, 0, 0);
    // SAFETY: a slice is as long as it says; the other places are our own.
    let number = unsafe {
        c::urdinhosa_across(slots.as_ptr(), slots.len(), leaf, direction, &mut level, &mut first, &mut second)
    };
    done_or_refusal(number)?;
    Ok(match level {
        -1 => Across::Larger(first),
        0 => Across::Equal(first),
        1 => Across::Smaller(first, second),
        _ => panic!("the library answered the level difference {}", level),
    })
}

/// The run under a cell: the part of the slice that holds the leaves equal to the cell or inside it; or else
/// [`Refusal::Buffer`], [`Refusal::Mesh`], [`Refusal::Solid`], [`Refusal::Face`], [`Refusal::Depth`] or
/// [`Refusal::Tail`].
///
/// It is empty, at the start of the slice, when the cell is inside a larger leaf or on another solid.
///
/// ```
/// use urdinhosa::{fresh, refine, run};
///
/// let mut slots = [0; 7];
/// fresh(&mut slots, 1).unwrap();
/// refine(&mut slots, 0x4200000000000000).unwrap();
/// assert_eq!(run(&slots, 0x4200000000000000), Ok(&slots[1..5]));
/// assert_eq!(run(&slots, 0x4000000000000001), Ok(&slots[..0]));
/// ```
pub fn run(slots: &[u64], cell: u64) -> Result<&[u64], Refusal> {
    let (mut start, mut count) = (0, 0);
    // SAFETY: a slice is as long as it says; the other places are our own.
    let number = unsafe { c::urdinhosa_run(slots.as_ptr(), slots.len(), cell, &mut start, &mut count) };
    done_or_refusal(number)?;
    Ok(&slots[start..start + count])
}
