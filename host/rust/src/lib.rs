//! Location codes of triangles on the tetrahedron, the octahedron and the icosahedron, and balanced meshes: safe calls
//! of the Urdinhosa library, whose C interface is `include/urdinhosa.h`.
//!
//! A code is one 64-bit number. From the top: 2 bits solid (1 tetrahedron, 2 octahedron, 3 icosahedron), 5 bits face,
//! 52 bits path (one two-bit digit a level, the first on top, zeros after the last), 5 bits depth (0 to 26).
//!
//! A mesh is a slice of at most 8192 slots: leaves first, then only zeros. It is sound when there is at least one leaf,
//! every leaf is the code of a cell of one solid, codes ascend strictly, the leaves cover the whole solid and no two
//! overlap, and leaves that share a stretch of a side differ by at most one level.
//!
//! Every function answers every input. A bad input is a [`Refusal`]; of several causes, the first in the function's
//! list. A refused call writes nothing.
//!
//! * [`pack`], [`unpack`], [`parent`], [`child`]: codes and their parts
//! * [`step`], [`walk`]: the triangle across a side, by two methods
//! * [`locate`]: the cell in which a point lies
//! * [`is_sound`], [`fresh`], [`refine`], [`coarsen`]: meshes and their changes
//! * [`across`], [`run`]: the leaves over a side and those under a cell
//! * [`c`]: the calls as C has them

#![warn(missing_docs)]

pub mod c;
mod codes;
mod mesh;
mod points;
mod refusal;
mod steps;

pub use codes::{child, pack, parent, unpack, Fields};
pub use mesh::{across, coarsen, fresh, is_sound, refine, run, Across};
pub use points::locate;
pub use refusal::{Refusal, Stopped};
pub use steps::{step, walk};
