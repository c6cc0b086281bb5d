//! Refusals, and how an answer in one number is read.

use std::fmt;

/// Why a call was refused.
#[derive(Clone, Copy, Debug, PartialEq, Eq, Hash)]
pub enum Refusal {
    /// The solid is not 1, 2 or 3.
    Solid = 1,
    /// The face is not on the solid.
    Face = 2,
    /// The depth is above 26.
    Depth = 3,
    /// A path bit is set after the last digit or, when packing, above the 52 path bits.
    Tail = 4,
    /// The direction is not 0, 1 or 2.
    Direction = 5,
    /// The child's digit is above 3.
    Digit = 6,
    /// A child is wanted of a cell of depth 26.
    Deep = 7,
    /// The parent is wanted of a cell of depth 0.
    Root = 8,
    /// The weights do not sum to 2^26.
    Point = 9,
    /// The slice is longer than 8192.
    Buffer = 10,
    /// The slice is no sound mesh.
    Mesh = 11,
    /// The code of a cell that is no leaf of this mesh.
    NotLeaf = 12,
    /// Some child of the cell is no leaf of this mesh.
    NotFour = 13,
    /// There are too few slots.
    Room = 15,
}

impl Refusal {
    const ALL: [Refusal; 14] = [
        Refusal::Solid,
        Refusal::Face,
        Refusal::Depth,
        Refusal::Tail,
        Refusal::Direction,
        Refusal::Digit,
        Refusal::Deep,
        Refusal::Root,
        Refusal::Point,
        Refusal::Buffer,
        Refusal::Mesh,
        Refusal::NotLeaf,
        Refusal::NotFour,
        Refusal::Room,
    ];

    /// The number by which the C interface names this refusal.
    pub fn number(self) -> u64 {
        self as u64
    }

    /// The refusal with a number that the library answered.
    ///
    /// Panics when no refusal has it: then the library linked is not the one this package was written for.
    pub(crate) fn of_number(number: u64) -> Refusal {
        Refusal::ALL
            .into_iter()
            .find(|refusal| refusal.number() == number)
            .unwrap_or_else(|| panic!("the library answered {:#x}, neither a code nor a refusal", number))
    }

    fn cause(self) -> &'static str {
        match self {
            Refusal::Solid => "the solid is not 1, 2 or 3",
            Refusal::Face => "the face is not on the solid",
            Refusal::Depth => "the depth is above 26",
            Refusal::Tail => "a path bit is set after the last digit or above the path",
            Refusal::Direction => "the direction is not 0, 1 or 2",
            Refusal::Digit => "the digit is above 3",
            Refusal::Deep => "a cell of depth 26 has no child",
            Refusal::Root => "a cell of depth 0 has no parent",
            Refusal::Point => "the weights do not sum to 2^26",
            Refusal::Buffer => "the slice is longer than 8192",
            Refusal::Mesh => "the slice is no sound mesh",
            Refusal::NotLeaf => "the cell is no leaf of this mesh",
            Refusal::NotFour => "some child of the cell is no leaf of this mesh",
            Refusal::Room => "there are too few slots",
        }
    }
}

impl fmt::Display for Refusal {
    fn fmt(&self, out: &mut fmt::Formatter<'_>) -> fmt::Result {
        out.write_str(self.cause())
    }
}

impl std::error::Error for Refusal {}

/// Why a mesh was not refined or coarsened.
#[derive(Clone, Copy, Debug, PartialEq, Eq, Hash)]
pub enum Stopped {
    /// The call was refused for what it was given.
    Refused(Refusal),
    /// A leaf across a side is in the way, the one with the least code if there are several.
    Blocked(u64),
}

const BLOCKED: u64 = 14;

impl Stopped {
    /// The number by which the C interface names this refusal.
    pub fn number(self) -> u64 {
        match self {
            Stopped::Refused(refusal) => refusal.number(),
            Stopped::Blocked(_) => BLOCKED,
        }
    }
}

impl fmt::Display for Stopped {
    fn fmt(&self, out: &mut fmt::Formatter<'_>) -> fmt::Result {
        match self {
            Stopped::Refused(refusal) => refusal.fmt(out),
            Stopped::Blocked(leaf) => write!(out, "the leaf {:#018x} across a side is in the way", leaf),
        }
    }
}

impl std::error::Error for Stopped {}

/// Reads the answer of a call that gives 0 or else the refusal's number.
pub(crate) fn done_or_refusal(number: u64) -> Result<(), Refusal> {
    match number {
        0 => Ok(()),
        refused => Err(Refusal::of_number(refused)),
    }
}

/// Reads the answer of a call that gives the blocking leaf beside that number.
pub(crate) fn done_or_stopped(number: u64, blocker: u64) -> Result<(), Stopped> {
    match number {
        BLOCKED => Err(Stopped::Blocked(blocker)),
        other => done_or_refusal(other).map_err(Stopped::Refused),
    }
}

const LEAST_CODE: u64 = 1 << 62;

/// Reads the answer of a call that gives the code or else the refusal's number. They are told apart by size.
pub(crate) fn code_or_refusal(answer: u64) -> Result<u64, Refusal> {
    if answer >= LEAST_CODE {
        Ok(answer)
    } else {
        Err(Refusal::of_number(answer))
    }
}
