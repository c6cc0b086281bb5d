//! The calls that are measured, and their answers.

#[derive(Clone, Copy, Debug)]
pub enum Call {
    Sound,
    Refine { leaf: u64 },
    Coarsen { cell: u64 },
    Across { leaf: u64, direction: u64 },
    Run { cell: u64 },
}

#[derive(Clone, Copy, Debug, PartialEq, Eq)]
pub enum Answer {
    Sound(bool),
    Changed,
    Larger(u64),
    Equal(u64),
    Smaller(u64, u64),
    Run { start: usize, count: usize },
    Refused(Refusal),
}

#[derive(Clone, Copy, Debug, PartialEq, Eq)]
pub struct Refusal {
    pub number: u64,
    /// The least leaf in the way, or 0.
    pub blocker: u64,
}
