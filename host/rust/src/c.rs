//! The functions of `include/urdinhosa.h`, with the names and the numbers that C has. The header says what each one
//! answers; here is only how they are called.
//!
//! All but `urdinhosa_unpack` and the calls on a mesh take and answer plain numbers and are safe to call with any.

extern "C" {
    /// The code of a cell, or else the number of a refusal.
    pub fn urdinhosa_pack(solid: u64, face: u64, path: u64, depth: u64) -> u64;

    /// 0, or else the number of a refusal. Writes solid, face, path and depth, or four zeros.
    ///
    /// # Safety
    ///
    /// `fields` points to four numbers that may be written.
    pub fn urdinhosa_unpack(code: u64, fields: *mut [u64; 4]) -> u64;

    /// The parent's code, or else the number of a refusal.
    pub fn urdinhosa_parent(code: u64) -> u64;

    /// The child's code, or else the number of a refusal.
    pub fn urdinhosa_child(code: u64, digit: u64) -> u64;

    /// The code of the triangle across a side, or else the number of a refusal.
    pub fn urdinhosa_step(code: u64, direction: u64) -> u64;

    /// The same answer as `urdinhosa_step`, worked out digit by digit.
    pub fn urdinhosa_walk(code: u64, direction: u64) -> u64;

    /// The code of the cell in which a point is located, or else the number of a refusal.
    pub fn urdinhosa_locate(solid: u64, face: u64, t: u64, l: u64, r: u64, depth: u64) -> u64;

    /// Whether a slice is a sound mesh.
    ///
    /// # Safety
    ///
    /// `slots` points to `length` numbers.
    pub fn urdinhosa_sound(slots: *const u64, length: usize) -> bool;

    /// 0, or else the number of a refusal. Writes the faces of a solid and zeros, or nothing.
    ///
    /// # Safety
    ///
    /// `slots` points to `length` numbers that may be written.
    pub fn urdinhosa_fresh(slots: *mut u64, length: usize, solid: u64) -> u64;

    /// 0, or else the number of a refusal. Writes the refined mesh, or nothing; and the blocking leaf, or 0.
    ///
    /// # Safety
    ///
    /// `slots` points to `length` numbers that may be written, and `blocker` to one that is none of them.
    pub fn urdinhosa_refine(slots: *mut u64, length: usize, leaf: u64, blocker: *mut u64) -> u64;

    /// 0, or else the number of a refusal. Writes the coarsened mesh, or nothing; and the blocking leaf, or 0.
    ///
    /// # Safety
    ///
    /// As for `urdinhosa_refine`.
    pub fn urdinhosa_coarsen(slots: *mut u64, length: usize, cell: u64, blocker: *mut u64) -> u64;

    /// 0, or else the number of a refusal. Writes the level difference and the one or two leaves across a side, or
    /// zeros.
    ///
    /// # Safety
    ///
    /// `slots` points to `length` numbers, and `level`, `first` and `second` to one each that may be written and is
    /// none of the others.
    pub fn urdinhosa_across(
        slots: *const u64,
        length: usize,
        leaf: u64,
        direction: u64,
        level: *mut i64,
        first: *mut u64,
        second: *mut u64,
    ) -> u64;

    /// 0, or else the number of a refusal. Writes where the run under a cell starts and its length, or zeros.
    ///
    /// # Safety
    ///
    /// `slots` points to `length` numbers, and `start` and `count` to one each that may be written and is none of the
    /// others.
    pub fn urdinhosa_run(slots: *const u64, length: usize, cell: u64, start: *mut usize, count: *mut usize) -> u64;
}
