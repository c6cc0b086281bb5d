//! The calls in plain Rust, by the algorithms of the library and with all its checks: one linear pass that the leaves
//! tile the faces, the zeros after them, the level test by last two digits, one step and one search that begins near the
//! leaf, then the change.

use crate::calls::{Answer, Call, Refusal};
use crate::plain_step::{over_seam, refusal, FACES};
use std::ops::Range;

const DIRECTION: u64 = 5;
const DEEP: u64 = 7;
const BUFFER: u64 = 10;
const MESH: u64 = 11;
const NOT_LEAF: u64 = 12;
const NOT_FOUR: u64 = 13;
const BLOCKED: u64 = 14;
const ROOM: u64 = 15;

const MOST_SLOTS: usize = 8192;
const DEEPEST: u64 = 26;

/// How far on each side of a guess the search looks first.
const NEAR: usize = 64;

/// The high bit of each digit of a path that stands left-aligned in a word.
const HIGH_BITS: u64 = 0xaaaa_aaaa_aaaa_aaaa;

#[inline(never)]
pub fn answer(slots: &mut [u64], call: Call) -> Answer {
    let answer = match call {
        Call::Sound => Ok(Answer::Sound(Mesh::examine(slots).is_ok())),
        Call::Refine { leaf } => refine(slots, leaf),
        Call::Coarsen { cell } => coarsen(slots, cell),
        Call::Across { leaf, direction } => across(slots, leaf, direction),
        Call::Run { cell } => run(slots, cell),
    };
    answer.unwrap_or_else(Answer::Refused)
}

fn refine(slots: &mut [u64], leaf: u64) -> Result<Answer, Refusal> {
    let mesh = Mesh::examine(slots)?;
    check(leaf)?;
    let at = mesh.find(leaf).ok_or(refused(NOT_LEAF))?;
    if depth(leaf) == DEEPEST {
        return Err(refused(DEEP));
    }
    if let Some(blocker) = mesh.least_larger(leaf) {
        return Err(Refusal { number: BLOCKED, blocker });
    }
    let count = mesh.leaves.len();
    if slots.len() < count + 3 {
        return Err(refused(ROOM));
    }
    slots.copy_within(at + 1..count, at + 4);
    slots[at..at + 4].copy_from_slice(&children(leaf));
    Ok(Answer::Changed)
}

fn coarsen(slots: &mut [u64], cell: u64) -> Result<Answer, Refusal> {
    let mesh = Mesh::examine(slots)?;
    check(cell)?;
    if depth(cell) == DEEPEST {
        return Err(refused(DEEP));
    }
    let children = children(cell);
    let at = mesh.find(children[0]).ok_or(refused(NOT_FOUR))?;
    if mesh.leaves.get(at..at + 4) != Some(&children) {
        return Err(refused(NOT_FOUR));
    }
    if let Some(blocker) = mesh.least_smaller(&children) {
        return Err(Refusal { number: BLOCKED, blocker });
    }
    let count = mesh.leaves.len();
    slots[at] = cell;
    slots.copy_within(at + 4..count, at + 1);
    slots[count - 3..count].fill(0);
    Ok(Answer::Changed)
}

fn across(slots: &[u64], leaf: u64, direction: u64) -> Result<Answer, Refusal> {
    let mesh = Mesh::examine(slots)?;
    check(leaf)?;
    if direction > 2 {
        return Err(refused(DIRECTION));
    }
    mesh.find(leaf).ok_or(refused(NOT_LEAF))?;
    Ok(match mesh.met(leaf, direction) {
        Met::Larger(met) => Answer::Larger(met),
        Met::Equal(met) => Answer::Equal(met),
        Met::Smaller(low, high) => Answer::Smaller(low, high),
        Met::Open => Answer::Equal(0),
    })
}

fn run(slots: &[u64], cell: u64) -> Result<Answer, Refusal> {
    let mesh = Mesh::examine(slots)?;
    check(cell)?;
    let Range { start, end } = mesh.under(cell);
    Ok(Answer::Run { start: if start == end { 0 } else { start }, count: end - start })
}

/// What a side of a leaf meets; nothing at the edge of a region.
enum Met {
    Larger(u64),
    Equal(u64),
    Smaller(u64, u64),
    Open,
}

/// Leaves that are known to be a sound mesh of some faces, a bit for each.
struct Mesh<'a> {
    leaves: &'a [u64],
    faces: u64,
}

impl<'a> Mesh<'a> {
    fn examine(slots: &'a [u64]) -> Result<Mesh<'a>, Refusal> {
        if slots.len() > MOST_SLOTS {
            return Err(refused(BUFFER));
        }
        let solid = slots.first().map_or(0, |first| first >> 62);
        if solid == 0 {
            return Err(refused(MESH));
        }
        let faces = (1 << FACES[solid as usize]) - 1;
        let count = count_tiles(slots, solid, faces).ok_or(refused(MESH))?;
        let (leaves, rest) = slots.split_at(count);
        let mesh = Mesh { leaves, faces };
        let joined = rest.iter().fold(0, |joined, slot| joined | slot);
        if joined == 0 && leaves.iter().enumerate().all(|(at, &leaf)| mesh.is_level(at, leaf)) {
            Ok(mesh)
        } else {
            Err(refused(MESH))
        }
    }

    /// Whether no leaf across the leaf's parent is larger than the parent. Most leaves leave that to others.
    fn is_level(&self, at: usize, leaf: u64) -> bool {
        if depth(leaf) < 2 {
            return true;
        }
        let is_fine = |side| self.has_some_in(at, step(parent(leaf), side));
        match leaf >> (57 - 2 * depth(leaf)) & 15 {
            0b0000 => is_fine(0) && is_fine(1),
            0b0100 => is_fine(0),
            0b1100 => is_fine(1),
            0b0101 | 0b1101 => is_fine(2),
            _ => true,
        }
    }

    /// Whether some leaf is the cell or lies inside it; yes where the cell is on no face of the mesh.
    fn has_some_in(&self, guess: usize, cell: u64) -> bool {
        let begins = |&leaf: &u64| place(leaf) == place(cell);
        !self.has_face_of(cell) || self.leaves.get(self.below_near(guess, cell)).map_or(false, begins)
    }

    fn has_face_of(&self, cell: u64) -> bool {
        self.faces >> (cell >> 57 & 31) & 1 == 1
    }

    /// How many leaves are less than the key.
    fn below(&self, key: u64) -> usize {
        self.leaves.partition_point(|&leaf| leaf < key)
    }

    /// The same, in less time where that is near the guess.
    fn below_near(&self, guess: usize, key: u64) -> usize {
        let from = guess.saturating_sub(NEAR);
        match self.leaves.get(from..from + 2 * NEAR) {
            Some(near) if near[0] < key && key <= near[2 * NEAR - 1] => from + near.partition_point(|&leaf| leaf < key),
            _ => self.below(key),
        }
    }

    fn find(&self, leaf: u64) -> Option<usize> {
        let at = self.below(leaf);
        (self.leaves.get(at) == Some(&leaf)).then_some(at)
    }

    fn under(&self, cell: u64) -> Range<usize> {
        let past = (place(cell) + size(depth(cell))) << 5;
        self.below(cell)..self.below(past)
    }

    fn met(&self, leaf: u64, side: u64) -> Met {
        let across = step(leaf, side);
        if !self.has_face_of(across) {
            return Met::Open;
        }
        match self.leaves.get(self.below(across)) {
            Some(&next) if next == across => Met::Equal(across),
            Some(&next) if place(next) == place(across) => {
                let children = children(across);
                match side {
                    0 => Met::Smaller(children[0], children[3]),
                    1 => Met::Smaller(children[0], children[1]),
                    _ => Met::Smaller(children[1], children[3]),
                }
            }
            _ => Met::Larger(parent(across)),
        }
    }

    fn least_larger(&self, leaf: u64) -> Option<u64> {
        let larger = |side| match self.met(leaf, side) {
            Met::Larger(met) => Some(met),
            _ => None,
        };
        (0..3).filter_map(larger).min()
    }

    fn least_smaller(&self, leaves: &[u64]) -> Option<u64> {
        let smaller = |leaf, side| match self.met(leaf, side) {
            Met::Smaller(met, _) => Some(met),
            _ => None,
        };
        leaves.iter().flat_map(|&leaf| (0..3).filter_map(move |side| smaller(leaf, side))).min()
    }
}

/// How many slots, from the first on, tile the faces.
fn count_tiles(slots: &[u64], solid: u64, faces: u64) -> Option<usize> {
    let first = solid << 57;
    let end = first + (FACES[solid as usize] << 52);
    let mut wanted = next_place(faces, first, end);
    let mut count = 0;
    while wanted < end {
        let &leaf = slots.get(count)?;
        let depth = depth(leaf);
        if place(leaf) != wanted || depth > DEEPEST || wanted & (size(depth) - 1) != 0 {
            return None;
        }
        wanted = next_place(faces, wanted + size(depth), end);
        count += 1;
    }
    Some(count)
}

/// The first place on a face of the set, or else `end`.
fn next_place(faces: u64, mut place: u64, end: u64) -> u64 {
    while place < end && faces >> (place >> 52 & 31) & 1 == 0 {
        place = ((place >> 52) + 1) << 52;
    }
    place
}

fn refused(number: u64) -> Refusal {
    Refusal { number, blocker: 0 }
}

fn check(code: u64) -> Result<(), Refusal> {
    match refusal(code, 0) {
        0 => Ok(()),
        number => Err(refused(number)),
    }
}

fn depth(code: u64) -> u64 {
    code & 31
}

fn place(code: u64) -> u64 {
    code >> 5
}

/// In places.
fn size(depth: u64) -> u64 {
    1 << (52 - 2 * depth)
}

fn parent(code: u64) -> u64 {
    let shift = 59 - 2 * depth(code);
    code >> shift << shift | (depth(code) - 1)
}

fn children(code: u64) -> [u64; 4] {
    let shift = 55 - 2 * depth(code);
    [0, 1, 2, 3].map(|digit| code + (digit << shift) + 1)
}

/// The step by carries: all digits that the walk passes are changed at once.
fn step(code: u64, side: u64) -> u64 {
    let right = (side & 1).wrapping_neg();
    let vertical = (side >> 1).wrapping_neg();
    let path = code >> 5 << 12;
    let high = !(u64::MAX >> (2 * depth(code))) & HIGH_BITS;
    let low = path << 1 & HIGH_BITS;
    let stops = (path & !vertical ^ low & (right | vertical) ^ vertical) & high;
    let (sum, lost) = (!stops).overflowing_add(1);
    let reached = (!stops ^ sum) & high;
    let flips = reached & (low ^ !right) | reached >> 1 & !vertical;
    let walked = code ^ flips >> 7;
    if lost {
        over_seam(code, side, walked)
    } else {
        walked
    }
}
