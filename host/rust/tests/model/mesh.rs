//! Meshes: which are sound, how they change, what lies across a side and the run under a cell.
//!
//! Nothing here steps to a neighbour or searches by the order of codes. Every leaf is looked at, and whether two of
//! them share a stretch of a side is read off the ends of their sides, as points of the solid.

use super::codes::{self, Cell, BLOCKED, BUFFER, DEEP, DEEPEST, DIRECTION, MESH, NOT_FOUR, NOT_LEAF, ROOM, SOLID};
use super::corners::{self, Weights};
use super::solids::{self, SOLIDS};
use super::steps::{self, DIRECTIONS};

pub const MOST_SLOTS: usize = 8_192;

/// The number of a refusal, and the least blocking leaf or 0.
pub type Refused = (u64, u64);

/// A cell with its sides, each as two ends whose weights sum to 2^26 at every depth.
#[derive(Clone, Debug)]
pub struct Triangle {
    pub code: u64,
    pub cell: Cell,
    pub sides: [Side; 3],
}

pub type Side = [Weights; 2];

// ---------------------------------------------------------------------------------------------------------------------
// Soundness

pub fn is_sound(slots: &[u64]) -> bool {
    slots.len() <= MOST_SLOTS && sound_leaves(slots).is_some()
}

/// The leaves of a sound mesh, or else the number of the refusal with which every call on a mesh begins.
fn examine(slots: &[u64]) -> Result<Vec<Triangle>, u64> {
    if slots.len() > MOST_SLOTS {
        return Err(BUFFER);
    }
    sound_leaves(slots).ok_or(MESH)
}

fn sound_leaves(slots: &[u64]) -> Option<Vec<Triangle>> {
    let codes = leaves_in(slots);
    let only_zeros_after = slots[codes.len()..].iter().all(|&slot| slot == 0);
    let ascend = codes.windows(2).all(|pair| pair[0] < pair[1]);
    let leaves = codes.iter().map(|&code| triangle(code)).collect::<Result<Vec<_>, _>>().ok()?;
    (only_zeros_after && ascend && cover_a_solid_once(&leaves) && are_balanced(&leaves)).then_some(leaves)
}

/// The slots before the first zero.
pub fn leaves_in(slots: &[u64]) -> Vec<u64> {
    slots.iter().copied().take_while(|&slot| slot != 0).collect()
}

pub fn triangle(code: u64) -> Result<Triangle, u64> {
    let cell = codes::check(code)?;
    let corners = corners::of_cell(&cell);
    let scale = 1 << (DEEPEST - depth_of(&cell));
    let scaled = |weights: Weights| weights.map(|weight| weight * scale);
    let sides = DIRECTIONS.map(|direction| steps::ends_of_side(&corners, direction).map(scaled));
    Ok(Triangle { code, cell, sides })
}

fn depth_of(cell: &Cell) -> u64 {
    cell.digits.len() as u64
}

/// Whether every depth-26 cell of one solid lies in exactly one of the leaves. The cells of that depth are counted
/// through, face after face: a leaf has those from one number to another.
fn cover_a_solid_once(leaves: &[Triangle]) -> bool {
    let solid = match leaves.first() {
        Some(first) => first.cell.solid,
        None => return false,
    };
    let in_a_face = 4_u64.pow(DEEPEST as u32);
    let mut reached = 0;
    for Triangle { cell, .. } in leaves {
        if cell.solid != solid || cell.face * in_a_face + codes::parts_of(cell).path != reached {
            return false;
        }
        reached += 4_u64.pow((DEEPEST - depth_of(cell)) as u32);
    }
    reached == solids::number_of_faces(solid) * in_a_face
}

fn are_balanced(leaves: &[Triangle]) -> bool {
    let may_stand_together =
        |a: &Triangle, b: &Triangle| depth_of(&a.cell).abs_diff(depth_of(&b.cell)) <= 1 || !share_a_stretch(a, b);
    leaves.iter().enumerate().all(|(place, a)| leaves[..place].iter().all(|b| may_stand_together(a, b)))
}

// ---------------------------------------------------------------------------------------------------------------------
// Stretches of sides

pub fn share_a_stretch(a: &Triangle, b: &Triangle) -> bool {
    a.sides.iter().any(|side| has_a_stretch_of(b, side))
}

/// Sides of cells are halved from level to level: two of them have a stretch in common only when one lies within the
/// other.
fn has_a_stretch_of(triangle: &Triangle, side: &Side) -> bool {
    triangle.sides.iter().any(|own| lies_within(own, side) || lies_within(side, own))
}

fn lies_within(inner: &Side, outer: &Side) -> bool {
    inner.iter().all(|end| lies_on(end, outer))
}

/// Whether a point is on the straight line from a to b: between them at every vertex, and at every vertex the same part
/// of the way.
fn lies_on(point: &Weights, [a, b]: &Side) -> bool {
    let is_between = |vertex: usize| {
        let (low, high) = (a[vertex].min(b[vertex]), a[vertex].max(b[vertex]));
        low <= point[vertex] && point[vertex] <= high
    };
    if !(0..12).all(is_between) {
        return false;
    }
    let walked = |vertex: usize| point[vertex].abs_diff(a[vertex]);
    let whole_way = |vertex: usize| a[vertex].abs_diff(b[vertex]);
    let moving = (0..12).find(|&vertex| whole_way(vertex) > 0).expect("the ends of a side are two points");
    (0..12).all(|vertex| walked(vertex) * whole_way(moving) == walked(moving) * whole_way(vertex))
}

/// The leaves that share a stretch of one side of a leaf.
fn leaves_over_side<'a>(
    leaves: &'a [Triangle],
    of: &'a Triangle,
    direction: u64,
) -> impl Iterator<Item = &'a Triangle> {
    let side = &of.sides[direction as usize];
    leaves.iter().filter(move |other| other.code != of.code && has_a_stretch_of(other, side))
}

// ---------------------------------------------------------------------------------------------------------------------
// Changes: each answers every slot as it is after the call

pub fn fresh(slots: &[u64], solid: u64) -> Result<Vec<u64>, Refused> {
    if slots.len() > MOST_SLOTS {
        return Err((BUFFER, 0));
    }
    if !SOLIDS.contains(&solid) {
        return Err((SOLID, 0));
    }
    let face = |face| codes::code_of(&Cell { solid, face, digits: Vec::new() });
    let faces: Vec<u64> = (0..solids::number_of_faces(solid)).map(face).collect();
    if faces.len() > slots.len() {
        return Err((ROOM, 0));
    }
    Ok(with_zeros_after(faces, slots.len()))
}

pub fn refine(slots: &[u64], code: u64) -> Result<Vec<u64>, Refused> {
    let leaves = examine(slots).map_err(without_leaf)?;
    codes::check(code).map_err(without_leaf)?;
    let leaf = leaves.iter().find(|leaf| leaf.code == code).ok_or((NOT_LEAF, 0))?;
    if depth_of(&leaf.cell) == DEEPEST {
        return Err((DEEP, 0));
    }
    let is_larger = |other: &&Triangle| depth_of(&other.cell) < depth_of(&leaf.cell);
    let larger = DIRECTIONS.into_iter().flat_map(|side| leaves_over_side(&leaves, leaf, side)).filter(is_larger);
    if let Some(least) = larger.map(|other| other.code).min() {
        return Err((BLOCKED, least));
    }
    if leaves.len() + 3 > slots.len() {
        return Err((ROOM, 0));
    }
    Ok(refined_anyway(slots, code))
}

pub fn coarsen(slots: &[u64], code: u64) -> Result<Vec<u64>, Refused> {
    let leaves = examine(slots).map_err(without_leaf)?;
    let cell = codes::check(code).map_err(without_leaf)?;
    if depth_of(&cell) == DEEPEST {
        return Err((DEEP, 0));
    }
    let is_child = |leaf: &&Triangle| children_of(code).contains(&leaf.code);
    let children: Vec<&Triangle> = leaves.iter().filter(is_child).collect();
    if children.len() < 4 {
        return Err((NOT_FOUR, 0));
    }
    let mut smaller = Vec::new();
    for child in children {
        for direction in DIRECTIONS {
            let is_smaller = |other: &&Triangle| depth_of(&other.cell) > depth_of(&child.cell);
            smaller.extend(leaves_over_side(&leaves, child, direction).filter(is_smaller).map(|other| other.code));
        }
    }
    if let Some(least) = smaller.into_iter().min() {
        return Err((BLOCKED, least));
    }
    Ok(coarsened_anyway(slots, code))
}

/// The children of a leaf in its place, in slots that have room for them, whatever lies across its sides.
pub fn refined_anyway(slots: &[u64], code: u64) -> Vec<u64> {
    let in_place = |leaf| if leaf == code { children_of(code) } else { vec![leaf] };
    with_zeros_after(leaves_in(slots).into_iter().flat_map(in_place).collect(), slots.len())
}

/// A cell in the place of its children, whatever lies across their sides.
pub fn coarsened_anyway(slots: &[u64], code: u64) -> Vec<u64> {
    let children = children_of(code);
    let in_place = |leaf| match children.iter().position(|&child| child == leaf) {
        Some(0) => Some(code),
        Some(_) => None,
        None => Some(leaf),
    };
    with_zeros_after(leaves_in(slots).into_iter().filter_map(in_place).collect(), slots.len())
}

pub fn children_of(code: u64) -> Vec<u64> {
    (0..4).map(|digit| codes::child(code, digit).expect("a cell that has children")).collect()
}

pub fn with_zeros_after(mut leaves: Vec<u64>, length: usize) -> Vec<u64> {
    leaves.resize(length, 0);
    leaves
}

fn without_leaf(number: u64) -> Refused {
    (number, 0)
}

// ---------------------------------------------------------------------------------------------------------------------
// Questions

/// The level difference, the leaf across and, when there are two, the second, else 0.
pub fn across(slots: &[u64], code: u64, direction: u64) -> Result<(i64, u64, u64), u64> {
    let leaves = examine(slots)?;
    codes::check(code)?;
    if !DIRECTIONS.contains(&direction) {
        return Err(DIRECTION);
    }
    let leaf = leaves.iter().find(|leaf| leaf.code == code).ok_or(NOT_LEAF)?;
    Ok(across_side(&leaves, leaf, direction))
}

/// Each leaf of a sound mesh, with the level differences of its sides.
pub fn levels(slots: &[u64]) -> Vec<(u64, [i64; 3])> {
    let leaves = sound_leaves(slots).expect("a sound mesh");
    let level = |leaf, direction| across_side(&leaves, leaf, direction).0;
    leaves.iter().map(|leaf| (leaf.code, DIRECTIONS.map(|direction| level(leaf, direction)))).collect()
}

fn across_side(leaves: &[Triangle], leaf: &Triangle, direction: u64) -> (i64, u64, u64) {
    let others: Vec<&Triangle> = leaves_over_side(leaves, leaf, direction).collect();
    let level = depth_of(&others[0].cell) as i64 - depth_of(&leaf.cell) as i64;
    match (level, others.as_slice()) {
        (-1 | 0, [one]) => (level, one.code, 0),
        (1, [low, high]) => (level, low.code, high.code),
        _ => panic!("{:#018x} in direction {} meets {:?}", leaf.code, direction, others),
    }
}

/// Where the run under a cell starts and how many leaves it has.
pub fn run(slots: &[u64], code: u64) -> Result<(usize, usize), u64> {
    let leaves = examine(slots)?;
    let cell = codes::check(code)?;
    let is_under = |leaf: &Triangle| {
        let Cell { solid, face, digits } = &leaf.cell;
        (*solid, *face) == (cell.solid, cell.face) && digits.starts_with(&cell.digits)
    };
    let start = leaves.iter().position(is_under).unwrap_or(0);
    Ok((start, leaves.iter().filter(|leaf| is_under(leaf)).count()))
}
