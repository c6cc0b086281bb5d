//! The step by corners: the neighbour over a side is the one other cell that has both end corners of that side.
//!
//! Nothing here knows what the document says about replaced digits, next faces or mirrored seams. It goes down from
//! the faces to the cells that have two given corners, by the vertices of the faces and the table of children alone.

use super::codes::{self, Cell};
use super::corners::{self, Corners, Weights};
use super::solids;

pub const DIRECTIONS: [u64; 3] = [0, 1, 2];

/// The answer of the step and of the walk.
pub fn step(code: u64, direction: u64) -> Result<u64, u64> {
    let cell = codes::check(code)?;
    if !DIRECTIONS.contains(&direction) {
        return Err(codes::DIRECTION);
    }
    Ok(codes::code_of(&neighbour(&cell, direction)))
}

pub fn neighbour(cell: &Cell, direction: u64) -> Cell {
    let ends = ends_of_side(&corners::of_cell(cell), direction);
    let mut having_both = cells_with_corners(cell.solid, ends, cell.digits.len() as u64);
    assert_eq!(having_both.len(), 2, "cells that have the ends of side {} of {:?}", direction, cell);
    let own = having_both.iter().position(|having| having == cell).expect("a cell has its own corners");
    having_both.remove(1 - own)
}

/// Side 0 has the ends T and L, side 1 T and R, side 2 L and R.
pub fn ends_of_side(corners: &Corners, direction: u64) -> [Weights; 2] {
    let Corners { tip, left, right } = *corners;
    match direction {
        0 => [tip, left],
        1 => [tip, right],
        2 => [left, right],
        _ => panic!("no side has the number {}", direction),
    }
}

/// Every cell of a solid and a depth that has both of two corners of that depth, which are ends of one side.
pub fn cells_with_corners(solid: u64, ends: [Weights; 2], depth: u64) -> Vec<Cell> {
    let mut found = Vec::new();
    for (face, vertices) in (0..).zip(solids::faces(solid)) {
        if let [Some(a), Some(b)] = ends.map(|end| weights_in_face(vertices, &end)) {
            let mut cell = Cell { solid, face, digits: Vec::new() };
            go_down_to_corners(&mut cell, [a, b], depth, &mut found);
        }
    }
    found
}

/// The weights of a point at the tip, the left and the right corner of a triangle that holds it.
pub type Inner = [u64; 3];

/// None when the face does not hold the point: a vertex of another face has weight in it.
fn weights_in_face(vertices: [usize; 3], point: &Weights) -> Option<Inner> {
    let inner = vertices.map(|vertex| point[vertex]);
    let all_weight_is_here = inner.iter().sum::<u64>() == point.iter().sum();
    all_weight_is_here.then_some(inner)
}

/// Looks into every child that holds both points. Along a side these are at most two. After all levels the points'
/// weights sum to 1, so that the points are corners of the cell.
fn go_down_to_corners(cell: &mut Cell, points: [Inner; 2], levels: u64, found: &mut Vec<Cell>) {
    if levels == 0 {
        found.push(cell.clone());
        return;
    }
    for digit in 0..4 {
        if let [Some(a), Some(b)] = points.map(|point| weights_in_child(point, digit)) {
            cell.digits.push(digit);
            go_down_to_corners(cell, [a, b], levels - 1, found);
            cell.digits.pop();
        }
    }
}

/// The weights (t', l', r') of a point in a child, from those in the triangle; None when the child does not hold it.
///
/// They solve the child's row in the table of children. For digit 00, t'(T+T) + l'(T+L) + r'(T+R) is to be the same
/// point as tT + lL + rR: so l' = l, r' = r and 2t' + l' + r' = t. The others are solved likewise.
pub fn weights_in_child([t, l, r]: Inner, digit: u64) -> Option<Inner> {
    match digit {
        0b00 => Some([half_of_excess(t, l + r)?, l, r]),
        0b01 => Some([t, half_of_excess(l, t + r)?, r]),
        0b10 => Some([half_of_excess(l + r, t)?, half_of_excess(t + l, r)?, half_of_excess(t + r, l)?]),
        0b11 => Some([t, l, half_of_excess(r, t + l)?]),
        _ => panic!("no child has the digit {}", digit),
    }
}

fn half_of_excess(whole: u64, part: u64) -> Option<u64> {
    let excess = whole.checked_sub(part)?;
    assert_eq!(excess % 2, 0, "the point is no crossing of the lines of a deeper level");
    Some(excess / 2)
}
