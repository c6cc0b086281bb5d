//! Points: locating by the descent and, apart from it, which closed triangles hold a point.

use super::codes::{self, Cell};
use super::corners::{self, Corners, Weights};
use super::solids;

/// What a point's weights sum to.
pub const WHOLE: u64 = 67_108_864;

#[derive(Clone, Copy, Debug, PartialEq, Eq)]
pub struct Point {
    pub solid: u64,
    pub face: u64,
    /// At the face's tip, left and right corner.
    pub weights: [u64; 3],
}

/// The code of the cell in which the point is located, going down a level at a time.
pub fn locate(point: Point, depth: u64) -> Result<u64, u64> {
    codes::check_solid_face_depth(point.solid, point.face, depth)?;
    if true_sum(point.weights) != u128::from(WHOLE) {
        return Err(codes::POINT);
    }
    let mut digits = Vec::new();
    let mut weights = point.weights;
    let mut sum = WHOLE;
    for _ in 0..depth {
        let half = sum / 2;
        let (digit, weights_below) = go_down(weights, half);
        digits.push(digit);
        weights = weights_below;
        sum = half;
    }
    Ok(codes::code_of(&Cell { solid: point.solid, face: point.face, digits }))
}

fn true_sum(weights: [u64; 3]) -> u128 {
    weights.iter().map(|&weight| u128::from(weight)).sum()
}

fn go_down([t, l, r]: [u64; 3], half: u64) -> (u64, [u64; 3]) {
    if t >= half {
        (0b00, [t - half, l, r])
    } else if l >= half {
        (0b01, [t, l - half, r])
    } else if r <= half {
        (0b10, [half - t, half - r, half - l])
    } else {
        (0b11, [t, l, r - half])
    }
}

/// The point as weights over the solid's vertices.
pub fn over_vertices(point: &Point) -> Weights {
    let mut weights = [0; 12];
    for (vertex, weight) in face_vertices(point).into_iter().zip(point.weights) {
        weights[vertex] = weight;
    }
    weights
}

/// The whole weights at tip, left and right that give the point from the corners of a cell of its face, if the closed
/// triangle holds it.
///
/// The point is a crossing of the lines of depth 26, and no cell is deeper: so what solves the three equations is
/// whole.
pub fn weights_in(corners: &Corners, point: &Point) -> Option<[u64; 3]> {
    let vertices = face_vertices(point);
    let on_the_face = |weights: &Weights| vertices.map(|vertex| i128::from(weights[vertex]));
    let [tip, left, right] = [&corners.tip, &corners.left, &corners.right].map(on_the_face);
    let wanted = point.weights.map(i128::from);
    let all = determinant(tip, left, right);
    let solved = [determinant(wanted, left, right), determinant(tip, wanted, right), determinant(tip, left, wanted)]
        .map(|part| {
            assert_eq!(part % all, 0, "{:?} has no whole weights in {:?}", point, corners);
            part / all
        });
    let none_is_negative = solved.iter().all(|&weight| weight >= 0);
    none_is_negative.then(|| solved.map(|weight| weight as u64))
}

/// Every cell of the point's face and a depth whose closed triangle holds the point. A triangle holds what its
/// children hold, so only cells that hold the point are looked into.
pub fn cells_that_hold(point: &Point, depth: u64) -> Vec<Cell> {
    let face = Cell { solid: point.solid, face: point.face, digits: Vec::new() };
    let mut holding = vec![(face, corners::of_face(point.solid, point.face))];
    for _ in 0..depth {
        holding = holding.iter().flat_map(|cell| children_that_hold(cell, point)).collect();
    }
    holding.into_iter().map(|(cell, _)| cell).collect()
}

fn children_that_hold((cell, of): &(Cell, Corners), point: &Point) -> Vec<(Cell, Corners)> {
    let children = (0..4).map(|digit| {
        let digits = [cell.digits.as_slice(), &[digit]].concat();
        (Cell { digits, ..*cell }, corners::of_child(of, digit))
    });
    children.filter(|(_, corners)| weights_in(corners, point).is_some()).collect()
}

fn face_vertices(point: &Point) -> [usize; 3] {
    solids::faces(point.solid)[point.face as usize]
}

fn determinant(a: [i128; 3], b: [i128; 3], c: [i128; 3]) -> i128 {
    a[0] * (b[1] * c[2] - b[2] * c[1]) - a[1] * (b[0] * c[2] - b[2] * c[0]) + a[2] * (b[0] * c[1] - b[1] * c[0])
}
