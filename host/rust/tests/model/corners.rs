//! Corners of cells, as whole weights over the solid's vertices.

use super::codes::Cell;
use super::solids;

pub type Weights = [u64; 12];

#[derive(Clone, Copy, Debug, PartialEq, Eq, Hash)]
pub struct Corners {
    pub tip: Weights,
    pub left: Weights,
    pub right: Weights,
}

pub fn of_face(solid: u64, face: u64) -> Corners {
    let [tip, left, right] = solids::faces(solid)[face as usize].map(one_at);
    Corners { tip, left, right }
}

pub fn of_cell(cell: &Cell) -> Corners {
    let face = of_face(cell.solid, cell.face);
    cell.digits.iter().fold(face, |corners, &digit| of_child(&corners, digit))
}

/// The table of children, by sums of lists.
pub fn of_child(of: &Corners, digit: u64) -> Corners {
    let Corners { tip: t, left: l, right: r } = of;
    let (tip, left, right) = match digit {
        0b00 => (sum(t, t), sum(t, l), sum(t, r)),
        0b01 => (sum(t, l), sum(l, l), sum(l, r)),
        0b10 => (sum(l, r), sum(t, l), sum(t, r)),
        0b11 => (sum(t, r), sum(l, r), sum(r, r)),
        _ => panic!("no child has the digit {}", digit),
    };
    Corners { tip, left, right }
}

fn one_at(vertex: usize) -> Weights {
    let mut weights = [0; 12];
    weights[vertex] = 1;
    weights
}

fn sum(a: &Weights, b: &Weights) -> Weights {
    std::array::from_fn(|vertex| a[vertex] + b[vertex])
}
