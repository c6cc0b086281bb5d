//! Codes: their parts, which are well formed, parent and child, and the refusals in their sequence.

use super::solids;

pub const SOLID: u64 = 1;
pub const FACE: u64 = 2;
pub const DEPTH: u64 = 3;
pub const TAIL: u64 = 4;
pub const DIRECTION: u64 = 5;
pub const DIGIT: u64 = 6;
pub const DEEP: u64 = 7;
pub const ROOT: u64 = 8;
pub const POINT: u64 = 9;
pub const BUFFER: u64 = 10;
pub const MESH: u64 = 11;
pub const NOT_LEAF: u64 = 12;
pub const NOT_FOUR: u64 = 13;
pub const BLOCKED: u64 = 14;
pub const ROOM: u64 = 15;

pub const DEEPEST: u64 = 26;

/// Numbers with the fault by which they are refused; each has all the faults after its own as well.
pub const FAULTY: [(u64, u64); 4] = [
    (0x3fff_ffff_ffff_ffff, SOLID),
    (0x5fff_ffff_ffff_ffff, FACE),
    (0x47ff_ffff_ffff_ffff, DEPTH),
    (0x47ff_ffff_ffff_fff9, TAIL),
];

const FACES_IN_FIVE_BITS: u64 = 32;
const PATHS_IN_52_BITS: u64 = 4_503_599_627_370_496;
const DEPTHS_IN_FIVE_BITS: u64 = 32;

#[derive(Clone, Debug, PartialEq, Eq)]
pub struct Cell {
    pub solid: u64,
    pub face: u64,
    /// The first digit first; as many as the cell is deep.
    pub digits: Vec<u64>,
}

/// The four numbers that are packed. The path is a number of 26 digits to the base 4, with zeros after the last.
#[derive(Clone, Copy, Debug, PartialEq, Eq)]
pub struct Parts {
    pub solid: u64,
    pub face: u64,
    pub path: u64,
    pub depth: u64,
}

pub fn pack(parts: Parts) -> Result<u64, u64> {
    cell_of_parts(parts).map(|cell| code_of(&cell))
}

pub fn unpack(code: u64) -> Result<Parts, u64> {
    check(code).map(|cell| parts_of(&cell))
}

pub fn parent(code: u64) -> Result<u64, u64> {
    let mut cell = check(code)?;
    match cell.digits.pop() {
        Some(_) => Ok(code_of(&cell)),
        None => Err(ROOT),
    }
}

pub fn child(code: u64, digit: u64) -> Result<u64, u64> {
    let mut cell = check(code)?;
    if digit > 3 {
        return Err(DIGIT);
    }
    if cell.digits.len() as u64 == DEEPEST {
        return Err(DEEP);
    }
    cell.digits.push(digit);
    Ok(code_of(&cell))
}

/// The cell of a code, or the first cause why it has none.
pub fn check(code: u64) -> Result<Cell, u64> {
    cell_of_parts(parts_in(code))
}

pub fn code_of(cell: &Cell) -> u64 {
    let Parts { solid, face, path, depth } = parts_of(cell);
    ((solid * FACES_IN_FIVE_BITS + face) * PATHS_IN_52_BITS + path) * DEPTHS_IN_FIVE_BITS + depth
}

pub fn parts_of(cell: &Cell) -> Parts {
    let depth = cell.digits.len() as u64;
    let digits_with_zeros_after = cell.digits.iter().chain(&[0; DEEPEST as usize]).take(DEEPEST as usize);
    Parts {
        solid: cell.solid,
        face: cell.face,
        path: digits_with_zeros_after.fold(0, |path, digit| path * 4 + digit),
        depth,
    }
}

/// The causes that packing and locating ask about first, in their sequence.
pub fn check_solid_face_depth(solid: u64, face: u64, depth: u64) -> Result<(), u64> {
    if !solids::SOLIDS.contains(&solid) {
        return Err(SOLID);
    }
    if face >= solids::number_of_faces(solid) {
        return Err(FACE);
    }
    if depth > DEEPEST {
        return Err(DEPTH);
    }
    Ok(())
}

/// What stands in the places of the four parts, well formed or not.
fn parts_in(code: u64) -> Parts {
    let (rest, depth) = (code / DEPTHS_IN_FIVE_BITS, code % DEPTHS_IN_FIVE_BITS);
    let (rest, path) = (rest / PATHS_IN_52_BITS, rest % PATHS_IN_52_BITS);
    let (solid, face) = (rest / FACES_IN_FIVE_BITS, rest % FACES_IN_FIVE_BITS);
    Parts { solid, face, path, depth }
}

fn cell_of_parts(parts: Parts) -> Result<Cell, u64> {
    let Parts { solid, face, path, depth } = parts;
    check_solid_face_depth(solid, face, depth)?;
    if path >= PATHS_IN_52_BITS {
        return Err(TAIL);
    }
    let mut digits = digits_of(path);
    let tail = digits.split_off(depth as usize);
    if tail.iter().any(|&digit| digit != 0) {
        return Err(TAIL);
    }
    Ok(Cell { solid, face, digits })
}

/// All 26 digits of a path, the first first.
fn digits_of(mut path: u64) -> Vec<u64> {
    let mut digits = Vec::new();
    for _ in 0..DEEPEST {
        digits.push(path % 4);
        path /= 4;
    }
    digits.reverse();
    digits
}

/// Every cell of a face at a depth, in the order of their digits.
pub fn cells_of_face(solid: u64, face: u64, depth: u64) -> Vec<Cell> {
    let mut lists = vec![Vec::new()];
    for _ in 0..depth {
        lists = lists.iter().flat_map(with_each_digit_after).collect();
    }
    lists.into_iter().map(|digits| Cell { solid, face, digits }).collect()
}

fn with_each_digit_after(digits: &Vec<u64>) -> Vec<Vec<u64>> {
    (0..4).map(|last| [digits.as_slice(), &[last]].concat()).collect()
}

/// Every cell of every solid at a depth.
pub fn cells_of_depth(depth: u64) -> Vec<Cell> {
    let of_solid = |solid| (0..solids::number_of_faces(solid)).flat_map(move |face| cells_of_face(solid, face, depth));
    solids::SOLIDS.into_iter().flat_map(of_solid).collect()
}

pub fn cells_to_depth(deepest: u64) -> impl Iterator<Item = Cell> {
    (0..=deepest).flat_map(cells_of_depth)
}
