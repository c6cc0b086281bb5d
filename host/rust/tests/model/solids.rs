//! The three solids and their faces.

pub const TETRAHEDRON: u64 = 1;
pub const OCTAHEDRON: u64 = 2;
pub const ICOSAHEDRON: u64 = 3;

pub const SOLIDS: [u64; 3] = [TETRAHEDRON, OCTAHEDRON, ICOSAHEDRON];

pub fn number_of_faces(solid: u64) -> u64 {
    match solid {
        TETRAHEDRON => 4,
        OCTAHEDRON => 8,
        ICOSAHEDRON => 20,
        _ => panic!("no solid has the number {}", solid),
    }
}

pub fn number_of_vertices(solid: u64) -> usize {
    match solid {
        TETRAHEDRON => 4,
        OCTAHEDRON => 6,
        ICOSAHEDRON => 12,
        _ => panic!("no solid has the number {}", solid),
    }
}

/// The faces in order, each as the vertices (tip, left, right).
pub fn faces(solid: u64) -> Vec<[usize; 3]> {
    match solid {
        TETRAHEDRON => vec![[2, 0, 1], [1, 2, 3], [3, 1, 0], [0, 3, 2]],
        OCTAHEDRON => [ring(4, |i, next| [0, 1 + i, 1 + next]), ring(4, |i, next| [5, 1 + i, 1 + next])].concat(),
        ICOSAHEDRON => [
            ring(5, |i, next| [0, 1 + i, 1 + next]),
            ring(5, |i, next| [6 + i, 1 + i, 1 + next]),
            ring(5, |i, next| [1 + next, 6 + i, 6 + next]),
            ring(5, |i, next| [11, 6 + i, 6 + next]),
        ]
        .concat(),
        _ => panic!("no solid has the number {}", solid),
    }
}

/// The faces of one ring formula: i goes round, and i+1 wraps.
fn ring(length: usize, face: impl Fn(usize, usize) -> [usize; 3]) -> Vec<[usize; 3]> {
    (0..length).map(|i| face(i, (i + 1) % length)).collect()
}
