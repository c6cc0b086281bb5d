//! Points: locate of the library, compared with the model of the rules, by its descent and by closed triangles.

mod model;

use model::codes::{self, DEEPEST, DEPTH, FACE, POINT, SOLID};
use model::corners::{self, Corners};
use model::points::{self, Point, WHOLE};
use model::random::Random;
use model::solids::{self, SOLIDS};
use urdinhosa::Refusal;

const HALF: u64 = WHOLE / 2;

// ---------------------------------------------------------------------------------------------------------------------
// Comparing library and model on one input

fn locate(point: Point, depth: u64) -> Result<u64, u64> {
    let Point { solid, face, weights: [t, l, r] } = point;
    urdinhosa::locate(solid, face, t, l, r, depth).map_err(Refusal::number)
}

/// Compares with the model's descent; answers its number, 0 when it is not refused.
fn compare_locate(point: Point, depth: u64) -> u64 {
    let expected = points::locate(point, depth);
    assert_eq!(locate(point, depth), expected, "locate of {:?} at depth {}", point, depth);
    expected.err().unwrap_or(0)
}

// ---------------------------------------------------------------------------------------------------------------------
// Random points

/// A weight up to a limit, often on a line between cells or one beside it.
fn random_weight(limit: u64, random: &mut Random) -> u64 {
    let weight = match random.below(4) {
        0 => random.below(limit + 1),
        1 => random.one_of(&[0, 1, HALF - 1, HALF, HALF + 1, WHOLE - 1, WHOLE]),
        2 => on_a_line(limit, random),
        _ => on_a_line(limit, random).saturating_sub(1) + random.below(3),
    };
    weight.min(limit)
}

/// A weight up to a limit that a side of a cell of some depth has along it.
fn on_a_line(limit: u64, random: &mut Random) -> u64 {
    let step = WHOLE >> random.below(DEEPEST + 1);
    random.below(limit + 1) / step * step
}

fn random_weights(random: &mut Random) -> [u64; 3] {
    let first = random_weight(WHOLE, random);
    let second = random_weight(WHOLE - first, random);
    let mut weights = [first, second, WHOLE - first - second];
    weights.rotate_left(random.below(3) as usize);
    if random.below(2) == 0 {
        weights.swap(0, 1);
    }
    weights
}

fn random_face(random: &mut Random) -> (u64, u64) {
    let solid = random.one_of(&SOLIDS);
    (solid, random.below(solids::number_of_faces(solid)))
}

fn random_point(random: &mut Random) -> Point {
    let (solid, face) = random_face(random);
    Point { solid, face, weights: random_weights(random) }
}

// ---------------------------------------------------------------------------------------------------------------------
// Located by the descent

#[test]
fn random_points_are_located_at_every_depth_as_by_the_models_descent() {
    let mut random = Random::with_seed(1);
    let mut times_met = [[0; 4]; DEEPEST as usize];
    for _ in 0..60_000 {
        let point = random_point(&mut random);
        for depth in 0..=DEEPEST {
            assert_eq!(compare_locate(point, depth), 0, "{:?} at depth {}", point, depth);
        }
        let deepest = points::locate(point, DEEPEST).and_then(codes::check);
        let digits = deepest.expect("the point is located").digits;
        for (level, digit) in digits.into_iter().enumerate() {
            times_met[level][digit as usize] += 1;
        }
    }
    assert_digits_are_met(&times_met, 1_000);
}

/// At the last level each point is a corner of the triangle that is divided, or the middle of a side of it, where the
/// lower of two outer children wins: digit 10 is never met there. All others are.
fn assert_digits_are_met(times_met: &[[u64; 4]; DEEPEST as usize], often: u64) {
    for (level, times) in times_met.iter().enumerate() {
        for (digit, &times) in times.iter().enumerate() {
            if level + 1 == DEEPEST as usize && digit == 0b10 {
                assert_eq!(times, 0, "digit 10 at the last level");
            } else {
                assert!(times >= often, "digit {} is met only {} times at level {}", digit, times, level + 1);
            }
        }
    }
}

#[test]
fn points_at_and_beside_the_halves_are_located_on_every_face_as_by_the_models_descent() {
    let edges = [0, 1, 2, HALF / 2, HALF - 1, HALF, HALF + 1, WHOLE - 1, WHOLE];
    for solid in SOLIDS {
        for face in 0..solids::number_of_faces(solid) {
            for weights in weights_from(&edges) {
                for depth in 0..=DEEPEST {
                    compare_locate(Point { solid, face, weights }, depth);
                }
            }
        }
    }
}

/// Weights that sum to the whole, two of them from a list.
fn weights_from(list: &[u64]) -> Vec<[u64; 3]> {
    let pairs = list.iter().flat_map(|&a| list.iter().map(move |&b| (a, b)));
    let fitting = pairs.filter(|(a, b)| a + b <= WHOLE);
    fitting.flat_map(|(a, b)| [[a, b, WHOLE - a - b], [a, WHOLE - a - b, b], [WHOLE - a - b, a, b]]).collect()
}

#[test]
fn the_cell_located_a_level_higher_is_the_parent() {
    let mut random = Random::with_seed(2);
    for _ in 0..20_000 {
        let point = random_point(&mut random);
        for depth in 1..=DEEPEST {
            let parent_of_located = locate(point, depth).ok().and_then(|code| urdinhosa::parent(code).ok());
            assert_eq!(parent_of_located, locate(point, depth - 1).ok(), "{:?} at depth {}", point, depth);
        }
    }
}

// ---------------------------------------------------------------------------------------------------------------------
// Located by closed triangles

/// The weights at and one beside every line of a depth, from 0 to the whole.
fn weights_at_lines(depth: u64) -> Vec<u64> {
    let step = WHOLE >> depth;
    let at_lines = (0..=1 << depth).map(|line| line * step);
    at_lines.flat_map(|weight| [weight.saturating_sub(1), weight, (weight + 1).min(WHOLE)]).collect()
}

/// Locates points of a face that lie on lines of a depth or one beside them, at that depth and above, and compares
/// with the least code among all cells of the face that hold the point.
fn compare_with_all_cells_of_face(solid: u64, face: u64, deepest: u64) {
    for depth in 0..=deepest {
        let cells = codes::cells_of_face(solid, face, depth);
        let triangles: Vec<(u64, Corners)> =
            cells.iter().map(|cell| (codes::code_of(cell), corners::of_cell(cell))).collect();
        for weights in weights_from(&weights_at_lines(deepest)) {
            let point = Point { solid, face, weights };
            let holding = triangles.iter().filter(|(_, corners)| points::weights_in(corners, &point).is_some());
            let least = holding.map(|&(code, _)| code).min();
            assert_eq!(locate(point, depth).ok(), least, "locate of {:?} at depth {}", point, depth);
        }
    }
}

#[test]
fn on_every_face_the_located_cell_is_the_least_of_all_cells_that_hold_the_point_to_depth_2() {
    for solid in SOLIDS {
        for face in 0..solids::number_of_faces(solid) {
            compare_with_all_cells_of_face(solid, face, 2);
        }
    }
}

#[test]
fn on_one_face_of_each_solid_the_located_cell_is_the_least_of_all_cells_that_hold_the_point_to_depth_4() {
    for (solid, face) in [(1, 2), (2, 5), (3, 12)] {
        compare_with_all_cells_of_face(solid, face, 4);
    }
}

#[test]
fn at_every_depth_the_located_cell_is_the_least_of_the_cells_that_hold_the_point() {
    let mut random = Random::with_seed(3);
    let mut most_cells_at_a_point = 0;
    for _ in 0..1_500 {
        let point = random_point(&mut random);
        for depth in 0..=DEEPEST {
            let holding = points::cells_that_hold(&point, depth);
            let least = holding.iter().map(codes::code_of).min();
            assert_eq!(locate(point, depth).ok(), least, "locate of {:?} at depth {}", point, depth);
            most_cells_at_a_point = most_cells_at_a_point.max(holding.len());
        }
    }
    assert_eq!(most_cells_at_a_point, 6, "cells around a crossing inside a face");
}

// ---------------------------------------------------------------------------------------------------------------------
// Refused points

#[test]
fn weights_that_sum_to_another_number_are_point() {
    let mut random = Random::with_seed(4);
    for _ in 0..300_000 {
        let mut point = random_point(&mut random);
        let changed = random.below(3) as usize;
        let change = 1 << random.below(64);
        point.weights[changed] = match random.below(2) {
            0 => point.weights[changed].wrapping_add(change),
            _ => point.weights[changed].wrapping_sub(change),
        };
        let depth = random.below(DEEPEST + 1);
        assert_eq!(compare_locate(point, depth), POINT, "{:?} at depth {}", point, depth);
    }
}

#[test]
fn random_weights_whose_sum_wraps_around_to_the_whole_are_point() {
    let mut random = Random::with_seed(5);
    for _ in 0..300_000 {
        let (solid, face) = random_face(&mut random);
        let [a, b] = [random.number(), random.number()];
        let mut weights = [a, b, WHOLE.wrapping_sub(a).wrapping_sub(b)];
        weights.rotate_left(random.below(3) as usize);
        let point = Point { solid, face, weights };
        let depth = random.below(DEEPEST + 1);
        assert_eq!(compare_locate(point, depth), POINT, "{:?} at depth {}", point, depth);
    }
}

#[test]
fn good_weights_with_two_tops_of_64_bits_added_are_point() {
    // the tops, 2^63 each, cancel in 64 bits, so the low bits alone would be a good point
    let mut random = Random::with_seed(6);
    for _ in 0..50_000 {
        let good = random_point(&mut random);
        for untouched in 0..3 {
            let mut weights = good.weights.map(|weight| weight + (1 << 63));
            weights[untouched] = good.weights[untouched];
            assert_eq!(compare_locate(Point { weights, ..good }, DEEPEST), POINT, "{:x?}", weights);
        }
    }
}

#[test]
fn solid_face_depth_and_point_are_refused_in_this_sequence() {
    let good_or_bad = [[HALF, HALF, 0], [HALF, HALF, 1], [u64::MAX, 1, WHOLE], [u64::MAX; 3]];
    let numbers = |limit: u64| (0..limit).chain([1 << 8, 1 << 32, (1 << 32) + 1, 1 << 63, (1 << 63) + 1, u64::MAX]);
    let mut met = [false; 10];
    for solid in numbers(6) {
        for face in numbers(34) {
            for depth in numbers(34) {
                for weights in good_or_bad {
                    met[compare_locate(Point { solid, face, weights }, depth) as usize] = true;
                }
            }
        }
    }
    for number in [0, SOLID, FACE, DEPTH, POINT] {
        assert!(met[number as usize], "number {} was not met", number);
    }
}

#[test]
fn random_calls_with_some_numbers_at_edges_are_answered_as_by_the_model() {
    let mut random = Random::with_seed(7);
    for _ in 0..1_000_000 {
        let mut point = random_point(&mut random);
        let mut depth = random.below(DEEPEST + 1);
        for _ in 0..random.below(3) {
            let wide = random.number_at_an_edge();
            match random.below(6) {
                0 => point.solid = wide,
                1 => point.face = wide,
                2 => depth = wide,
                weight => point.weights[weight as usize - 3] = wide,
            }
        }
        compare_locate(point, depth);
    }
}

// ---------------------------------------------------------------------------------------------------------------------
// Bench table

#[test]
fn bench_case_13_ties_go_to_the_lower_digit() {
    let at = |t, l, r| locate(Point { solid: 1, face: 0, weights: [t, l, r] }, 1);
    assert_eq!(at(1 << 25, 1 << 25, 0), Ok(0x4000_0000_0000_0001));
    assert_eq!(at(0, 1 << 25, 1 << 25), Ok(0x4080_0000_0000_0001));
    assert_eq!(at((1 << 25) - 1, 1, 1 << 25), Ok(0x4100_0000_0000_0001));
}

// ---------------------------------------------------------------------------------------------------------------------
// Where the document could be read in two ways

#[test]
fn weights_are_summed_as_true_numbers() {
    let at = |t, l, r| locate(Point { solid: 1, face: 0, weights: [t, l, r] }, 1);
    assert_eq!(at((1 << 32) - 1, 1, 1 << 26), Err(9));
    assert_eq!(at(u64::MAX, 1, 1 << 26), Err(9));
}

#[test]
fn a_points_solid_face_and_depth_wider_than_their_field_are_tested_whole() {
    let at = |solid, face, depth| locate(Point { solid, face, weights: [WHOLE, 0, 0] }, depth);
    assert_eq!(at(257, 0, 0), Err(1));
    assert_eq!(at(1, 32, 0), Err(2));
    assert_eq!(at(1, 0, 32), Err(3));
}

// ---------------------------------------------------------------------------------------------------------------------
// The model itself

#[test]
fn the_models_whole_weights_in_a_cell_give_the_point_back() {
    let mut random = Random::with_seed(8);
    for _ in 0..3_000 {
        let point = random_point(&mut random);
        let depth = random.below(DEEPEST + 1);
        for cell in points::cells_that_hold(&point, depth) {
            let Corners { tip, left, right } = corners::of_cell(&cell);
            let [a, b, c] = points::weights_in(&corners::of_cell(&cell), &point).expect("the cell holds the point");
            let again: [u64; 12] = std::array::from_fn(|vertex| a * tip[vertex] + b * left[vertex] + c * right[vertex]);
            assert_eq!(again, points::over_vertices(&point), "{:?} in {:?}", point, cell);
        }
    }
}
