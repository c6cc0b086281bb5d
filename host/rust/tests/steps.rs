//! Steps: step and walk of the library, compared with the neighbour by corners.

mod model;

use model::codes::{self, cells_to_depth, Cell, Parts, DEEPEST, DIRECTION, FAULTY};
use model::corners::{self, Corners, Weights};
use model::random::{Random, ALONG};
use model::solids::{self, SOLIDS};
use model::steps::{self, DIRECTIONS};
use model::tally::Tally;
use std::collections::{HashMap, HashSet};
use urdinhosa::Refusal;

/// The good directions, the first bad ones, and numbers whose low bits are a good direction.
const GOOD_AND_BAD_DIRECTIONS: [u64; 13] =
    [0, 1, 2, 3, 4, 5, 6, 1 << 8, (1 << 8) + 2, 1 << 32, 1 << 63, (1 << 63) + 1, u64::MAX];

// ---------------------------------------------------------------------------------------------------------------------
// Comparing library and model on one input

/// What step and walk answer, which must be the same.
fn step(code: u64, direction: u64) -> Result<u64, u64> {
    let by_carries = urdinhosa::step(code, direction).map_err(Refusal::number);
    let by_digits = urdinhosa::walk(code, direction).map_err(Refusal::number);
    assert_eq!(by_carries, by_digits, "step and walk of {:#018x} in direction {}", code, direction);
    by_carries
}

/// Compares with the model; answers its number, 0 when it is not refused.
fn compare_step(code: u64, direction: u64) -> u64 {
    let expected = steps::step(code, direction);
    assert_eq!(step(code, direction), expected, "step of {:#018x} in direction {}", code, direction);
    expected.err().unwrap_or(0)
}

/// The cell that the library answers.
fn neighbour(cell: &Cell, direction: u64) -> Cell {
    let code = codes::code_of(cell);
    step(code, direction)
        .and_then(codes::check)
        .unwrap_or_else(|number| panic!("step of {:#018x} in direction {} is refused by {}", code, direction, number))
}

// ---------------------------------------------------------------------------------------------------------------------
// Random cells

/// A cell of any solid, face and depth and a direction; the same number of each kind: anywhere on the face, at the side
/// of the face, and with a run of digits along the side that ends somewhere, or just before the first digit.
fn random_step(random: &mut Random) -> (Cell, u64) {
    let direction = random.one_of(&DIRECTIONS);
    let depth = random.below(DEEPEST + 1);
    let run = match random.below(4) {
        0 => return (random.cell_of_depth(depth), direction),
        1 => depth,
        2 => random.below(depth + 1),
        _ => depth.saturating_sub(1),
    };
    (random.cell_with_run(direction, depth, run), direction)
}

// ---------------------------------------------------------------------------------------------------------------------
// By corners: all cells

/// The codes of the cells of a depth by solid and the ends of a side, the lesser first.
fn codes_by_ends(depth: u64) -> HashMap<(u64, [Weights; 2]), Vec<u64>> {
    let mut by_ends = HashMap::new();
    for cell in codes::cells_of_depth(depth) {
        let corners = corners::of_cell(&cell);
        for direction in DIRECTIONS {
            by_ends
                .entry(side_of(cell.solid, &corners, direction))
                .or_insert_with(Vec::new)
                .push(codes::code_of(&cell));
        }
    }
    by_ends
}

fn side_of(solid: u64, corners: &Corners, direction: u64) -> (u64, [Weights; 2]) {
    let mut ends = steps::ends_of_side(corners, direction);
    ends.sort_unstable();
    (solid, ends)
}

/// Asks for the neighbour of every cell of a depth over every side and compares with the one other cell that has both
/// ends of that side, among all cells. Answers the number of steps.
fn compare_with_all_cells(depth: u64, step: impl Fn(u64, u64) -> Result<u64, u64>) -> u64 {
    let by_ends = codes_by_ends(depth);
    let mut count = 0;
    for cell in codes::cells_of_depth(depth) {
        let (code, corners) = (codes::code_of(&cell), corners::of_cell(&cell));
        for direction in DIRECTIONS {
            let having_both = &by_ends[&side_of(cell.solid, &corners, direction)];
            let others: Vec<u64> = having_both.iter().copied().filter(|&other| other != code).collect();
            let only_other = step(code, direction).map(|answer| vec![answer]);
            assert_eq!(only_other, Ok(others), "step of {:#018x} in direction {}", code, direction);
            count += 1;
        }
    }
    count
}

#[test]
fn each_step_to_depth_5_leads_to_the_one_other_cell_with_both_ends_of_the_side() {
    let count: u64 = (0..=5).map(|depth| compare_with_all_cells(depth, step)).sum();
    assert_eq!(count, 3 * (4 + 8 + 20) * (1 + 4 + 16 + 64 + 256 + 1_024));
}

#[test]
fn each_side_to_depth_5_has_just_two_cells() {
    for depth in 0..=5 {
        assert!(codes_by_ends(depth).values().all(|having_both| having_both.len() == 2), "depth {}", depth);
    }
}

// ---------------------------------------------------------------------------------------------------------------------
// By corners: random cells of every depth

#[test]
fn random_cells_of_each_depth_step_as_by_the_model() {
    let mut random = Random::with_seed(1);
    for depth in 0..=DEEPEST {
        for _ in 0..20_000 {
            let code = codes::code_of(&random.cell_of_depth(depth));
            for direction in DIRECTIONS {
                assert_eq!(compare_step(code, direction), 0);
            }
        }
    }
}

#[test]
fn random_cells_at_each_seam_and_depth_step_as_by_the_model() {
    let mut random = Random::with_seed(2);
    for depth in 0..=DEEPEST {
        let mut seams = HashSet::new();
        for direction in DIRECTIONS {
            for _ in 0..10_000 {
                let cell = random.cell_at_side(direction, depth);
                assert_eq!(compare_step(codes::code_of(&cell), direction), 0);
                assert_ne!(neighbour(&cell, direction).face, cell.face, "{:?} in direction {}", cell, direction);
                seams.insert((cell.solid, cell.face, direction));
            }
        }
        assert_eq!(seams.len(), 3 * (4 + 8 + 20), "seams met at depth {}", depth);
    }
}

#[test]
fn runs_of_digits_along_the_side_that_stop_just_before_the_first_digit_step_as_by_the_model() {
    let mut random = Random::with_seed(3);
    for depth in 1..=DEEPEST {
        for direction in DIRECTIONS {
            for _ in 0..6_000 {
                let cell = random.cell_with_run(direction, depth, depth - 1);
                assert_eq!(compare_step(codes::code_of(&cell), direction), 0);
                let across = neighbour(&cell, direction);
                assert_eq!(across.face, cell.face, "{:?} in direction {}", cell, direction);
                assert_ne!(across.digits[0], cell.digits[0], "{:?} in direction {}", cell, direction);
            }
        }
    }
}

#[test]
fn runs_of_every_length_at_every_depth_step_as_by_the_model() {
    let mut random = Random::with_seed(4);
    for depth in 0..=DEEPEST {
        for run in 0..=depth {
            for direction in DIRECTIONS {
                for _ in 0..600 {
                    let cell = random.cell_with_run(direction, depth, run);
                    assert_eq!(compare_step(codes::code_of(&cell), direction), 0);
                }
            }
        }
    }
}

#[test]
fn the_neighbour_of_very_many_cells_is_another_cell_of_the_solid_and_depth_with_both_ends_of_the_side() {
    let mut random = Random::with_seed(5);
    for _ in 0..2_000_000 {
        let (cell, direction) = random_step(&mut random);
        let across = neighbour(&cell, direction);
        assert_ne!(across, cell, "direction {}", direction);
        assert_eq!((across.solid, across.digits.len()), (cell.solid, cell.digits.len()), "{:?} and {:?}", cell, across);
        let Corners { tip, left, right } = corners::of_cell(&across);
        for end in steps::ends_of_side(&corners::of_cell(&cell), direction) {
            assert!([tip, left, right].contains(&end), "{:?} and {:?} in direction {}", cell, across, direction);
        }
    }
}

// ---------------------------------------------------------------------------------------------------------------------
// Laws

#[test]
fn left_undoes_right_right_undoes_left_and_vertical_undoes_itself() {
    let mut random = Random::with_seed(6);
    let every_step = cells_to_depth(4).flat_map(|cell| DIRECTIONS.map(|direction| (cell.clone(), direction)));
    let random_steps = (0..2_000_000).map(|_| random_step(&mut random));
    for (cell, direction) in every_step.chain(random_steps) {
        let code = codes::code_of(&cell);
        let back = [1, 0, 2][direction as usize];
        let there_and_back = step(code, direction).and_then(|across| step(across, back));
        assert_eq!(there_and_back, Ok(code), "{:#018x} in direction {}", code, direction);
    }
}

/// Where a cell's side is part of its parent's side, the parent of the neighbour is the neighbour of the parent; where
/// it is not, the neighbour has the same parent.
fn assert_parent_law(code: u64, last_digit: u64, direction: u64) {
    let parent = |code| urdinhosa::parent(code).map_err(Refusal::number);
    let parent_across = step(code, direction).and_then(parent);
    let expected = match ALONG[direction as usize].contains(&last_digit) {
        true => parent(code).and_then(|above| step(above, direction)),
        false => parent(code),
    };
    assert!(expected.is_ok(), "{:#018x}", code);
    assert_eq!(parent_across, expected, "{:#018x} in direction {}", code, direction);
}

#[test]
fn the_parent_steps_along_where_the_side_is_part_of_its_side_and_only_there() {
    let mut random = Random::with_seed(7);
    let every_step = cells_to_depth(5).flat_map(|cell| DIRECTIONS.map(|direction| (cell.clone(), direction)));
    let random_steps = (0..1_000_000).map(|_| random_step(&mut random));
    for (cell, direction) in every_step.chain(random_steps) {
        if let Some(&last_digit) = cell.digits.last() {
            assert_parent_law(codes::code_of(&cell), last_digit, direction);
        }
    }
}

// ---------------------------------------------------------------------------------------------------------------------
// Both methods on codes, damaged codes and numbers that are none

/// Calls step and walk on numbers of one kind in good and bad directions: they must agree, and every case must be met.
fn agree_on_random_numbers(count: u64, seed: u64, rarest: u64, number: impl Fn(&mut Random) -> u64) {
    let mut random = Random::with_seed(seed);
    let answers = (0..count).flat_map(|_| {
        let code = number(&mut random);
        GOOD_AND_BAD_DIRECTIONS.map(|direction| step(code, direction).err().unwrap_or(0))
    });
    Tally::of(answers).assert_each_at_least(rarest, 0..=5);
}

fn random_code(random: &mut Random) -> u64 {
    codes::code_of(&random_step(random).0)
}

#[test]
fn step_and_walk_agree_on_codes() {
    let mut random = Random::with_seed(8);
    let answers = (0..1_000_000).flat_map(|_| {
        let code = random_code(&mut random);
        GOOD_AND_BAD_DIRECTIONS.map(|direction| step(code, direction).err().unwrap_or(0))
    });
    let mut numbers = HashSet::new();
    numbers.extend(answers);
    assert_eq!(numbers, HashSet::from([0, DIRECTION]));
}

#[test]
fn step_and_walk_agree_on_codes_with_one_or_two_wrong_bits() {
    agree_on_random_numbers(1_000_000, 9, 1_000, |random| {
        let code = random_code(random);
        let once = random.with_a_wrong_bit(code);
        let twice = random.with_a_wrong_bit(once);
        random.one_of(&[once, twice])
    });
}

#[test]
fn step_and_walk_agree_on_codes_with_one_or_two_wrong_parts() {
    agree_on_random_numbers(1_000_000, 10, 1_000, |random| {
        let code = random_code(random);
        let once = random.with_another_part(code);
        let twice = random.with_another_part(once);
        random.one_of(&[once, twice])
    });
}

#[test]
fn step_and_walk_agree_on_random_numbers() {
    // the paths of a random number rarely end where its depth says: only few of them are codes
    agree_on_random_numbers(2_000_000, 11, 1_000, Random::number);
}

#[test]
fn step_and_walk_agree_on_numbers_near_powers_of_two() {
    agree_on_random_numbers(1_000_000, 12, 1_000, |random| {
        let sum = random.number_at_an_edge().wrapping_add(random.number_at_an_edge());
        sum.wrapping_add(random.one_of(&[0, 1 << 62, 1 << 63, 3 << 62]))
    });
}

// ---------------------------------------------------------------------------------------------------------------------
// Refused

/// Compares with the model on numbers of one kind, each with a random good or bad direction, and demands that every
/// case was met.
fn compare_on_random_numbers(count: u64, seed: u64, rarest: u64, number: impl Fn(&mut Random) -> u64) {
    let mut random = Random::with_seed(seed);
    let answers = (0..count).map(|_| {
        let code = number(&mut random);
        let direction = random.one_of(&GOOD_AND_BAD_DIRECTIONS);
        compare_step(code, direction)
    });
    Tally::of(answers).assert_each_at_least(rarest, 0..=5);
}

#[test]
fn damaged_codes_are_answered_as_by_the_model() {
    compare_on_random_numbers(400_000, 13, 1_000, |random| {
        let code = random_code(random);
        let once = random.with_a_wrong_bit(code);
        let another = random.with_another_part(code);
        let both = random.with_another_part(once);
        random.one_of(&[once, another, both])
    });
}

#[test]
fn random_numbers_are_answered_as_by_the_model() {
    compare_on_random_numbers(400_000, 14, 100, Random::number);
}

#[test]
fn each_solid_face_depth_and_single_path_bit_in_a_code_is_answered_as_by_the_model() {
    let mut numbers = Vec::new();
    for solid_and_face in 0..128 {
        for path in (0..52).step_by(3).map(|bit| 1 << bit).chain([0]) {
            for depth in 0..32 {
                let code = (solid_and_face << 57) + (path << 5) + depth;
                numbers.extend([1, 3].map(|direction| compare_step(code, direction)));
            }
        }
    }
    Tally::of(numbers).assert_each_at_least(1_000, 0..=5);
}

#[test]
fn the_codes_faults_in_their_sequence_come_before_the_direction() {
    for (code, number) in FAULTY {
        for direction in GOOD_AND_BAD_DIRECTIONS {
            assert_eq!(step(code, direction), Err(number), "{:#018x} in direction {}", code, direction);
        }
    }
    for direction in GOOD_AND_BAD_DIRECTIONS {
        let refused = step(0x47ff_ffff_ffff_fffa, direction).err();
        assert_eq!(refused, (direction > 2).then_some(DIRECTION), "direction {}", direction);
    }
}

#[test]
fn every_bit_above_the_second_of_a_direction_refuses_it() {
    let mut random = Random::with_seed(15);
    for _ in 0..10_000 {
        let code = random_code(&mut random);
        for added in (2..64).map(|bit| 1 << bit) {
            for direction in DIRECTIONS {
                assert_eq!(step(code, direction + added), Err(DIRECTION), "{:#018x}", code);
            }
        }
    }
}

// ---------------------------------------------------------------------------------------------------------------------
// Bench table

/// The code of a cell by its digits as they are printed.
fn code(solid: u64, face: u64, digits: &str) -> u64 {
    let path = u64::from_str_radix(digits, 2).unwrap_or(0);
    let depth = digits.len() as u64 / 2;
    codes::pack(Parts { solid, face, path: path << (52 - 2 * depth), depth }).expect("the code of a cell")
}

#[test]
fn bench_case_1_right_on_a_face_of_the_icosahedron() {
    assert_eq!(step(0xce96_0000_0000_0006, 1), Ok(0xce98_a000_0000_0006));
}

#[test]
fn bench_case_2_vertical_on_each_face() {
    for solid in SOLIDS {
        for face in 0..solids::number_of_faces(solid) {
            assert_eq!(step(code(solid, face, "10100111"), 2), Ok(code(solid, face, "10000111")));
        }
    }
}

#[test]
fn bench_case_3_right_over_a_plain_seam_and_over_a_mirrored_one() {
    assert_eq!(step(code(3, 5, "0011110011"), 1), Ok(code(3, 10, "0100000100")));
    assert_eq!(step(code(3, 0, "0011110011"), 1), Ok(code(3, 1, "0001010001")));
}

#[test]
fn bench_case_4_vertical_over_a_seam_of_the_tetrahedron() {
    assert_eq!(step(code(1, 0, "01"), 2), Ok(code(1, 2, "11")));
}

#[test]
fn bench_case_5_right_over_a_seam_of_the_tetrahedron() {
    assert_eq!(step(code(1, 3, "11"), 1), Ok(code(1, 0, "00")));
}

#[test]
fn bench_case_6_right_from_the_last_upper_face_of_the_octahedron() {
    assert_eq!(step(code(2, 3, ""), 1), Ok(code(2, 0, "")));
}

// ---------------------------------------------------------------------------------------------------------------------
// Where the document could be read in two ways

#[test]
fn a_direction_wider_than_a_byte_is_tested_whole() {
    assert_eq!(step(0x4000_0000_0000_0000, 256), Err(5));
    assert_eq!(step(0x4000_0000_0000_0000, 1 << 63), Err(5));
}

// ---------------------------------------------------------------------------------------------------------------------
// The model itself

#[test]
fn the_models_neighbour_to_depth_4_is_the_one_other_cell_with_both_ends_of_the_side() {
    for depth in 0..=4 {
        compare_with_all_cells(depth, steps::step);
    }
}

#[test]
fn the_models_weights_in_a_child_give_the_point_back() {
    // over the corners of the parent, (T, L, R), in place of vertices
    let parent = corners::of_face(1, 2);
    let mut held = [0; 4];
    for (t, l) in (0..=8).flat_map(|t| (0..=8 - t).map(move |l| (t, l))) {
        let point = [t, l, 8 - t - l];
        for digit in 0..4 {
            if let Some(inner) = steps::weights_in_child(point, digit) {
                assert_eq!(at(&corners::of_child(&parent, digit), inner), at(&parent, point), "child {}", digit);
                held[digit as usize] += 1;
            }
        }
    }
    // crossings of a triangle with four steps a side
    assert_eq!(held, [15; 4]);
}

/// The point with these weights at the corners.
fn at(corners: &Corners, [t, l, r]: steps::Inner) -> Weights {
    let Corners { tip, left, right } = corners;
    std::array::from_fn(|vertex| t * tip[vertex] + l * left[vertex] + r * right[vertex])
}

#[test]
fn the_digits_along_a_side_are_those_of_the_children_that_have_a_part_of_it() {
    let face = corners::of_face(3, 0);
    for direction in DIRECTIONS {
        let [a, b] = steps::ends_of_side(&face, direction);
        let middle: Weights = std::array::from_fn(|vertex| a[vertex] + b[vertex]);
        let halves = [a, b].map(|end| [end.map(|weight| 2 * weight), middle]);
        let has_a_half = |&digit: &u64| {
            let ends = steps::ends_of_side(&corners::of_child(&face, digit), direction);
            halves.iter().any(|half| half.iter().all(|corner| ends.contains(corner)))
        };
        let along: Vec<u64> = (0..4).filter(has_a_half).collect();
        assert_eq!(along, ALONG[direction as usize], "direction {}", direction);
    }
}
