//! Codes: pack, unpack, parent and child of the library, compared with the model of the rules.

mod model;

use model::codes::{self, cells_to_depth, Parts, DEEPEST, DEPTH, DIGIT, FACE, SOLID, TAIL};
use model::corners::{self, Corners};
use model::random::Random;
use model::solids::{self, SOLIDS};
use model::tally::Tally;
use std::collections::{HashMap, HashSet};
use urdinhosa::{c, Refusal};

const DEPTH_OF_ALL_CELLS: u64 = 4;

/// Digits of a child: good ones, the first bad ones, and numbers whose low bits are a good digit.
const DIGITS: [u64; 12] = [0, 1, 2, 3, 4, 5, 6, 7, 1 << 8, 1 << 32, 1 << 63, u64::MAX];

// ---------------------------------------------------------------------------------------------------------------------
// The library's answers in the model's form

fn pack(parts: Parts) -> Result<u64, u64> {
    urdinhosa::pack(parts.solid, parts.face, parts.path, parts.depth).map_err(Refusal::number)
}

fn unpack(code: u64) -> Result<Parts, u64> {
    let parts_of = |urdinhosa::Fields { solid, face, path, depth }| Parts { solid, face, path, depth };
    urdinhosa::unpack(code).map(parts_of).map_err(Refusal::number)
}

fn parent(code: u64) -> Result<u64, u64> {
    urdinhosa::parent(code).map_err(Refusal::number)
}

fn child(code: u64, digit: u64) -> Result<u64, u64> {
    urdinhosa::child(code, digit).map_err(Refusal::number)
}

/// What the C call answers, and everything that it leaves in room that held other numbers before: the wrapper does not
/// show the fields of a refused code. The numbers before and after the room must stay.
fn unpack_as_c_does(code: u64) -> (u64, [u64; 4]) {
    const OLD: u64 = 0x5a5a_5a5a_5a5a_5a5a;
    let mut room = [OLD; 6];
    // SAFETY: the four numbers are the middle ones of our own six.
    let number = unsafe {
        let fields = room.as_mut_ptr().add(1).cast::<[u64; 4]>();
        c::urdinhosa_unpack(code, fields)
    };
    let [before, solid, face, path, depth, after] = room;
    assert_eq!((before, after), (OLD, OLD), "unpack of {:#018x} writes beside its room", code);
    (number, [solid, face, path, depth])
}

// ---------------------------------------------------------------------------------------------------------------------
// Comparing library and model on one input

/// Compares unpack on one number; answers the model's number, 0 when it is not refused.
fn compare_unpack(code: u64) -> u64 {
    let expected = codes::unpack(code);
    let (number, fields) = match expected {
        Ok(Parts { solid, face, path, depth }) => (0, [solid, face, path, depth]),
        Err(refused) => (refused, [0; 4]),
    };
    assert_eq!(unpack_as_c_does(code), (number, fields), "unpack of {:#018x} by C", code);
    assert_eq!(unpack(code), expected, "unpack of {:#018x} by the wrapper", code);
    number
}

fn compare_parent(code: u64) {
    assert_eq!(parent(code), codes::parent(code), "parent of {:#018x}", code);
}

fn compare_child(code: u64, digit: u64) {
    assert_eq!(child(code, digit), codes::child(code, digit), "child {} of {:#018x}", digit, code);
}

/// Compares every call that takes a code; answers the number that the model's unpack has.
fn compare_calls(code: u64, digits: &[u64]) -> u64 {
    compare_parent(code);
    for &digit in digits {
        compare_child(code, digit);
    }
    compare_unpack(code)
}

/// Compares pack on one input; answers the model's number, 0 when it is not refused.
fn compare_pack(parts: Parts) -> u64 {
    let expected = codes::pack(parts);
    assert_eq!(pack(parts), expected, "pack of {:?}", parts);
    expected.err().unwrap_or(0)
}

// ---------------------------------------------------------------------------------------------------------------------
// Well-formed codes

#[test]
fn every_cell_to_depth_4_has_the_code_of_the_model() {
    let mut count = 0;
    for cell in cells_to_depth(DEPTH_OF_ALL_CELLS) {
        assert_eq!(pack(codes::parts_of(&cell)), Ok(codes::code_of(&cell)), "pack of {:?}", cell);
        count += 1;
    }
    assert_eq!(count, (4 + 8 + 20) * (1 + 4 + 16 + 64 + 256));
}

#[test]
fn every_code_to_depth_4_is_answered_as_by_the_model() {
    for cell in cells_to_depth(DEPTH_OF_ALL_CELLS) {
        let number = compare_calls(codes::code_of(&cell), &DIGITS);
        assert_eq!(number, 0, "unpack of {:?}", cell);
    }
}

#[test]
fn random_codes_of_each_depth_are_answered_as_by_the_model() {
    let mut random = Random::with_seed(1);
    for depth in 0..=DEEPEST {
        for _ in 0..5_000 {
            let cell = random.cell_of_depth(depth);
            compare_pack(codes::parts_of(&cell));
            let number = compare_calls(codes::code_of(&cell), &DIGITS);
            assert_eq!(number, 0, "unpack of {:?}", cell);
        }
    }
}

#[test]
fn unpack_undoes_pack_and_pack_undoes_unpack() {
    let mut random = Random::with_seed(2);
    let random_cells = (0..200_000).map(|_| random.cell());
    for cell in cells_to_depth(DEPTH_OF_ALL_CELLS).chain(random_cells) {
        let parts = codes::parts_of(&cell);
        let code = pack(parts).unwrap_or_else(|number| panic!("pack of {:?} is refused by {}", parts, number));
        assert_eq!(unpack(code), Ok(parts), "unpack of {:#018x}", code);
        assert_eq!(unpack(code).and_then(pack), Ok(code), "pack of unpack of {:#018x}", code);
    }
}

#[test]
fn different_cells_have_different_codes() {
    let codes: HashSet<_> = cells_to_depth(5).map(|cell| pack(codes::parts_of(&cell))).collect();
    assert_eq!(codes.len(), cells_to_depth(5).count());
}

#[test]
fn no_code_is_below_two_to_the_62() {
    let codes = cells_to_depth(DEPTH_OF_ALL_CELLS).map(|cell| pack(codes::parts_of(&cell)));
    assert_eq!(codes.min(), Some(Ok(0x4000_0000_0000_0000)));
}

#[test]
fn the_code_printed_in_bench_case_1_has_the_parts_of_its_bits() {
    // ce96.. is 11 00111 010010110..: icosahedron, face 7, digits 01 00 10 11 00 00
    let parts = Parts { solid: 3, face: 7, path: 0b01_00_10_11 << 44, depth: 6 };
    assert_eq!(unpack(0xce96_0000_0000_0006), Ok(parts));
    assert_eq!(pack(parts), Ok(0xce96_0000_0000_0006));
}

#[test]
fn the_digits_fill_the_path_from_bits_56_and_55_down() {
    let mut code = 0x4000_0000_0000_0000;
    for depth in 1..=26 {
        let bits_above = code - (depth - 1);
        code = child(code, 3).unwrap_or_else(|number| panic!("child of depth {} is refused by {}", depth, number));
        let digit_place = 57 - 2 * depth;
        assert_eq!(code, bits_above + (0b11 << digit_place) + depth, "child 11 of depth {}", depth);
    }
    assert_eq!(code, 0x41ff_ffff_ffff_fffa);
}

// ---------------------------------------------------------------------------------------------------------------------
// Edges

/// No bit of the path, each bit of a 64-bit number alone, all bits of the path, all bits.
fn paths_at_the_edges() -> Vec<u64> {
    let bits_alone = (0..64).map(|bit| 1 << bit);
    bits_alone.chain([0, (1 << 52) - 1, u64::MAX]).collect()
}

#[test]
fn each_solid_face_depth_and_single_path_bit_is_packed_or_refused_as_by_the_model() {
    let paths = paths_at_the_edges();
    let mut numbers = Vec::new();
    for solid in 0..=4 {
        for face in 0..=33 {
            for depth in 0..=33 {
                numbers.extend(paths.iter().map(|&path| compare_pack(Parts { solid, face, path, depth })));
            }
        }
    }
    Tally::of(numbers).assert_each_at_least(1_000, 0..=4);
}

#[test]
fn each_solid_face_depth_and_single_path_bit_in_a_code_is_answered_as_by_the_model() {
    let mut numbers = Vec::new();
    for solid_and_face in 0..128 {
        for path in paths_at_the_edges().into_iter().filter(|&path| path < 1 << 52) {
            for depth in 0..32 {
                numbers.push(compare_calls((solid_and_face << 57) + (path << 5) + depth, &[3, 4]));
            }
        }
    }
    Tally::of(numbers).assert_each_at_least(1_000, 0..=4);
}

#[test]
fn a_bit_just_after_the_last_digit_is_tail_and_the_bit_before_it_is_not() {
    for depth in 0..=26 {
        let bits_after_the_digits = 52 - 2 * depth;
        if depth < 26 {
            let path = 1 << (bits_after_the_digits - 1);
            assert_eq!(pack(Parts { solid: 3, face: 19, path, depth }), Err(TAIL), "depth {}", depth);
        }
        if depth > 0 {
            let parts = Parts { solid: 3, face: 19, path: 1 << bits_after_the_digits, depth };
            assert_eq!(pack(parts).and_then(unpack), Ok(parts), "depth {}", depth);
        }
    }
}

#[test]
fn the_greatest_number_is_refused_for_its_face() {
    assert_eq!(compare_calls(u64::MAX, &DIGITS), FACE);
}

#[test]
fn the_last_face_of_each_solid_is_fine_and_the_one_after_it_is_face() {
    for solid in SOLIDS {
        let count = solids::number_of_faces(solid);
        assert!(pack(Parts { solid, face: count - 1, path: 0, depth: 0 }).is_ok(), "solid {}", solid);
        assert_eq!(pack(Parts { solid, face: count, path: 0, depth: 0 }), Err(FACE), "solid {}", solid);
    }
}

// ---------------------------------------------------------------------------------------------------------------------
// Damaged codes and numbers that are none

/// Compares on numbers of one kind, each with a random digit of a child, and demands that every case was met.
fn compare_on_random_numbers(count: u64, seed: u64, rarest: u64, number: impl Fn(&mut Random) -> u64) {
    let mut random = Random::with_seed(seed);
    let numbers = (0..count).map(|_| {
        let code = number(&mut random);
        let digit = random.one_of(&DIGITS);
        compare_calls(code, &[digit])
    });
    Tally::of(numbers).assert_each_at_least(rarest, 0..=4);
}

#[test]
fn codes_with_one_wrong_bit_are_answered_as_by_the_model() {
    compare_on_random_numbers(600_000, 3, 1_000, |random| {
        let code = codes::code_of(&random.cell());
        random.with_a_wrong_bit(code)
    });
}

#[test]
fn codes_with_two_wrong_bits_are_answered_as_by_the_model() {
    compare_on_random_numbers(600_000, 4, 1_000, |random| {
        let code = codes::code_of(&random.cell());
        let once = random.with_a_wrong_bit(code);
        random.with_a_wrong_bit(once)
    });
}

#[test]
fn codes_with_one_wrong_part_are_answered_as_by_the_model() {
    compare_on_random_numbers(600_000, 5, 1_000, |random| {
        let code = codes::code_of(&random.cell());
        random.with_another_part(code)
    });
}

#[test]
fn codes_with_two_wrong_parts_are_answered_as_by_the_model() {
    compare_on_random_numbers(600_000, 6, 1_000, |random| {
        let code = codes::code_of(&random.cell());
        let once = random.with_another_part(code);
        random.with_another_part(once)
    });
}

#[test]
fn random_numbers_are_answered_as_by_the_model() {
    // the paths of a random number rarely end where its depth says: only few of them are codes
    compare_on_random_numbers(1_000_000, 7, 100, Random::number);
}

#[test]
fn numbers_near_powers_of_two_are_answered_as_by_the_model() {
    compare_on_random_numbers(300_000, 8, 100, |random| {
        let sum = random.number_at_an_edge().wrapping_add(random.number_at_an_edge());
        sum.wrapping_add(random.one_of(&[0, 1 << 62, 1 << 63, 3 << 62]))
    });
}

// ---------------------------------------------------------------------------------------------------------------------
// Packing numbers wider than their field

#[test]
fn numbers_at_the_edges_of_fields_and_words_are_packed_or_refused_as_by_the_model() {
    let mut random = Random::with_seed(9);
    let numbers = (0..1_000_000).map(|_| {
        let mut parts = codes::parts_of(&random.cell());
        for _ in 0..random.below(3) {
            let wide = random.number_at_an_edge();
            match random.below(4) {
                0 => parts.solid = wide,
                1 => parts.face = wide,
                2 => parts.path = wide,
                _ => parts.depth = wide,
            }
        }
        compare_pack(parts)
    });
    Tally::of(numbers).assert_each_at_least(1_000, 0..=4);
}

#[test]
fn a_good_number_with_any_bit_above_its_field_added_is_refused() {
    let mut random = Random::with_seed(10);
    for _ in 0..2_000 {
        let good = codes::parts_of(&random.cell());
        for added in (2..64).map(|bit| 1 << bit) {
            assert_eq!(compare_pack(Parts { solid: good.solid + added, ..good }), SOLID);
        }
        for added in (5..64).map(|bit| 1 << bit) {
            assert_eq!(compare_pack(Parts { face: good.face + added, ..good }), FACE);
            assert_eq!(compare_pack(Parts { depth: good.depth + added, ..good }), DEPTH);
        }
        for added in (52..64).map(|bit| 1 << bit) {
            assert_eq!(compare_pack(Parts { path: good.path + added, ..good }), TAIL);
        }
    }
}

// ---------------------------------------------------------------------------------------------------------------------
// Parent and child

#[test]
fn the_parent_of_each_child_is_the_cell() {
    let mut random = Random::with_seed(11);
    let random_cells = (0..100_000).map(|_| {
        let depth = random.below(DEEPEST);
        random.cell_of_depth(depth)
    });
    for cell in cells_to_depth(DEPTH_OF_ALL_CELLS).chain(random_cells) {
        let code = codes::code_of(&cell);
        for digit in 0..4 {
            assert_eq!(child(code, digit).and_then(parent), Ok(code), "parent of child {} of {:#018x}", digit, code);
        }
    }
}

#[test]
fn each_cell_is_a_child_of_its_parent() {
    let mut random = Random::with_seed(12);
    for _ in 0..100_000 {
        let depth = 1 + random.below(DEEPEST);
        let code = codes::code_of(&random.cell_of_depth(depth));
        let siblings = (0..4).map(|digit| parent(code).and_then(|above| child(above, digit)));
        assert_eq!(siblings.filter(|&sibling| sibling == Ok(code)).count(), 1, "children of parent of {:#018x}", code);
    }
}

/// The cells of a depth by their corners; two cells of one solid never have the same three.
fn codes_by_corners(depth: u64) -> HashMap<(u64, Corners), u64> {
    let cells = codes::cells_of_depth(depth);
    let by_corners: HashMap<_, _> =
        cells.iter().map(|cell| ((cell.solid, corners::of_cell(cell)), codes::code_of(cell))).collect();
    assert_eq!(by_corners.len(), cells.len(), "cells of depth {} with the same corners", depth);
    by_corners
}

#[test]
fn each_child_is_the_one_cell_with_the_corners_of_its_row_in_the_table() {
    for depth in 0..DEPTH_OF_ALL_CELLS {
        let below = codes_by_corners(depth + 1);
        for cell in codes::cells_of_depth(depth) {
            let code = codes::code_of(&cell);
            for digit in 0..4 {
                let row = corners::of_child(&corners::of_cell(&cell), digit);
                let expected = below.get(&(cell.solid, row)).copied();
                assert_eq!(child(code, digit).ok(), expected, "child {} of {:#018x}", digit, code);
            }
        }
    }
}

#[test]
fn deep_children_have_the_corners_of_their_row_in_the_table() {
    let mut random = Random::with_seed(13);
    for _ in 0..20_000 {
        let depth = random.below(DEEPEST);
        let cell = random.cell_of_depth(depth);
        let code = codes::code_of(&cell);
        for digit in 0..4 {
            let child_cell = child(code, digit).and_then(codes::check);
            let row = corners::of_child(&corners::of_cell(&cell), digit);
            assert_eq!(child_cell.map(|cell| corners::of_cell(&cell)), Ok(row), "child {} of {:#018x}", digit, code);
        }
    }
}

#[test]
fn the_children_of_tetrahedron_face_0_are_the_leaves_of_the_printed_listing() {
    let printed = [0x4000_0000_0000_0001, 0x4080_0000_0000_0001, 0x4100_0000_0000_0001, 0x4180_0000_0000_0001];
    for (digit, leaf) in (0..).zip(printed) {
        assert_eq!(child(0x4000_0000_0000_0000, digit), Ok(leaf), "child {}", digit);
        assert_eq!(parent(leaf), Ok(0x4000_0000_0000_0000), "parent of {:#018x}", leaf);
    }
}

// ---------------------------------------------------------------------------------------------------------------------
// Order

/// Goes up by the library from a code to its face; every ancestor must be below the code. Answers their number.
fn ancestors_below(code: u64) -> u64 {
    let mut count = 0;
    let mut ancestor = code;
    while let Ok(above) = parent(ancestor) {
        assert!(above < code, "ancestor {:#018x} is not below {:#018x}", above, code);
        ancestor = above;
        count += 1;
    }
    count
}

#[test]
fn the_ancestors_of_every_code_to_depth_5_are_below_it() {
    for cell in cells_to_depth(5) {
        assert_eq!(ancestors_below(codes::code_of(&cell)), cell.digits.len() as u64, "ancestors of {:?}", cell);
    }
}

#[test]
fn the_ancestors_of_random_deep_codes_are_below_them() {
    let mut random = Random::with_seed(14);
    for _ in 0..50_000 {
        let code = codes::code_of(&random.cell_of_depth(DEEPEST));
        assert_eq!(ancestors_below(code), DEEPEST, "ancestors of {:#018x}", code);
    }
}

#[test]
fn descendants_by_the_first_digit_only_are_above_their_cell() {
    // the path stays all zeros: the depth alone puts the descendant after
    for cell in codes::cells_of_depth(0) {
        let mut code = codes::code_of(&cell);
        while let Ok(first_child) = child(code, 0) {
            assert!(first_child > code, "child 0 of {:#018x} is {:#018x}", code, first_child);
            code = first_child;
        }
        assert_eq!(code - codes::code_of(&cell), DEEPEST);
    }
}

// ---------------------------------------------------------------------------------------------------------------------
// Bench table

#[test]
fn bench_case_7_code_0_is_solid_octahedron_face_8_is_face_and_7_is_fine() {
    assert_eq!(unpack(0), Err(1));
    assert_eq!(unpack(0x9000_0000_0000_0000), Err(2));
    assert_eq!(pack(Parts { solid: 2, face: 8, path: 0, depth: 0 }), Err(2));
    assert_eq!(unpack(0x8e00_0000_0000_0000), Ok(Parts { solid: 2, face: 7, path: 0, depth: 0 }));
    assert_eq!(pack(Parts { solid: 2, face: 7, path: 0, depth: 0 }), Ok(0x8e00_0000_0000_0000));
}

#[test]
fn bench_case_8_depth_27_is_depth_26_is_fine_and_a_bit_after_the_last_digit_is_tail() {
    assert_eq!(unpack(0x4000_0000_0000_001b), Err(3));
    assert_eq!(pack(Parts { solid: 1, face: 0, path: 0, depth: 27 }), Err(3));
    assert_eq!(unpack(0x4000_0000_0000_001a), Ok(Parts { solid: 1, face: 0, path: 0, depth: 26 }));
    assert_eq!(pack(Parts { solid: 1, face: 0, path: 0, depth: 26 }), Ok(0x4000_0000_0000_001a));
    assert_eq!(unpack(0x4000_0000_0000_0020), Err(4));
    assert_eq!(pack(Parts { solid: 1, face: 0, path: 1, depth: 0 }), Err(4));
}

// ---------------------------------------------------------------------------------------------------------------------
// Where the document could be read in two ways

#[test]
fn numbers_wider_than_their_field_are_tested_whole() {
    assert_eq!(pack(Parts { solid: 257, face: 0, path: 0, depth: 0 }), Err(1));
    assert_eq!(pack(Parts { solid: 1, face: 32, path: 0, depth: 0 }), Err(2));
    assert_eq!(pack(Parts { solid: 1, face: 0, path: 0, depth: 32 }), Err(3));
    assert_eq!(child(0x4000_0000_0000_0000, 256), Err(6));
}

#[test]
fn a_path_bit_above_the_52_is_tail_and_is_asked_last() {
    assert_eq!(pack(Parts { solid: 1, face: 4, path: 1 << 52, depth: 27 }), Err(2));
    assert_eq!(pack(Parts { solid: 1, face: 3, path: 1 << 52, depth: 27 }), Err(3));
    assert_eq!(pack(Parts { solid: 1, face: 3, path: 1 << 52, depth: 26 }), Err(4));
}

#[test]
fn the_face_is_not_asked_when_the_solid_is_unknown() {
    assert_eq!(unpack(0x3e00_0000_0000_0000), Err(SOLID));
    assert_eq!(parent(0x3e00_0000_0000_0000), Err(SOLID));
    assert_eq!(child(0x3e00_0000_0000_0000, 0), Err(SOLID));
}

#[test]
fn digit_is_asked_before_deep() {
    assert_eq!(child(0x4000_0000_0000_001a, 4), Err(DIGIT));
    assert_eq!(child(0x4000_0000_0000_001a, 3), Err(7));
}

#[test]
fn a_refused_unpack_answers_zero_in_every_part() {
    let one_of_each_cause =
        [0x3fff_ffff_ffff_ffff, 0x5fff_ffff_ffff_ffff, 0x47ff_ffff_ffff_ffff, 0x47ff_ffff_ffff_fff9];
    for (number, code) in (1..).zip(one_of_each_cause) {
        assert_eq!(unpack_as_c_does(code), (number, [0; 4]), "unpack of {:#018x}", code);
    }
}

#[test]
fn unpack_answers_the_path_as_pack_takes_it_with_the_first_digit_on_top() {
    // digits 01, 10: not in their place in the code (0x01 << 55), not as the number 0b0110
    assert_eq!(unpack(0x40c0_0000_0000_0002), Ok(Parts { solid: 1, face: 0, path: 0b0110 << 48, depth: 2 }));
    assert_eq!(unpack_as_c_does(0x40c0_0000_0000_0002), (0, [1, 0, 0x6_0000_0000_0000, 2]));
}

// ---------------------------------------------------------------------------------------------------------------------
// The model itself, and the numbers of refusals

#[test]
fn the_models_faces_close_each_solid() {
    for solid in SOLIDS {
        let faces = solids::faces(solid);
        assert_eq!(faces.len() as u64, solids::number_of_faces(solid), "faces of solid {}", solid);
        let mut faces_at_edge = HashMap::new();
        for [tip, left, right] in faces.iter().copied() {
            for (a, b) in [(tip, left), (tip, right), (left, right)] {
                *faces_at_edge.entry((a.min(b), a.max(b))).or_insert(0) += 1;
            }
        }
        assert!(faces_at_edge.values().all(|&count| count == 2), "edges of solid {}: {:?}", solid, faces_at_edge);
        let vertices: HashSet<_> = faces.iter().flatten().collect();
        assert_eq!(vertices.len(), solids::number_of_vertices(solid), "vertices of solid {}", solid);
        assert_eq!(vertices.len() + faces.len(), faces_at_edge.len() + 2, "Euler's sum of solid {}", solid);
    }
}

#[test]
fn the_models_weights_at_depth_d_sum_to_two_to_the_d() {
    let mut random = Random::with_seed(15);
    for depth in 0..=DEEPEST {
        let Corners { tip, left, right } = corners::of_cell(&random.cell_of_depth(depth));
        for corner in [tip, left, right] {
            assert_eq!(corner.iter().sum::<u64>(), 1 << depth, "depth {}", depth);
        }
    }
}

#[test]
fn refusals_have_the_numbers_of_the_documents_table() {
    let numbers = [
        (Refusal::Solid, 1),
        (Refusal::Face, 2),
        (Refusal::Depth, 3),
        (Refusal::Tail, 4),
        (Refusal::Direction, 5),
        (Refusal::Digit, 6),
        (Refusal::Deep, 7),
        (Refusal::Root, 8),
        (Refusal::Point, 9),
    ];
    for (refusal, number) in numbers {
        assert_eq!(refusal.number(), number, "{:?}", refusal);
    }
}
