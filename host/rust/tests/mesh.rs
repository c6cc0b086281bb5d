//! Meshes: the calls on a mesh of the library, compared with the model of the rules, which looks at all leaves.

mod model;

use model::codes::{
    self, Cell, BLOCKED, BUFFER, DEEP, DEEPEST, DIRECTION, FAULTY, MESH, NOT_FOUR, NOT_LEAF, ROOM, SOLID,
};
use model::mesh::{self, Refused, Triangle, MOST_SLOTS};
use model::random::Random;
use model::solids::{self, SOLIDS};
use model::steps::{self, DIRECTIONS};
use model::tally::Tally;
use std::collections::HashMap;
use urdinhosa::{c, Across, Refusal, Stopped};

/// Stands in every place that a call may write.
const OTHER: u64 = 0x5555_5555_5555_5555;

/// Stands before and after the slots. It is as long as what a change puts in or takes out.
const GUARD: [u64; 4] = [OTHER; 4];

// ---------------------------------------------------------------------------------------------------------------------
// Comparing library and model on one call. Each is made from Rust and from C.

#[derive(Clone, Copy, Debug)]
enum Change {
    Fresh(u64),
    Refine(u64),
    Coarsen(u64),
}

impl Change {
    fn by_model(self, slots: &[u64]) -> Result<Vec<u64>, Refused> {
        match self {
            Change::Fresh(solid) => mesh::fresh(slots, solid),
            Change::Refine(leaf) => mesh::refine(slots, leaf),
            Change::Coarsen(cell) => mesh::coarsen(slots, cell),
        }
    }

    fn from_rust(self, slots: &mut [u64]) -> Result<(), Refused> {
        match self {
            Change::Fresh(solid) => urdinhosa::fresh(slots, solid).map_err(Stopped::Refused),
            Change::Refine(leaf) => urdinhosa::refine(slots, leaf),
            Change::Coarsen(cell) => urdinhosa::coarsen(slots, cell),
        }
        .map_err(|stopped| match stopped {
            Stopped::Refused(refusal) => (refusal.number(), 0),
            Stopped::Blocked(leaf) => (stopped.number(), leaf),
        })
    }

    /// The number and what is written as the blocking leaf, which fresh has none of.
    fn from_c(self, slots: &mut [u64]) -> (u64, u64) {
        let (start, length) = (slots.as_mut_ptr(), slots.len());
        let mut blocker = OTHER;
        // SAFETY: a slice is as long as it says, and ours to write; the blocker is our own.
        unsafe {
            match self {
                Change::Fresh(solid) => (c::urdinhosa_fresh(start, length, solid), 0),
                Change::Refine(leaf) => (c::urdinhosa_refine(start, length, leaf, &mut blocker), blocker),
                Change::Coarsen(cell) => (c::urdinhosa_coarsen(start, length, cell, &mut blocker), blocker),
            }
        }
    }
}

/// Makes the change, compares number, blocking leaf and every slot, and answers the number.
fn compare_change(slots: &mut [u64], change: Change) -> u64 {
    let before = slots.to_vec();
    let expected = change.by_model(slots);
    let (number, blocker) = expected.as_ref().err().copied().unwrap_or((0, 0));
    let after = expected.unwrap_or_else(|_| before.clone());

    let guarded = |slots: &[u64]| [&GUARD, slots, &GUARD].concat();
    let mut lent = guarded(&before);
    let answer = change.from_c(&mut lent[GUARD.len()..][..before.len()]);
    assert_eq!(answer, (number, blocker), "{:x?} from C, of {:x?}", change, before);
    assert_eq!(lent, guarded(&after), "{:x?} from C, of {:x?}", change, before);

    let answer = change.from_rust(slots).err().unwrap_or((0, 0));
    assert_eq!(answer, (number, blocker), "{:x?} of {:x?}", change, before);
    assert_eq!(slots, after, "{:x?} of {:x?}", change, before);
    number
}

/// Compares level difference and both codes, and answers the number.
fn compare_across(slots: &[u64], leaf: u64, direction: u64) -> u64 {
    let expected = mesh::across(slots, leaf, direction);
    let number = expected.err().unwrap_or(0);
    let (mut level, mut first, mut second) = (OTHER as i64, OTHER, OTHER);
    // SAFETY: a slice is as long as it says; the other places are our own.
    let answer = unsafe {
        c::urdinhosa_across(slots.as_ptr(), slots.len(), leaf, direction, &mut level, &mut first, &mut second)
    };
    let written = (level, first, second);
    assert_eq!(
        (answer, written),
        (number, expected.unwrap_or((0, 0, 0))),
        "across {:#018x} in direction {} from C, of {:x?}",
        leaf,
        direction,
        slots
    );

    let answer = urdinhosa::across(slots, leaf, direction).map_err(Refusal::number).map(|across| match across {
        Across::Larger(one) => (-1, one, 0),
        Across::Equal(one) => (0, one, 0),
        Across::Smaller(low, high) => (1, low, high),
    });
    assert_eq!(answer, expected, "across {:#018x} in direction {} of {:x?}", leaf, direction, slots);
    number
}

/// Compares place and number of the leaves under a cell, and answers the number of the refusal.
fn compare_run(slots: &[u64], cell: u64) -> u64 {
    let expected = mesh::run(slots, cell);
    let number = expected.err().unwrap_or(0);
    let (mut start, mut count) = (OTHER as usize, OTHER as usize);
    // SAFETY: a slice is as long as it says; the other places are our own.
    let answer = unsafe { c::urdinhosa_run(slots.as_ptr(), slots.len(), cell, &mut start, &mut count) };
    let written = (start, count);
    assert_eq!(
        (answer, written),
        (number, expected.unwrap_or((0, 0))),
        "run under {:#018x} from C, of {:x?}",
        cell,
        slots
    );

    let place = |part: &[u64]| (part.as_ptr(), part.len());
    let part = urdinhosa::run(slots, cell).map_err(Refusal::number);
    let part_expected = expected.map(|(start, count)| place(&slots[start..start + count]));
    assert_eq!(part.map(place), part_expected, "run under {:#018x} of {:x?}", cell, slots);
    number
}

fn compare_soundness(slots: &[u64]) -> bool {
    let expected = mesh::is_sound(slots);
    assert_eq!(urdinhosa::is_sound(slots), expected, "{:x?}", slots);
    expected
}

/// Across each side of each leaf, and the run under each cell that a leaf is, is inside of or is the parent of.
fn compare_all_questions(slots: &[u64]) {
    assert!(compare_soundness(slots));
    for leaf in mesh::leaves_in(slots) {
        for direction in DIRECTIONS {
            assert_eq!(compare_across(slots, leaf, direction), 0);
        }
        let mut above = Some(leaf);
        while let Some(cell) = above {
            assert_eq!(compare_run(slots, cell), 0);
            above = codes::parent(cell).ok();
        }
        if let Ok(child) = codes::child(leaf, 2) {
            assert_eq!(compare_run(slots, child), 0);
        }
    }
}

/// Every call with a code and a direction on slots that are not changed; answers the number, which is the same of all.
fn number_of_every_call(slots: &[u64], code: u64, direction: u64) -> u64 {
    let change = |change| compare_change(&mut slots.to_vec(), change);
    let numbers = [
        change(Change::Refine(code)),
        change(Change::Coarsen(code)),
        compare_across(slots, code, direction),
        compare_run(slots, code),
    ];
    assert_eq!(numbers, [numbers[0]; 4], "refine, coarsen, across and run with {:#018x} on {:x?}", code, slots);
    numbers[0]
}

// ---------------------------------------------------------------------------------------------------------------------
// Meshes

fn fresh_mesh(solid: u64, length: usize) -> Vec<u64> {
    let mut slots = vec![OTHER; length];
    assert_eq!(compare_change(&mut slots, Change::Fresh(solid)), 0);
    slots
}

/// The mesh after leaves were refined one after another, each of which is done.
fn mesh_after(solid: u64, length: usize, refined: &[u64]) -> Vec<u64> {
    let mut slots = fresh_mesh(solid, length);
    for &leaf in refined {
        assert_eq!(compare_change(&mut slots, Change::Refine(leaf)), 0, "{:#018x}", leaf);
    }
    slots
}

/// The mesh that the rules list, called M there.
fn listed_mesh(length: usize) -> Vec<u64> {
    mesh_after(1, length, &[0x4000_0000_0000_0000])
}

/// A mesh of any solid with leaves of several depths and free slots after them.
fn random_mesh(random: &mut Random) -> Vec<u64> {
    let mut slots = vec![0; 20 + random.below(100) as usize];
    let solid = random.one_of(&SOLIDS);
    urdinhosa::fresh(&mut slots, solid).expect("there is room for every solid");
    for _ in 0..random.below(60) {
        let leaves = mesh::leaves_in(&slots);
        // the leaves of one end are met more often, and so become deeper
        let place = random.below(leaves.len() as u64).min(random.below(leaves.len() as u64));
        // blocked ones stay
        let _ = urdinhosa::refine(&mut slots, leaves[place as usize]);
    }
    slots
}

/// All cells of a solid at a depth, in slots that they fill.
fn even_mesh(solid: u64, depth: u64) -> Vec<u64> {
    let cells = (0..solids::number_of_faces(solid)).flat_map(|face| codes::cells_of_face(solid, face, depth));
    cells.map(|cell| codes::code_of(&cell)).collect()
}

// ---------------------------------------------------------------------------------------------------------------------
// Series of calls

fn random_change(random: &mut Random, slots: &[u64]) -> Change {
    let code = random.code_for(&mesh::leaves_in(slots));
    match random.below(40) {
        0 => Change::Fresh(random.below(6)),
        1 => Change::Fresh(random.number_at_an_edge()),
        2..=20 => Change::Refine(code),
        21..=26 => Change::Coarsen(code),
        // most leaves have a parent whose children are not all leaves: those at hand are met more often
        _ => Change::Coarsen(codes::parent(code).unwrap_or(code)),
    }
}

#[test]
fn random_series_of_calls_answer_and_write_as_by_the_model() {
    let mut random = Random::with_seed(1);
    let mut numbers = [Vec::new(), Vec::new(), Vec::new()];
    for (solid, length) in SOLIDS.into_iter().flat_map(|solid| [22, 40, 70, 130].map(|length| (solid, length))) {
        let mut slots = fresh_mesh(solid, length);
        for _ in 0..1_500 {
            let change = random_change(&mut random, &slots);
            let of_call = match change {
                Change::Fresh(_) => 0,
                Change::Refine(_) => 1,
                Change::Coarsen(_) => 2,
            };
            numbers[of_call].push(compare_change(&mut slots, change));
            assert!(urdinhosa::is_sound(&slots), "{:x?}", slots);
        }
        compare_all_questions(&slots);
    }
    let [fresh, refine, coarsen] = numbers.map(Tally::of);
    fresh.assert_each_at_least(50, [0, 1]);
    refine.assert_each_at_least(10, [0, 1, 2, 3, 4, 12, 14, 15]);
    coarsen.assert_each_at_least(10, [0, 1, 2, 3, 4, 7, 13, 14]);
}

#[test]
fn random_questions_are_answered_as_by_the_model() {
    let mut random = Random::with_seed(2);
    let (mut across, mut run) = (Vec::new(), Vec::new());
    for _ in 0..120 {
        let slots = random_mesh(&mut random);
        for _ in 0..40 {
            let code = random.code_for(&mesh::leaves_in(&slots));
            let direction = random.one_of(&[0, 1, 2, 3, 1 << 8, 1 << 32, u64::MAX]);
            across.push(compare_across(&slots, code, direction));
            run.push(compare_run(&slots, code));
        }
    }
    Tally::of(across).assert_each_at_least(20, [0, 1, 2, 3, 4, 5, 12]);
    Tally::of(run).assert_each_at_least(20, [0, 1, 2, 3, 4]);
}

#[test]
fn what_lies_across_each_side_and_under_each_cell_of_random_meshes_is_as_by_the_model() {
    let mut random = Random::with_seed(3);
    for _ in 0..25 {
        compare_all_questions(&random_mesh(&mut random));
    }
}

// ---------------------------------------------------------------------------------------------------------------------
// Down to depth 26

/// Refines until a cell of depth 26 is a leaf; what blocks is refined before. Compares every call.
fn dive(slots: &mut [u64], target: &Cell) {
    for depth in 0..target.digits.len() {
        let above = Cell { digits: target.digits[..depth].to_vec(), ..*target };
        let mut wanted = vec![codes::code_of(&above)];
        while let Some(&leaf) = wanted.last() {
            match urdinhosa::refine(&mut slots.to_vec(), leaf) {
                Err(Stopped::Blocked(blocker)) => wanted.push(blocker),
                _ => drop(wanted.pop()),
            }
            let number = compare_change(slots, Change::Refine(leaf));
            assert!([0, BLOCKED].contains(&number), "{:#018x} is refused by {}", leaf, number);
        }
    }
}

/// Dives, is refused to go deeper, answers all questions and comes back by coarsening, until no leaf is deeper than 24.
fn dive_and_come_back(target: Cell) {
    let mut slots = vec![0; 500];
    urdinhosa::fresh(&mut slots, target.solid).expect("there is room");
    dive(&mut slots, &target);
    let deepest = codes::code_of(&target);
    assert_eq!(compare_change(&mut slots, Change::Refine(deepest)), DEEP);
    assert_eq!(compare_change(&mut slots, Change::Coarsen(deepest)), DEEP);
    assert_eq!(compare_run(&slots, deepest), 0);
    for direction in DIRECTIONS {
        assert_eq!(compare_across(&slots, deepest, direction), 0);
    }
    let is_deep = |leaf: &u64| leaf % 32 > 24;
    while let Some(leaf) = mesh::leaves_in(&slots).into_iter().filter(is_deep).max_by_key(|leaf| leaf % 32) {
        let parent = codes::parent(leaf).expect("a deep cell");
        assert_eq!(compare_change(&mut slots, Change::Coarsen(parent)), 0, "nothing is deeper than {:#018x}", leaf);
    }
}

#[test]
fn a_dive_to_depth_26_at_a_vertex_of_the_tetrahedron_is_as_by_the_model() {
    dive_and_come_back(Cell { solid: 1, face: 2, digits: vec![3; 26] });
}

#[test]
fn a_dive_to_depth_26_beside_a_seam_of_the_octahedron_is_as_by_the_model() {
    let mut random = Random::with_seed(4);
    let digits = (0..DEEPEST).map(|_| random.one_of(&[0, 1])).collect();
    dive_and_come_back(Cell { solid: 2, face: 5, digits });
}

#[test]
fn a_dive_to_depth_26_within_a_face_of_the_icosahedron_is_as_by_the_model() {
    let mut random = Random::with_seed(5);
    let digits = (0..DEEPEST).map(|_| random.below(4)).collect();
    dive_and_come_back(Cell { solid: 3, face: 12, digits });
}

// ---------------------------------------------------------------------------------------------------------------------
// Lengths

#[test]
fn the_longest_slice_may_be_full_and_what_coarsening_frees_serves_a_refine() {
    let mut slots = even_mesh(2, 5);
    assert_eq!(slots.len(), MOST_SLOTS);
    assert!(compare_soundness(&slots));
    let (first, last) = (slots[0], slots[MOST_SLOTS - 1]);
    let parent = |leaf| codes::parent(leaf).expect("a cell of depth 5");
    assert_eq!(compare_change(&mut slots, Change::Refine(first)), ROOM);
    assert_eq!(compare_change(&mut slots, Change::Coarsen(parent(last))), 0);
    assert_eq!(slots[MOST_SLOTS - 4..], [parent(last), 0, 0, 0]);
    assert_eq!(compare_change(&mut slots, Change::Refine(first)), 0);
    assert_ne!(slots[MOST_SLOTS - 1], 0);
    assert_eq!(compare_change(&mut slots, Change::Coarsen(parent(first))), NOT_FOUR);
    assert_eq!(compare_across(&slots, last, 1), NOT_LEAF);
    assert_eq!(compare_across(&slots, parent(last), 1), 0);
    assert_eq!(compare_run(&slots, 0x8e00_0000_0000_0000), 0);
    assert_eq!(compare_run(&slots, last), 0);
}

#[test]
fn a_slice_with_room_for_only_one_or_two_more_is_too_short_to_refine() {
    for (solid, length) in SOLIDS.into_iter().zip([4, 8, 20]) {
        for free in 0..3 {
            let mut slots = fresh_mesh(solid, length + free);
            let leaf = slots[length - 1];
            assert_eq!(compare_change(&mut slots, Change::Refine(leaf)), ROOM);
        }
        let mut slots = fresh_mesh(solid, length + 3);
        let leaf = slots[length - 1];
        assert_eq!(compare_change(&mut slots, Change::Refine(leaf)), 0);
    }
}

#[test]
fn fresh_asks_for_length_then_solid_then_room_and_zeros_what_stood_after_the_faces() {
    for length in [0, 1, 3, 4, 5, 7, 8, 9, 19, 20, 21, 8_191, 8_192, 8_193, 8_200] {
        for solid in [0, 1, 2, 3, 4, 5, 257, (1 << 32) + 1, 1 << 62, 1 << 63, u64::MAX] {
            let number = compare_change(&mut vec![OTHER; length], Change::Fresh(solid));
            let has_room = || length >= solids::number_of_faces(solid) as usize;
            let expected = match solid {
                _ if length > 8_192 => BUFFER,
                1..=3 if has_room() => 0,
                1..=3 => ROOM,
                _ => SOLID,
            };
            assert_eq!(number, expected, "solid {} in {} slots", solid, length);
        }
    }
}

#[test]
fn a_slice_of_8193_slots_is_refused_by_every_call_before_all_else_and_is_not_sound() {
    for code in [0x4000_0000_0000_0000, 0, u64::MAX, 0x4000_0000_0000_0020, 0x8000_0000_0000_001a] {
        let mut slots = listed_mesh(MOST_SLOTS);
        assert!(compare_soundness(&slots));
        slots.push(0);
        assert!(!compare_soundness(&slots));
        assert_eq!(number_of_every_call(&slots, code, 3), BUFFER);
        assert_eq!(number_of_every_call(&vec![OTHER; MOST_SLOTS + 1], code, 3), BUFFER);
        assert_eq!(number_of_every_call(&[0; MOST_SLOTS + 1], code, 3), BUFFER);
    }
}

#[test]
fn the_empty_slice_and_zeros_are_no_mesh() {
    for slots in [&[][..], &[0], &[0; 30], &[0; MOST_SLOTS]] {
        assert!(!compare_soundness(slots));
        for code in [0, 0x4000_0000_0000_0000, u64::MAX] {
            assert_eq!(number_of_every_call(slots, code, 3), MESH);
        }
    }
}

// ---------------------------------------------------------------------------------------------------------------------
// Damaged meshes

/// The leaves of a mesh after something was done to them, in slots of the same or a greater number.
fn damaged(random: &mut Random, slots: &[u64]) -> Vec<u64> {
    let mut leaves = mesh::leaves_in(slots);
    let place = random.below(leaves.len() as u64) as usize;
    let other = random.below(leaves.len() as u64) as usize;
    let leaf = leaves[place];
    match random.below(15) {
        0 => leaves.swap(place, other),
        1 => leaves.swap(place, place.saturating_sub(1)),
        2 => drop(leaves.remove(place)),
        3 => leaves.insert(place, leaf),
        4 => leaves.insert(place, leaves[other]),
        5 => leaves[place] = 0,
        6 => leaves[place] = random.with_a_wrong_bit(leaf),
        7 => leaves[place] = random.with_another_part(leaf),
        8 => leaves[place] = codes::parent(leaf).unwrap_or(leaf),
        9 => leaves[place] = codes::child(leaf, random.below(4)).unwrap_or(leaf),
        10 => leaves.extend([0, leaf]),
        11 => leaves.extend([0, 0, random.number_at_an_edge()]),
        // a path bit far below the last digit, a depth one too great or too small
        12 => leaves[place] = leaf | (1 << (5 + random.below(20))),
        13 => leaves[place] = random.one_of(&[leaf + 1, leaf - 1]),
        // every leaf of another solid
        _ => {
            let solid = random.below(4);
            leaves.iter_mut().for_each(|leaf| *leaf = (*leaf << 2 >> 2) + (solid << 62));
        }
    }
    let length = slots.len().max(leaves.len());
    mesh::with_zeros_after(leaves, length)
}

#[test]
fn damaged_meshes_are_told_from_sound_ones_and_refused_as_by_the_model() {
    let mut random = Random::with_seed(6);
    let mut numbers = Vec::new();
    let mut sound = 0;
    for _ in 0..150 {
        let slots = random_mesh(&mut random);
        for _ in 0..30 {
            let damaged = damaged(&mut random, &slots);
            if compare_soundness(&damaged) {
                sound += 1;
                continue;
            }
            let code = random.code_for(&mesh::leaves_in(&slots));
            numbers.push(number_of_every_call(&damaged, code, random.below(4)));
        }
    }
    assert!(sound >= 50, "only {} were sound", sound);
    assert!(numbers.len() >= 3_000, "only {} were not sound", numbers.len());
    assert!(numbers.iter().all(|&number| number == MESH));
}

#[test]
fn a_change_that_is_blocked_would_have_made_the_mesh_unsound_and_no_other() {
    let mut random = Random::with_seed(7);
    let mut numbers = Vec::new();
    for _ in 0..40 {
        let mut slots = random_mesh(&mut random);
        slots.resize(slots.len() + 3, 0);
        for leaf in mesh::leaves_in(&slots) {
            let number = compare_change(&mut slots.clone(), Change::Refine(leaf));
            assert_eq!(compare_soundness(&mesh::refined_anyway(&slots, leaf)), number == 0, "{:#018x}", leaf);
            numbers.push(number);
            let parent = match codes::parent(leaf) {
                Ok(parent) if leaf == mesh::children_of(parent)[3] => parent,
                _ => continue,
            };
            let number = compare_change(&mut slots.clone(), Change::Coarsen(parent));
            if number != NOT_FOUR {
                assert_eq!(compare_soundness(&mesh::coarsened_anyway(&slots, parent)), number == 0, "{:#018x}", parent);
                numbers.push(number);
            }
        }
    }
    Tally::of(numbers).assert_each_at_least(300, [0, 14]);
}

#[test]
fn each_kind_of_damage_to_the_listed_mesh_is_refused_by_every_call() {
    let listed = listed_mesh(12);
    let with = |place: usize, code: u64| {
        let mut slots = listed.clone();
        slots[place] = code;
        slots
    };
    let mut shorter = listed.clone();
    shorter.remove(2);
    let mut doubled = listed.clone();
    doubled.insert(2, listed[2]);
    let mut swapped = listed.clone();
    swapped.swap(2, 3);
    let after_a_zero = mesh::with_zeros_after([&[0], mesh::leaves_in(&listed).as_slice()].concat(), 12);
    let damaged = [
        ("a leaf is missing", shorter),
        ("a leaf is doubled", doubled),
        ("two leaves are swapped", swapped),
        ("the first slot is zero", after_a_zero),
        ("a zero is among the leaves", with(3, 0)),
        ("a slot after a zero is not", with(9, 1)),
        ("the last slot is not zero", with(11, 0x4600_0000_0000_0000)),
        ("a leaf has no known solid", with(0, 0x0000_0000_0000_0001)),
        ("a leaf is of another solid", with(4, 0x8200_0000_0000_0000)),
        ("a face is not on the solid", with(6, 0x4800_0000_0000_0000)),
        ("a path bit is set after the last digit", with(6, 0x4600_0000_0000_0020)),
        ("a depth is above 26", with(6, 0x4600_0000_0000_001b)),
        ("a depth is one too great", with(6, 0x4600_0000_0000_0001)),
        ("a leaf two levels below meets a face", mesh::refined_anyway(&listed, listed[0])),
    ];
    for (what, slots) in damaged {
        assert!(!compare_soundness(&slots), "{}", what);
        for code in [0x4100_0000_0000_0001, 0x4000_0000_0000_0000, 0, 0x8000_0000_0000_001a] {
            assert_eq!(number_of_every_call(&slots, code, 3), MESH, "{}", what);
        }
    }
}

// ---------------------------------------------------------------------------------------------------------------------
// Sequence of the refusals

#[test]
fn the_codes_faults_in_their_sequence_come_after_the_mesh_and_before_all_else() {
    for (code, number) in FAULTY {
        assert_eq!(number_of_every_call(&listed_mesh(7), code, 3), number);
    }
}

#[test]
fn the_direction_comes_before_not_leaf() {
    let slots = listed_mesh(10);
    assert_eq!(compare_across(&slots, 0x4000_0000_0000_0000, 3), DIRECTION);
    assert_eq!(compare_across(&slots, 0x4000_0000_0000_0000, 2), NOT_LEAF);
    assert_eq!(compare_across(&slots, 0x4000_0000_0000_0001, 256), DIRECTION);
}

#[test]
fn not_leaf_comes_before_deep_in_refine_and_deep_before_not_four_in_coarsen() {
    let mut slots = listed_mesh(10);
    for deepest in [0x4000_0000_0000_001a, 0x8000_0000_0000_001a] {
        assert_eq!(compare_change(&mut slots, Change::Refine(deepest)), NOT_LEAF);
        assert_eq!(compare_change(&mut slots, Change::Coarsen(deepest)), DEEP);
    }
}

#[test]
fn blocked_comes_before_room() {
    assert_eq!(compare_change(&mut listed_mesh(7), Change::Refine(0x4000_0000_0000_0001)), BLOCKED);
    assert_eq!(compare_change(&mut listed_mesh(7), Change::Refine(0x4100_0000_0000_0001)), ROOM);
}

// ---------------------------------------------------------------------------------------------------------------------
// Bench table and listing

#[test]
fn the_listing_of_document_01() {
    let listed = [
        (0x4000_0000_0000_0001, [-1, -1, 0]),
        (0x4080_0000_0000_0001, [-1, 0, -1]),
        (0x4100_0000_0000_0001, [0, 0, 0]),
        (0x4180_0000_0000_0001, [0, -1, -1]),
        (0x4200_0000_0000_0000, [1, 0, 0]),
        (0x4400_0000_0000_0000, [0, 0, 1]),
        (0x4600_0000_0000_0000, [0, 1, 0]),
    ];
    let mut slots = vec![0; MOST_SLOTS];
    assert_eq!(urdinhosa::fresh(&mut slots, 1), Ok(()));
    assert_eq!(urdinhosa::refine(&mut slots, 0x4000_0000_0000_0000), Ok(()));
    assert_eq!(slots[7..], [0; MOST_SLOTS - 7]);
    for (slot, (leaf, levels)) in slots.iter().zip(listed) {
        assert_eq!(*slot, leaf);
        let level = |direction| match urdinhosa::across(&slots, leaf, direction) {
            Ok(Across::Larger(_)) => -1,
            Ok(Across::Equal(_)) => 0,
            Ok(Across::Smaller(_, _)) => 1,
            Err(refusal) => panic!("{:#018x} is refused: {}", leaf, refusal),
        };
        assert_eq!(DIRECTIONS.map(level), levels, "{:#018x}", leaf);
    }
}

#[test]
fn bench_case_9_a_face_blocks() {
    let mut slots = listed_mesh(10);
    let answer = urdinhosa::refine(&mut slots, 0x4000_0000_0000_0001);
    assert_eq!(answer, Err(Stopped::Blocked(0x4200_0000_0000_0000)));
    assert_eq!(slots, listed_mesh(10));
}

#[test]
fn bench_case_10_done_in_10_slots_but_not_in_9() {
    assert_eq!(urdinhosa::refine(&mut listed_mesh(10), 0x4100_0000_0000_0001), Ok(()));
    let answer = urdinhosa::refine(&mut listed_mesh(9), 0x4100_0000_0000_0001);
    assert_eq!(answer, Err(Stopped::Refused(Refusal::Room)));
}

#[test]
fn bench_case_11_not_four() {
    let mut slots = listed_mesh(10);
    assert_eq!(urdinhosa::refine(&mut slots, 0x4100_0000_0000_0001), Ok(()));
    let answer = urdinhosa::coarsen(&mut slots, 0x4000_0000_0000_0000);
    assert_eq!(answer, Err(Stopped::Refused(Refusal::NotFour)));
}

#[test]
fn bench_case_12_a_smaller_leaf_blocks() {
    let mut slots = vec![0; 30];
    assert_eq!(urdinhosa::fresh(&mut slots, 1), Ok(()));
    let refined = [0x4000_0000_0000_0000, 0x4200_0000_0000_0000, 0x4400_0000_0000_0000, 0x4600_0000_0000_0000];
    for leaf in refined.into_iter().chain([0x4000_0000_0000_0001]) {
        assert_eq!(urdinhosa::refine(&mut slots, leaf), Ok(()), "{:#018x}", leaf);
    }
    let answer = urdinhosa::coarsen(&mut slots, 0x4200_0000_0000_0000);
    assert_eq!(answer, Err(Stopped::Blocked(0x4000_0000_0000_0002)));
}

// ---------------------------------------------------------------------------------------------------------------------
// Where the document could be read in two ways

#[test]
fn leaves_that_touch_in_a_corner_may_differ_by_two_levels() {
    let slots = mesh_after(1, 10, &[0x4200_0000_0000_0000, 0x4300_0000_0000_0001]);
    assert!(urdinhosa::is_sound(&slots));
    assert_eq!(slots[0], 0x4000_0000_0000_0000);
    assert!(slots.contains(&0x4320_0000_0000_0002));
}

#[test]
fn a_cell_of_another_solid_is_no_leaf_has_not_four_and_has_an_empty_run() {
    let mut slots = listed_mesh(10);
    let face = 0x8000_0000_0000_0000;
    assert_eq!(compare_change(&mut slots, Change::Refine(face)), NOT_LEAF);
    assert_eq!(compare_change(&mut slots, Change::Coarsen(face)), NOT_FOUR);
    assert_eq!(compare_across(&slots, face, 0), NOT_LEAF);
    assert_eq!(urdinhosa::run(&slots, face), Ok(&slots[..0]));
}

#[test]
fn the_least_of_all_smaller_leaves_blocks_not_the_least_of_the_first_side() {
    let refined = [
        0x4000_0000_0000_0000,
        0x4600_0000_0000_0000,
        0x4200_0000_0000_0000,
        0x4280_0000_0000_0001,
        0x4780_0000_0000_0001,
    ];
    let mut slots = mesh_after(1, 30, &refined);
    // the first side of the first child meets others
    let first = urdinhosa::across(&slots, 0x4000_0000_0000_0001, 0);
    assert!(matches!(first, Ok(Across::Smaller(0x4780_0000_0000_0002, _))), "{:x?}", first);
    let answer = urdinhosa::coarsen(&mut slots, 0x4000_0000_0000_0000);
    assert_eq!(answer, Err(Stopped::Blocked(0x4280_0000_0000_0002)));
}

#[test]
fn the_run_under_a_cell_inside_a_larger_leaf_is_the_empty_part_at_the_start() {
    let slots = listed_mesh(10);
    let run = urdinhosa::run(&slots, 0x4400_0000_0000_0001);
    assert_eq!(run.map(|part| (part.as_ptr(), part.len())), Ok((slots.as_ptr(), 0)));
}

// ---------------------------------------------------------------------------------------------------------------------
// The model itself

#[test]
fn the_models_leaf_across_in_an_even_mesh_is_the_neighbour_by_corners() {
    for (solid, depth) in SOLIDS.into_iter().flat_map(|solid| [0, 1, 2].map(|depth| (solid, depth))) {
        let slots = even_mesh(solid, depth);
        for &leaf in &slots {
            for direction in DIRECTIONS {
                let neighbour = steps::step(leaf, direction).map(|code| (0, code, 0));
                assert_eq!(mesh::across(&slots, leaf, direction), neighbour, "{:#018x}", leaf);
            }
        }
    }
}

/// The parts of a side, of the length that sides of a depth have, each by its ends, the lesser first.
fn parts_of_sides(triangle: &Triangle, depth: u64) -> Vec<mesh::Side> {
    let mut parts = triangle.sides.to_vec();
    for _ in triangle.cell.digits.len() as u64..depth {
        let halves = |[a, b]: mesh::Side| {
            let middle = std::array::from_fn(|vertex| (a[vertex] + b[vertex]) / 2);
            [[a, middle], [middle, b]]
        };
        parts = parts.into_iter().flat_map(halves).collect();
    }
    parts.iter_mut().for_each(|ends| ends.sort_unstable());
    parts
}

#[test]
fn the_models_leaves_share_a_stretch_when_small_parts_of_their_sides_are_the_same() {
    let mut random = Random::with_seed(8);
    let mut shared = 0;
    for _ in 0..60 {
        let slots = random_mesh(&mut random);
        let triangle = |code| mesh::triangle(code).expect("a leaf");
        let leaves: Vec<Triangle> = mesh::leaves_in(&slots).into_iter().map(triangle).collect();
        let deepest = leaves.iter().map(|leaf| leaf.cell.digits.len() as u64).max().expect("a leaf");
        let mut with_part: HashMap<mesh::Side, Vec<u64>> = HashMap::new();
        for leaf in &leaves {
            parts_of_sides(leaf, deepest)
                .into_iter()
                .for_each(|part| with_part.entry(part).or_default().push(leaf.code));
        }
        assert!(with_part.values().all(|leaves| leaves.len() == 2), "a part of a side that has not two leaves");
        for (place, a) in leaves.iter().enumerate() {
            for b in &leaves[..place] {
                let both_have = with_part.values().any(|leaves| *leaves == [b.code, a.code]);
                assert_eq!(mesh::share_a_stretch(a, b), both_have, "{:#018x} and {:#018x}", b.code, a.code);
                shared += u64::from(both_have);
            }
        }
    }
    assert!(shared >= 3_000, "only {} pairs share a stretch", shared);
}
