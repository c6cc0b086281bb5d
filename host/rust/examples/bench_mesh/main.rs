//! Measures the calls on a mesh: those of the library, proved, beside the same algorithms in plain Rust. `scripts/bench`
//! runs it, docs/BENCH.md says how to read what it prints.
//!
//! Every call is timed by both methods on the same mesh, one right after the other, and the two have to agree: on the
//! answer, and on every slot after it. Meshes are drawn once, arguments anew for every round.

mod calls;
mod library;
#[path = "../../tests/model/mod.rs"]
mod model;
mod plain;
#[allow(dead_code)] // the step that goes digit by digit is not used here
#[path = "../bench_step/plain.rs"]
mod plain_step;

use calls::{Answer, Call, Refusal};
use model::random::Random;
use model::solids::SOLIDS;
use std::time::Instant;

const SLOTS: usize = 8192;
const MESHES_OF_A_SOLID: usize = 4;
const ROUNDS: usize = 41;
const DAMAGED_MESHES: usize = 2000;

type Method = fn(&mut [u64], Call) -> Answer;

const PLAIN: usize = 0;
const PROVED: usize = 1;
const METHODS: [Method; 2] = [plain::answer, library::answer];

/// All slots, and how many of them are leaves.
struct Mesh {
    slots: Vec<u64>,
    count: usize,
}

/// What is measured: a kind of call, on meshes of about so many leaves.
struct Row {
    call: &'static str,
    draw: fn(&Mesh, &mut Random) -> Call,
    meshes: usize,
}

const SIZES: [usize; 3] = [20, 500, 8000];
const SMALL: usize = 0;
const MIDDLE: usize = 1;
const LARGE: usize = 2;

const SOUND_MIDDLE: usize = 1;
const SOUND_LARGE: usize = 2;
const ROWS: [Row; 7] = [
    Row { call: "sound", draw: draw_sound, meshes: SMALL },
    Row { call: "sound", draw: draw_sound, meshes: MIDDLE },
    Row { call: "sound", draw: draw_sound, meshes: LARGE },
    Row { call: "refine", draw: draw_refine, meshes: LARGE },
    Row { call: "coarsen", draw: draw_coarsen, meshes: LARGE },
    Row { call: "across", draw: draw_across, meshes: LARGE },
    Row { call: "run", draw: draw_run, meshes: LARGE },
];

/// Microseconds that one call took by each method.
type Times = [f64; 2];

fn main() {
    let mut random = Random::with_seed(1);
    let meshes = SIZES.map(|leaves| draw_meshes(leaves, &mut random));
    for _ in 0..DAMAGED_MESHES {
        assert_methods_agree_on_damage(&meshes, &mut random);
    }
    let mut samples: [Vec<Times>; ROWS.len()] = Default::default();
    for _ in 0..ROUNDS {
        for (row, samples) in ROWS.iter().zip(&mut samples) {
            samples.extend(time_calls(row, &meshes[row.meshes], &mut random));
        }
    }
    print_table(&meshes, &samples);
}

fn draw_meshes(leaves: usize, random: &mut Random) -> Vec<Mesh> {
    let solids = SOLIDS.iter().flat_map(|&solid| [solid; MESHES_OF_A_SOLID]);
    solids.map(|solid| draw_mesh(solid, leaves, random)).collect()
}

/// Refines leaves drawn at random, each after what stands in its way: cells of many levels side by side.
fn draw_mesh(solid: u64, leaves: usize, random: &mut Random) -> Mesh {
    let mut mesh = Mesh { slots: vec![0; SLOTS], count: model::solids::number_of_faces(solid) as usize };
    assert!(library::fresh(&mut mesh.slots, solid));
    while mesh.count < leaves {
        let mut leaf = draw_leaf(&mesh, random);
        while let Answer::Refused(Refusal { blocker, .. }) = library::answer(&mut mesh.slots, Call::Refine { leaf }) {
            assert_ne!(blocker, 0, "{:#018x}", leaf);
            leaf = blocker;
        }
        mesh.count += 3;
    }
    mesh
}

fn draw_leaf(mesh: &Mesh, random: &mut Random) -> u64 {
    random.one_of(&mesh.slots[..mesh.count])
}

fn draw_sound(_: &Mesh, _: &mut Random) -> Call {
    Call::Sound
}

/// One that is made.
fn draw_refine(mesh: &Mesh, random: &mut Random) -> Call {
    draw_change(mesh, || Call::Refine { leaf: draw_leaf(mesh, random) })
}

/// One that is made.
fn draw_coarsen(mesh: &Mesh, random: &mut Random) -> Call {
    draw_change(mesh, || Call::Coarsen { cell: draw_cell(mesh, 1, random) })
}

fn draw_change(mesh: &Mesh, mut draw: impl FnMut() -> Call) -> Call {
    loop {
        let call = draw();
        if library::answer(&mut mesh.slots.clone(), call) == Answer::Changed {
            return call;
        }
    }
}

fn draw_across(mesh: &Mesh, random: &mut Random) -> Call {
    Call::Across { leaf: draw_leaf(mesh, random), direction: random.below(3) }
}

fn draw_run(mesh: &Mesh, random: &mut Random) -> Call {
    let levels = random.below(8);
    Call::Run { cell: draw_cell(mesh, levels, random) }
}

/// The cell so many levels above a leaf, or its face.
fn draw_cell(mesh: &Mesh, levels: u64, random: &mut Random) -> u64 {
    let leaf = draw_leaf(mesh, random);
    let depth = (leaf % 32).saturating_sub(levels);
    let shift = 57 - 2 * depth;
    leaf >> shift << shift | depth
}

/// Not measured: for any call on a mesh with a wrong slot, or with a wrong argument, both refuse alike.
fn assert_methods_agree_on_damage(meshes: &[Vec<Mesh>], random: &mut Random) {
    let row = &ROWS[random.below(ROWS.len() as u64) as usize];
    let meshes = &meshes[row.meshes];
    let mesh = &meshes[random.below(meshes.len() as u64) as usize];
    let at = random.below(mesh.count as u64) as usize;
    let mut slots = mesh.slots.clone();
    match random.below(5) {
        0 => slots[at] = random.with_a_wrong_bit(slots[at]),
        1 => slots[at] = random.with_another_part(slots[at]),
        2 => slots[SLOTS - 1] = 1,
        3 => slots.truncate(at),
        _ => (),
    }
    let call = with_damage((row.draw)(mesh, random), random);
    let mut others = slots.clone();
    let answers = [METHODS[PLAIN](&mut slots, call), METHODS[PROVED](&mut others, call)];
    assert!(answers[PLAIN] == answers[PROVED] && slots == others, "{:x?}: {:x?}", call, answers);
}

fn with_damage(call: Call, random: &mut Random) -> Call {
    let mut damage = |code| match random.below(3) {
        0 => random.with_a_wrong_bit(code),
        1 => random.with_another_part(code),
        _ => code,
    };
    match call {
        Call::Sound => Call::Sound,
        Call::Refine { leaf } => Call::Refine { leaf: damage(leaf) },
        Call::Coarsen { cell } => Call::Coarsen { cell: damage(cell) },
        Call::Across { leaf, direction } => Call::Across { leaf: damage(leaf), direction: direction + leaf % 2 },
        Call::Run { cell } => Call::Run { cell: damage(cell) },
    }
}

/// One call on each mesh. All are drawn before: drawing calls the library, and a processor would remember the mesh. The
/// method that comes first is another one on the next mesh.
fn time_calls(row: &Row, meshes: &[Mesh], random: &mut Random) -> Vec<Times> {
    let calls: Vec<Call> = meshes.iter().map(|mesh| (row.draw)(mesh, random)).collect();
    meshes.iter().zip(calls).enumerate().map(|(turn, (mesh, call))| time_call(mesh, call, turn % 2)).collect()
}

/// Microseconds by each method, on a copy of the mesh each. The methods have to agree.
fn time_call(mesh: &Mesh, call: Call, first: usize) -> Times {
    let mut times = [0.0; 2];
    let mut answers = [Answer::Changed; 2];
    let mut copies = [mesh.slots.clone(), mesh.slots.clone()];
    for method in [first, 1 - first] {
        copies[method].copy_from_slice(&mesh.slots);
        let start = Instant::now();
        answers[method] = METHODS[method](&mut copies[method], call);
        times[method] = start.elapsed().as_nanos() as f64 / 1000.0;
    }
    let agree = answers[PLAIN] == answers[PROVED] && copies[PLAIN] == copies[PROVED];
    assert!(agree && !matches!(answers[PLAIN], Answer::Refused(_)), "{:x?}: {:x?}", call, answers);
    times
}

/// Medians of the times, of the ratios of two times of the same call, and of the ratios of a call and `sound` on the
/// same mesh in the same round. A call that the machine interrupted is one of many and moves no median.
fn print_table(meshes: &[Vec<Mesh>], samples: &[Vec<Times>]) {
    println!("| call | leaves | plain µs | proved µs | proved : plain | proved : sound |");
    println!("|---|---:|---:|---:|---:|---:|");
    for (Row { call, meshes: size, .. }, times) in ROWS.iter().zip(samples) {
        println!(
            "| {} | {} | {:.1} | {:.1} | {:.2} | {:.2} |",
            call,
            SIZES[*size],
            median(times.iter().map(|times| times[PLAIN])),
            median(times.iter().map(|times| times[PROVED])),
            median(times.iter().map(|times| times[PROVED] / times[PLAIN])),
            ratio_of_proved(times, &samples[SOUND_LARGE])
        );
    }
    println!();
    let growth = ratio_of_proved(&samples[SOUND_LARGE], &samples[SOUND_MIDDLE]);
    let work = work_of(&meshes[LARGE]) / work_of(&meshes[MIDDLE]);
    println!("sound from 500 to 8000 leaves: {:.1} times; n log n: {:.1} times", growth, work);
    let depths = || meshes[LARGE].iter().flat_map(|mesh| &mesh.slots[..mesh.count]).map(|leaf| leaf % 32);
    println!("depths of the leaves of the largest meshes: {} to {}", depths().min().unwrap(), depths().max().unwrap());
}

fn ratio_of_proved(long: &[Times], short: &[Times]) -> f64 {
    median(long.iter().zip(short).map(|(long, short)| long[PROVED] / short[PROVED]))
}

/// n log n, added up.
fn work_of(meshes: &[Mesh]) -> f64 {
    meshes.iter().map(|mesh| mesh.count as f64 * (mesh.count as f64).log2()).sum()
}

fn median(values: impl Iterator<Item = f64>) -> f64 {
    let mut values: Vec<f64> = values.collect();
    values.sort_by(f64::total_cmp);
    values[values.len() / 2]
}
