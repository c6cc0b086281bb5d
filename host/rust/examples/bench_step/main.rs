//! Measures the step of the library by carries beside two that go digit by digit: the walk of the library, and one in
//! plain Rust. `scripts/bench` runs it, docs/BENCH.md says how to read what it prints.
//!
//! The three are called in the same way on the same inputs. Solids, faces, digits and directions are drawn at random
//! for each input, and each round has inputs of its own, so that a processor cannot learn which way a branch goes. In
//! a round each method has its turn, so that what else the machine does hits all alike.

#[path = "../../tests/model/mod.rs"]
mod model;
mod plain;

use model::codes;
use model::random::Random;
use model::steps::DIRECTIONS;
use std::time::Instant;
use urdinhosa::c::{urdinhosa_step, urdinhosa_walk};

const DEPTHS: [u64; 3] = [1, 8, 26];
const ROUNDS: usize = 21;
const INPUTS_IN_A_ROUND: usize = 1 << 15;

type Step = unsafe extern "C" fn(code: u64, direction: u64) -> u64;

const PLAIN: usize = 0;
const WALK: usize = 1;
const CARRY: usize = 2;
const METHODS: [Step; 3] = [plain::step, urdinhosa_walk, urdinhosa_step];

#[derive(Clone, Copy)]
struct Input {
    code: u64,
    direction: u64,
}

#[derive(Clone, Copy)]
enum Cells {
    /// Anywhere on a face: three of four walks stop at the last digit or the one before it.
    Random,
    /// At the side of a face: every walk passes all digits and crosses the seam.
    Seam,
}

fn main() {
    println!("| depth | cells | plain ns | walk ns | carry ns | plain : carry | walk : carry |");
    println!("|---:|---|---:|---:|---:|---:|---:|");
    let mut random = Random::with_seed(1);
    (0..INPUTS_IN_A_ROUND).map(|_| draw_damaged_input(&mut random)).for_each(|input| assert_methods_agree(&input));
    for (cells, name) in [(Cells::Random, "random"), (Cells::Seam, "seam")] {
        for depth in DEPTHS {
            let rounds: Vec<Vec<Input>> = (0..ROUNDS).map(|_| draw_inputs(cells, depth, &mut random)).collect();
            rounds.iter().flatten().for_each(assert_methods_agree);
            let times: Vec<[f64; 3]> = rounds.iter().enumerate().map(|(round, inputs)| time(round, inputs)).collect();
            print_row(depth, name, &times);
        }
    }
}

fn draw_inputs(cells: Cells, depth: u64, random: &mut Random) -> Vec<Input> {
    let mut draw = || {
        let direction = random.one_of(&DIRECTIONS);
        let cell = match cells {
            Cells::Random => random.cell_of_depth(depth),
            Cells::Seam => random.cell_at_side(direction, depth),
        };
        Input { code: codes::code_of(&cell), direction }
    };
    (0..INPUTS_IN_A_ROUND).map(|_| draw()).collect()
}

/// Not measured: it is for checking that all three refuse alike.
fn draw_damaged_input(random: &mut Random) -> Input {
    let code = codes::code_of(&random.cell());
    let with_a_wrong_bit = random.with_a_wrong_bit(code);
    Input { code: random.with_another_part(with_a_wrong_bit), direction: random.below(4) }
}

fn assert_methods_agree(&Input { code, direction }: &Input) {
    // SAFETY: take and answer plain numbers.
    let answers = METHODS.map(|step| unsafe { step(code, direction) });
    let agree = answers.iter().all(|&answer| answer == answers[CARRY]);
    assert!(agree, "{:#018x} in direction {}: {:x?}", code, direction, answers);
}

/// The nanoseconds that a call takes by each method. The method that comes first is another one in the next round.
fn time(round: usize, inputs: &[Input]) -> [f64; 3] {
    let mut times = [0.0; 3];
    for turn in 0..3 {
        let method = (round + turn) % 3;
        times[method] = time_calls(METHODS[method], inputs);
    }
    times
}

#[inline(never)]
fn time_calls(step: Step, inputs: &[Input]) -> f64 {
    let mut sum = 0;
    let start = Instant::now();
    for &Input { code, direction } in inputs {
        // SAFETY: takes and answers plain numbers.
        sum = u64::wrapping_add(sum, unsafe { step(code, direction) });
    }
    let elapsed = start.elapsed();
    // the answers are used, so that no call can be left out
    assert_ne!(sum, 0);
    elapsed.as_nanos() as f64 / inputs.len() as f64
}

/// Medians of the rounds: of the times, and of the ratios of two times in the same round.
fn print_row(depth: u64, cells: &str, times: &[[f64; 3]]) {
    let nanoseconds = |method: usize| median(times.iter().map(|times| times[method]));
    let ratio = |slow: usize| median(times.iter().map(|times| times[slow] / times[CARRY]));
    println!(
        "| {} | {} | {:.1} | {:.1} | {:.1} | {:.1} | {:.1} |",
        depth,
        cells,
        nanoseconds(PLAIN),
        nanoseconds(WALK),
        nanoseconds(CARRY),
        ratio(PLAIN),
        ratio(WALK)
    );
}

fn median(values: impl Iterator<Item = f64>) -> f64 {
    let mut values: Vec<f64> = values.collect();
    values.sort_by(f64::total_cmp);
    values[values.len() / 2]
}
