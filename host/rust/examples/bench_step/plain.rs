//! The step in plain Rust: the walk up the digits, each replaced in its place. Its checks and its answers are those of
//! the library.
//!
//! It is written to be fast: what a branch would have to guess (the solid, the direction, the digit, whether the seam is
//! mirrored) is looked up in rows instead.

/// By solid; no code has solid 0.
pub static FACES: [u64; 4] = [0, 4, 8, 20];

/// By solid, direction and face.
static NEXT_FACE: [[[u8; 20]; 3]; 4] = [
    [[0; 20]; 3],
    [
        [3, 0, 1, 2, 0, 0, 0, 0, 0, 0, 0, 0, 0, 0, 0, 0, 0, 0, 0, 0],
        [1, 2, 3, 0, 0, 0, 0, 0, 0, 0, 0, 0, 0, 0, 0, 0, 0, 0, 0, 0],
        [2, 3, 0, 1, 0, 0, 0, 0, 0, 0, 0, 0, 0, 0, 0, 0, 0, 0, 0, 0],
    ],
    [
        [3, 0, 1, 2, 7, 4, 5, 6, 0, 0, 0, 0, 0, 0, 0, 0, 0, 0, 0, 0],
        [1, 2, 3, 0, 5, 6, 7, 4, 0, 0, 0, 0, 0, 0, 0, 0, 0, 0, 0, 0],
        [4, 5, 6, 7, 0, 1, 2, 3, 0, 0, 0, 0, 0, 0, 0, 0, 0, 0, 0, 0],
    ],
    [
        [4, 0, 1, 2, 3, 14, 10, 11, 12, 13, 5, 6, 7, 8, 9, 19, 15, 16, 17, 18],
        [1, 2, 3, 4, 0, 10, 11, 12, 13, 14, 6, 7, 8, 9, 5, 16, 17, 18, 19, 15],
        [5, 6, 7, 8, 9, 0, 1, 2, 3, 4, 15, 16, 17, 18, 19, 10, 11, 12, 13, 14],
    ],
];

/// By solid and direction: a bit for each face.
static MIRRORED: [[u32; 3]; 4] =
    [[0; 3], [0, 0, 0b1111], [0b1111_1111, 0b1111_1111, 0], [0b11111_00000_00000_11111, 0b11111_00000_00000_11111, 0]];

/// What the walk does at a digit.
#[derive(Clone, Copy)]
struct Turn {
    /// The bits in which the replacement differs from the digit.
    change: u8,
    stops: bool,
}

/// By direction and digit.
static TURNS: [[Turn; 4]; 3] = [turns(0), turns(1), turns(2)];

const fn turns(direction: u8) -> [Turn; 4] {
    [turn(direction, 0b00), turn(direction, 0b01), turn(direction, 0b10), turn(direction, 0b11)]
}

const fn turn(direction: u8, digit: u8) -> Turn {
    let (replacement, stops) = match (direction, digit) {
        (0, 0b11) => (0b10, true),
        (0, 0b10) => (0b01, true),
        (0, 0b00) => (0b11, false),
        (0, _) => (0b00, false),
        (1, 0b01) => (0b10, true),
        (1, 0b10) => (0b11, true),
        (1, 0b00) => (0b01, false),
        (1, _) => (0b00, false),
        (_, 0b00) => (0b10, true),
        (_, 0b10) => (0b00, true),
        (_, kept) => (kept, false),
    };
    Turn { change: digit ^ replacement, stops }
}

const DEPTH_BITS: u64 = 0x1f;
const PATH_BITS: u64 = 0x01ff_ffff_ffff_ffe0;
const SOLID_BITS: u64 = 0xc000_0000_0000_0000;

/// The low bit of each digit.
const LOW_BITS: u64 = 0x00aa_aaaa_aaaa_aaa0;

/// Where the path ends at the top.
const TOP: u64 = 57;

#[inline(never)]
pub extern "C" fn step(code: u64, direction: u64) -> u64 {
    let refused = refusal(code, direction);
    if refused != 0 {
        return refused;
    }
    let turns = &TURNS[direction as usize];
    let mut place = TOP - 2 * (code & DEPTH_BITS);
    let mut rest = code >> place;
    let mut walked = code;
    while place < TOP {
        let turn = turns[(rest & 3) as usize];
        walked ^= u64::from(turn.change) << place;
        if turn.stops {
            return walked;
        }
        rest >>= 2;
        place += 2;
    }
    over_seam(code, direction, walked)
}

/// The number of the first refusal, or 0.
pub fn refusal(code: u64, direction: u64) -> u64 {
    let (solid, face, depth) = (code >> 62, code >> TOP & 31, code & DEPTH_BITS);
    if solid == 0 {
        return 1;
    }
    if face >= FACES[solid as usize] {
        return 2;
    }
    if depth > 26 {
        return 3;
    }
    if code & PATH_BITS & (PATH_BITS >> (2 * depth)) != 0 {
        return 4;
    }
    if direction > 2 {
        return 5;
    }
    0
}

/// The code on the next face; `walked` has what the walk left of the path.
pub fn over_seam(code: u64, direction: u64, walked: u64) -> u64 {
    let (solid, face) = ((code >> 62) as usize, code >> TOP & 31);
    let next_face = u64::from(NEXT_FACE[solid][direction as usize][face as usize]);
    let mirrored = code ^ (code & LOW_BITS) << 1;
    let path = if MIRRORED[solid][direction as usize] >> face & 1 == 1 { mirrored } else { walked };
    code & (SOLID_BITS | DEPTH_BITS) | next_face << TOP | path & PATH_BITS
}
