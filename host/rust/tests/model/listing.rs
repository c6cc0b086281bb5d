//! The listing program: what is printed for an input.

use super::mesh::{self, MOST_SLOTS};

pub const MOST_BYTES: usize = 4_096;
pub const UNREADABLE: &str = "unreadable\n";

enum Order {
    Refine(u64),
    Coarsen(u64),
}

pub fn list(input: &[u8]) -> String {
    if input.len() > MOST_BYTES {
        return UNREADABLE.to_string();
    }
    // each with its newline; only the last may have none
    let mut lines = input.split_inclusive(|&byte| byte == b'\n');
    let solid = match lines.next().and_then(solid_in) {
        Some(solid) => solid,
        None => return UNREADABLE.to_string(),
    };
    let mut slots = match mesh::fresh(&[0; MOST_SLOTS], solid) {
        Ok(slots) => slots,
        Err((number, _)) => return refused(number),
    };
    let mut printed = String::new();
    for line in lines {
        let changed = match order_in(line) {
            Some(Order::Refine(leaf)) => mesh::refine(&slots, leaf),
            Some(Order::Coarsen(cell)) => mesh::coarsen(&slots, cell),
            None => return printed + UNREADABLE,
        };
        match changed {
            Ok(after) => slots = after,
            Err((number, _)) => printed += &refused(number),
        }
    }
    printed + &leaves(&slots)
}

fn refused(number: u64) -> String {
    format!("refused {}\n", number)
}

fn leaves(slots: &[u64]) -> String {
    let line =
        |(code, [left, right, vertical]): (u64, [i64; 3])| format!("{:016x} {} {} {}\n", code, left, right, vertical);
    mesh::levels(slots).into_iter().map(line).collect()
}

/// None when the line has another form.
fn solid_in(line: &[u8]) -> Option<u64> {
    match line {
        [digit @ b'0'..=b'9', b'\n'] => Some(u64::from(digit - b'0')),
        _ => None,
    }
}

/// None when the line has another form.
fn order_in(line: &[u8]) -> Option<Order> {
    match line {
        [b'R', b' ', digits @ .., b'\n'] => code_in(digits).map(Order::Refine),
        [b'C', b' ', digits @ .., b'\n'] => code_in(digits).map(Order::Coarsen),
        _ => None,
    }
}

fn code_in(digits: &[u8]) -> Option<u64> {
    let value = |digit: &u8| b"0123456789abcdef".iter().position(|known| known == digit);
    let values = digits.iter().map(value).collect::<Option<Vec<_>>>()?;
    (values.len() == 16).then(|| values.into_iter().fold(0, |code, value| code * 16 + value as u64))
}
