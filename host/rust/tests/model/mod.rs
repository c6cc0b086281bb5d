//! The rules as plain Rust, to compare the library with.
//!
//! It is written from the document's words alone and shares nothing with the library or its wrapper. It is slow and
//! simple on purpose: a cell is a list of digits, a triangle is three lists of weights, a code is taken apart by
//! division. A refused answer is `Err` of the number in the document's table.

#![allow(dead_code)] // each test program uses its own part of the model

pub mod codes;
pub mod corners;
pub mod listing;
pub mod mesh;
pub mod points;
pub mod random;
pub mod solids;
pub mod steps;
pub mod tally;
