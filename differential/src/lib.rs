//! The static library and the second program on the same byte strings: every
//! answer, number and byte is compared.
//!
//! `question` is what can be asked and how each of the two is asked it; `bench`
//! asks both and compares; `turns` makes scripts, nets and questions from a
//! seed; `bytes` changes bytes at random; `tally` counts what came up.
#![forbid(unsafe_code)]

pub mod bench;
pub mod bytes;
pub mod question;
pub mod tally;
pub mod turns;
