//! A plain model of the verifier and interpreter for small untrusted bytecode programs.
//!
//! A file is verified and unpacked ([`container`]), its records are decoded once ([`decode`]),
//! the decoded program is checked ([`check`]), and an accepted program is run on lent tables
//! ([`machine`]). A survey's text becomes an argument of a run ([`lines`]).

#![forbid(unsafe_code)]

pub mod check;
pub mod container;
pub mod decode;
pub mod lines;
pub mod machine;

/// Why something was refused: the number of the rule and two places.
#[derive(Clone, Copy, Debug, PartialEq, Eq)]
pub struct Refusal {
    pub number: u8,
    pub first: usize,
    pub second: usize,
}

impl Refusal {
    /// A refusal by rule `number` at the two places.
    pub fn new(number: u8, first: usize, second: usize) -> Self {
        Refusal {
            number,
            first,
            second,
        }
    }
}
