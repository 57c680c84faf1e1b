//! The shapes of a path: its variables, which of them are split, and the size of each.

use super::forms::{Linear, MOST_VARIABLES};
use crate::decode::Alternative;

/// What is known of a variable: nothing, or its constructor and the first of its parts.
pub enum Variable {
    Free,
    Split { constructor: u8, first: u8 },
}

/// No constructor: the variable is free.
const FREE: u8 = 255;

/// The size of a shape: each free variable in it once, as one bit, and the weights of its constructors.
#[derive(Clone, Copy)]
pub struct Size {
    pub variables: u16,
    pub weight: u16,
}

/// The variables of a path. The sizes are kept for all of them, and a split changes all in which its variable
/// occurs, so that none is put together from its parts.
#[derive(Clone, Copy)]
pub struct Shapes {
    variables: [u16; MOST_VARIABLES],
    weights: [u16; MOST_VARIABLES],
    constructors: [u8; MOST_VARIABLES],
    /// The first part of each, four bits to a variable: small, since every branch keeps a copy of all this.
    firsts: u64,
    count: u8,
}

/// Each variable as its own bit.
const BITS: [u16; MOST_VARIABLES] = {
    let mut bits = [1; MOST_VARIABLES];
    let mut k = 1;
    while k < MOST_VARIABLES {
        bits[k] = 2 * bits[k - 1];
        k += 1;
    }
    bits
};

impl Shapes {
    /// The start of a function: its parameters are free.
    pub fn start(arity: u8) -> Shapes {
        Shapes {
            variables: BITS,
            weights: [0; MOST_VARIABLES],
            constructors: [FREE; MOST_VARIABLES],
            firsts: 0,
            count: arity,
        }
    }

    pub fn variable(&self, number: u8) -> Variable {
        let number = usize::from(number);
        match self.constructors[number] {
            FREE => Variable::Free,
            constructor => Variable::Split {
                constructor,
                first: (self.firsts >> (4 * number)) as u8 & 15,
            },
        }
    }

    /// The numbers of variables in a row as stack entries, the last one on top.
    pub fn numbers(&self, first: u8, count: u8) -> u32 {
        (first..first + count).fold(0, |entries, number| entries << 8 | u32::from(number))
    }

    /// Splits a variable and gives the first of its parts; nothing where that makes too many.
    pub fn split(&mut self, number: u8, constructor: u8, arity: u8, weight: u8) -> Option<u8> {
        let first = self.count;
        if usize::from(first + arity) > MOST_VARIABLES {
            return None;
        }
        let parts = ((1u32 << arity) - 1) << first;
        let change = parts as u16 ^ 1 << number;
        for (variables, weights) in self.variables.iter_mut().zip(&mut self.weights) {
            let occurs = *variables >> number & 1;
            *variables ^= occurs * change;
            *weights += occurs * u16::from(weight);
        }
        self.constructors[usize::from(number)] = constructor;
        // Without parts there is no first one, and four bits need not hold the number of the next.
        if arity > 0 {
            self.firsts |= u64::from(first) << (4 * number);
        }
        self.count += arity;
        Some(first)
    }

    /// The size of a variable's shape.
    pub fn size(&self, number: u8) -> Size {
        Size {
            variables: self.variables[usize::from(number)],
            weight: self.weights[usize::from(number)],
        }
    }

    /// An alternative of the function's bound at the shapes of its parameters.
    pub fn bound(&self, alternative: &Alternative) -> Linear {
        let mut sum = Linear::constant(alternative.constant);
        for (parameter, &factor) in (0..).zip(&alternative.coefficients) {
            if factor != 0 {
                sum.add_size(factor, self.size(parameter));
            }
        }
        sum
    }
}

/// The coefficients of a set of variables with one factor.
pub fn coefficients(variables: u16, factor: u16) -> [u16; MOST_VARIABLES] {
    BITS.map(|bit| if variables & bit != 0 { factor } else { 0 })
}
