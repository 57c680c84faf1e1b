//! Size forms: lists of sums, of which a form is the largest.

use super::shapes::{coefficients, Size};
use crate::decode::Alternative;

/// The most variables on a path.
pub const MOST_VARIABLES: usize = 16;
/// The most alternatives of a form.
pub const MOST_ALTERNATIVES: usize = 16;

/// A sum of variables with coefficients, and a constant. Covered coefficients are at most 15, so those of a sum
/// over four arguments with factors up to 15 are at most 900.
#[derive(Clone, Copy)]
pub struct Linear {
    coefficients: [u16; MOST_VARIABLES],
    constant: u32,
}

impl Linear {
    pub fn constant(constant: u16) -> Linear {
        Linear {
            coefficients: [0; MOST_VARIABLES],
            constant: u32::from(constant),
        }
    }

    /// Adds `factor` times the size of a shape.
    pub fn add_size(&mut self, factor: u8, size: Size) {
        let added = coefficients(size.variables, u16::from(factor));
        for (mine, added) in self.coefficients.iter_mut().zip(added) {
            *mine += added;
        }
        self.constant += u32::from(factor) * u32::from(size.weight);
    }

    /// This sum and `factor` times another.
    fn plus(mut self, factor: u8, other: &Linear) -> Linear {
        for (mine, theirs) in self.coefficients.iter_mut().zip(&other.coefficients) {
            *mine += u16::from(factor) * theirs;
        }
        self.constant += u32::from(factor) * other.constant;
        self
    }

    /// Whether no coefficient and no constant exceeds the other's. All coefficients are compared at once.
    fn is_within(&self, other: &Linear) -> bool {
        let pairs = self.coefficients.iter().zip(&other.coefficients);
        self.constant <= other.constant
            && pairs.fold(true, |within, (mine, theirs)| within & (mine <= theirs))
    }
}

/// Whether every alternative of a form is matched by one of the bound. The one that matched last is tried first.
pub fn is_covered(form: &[Linear], bound: &[Linear]) -> bool {
    let mut last = &bound[0];
    form.iter().all(|alternative| {
        if alternative.is_within(last) {
            return true;
        }
        let found = bound.iter().find(|own| alternative.is_within(own));
        last = found.unwrap_or(last);
        found.is_some()
    })
}

/// The size of an argument: that of a shape, or a form.
#[derive(Clone, Copy)]
pub enum Argument<'a> {
    Shape(Size),
    Form(&'a [Linear]),
}

impl Argument<'_> {
    pub const NONE: Self = Argument::Form(&[]);
}

/// Adds to a form every choice of one alternative from each argument whose coefficient is not 0, or nothing where
/// the form would have too many. Arguments with one alternative leave no choice and are summed first.
pub fn choose(
    alternative: &Alternative,
    arguments: &[Argument],
    form: &mut Vec<Linear>,
) -> Option<()> {
    let mut sum = Linear::constant(alternative.constant);
    let mut several: [(u8, &[Linear]); 4] = [(0, &[]); 4];
    let (mut count, mut choices) = (0, 1);
    for (&factor, argument) in alternative.coefficients.iter().zip(arguments) {
        match *argument {
            _ if factor == 0 => {}
            Argument::Shape(size) => sum.add_size(factor, size),
            Argument::Form([one]) => sum = sum.plus(factor, one),
            Argument::Form(many) => {
                several[count] = (factor, many);
                count += 1;
                choices *= many.len();
            }
        }
    }
    if form.len() + choices > MOST_ALTERNATIVES {
        return None;
    }
    add_choices(sum, &several[..count], form);
    Some(())
}

/// Adds the sums of every choice to a form.
fn add_choices(sum: Linear, arguments: &[(u8, &[Linear])], form: &mut Vec<Linear>) {
    match arguments {
        [] => form.push(sum),
        [(factor, last)] => form.extend(last.iter().map(|one| sum.plus(*factor, one))),
        [(factor, first), others @ ..] => {
            for one in *first {
                add_choices(sum.plus(*factor, one), others, form);
            }
        }
    }
}
