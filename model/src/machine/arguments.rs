//! The arguments of a run: bytes in prefix order, checked first and then made into values.

use super::values::{of_cell, Cell};
use super::MOST;
use crate::decode::{Constructor, Signature, MOST_ARGUMENTS};

/// The most values still to be read.
const MOST_PENDING: usize = 256;

/// How many cells bytes take that are values of a function's argument types, or the offset where they are not.
///
/// The types of the values still to be read are a stack. Four are always written, of which those of the arity
/// count.
pub fn check(
    constructors: &[Constructor],
    signature: &Signature,
    arguments: &[u8],
) -> Result<usize, usize> {
    if arguments.len() > MOST {
        return Err(MOST);
    }
    let mut pending = [0; MOST_PENDING + MOST_ARGUMENTS];
    pending[..MOST_ARGUMENTS].copy_from_slice(&signature.reversed_types());
    let mut count = signature.arity();
    let mut cells = 0;
    for (offset, &byte) in arguments.iter().enumerate() {
        let constructor = constructors.get(usize::from(byte)).ok_or(offset)?;
        if count == 0 || pending[count - 1] != constructor.signature.result {
            return Err(offset);
        }
        count -= 1;
        pending[count..count + MOST_ARGUMENTS]
            .copy_from_slice(&constructor.signature.reversed_types());
        count += constructor.signature.arity();
        cells += usize::from(constructor.signature.arity() > 0);
        if count > MOST_PENDING {
            return Err(offset);
        }
    }
    if count == 0 {
        Ok(cells)
    } else {
        Err(arguments.len())
    }
}

/// What checked arguments have taken of the tables.
pub struct Loaded {
    pub cells: usize,
    pub height: usize,
}

/// Makes the values of checked arguments from the last byte to the first, and puts them on the stack.
///
/// What is made and not yet part of another value is as much as was still to be read there. The first stands
/// lowest, and four are always read, of which those of the arity count.
pub fn load(
    constructors: &[Constructor],
    arguments: &[u8],
    cells: &mut [Cell],
    stack: &mut [u16],
) -> Loaded {
    let mut made = [0u16; MOST_PENDING + MOST_ARGUMENTS];
    let mut first = MOST_PENDING;
    let mut used = 0;
    for &byte in arguments.iter().rev() {
        let arity = constructors[usize::from(byte)].signature.arity();
        if arity == 0 {
            first -= 1;
            made[first] = u16::from(byte);
            continue;
        }
        let parts = &made[first..first + MOST_ARGUMENTS];
        let part = |k: usize| if k < arity { parts[k] } else { 0 };
        cells[used] = [u16::from(byte), part(0), part(1), part(2), part(3)];
        first += arity - 1;
        made[first] = of_cell(used);
        used += 1;
    }
    let values = &made[first..MOST_PENDING];
    stack[..values.len()].copy_from_slice(values);
    Loaded {
        cells: used,
        height: values.len(),
    }
}
