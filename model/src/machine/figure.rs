//! The figure of a run: a value's constructors in prefix order.

use super::values::{cell_of, Cell};
use super::Ending;
use crate::decode::Constructor;
use crate::Refusal;

/// Visits the constructors of a value in prefix order. A constant is visited at once; while a cell is, the arguments
/// behind it wait, so that a last argument makes none wait.
fn visit(constructors: &[Constructor], cells: &[Cell], value: u16, mut each: impl FnMut(u8)) {
    let mut waiting: Vec<&[u16]> = Vec::new();
    let mut values = std::slice::from_ref(&value);
    loop {
        let Some((&value, others)) = values.split_first() else {
            let Some(next) = waiting.pop() else {
                return;
            };
            values = next;
            continue;
        };
        values = others;
        let Some([constructor, parts @ ..]) = cell_of(cells, value) else {
            each(value as u8);
            continue;
        };
        each(*constructor as u8);
        if !values.is_empty() {
            waiting.push(values);
        }
        values = &parts[..constructors[usize::from(*constructor)].signature.arity()];
    }
}

/// Writes a figure to the output's front, where there is room for it. It is put down elsewhere first, as far as
/// there is room, since its length is not known before and an output that is too short is left as it is.
pub fn deliver(constructors: &[Constructor], cells: &[Cell], value: u16, out: &mut [u8]) -> Ending {
    let mut figure = Vec::with_capacity(out.len());
    let mut needed = 0;
    visit(constructors, cells, value, |constructor| {
        if needed < out.len() {
            figure.push(constructor);
        }
        needed += 1;
    });
    if needed > out.len() {
        return Ending::Refused(Refusal::new(13, needed, 0));
    }
    out[..needed].copy_from_slice(&figure);
    Ending::Figure(needed)
}
