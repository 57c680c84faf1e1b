//! Values as numbers of 16 bits. Below 64 is a constant, which is its constructor's number; from 64 on is a cell, by
//! its place in the table.

/// Numbers in a cell: a constructor and four arguments.
pub const CELL: usize = 5;
/// The value of the first cell. No constructor's number is as large.
const FIRST_CELL: u16 = 64;
/// The most cells used: the values 64 to 65,534.
pub const MOST_CELLS: usize = 65_471;

/// A cell: a constructor that takes arguments, then these, with zeros past its arity.
pub type Cell = [u16; CELL];

/// The value of the cell at a place.
pub fn of_cell(place: usize) -> u16 {
    FIRST_CELL + place as u16
}

/// The cell of a value; a constant has none.
pub fn cell_of(cells: &[Cell], value: u16) -> Option<&Cell> {
    let place = value.checked_sub(FIRST_CELL)?;
    Some(&cells[usize::from(place)])
}
