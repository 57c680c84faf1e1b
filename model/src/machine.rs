//! The run of a program on lent tables.

mod arguments;
mod code;
mod figure;
mod steps;
mod values;

use crate::check::examine;
use crate::decode::Program;
use crate::Refusal;
use steps::{End, Machine, Top};
use values::{CELL, MOST_CELLS};

/// The most stack places and frames used, and the most argument bytes.
const MOST: usize = 65_535;

/// A waiting frame: its function, the instruction of its call, and the height of its stack.
#[derive(Clone, Copy, Debug, Default, PartialEq, Eq)]
pub struct Frame {
    pub function: u16,
    pub instruction: u16,
    pub height: u16,
}

/// How a run ended.
#[derive(Clone, Copy, Debug, PartialEq, Eq)]
pub enum Ending {
    /// A result of so many bytes stands at the output's front.
    Figure(usize),
    GaveUp,
    Refused(Refusal),
}

/// A run's ending and the steps it took.
#[derive(Clone, Copy, Debug, PartialEq, Eq)]
pub struct Answer {
    pub ending: Ending,
    pub steps: u32,
}

/// The tables lent to a run.
pub struct Tables<'a> {
    pub cells: &'a mut [u16],
    pub stack: &'a mut [u16],
    pub frames: &'a mut [Frame],
}

impl Tables<'_> {
    /// The usable entries alone.
    fn usable(&mut self) -> Tables<'_> {
        let cells = MOST_CELLS.min(self.cells.len() / CELL);
        let stack = MOST.min(self.stack.len());
        let frames = MOST.min(self.frames.len());
        Tables {
            cells: &mut self.cells[..cells * CELL],
            stack: &mut self.stack[..stack],
            frames: &mut self.frames[..frames],
        }
    }

    fn wipe(&mut self) {
        self.cells.fill(0);
        self.stack.fill(0);
        self.frames.fill(Frame::default());
    }
}

/// Checks a file and runs its function `entry` on argument bytes, for at most `budget` steps.
pub fn run(
    file: &[u8],
    entry: u32,
    arguments: &[u8],
    budget: u32,
    tables: &mut Tables,
    out: &mut [u8],
) -> Answer {
    let entry = entry as usize;
    let mut tables = tables.usable();
    let answer = match admit(file, entry, arguments, &tables) {
        Ok(program) => begin(&program, entry, arguments, budget, &mut tables, out),
        Err(refusal) => {
            return Answer {
                ending: Ending::Refused(refusal),
                steps: 0,
            }
        }
    };
    tables.wipe();
    answer
}

/// All that is refused before a run begins.
fn admit(file: &[u8], entry: usize, arguments: &[u8], tables: &Tables) -> Result<Program, Refusal> {
    let program = examine(file)?;
    let function = program
        .functions
        .get(entry)
        .ok_or(Refusal::new(11, entry, 0))?;
    let signature = function.signature;
    let needed = arguments::check(&program.constructors, &signature, arguments)
        .map_err(|offset| Refusal::new(12, offset, 0))?;
    if tables.frames.is_empty() {
        return Err(Refusal::new(17, entry, 1));
    }
    if tables.stack.len() < signature.arity() {
        return Err(Refusal::new(16, entry, 1));
    }
    if tables.cells.len() / CELL < needed {
        return Err(Refusal::new(15, entry, 1));
    }
    Ok(program)
}

/// A run whose arguments fit the tables.
fn begin(
    program: &Program,
    entry: usize,
    arguments: &[u8],
    budget: u32,
    tables: &mut Tables,
    out: &mut [u8],
) -> Answer {
    let cells = tables.cells.as_chunks_mut().0;
    let loaded = arguments::load(&program.constructors, arguments, cells, tables.stack);
    let mut machine = Machine {
        code: &code::translate(program),
        cells,
        stack: tables.stack,
        frames: tables.frames,
    };
    let start = Top {
        used: loaded.cells,
        waiting: 0,
        next: program.functions[entry].code.start,
        base: 0,
        end: loaded.height,
    };
    let stopped = machine.drive(start, budget);
    let ending = match stopped.end {
        End::Figure(value) => figure::deliver(&program.constructors, cells, value, out),
        End::GaveUp => Ending::GaveUp,
        End::Short(number) => Ending::Refused(refusal_at(program, number, stopped.place)),
    };
    Answer {
        ending,
        steps: stopped.steps,
    }
}

/// A refusal at a place of the code: its function, and the instruction there.
fn refusal_at(program: &Program, number: u8, place: usize) -> Refusal {
    let mut functions = program.functions.iter();
    let function = functions.position(|function| function.code.contains(&place));
    let function = function.expect("the machine stands at an instruction");
    Refusal::new(
        number,
        function,
        place - program.functions[function].code.start + 1,
    )
}
