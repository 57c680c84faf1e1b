//! The steps of the machine.

use super::code::{Code, Operation, Waiting};
use super::values::{cell_of, of_cell, Cell};
use super::Frame;
use crate::decode::MOST_ARGUMENTS;

/// Why the machine takes no further step: a value that is the figure, a stop, or a number from 14 to 17.
pub enum End {
    Figure(u16),
    GaveUp,
    Short(u8),
}

/// Where a run ended: at a place of the code, after so many steps.
pub struct Stopped {
    pub end: End,
    pub place: usize,
    pub steps: u32,
}

/// The code and the tables of a run. The waiting frames stand in their table.
pub struct Machine<'a> {
    pub code: &'a Code,
    pub cells: &'a mut [Cell],
    pub stack: &'a mut [u16],
    pub frames: &'a mut [Frame],
}

/// What a step changes besides the tables.
pub struct Top {
    /// Cells in use, of which a constant takes none.
    pub used: usize,
    /// Waiting frames.
    pub waiting: usize,
    /// The top frame: the place of its next operation, where its stack starts and where it ends.
    pub next: usize,
    pub base: usize,
    pub end: usize,
}

impl Machine<'_> {
    /// Steps until the machine ends, the budget is spent or a table is full. The loop stands apart from its
    /// caller, so that the top frame's numbers stay in registers.
    #[inline(never)]
    pub fn drive(&mut self, mut top: Top, budget: u32) -> Stopped {
        let operations = self.code.operations.as_slice();
        let mut left = budget;
        let end = loop {
            let operation = &operations[top.next];
            let is_figure = matches!(operation, Operation::Return { .. }) && top.waiting == 0;
            if left == 0 && !is_figure {
                break End::Short(14);
            }
            if let Err(end) = self.step(operation, &mut top) {
                left -= u32::from(matches!(end, End::GaveUp));
                break end;
            }
            left -= 1;
        };
        Stopped {
            end,
            place: top.next,
            steps: budget - left,
        }
    }

    /// One step, or why there is none or no other.
    #[inline(always)]
    fn step(&mut self, operation: &Operation, top: &mut Top) -> Result<(), End> {
        match *operation {
            Operation::Load { slot } => self.load(usize::from(slot), top),
            Operation::Build { constructor, arity } => {
                self.build(constructor, usize::from(arity), top)
            }
            Operation::Call {
                arity,
                start,
                waiting,
            } => self.call(usize::from(arity), start, waiting, top),
            Operation::Branch {
                constructor,
                arity,
                target,
            } => self.branch(constructor, usize::from(arity), target, top),
            Operation::Return { arity } => self.give_back(usize::from(arity), top),
            Operation::Stop => Err(End::GaveUp),
        }
    }

    #[inline(always)]
    fn load(&mut self, slot: usize, top: &mut Top) -> Result<(), End> {
        let value = self.stack[top.base + slot];
        *self.stack.get_mut(top.end).ok_or(End::Short(16))? = value;
        top.end += 1;
        top.next += 1;
        Ok(())
    }

    #[inline(always)]
    fn build(&mut self, constructor: u8, arity: usize, top: &mut Top) -> Result<(), End> {
        let start = top.end - arity;
        if start >= self.stack.len() {
            return Err(End::Short(16));
        }
        self.stack[start] = if arity == 0 {
            u16::from(constructor)
        } else {
            self.make(constructor, start, top)?
        };
        top.end = start + 1;
        top.next += 1;
        Ok(())
    }

    /// Makes a cell of a constructor and the values on top, and gives its value.
    #[inline(always)]
    fn make(&mut self, constructor: u8, start: usize, top: &mut Top) -> Result<u16, End> {
        let cell = self.cells.get_mut(top.used).ok_or(End::Short(15))?;
        *cell = [u16::from(constructor), 0, 0, 0, 0];
        for (part, value) in cell[1..].iter_mut().zip(&self.stack[start..top.end]) {
            *part = *value;
        }
        let value = of_cell(top.used);
        top.used += 1;
        Ok(value)
    }

    #[inline(always)]
    fn call(
        &mut self,
        arity: usize,
        start: u16,
        waiting: Waiting,
        top: &mut Top,
    ) -> Result<(), End> {
        // The top frame needs a record too once it waits.
        if top.waiting + 1 >= self.frames.len() {
            return Err(End::Short(17));
        }
        if top.end + arity > self.stack.len() {
            return Err(End::Short(16));
        }
        self.frames[top.waiting] = Frame {
            function: u16::from(waiting.function),
            instruction: waiting.instruction,
            height: (top.end - top.base) as u16,
        };
        // Bounded by a constant, so that no loop is left of it.
        for k in (0..MOST_ARGUMENTS).take_while(|&k| k < arity) {
            self.stack[top.end + k] = self.stack[top.end - arity + k];
        }
        top.waiting += 1;
        top.next = usize::from(start);
        top.base = top.end;
        top.end += arity;
        Ok(())
    }

    #[inline(always)]
    fn branch(
        &mut self,
        constructor: u8,
        arity: usize,
        target: u16,
        top: &mut Top,
    ) -> Result<(), End> {
        let start = top.end - 1;
        let constructor = u16::from(constructor);
        let value = self.stack[start];
        let parts = match cell_of(self.cells, value) {
            Some([tested, parts @ ..]) if *tested == constructor => parts,
            None if value == constructor => &[0; MOST_ARGUMENTS],
            _ => {
                top.next = usize::from(target);
                return Ok(());
            }
        };
        if start + arity > self.stack.len() {
            return Err(End::Short(16));
        }
        for (place, part) in self.stack[start..].iter_mut().zip(&parts[..arity]) {
            *place = *part;
        }
        top.end = start + arity;
        top.next += 1;
        Ok(())
    }

    /// Returns to the waiting frame, whose call's arguments give way to the top value. In the only frame that
    /// value is the figure.
    #[inline(always)]
    fn give_back(&mut self, arity: usize, top: &mut Top) -> Result<(), End> {
        let value = self.stack[top.end - 1];
        if top.waiting == 0 {
            return Err(End::Figure(value));
        }
        top.waiting -= 1;
        let frame = self.frames[top.waiting];
        let start = self.code.starts[usize::from(frame.function)];
        top.next = usize::from(start) + usize::from(frame.instruction);
        let place = top.base - arity;
        self.stack[place] = value;
        top.end = place + 1;
        top.base -= usize::from(frame.height);
        Ok(())
    }
}
