//! 10 and 9: one walk over each function's code with the shapes and sizes of its stack entries.
//!
//! Up to the first build or call of a path every entry is a variable, and a branch splits variables
//! into parts. From there on the shapes stay as they are, and what is made is a size form.
//!
//! Only a form that was just made is held against the function's bound. A variable is a part of a parameter, which
//! has a coefficient of 1 or more in some alternative; and a loaded form was covered when it was made, at the same
//! shapes.

use super::forms::{choose, is_covered, Argument, Linear, MOST_ALTERNATIVES};
use super::shapes::{Shapes, Variable};
use super::stack::{Kept, Stack, MOST_HEIGHT};
use crate::decode::{Alternative, Function, Instruction, Program, MOST_ARGUMENTS};
use crate::Refusal;

/// The stack entry of something made: its form is kept at the entry's height. Variables have lower numbers.
const FORM: u8 = 16;

/// Why no stack of the walk is too low or too high.
const TYPED: &str = "the types are checked";

/// A number of a refusal and its instruction.
type Failure = (u8, usize);

/// A path of a function: the stack as variable numbers and forms, and the shapes of the variables.
#[derive(Clone, Copy)]
struct Path {
    stack: Stack,
    shapes: Shapes,
}

impl Path {
    /// The start of a function: its parameters, the last one on top.
    fn start(arity: u8) -> Path {
        let shapes = Shapes::start(arity);
        let mut path = Path {
            stack: Stack::EMPTY,
            shapes,
        };
        path.replace(0, arity, shapes.numbers(0, arity));
        path
    }

    /// Puts `count` entries in the place of the top `dropped` ones.
    fn replace(&mut self, dropped: u8, count: u8, entries: u32) {
        let stack = self.stack.replaced(dropped, count, entries);
        self.stack = stack.expect(TYPED);
    }
}

/// The walk over all functions. What it lends to each path is used again for the next.
struct Walk<'a> {
    program: &'a Program,
    /// The bound of the function walked over.
    bound: &'a [Alternative],
    kept: Kept<Path>,
    /// The forms on the stack, by height.
    forms: [Vec<Linear>; MOST_HEIGHT as usize],
    /// The form being made.
    new: Vec<Linear>,
    /// That bound at the shapes of the path; nothing up to the first build or call.
    own: Vec<Linear>,
}

/// Walks every function, in file order.
pub fn check_sizes(program: &Program) -> Result<(), Refusal> {
    let mut walk = Walk {
        program,
        bound: &[],
        kept: Kept::new(),
        forms: Default::default(),
        new: Vec::with_capacity(MOST_ALTERNATIVES),
        own: Vec::with_capacity(MOST_ARGUMENTS),
    };
    for (number, function) in program.functions.iter().enumerate() {
        walk.function(function)
            .map_err(|(rule, place)| Refusal::new(rule, number, place))?;
    }
    Ok(())
}

impl<'a> Walk<'a> {
    /// Walks the code by rising instruction number. Where no path is, the instruction is visited only if a
    /// branch was kept for it.
    fn function(&mut self, function: &'a Function) -> Result<(), Failure> {
        let mut path = Path::start(function.signature.arity);
        let mut visited = true;
        self.bound = function.bound();
        self.own.clear();
        for (place, instruction) in (1..).zip(self.program.code_of(function)) {
            if !visited {
                if !self.kept.take(place, &mut path) {
                    continue;
                }
                self.own.clear();
            }
            visited = self.step(place, *instruction, &mut path)?;
        }
        self.kept.clear();
        Ok(())
    }

    /// One instruction; whether the one after it is visited from here.
    #[inline(always)]
    fn step(
        &mut self,
        place: usize,
        instruction: Instruction,
        path: &mut Path,
    ) -> Result<bool, Failure> {
        match instruction {
            Instruction::Load(slot) => self.load(slot, path),
            Instruction::Build(number) => {
                let constructor = &self.program.constructors[usize::from(number)];
                let bound = Alternative {
                    coefficients: [1; MOST_ARGUMENTS],
                    constant: u16::from(constructor.weight),
                };
                self.make(place, &[bound], constructor.signature.arity, path)?;
            }
            Instruction::Call(number) => {
                let callee = &self.program.functions[usize::from(number)];
                self.make(place, callee.bound(), callee.signature.arity, path)?;
            }
            Instruction::Branch {
                constructor,
                target,
            } => return self.branch(constructor, target, path).ok_or((9, place)),
            Instruction::Return | Instruction::Stop => return Ok(false),
        }
        Ok(true)
    }

    /// Copies an entry, with its form where it has one.
    fn load(&mut self, slot: u8, path: &mut Path) {
        let entry = path.stack.slot(slot).expect(TYPED);
        let height = usize::from(path.stack.height());
        path.replace(0, 1, u32::from(entry));
        if entry == FORM {
            let (below, above) = self.forms.split_at_mut(height);
            above[0].clone_from(&below[usize::from(slot) - 1]);
        }
    }

    /// A build or call: its form takes the place of its arguments, and arrives at the next instruction.
    fn make(
        &mut self,
        place: usize,
        bound: &[Alternative],
        arity: u8,
        path: &mut Path,
    ) -> Result<(), Failure> {
        self.substitute(bound, arity, path).ok_or((9, place))?;
        if self.own.is_empty() {
            let own = self.bound.iter();
            self.own
                .extend(own.map(|alternative| path.shapes.bound(alternative)));
        }
        if !is_covered(&self.new, &self.own) {
            return Err((10, place + 1));
        }
        path.replace(arity, 1, u32::from(FORM));
        let height = usize::from(path.stack.height());
        std::mem::swap(&mut self.forms[height - 1], &mut self.new);
        Ok(())
    }

    /// Makes a bound with the top entries for its arguments, or nothing where that has too many alternatives.
    fn substitute(&mut self, bound: &[Alternative], arity: u8, path: &Path) -> Option<()> {
        let arity = usize::from(arity);
        let first = usize::from(path.stack.height()) - arity;
        let mut arguments = [Argument::NONE; MOST_ARGUMENTS];
        for (k, argument) in arguments[..arity].iter_mut().enumerate() {
            let entry = (path.stack.top() >> (8 * (arity - 1 - k))) as u8;
            *argument = if entry == FORM {
                Argument::Form(&self.forms[first + k])
            } else {
                Argument::Shape(path.shapes.size(entry))
            };
        }
        self.new.clear();
        for alternative in bound {
            choose(alternative, &arguments[..arity], &mut self.new)?;
        }
        Some(())
    }

    /// A branch stands before any build or call, so its entry is a variable. It says whether its taken side is
    /// visited, or nothing where it makes too many variables.
    fn branch(&mut self, constructor: u8, target: u16, path: &mut Path) -> Option<bool> {
        let tested = path.stack.top() as u8;
        let split = &self.program.constructors[usize::from(constructor)];
        let arity = split.signature.arity;
        let first = match path.shapes.variable(tested) {
            Variable::Free => {
                self.kept.keep(target, path);
                path.shapes
                    .split(tested, constructor, arity, split.weight)?
            }
            Variable::Split {
                constructor: known,
                first,
            } if known == constructor => first,
            Variable::Split { .. } => {
                self.kept.keep(target, path);
                return Some(false);
            }
        };
        path.replace(1, arity, path.shapes.numbers(first, arity));
        Some(true)
    }
}
