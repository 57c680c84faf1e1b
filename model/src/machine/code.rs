//! The code of a program as the machine reads it.

use crate::decode::{Function, Instruction, Program};

/// The most functions of a program.
const MOST_FUNCTIONS: usize = 32;

/// An instruction with what a step needs of its constructor or function. Places count from 0, over the code of
/// all functions, and slots count from 0.
#[derive(Clone, Copy)]
pub enum Operation {
    Load {
        slot: u8,
    },
    Build {
        constructor: u8,
        arity: u8,
    },
    Call {
        arity: u8,
        start: u16,
        waiting: Waiting,
    },
    Branch {
        constructor: u8,
        arity: u8,
        target: u16,
    },
    Return {
        arity: u8,
    },
    Stop,
}

/// What the record of a frame says that waits at a call, but for its height.
#[derive(Clone, Copy)]
pub struct Waiting {
    pub function: u8,
    pub instruction: u16,
}

/// The code of all functions as operations, and where each function starts.
pub struct Code {
    pub operations: Vec<Operation>,
    pub starts: [u16; MOST_FUNCTIONS],
}

/// Translates the code of a checked program, once for a run, so that no step looks up an arity.
pub fn translate(program: &Program) -> Code {
    let mut code = Code {
        operations: Vec::with_capacity(program.code.len()),
        starts: [0; MOST_FUNCTIONS],
    };
    for (number, function) in program.functions.iter().enumerate() {
        code.starts[number] = function.code.start as u16;
        for (place, instruction) in (1..).zip(program.code_of(function)) {
            let at = Waiting {
                function: number as u8,
                instruction: place,
            };
            code.operations
                .push(operation(program, function, at, *instruction));
        }
    }
    code
}

/// The operation of an instruction that stands in a function at a place.
fn operation(
    program: &Program,
    function: &Function,
    at: Waiting,
    instruction: Instruction,
) -> Operation {
    let arity = |constructor: u8| {
        program.constructors[usize::from(constructor)]
            .signature
            .arity
    };
    match instruction {
        Instruction::Load(slot) => Operation::Load { slot: slot - 1 },
        Instruction::Build(constructor) => Operation::Build {
            constructor,
            arity: arity(constructor),
        },
        Instruction::Call(number) => {
            let callee = &program.functions[usize::from(number)];
            Operation::Call {
                arity: callee.signature.arity,
                start: callee.code.start as u16,
                waiting: at,
            }
        }
        Instruction::Branch {
            constructor,
            target,
        } => Operation::Branch {
            constructor,
            arity: arity(constructor),
            target: function.code.start as u16 + target - 1,
        },
        Instruction::Return => Operation::Return {
            arity: function.signature.arity,
        },
        Instruction::Stop => Operation::Stop,
    }
}
