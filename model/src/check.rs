//! The check of a program: numbers 1 to 10 in order, each over the whole program.

mod forms;
mod shapes;
mod sizes;
mod stack;
mod types;

use crate::container;
use crate::decode::{decode, Instruction, Program, Signature};
use crate::Refusal;
use stack::MOST_INSTRUCTIONS;

/// What an accepted program has.
#[derive(Clone, Copy, Debug, PartialEq, Eq)]
pub struct Counts {
    pub types: usize,
    pub constructors: usize,
    pub functions: usize,
}

/// Checks a file and gives its counts.
pub fn check(file: &[u8]) -> Result<Counts, Refusal> {
    let program = examine(file)?;
    Ok(Counts {
        types: usize::from(program.types),
        constructors: program.constructors.len(),
        functions: program.functions.len(),
    })
}

/// Checks a file and gives the decoded program.
pub fn examine(file: &[u8]) -> Result<Program, Refusal> {
    let payload = container::payload(file)?;
    let program = decode(&payload)?;
    check_declarations(&program)?;
    check_bounds(&program)?;
    check_flow(&program)?;
    types::check_types(&program)?;
    sizes::check_sizes(&program)?;
    Ok(program)
}

/// Whether all types of a signature are declared. Those past the arity are zero, which every program declares.
fn types_known(signature: &Signature, types: u8) -> bool {
    signature.result < types && signature.reversed_types().iter().all(|&t| t < types)
}

/// 5: types that are not declared, and wrong weights.
fn check_declarations(program: &Program) -> Result<(), Refusal> {
    for (number, constructor) in program.constructors.iter().enumerate() {
        let signature = &constructor.signature;
        let weight_right = (constructor.weight == 0) == (signature.arity == 0);
        if !types_known(signature, program.types) || !weight_right {
            return Err(Refusal::new(5, 0, number));
        }
    }
    for (number, function) in program.functions.iter().enumerate() {
        if !types_known(&function.signature, program.types) {
            return Err(Refusal::new(5, 1, number));
        }
    }
    Ok(())
}

/// 6: every argument has a part in the function's bound.
fn check_bounds(program: &Program) -> Result<(), Refusal> {
    for (number, function) in program.functions.iter().enumerate() {
        for argument in 0..function.signature.arity() {
            let bound = function.bound();
            if bound.iter().all(|a| a.coefficients[argument] == 0) {
                return Err(Refusal::new(6, number, argument + 1));
            }
        }
    }
    Ok(())
}

/// 7: the code of each function is a tree.
fn check_flow(program: &Program) -> Result<(), Refusal> {
    for (number, function) in program.functions.iter().enumerate() {
        flow(program.code_of(function)).map_err(|place| Refusal::new(7, number, place))?;
    }
    Ok(())
}

/// The flow of one function, or the least instruction that breaks a rule.
///
/// Whether the instruction before goes on here, and whether something was made before on the path, is known as
/// the code is read: a branch target is behind no build or call, since no branch is.
fn flow(code: &[Instruction]) -> Result<(), usize> {
    let last = code.len();
    let mut branches = [0u16; MOST_INSTRUCTIONS + 1];
    let (mut goes_on, mut made) = (true, false);
    for (place, instruction) in (1..).zip(code) {
        if branches[place] + u16::from(goes_on) != 1 {
            return Err(place);
        }
        goes_on = !matches!(instruction, Instruction::Return | Instruction::Stop);
        if goes_on && place == last {
            return Err(place);
        }
        match *instruction {
            Instruction::Load(_) => {}
            Instruction::Build(_) | Instruction::Call(_) => made = true,
            Instruction::Branch { target, .. } => {
                let target = usize::from(target);
                if made || !(place + 2..=last).contains(&target) {
                    return Err(place);
                }
                branches[target] += 1;
            }
            Instruction::Return | Instruction::Stop => made = false,
        }
    }
    Ok(())
}
