//! 8: stacks have the right types and no more than 16 entries.

use super::stack::{Kept, Stack};
use crate::decode::{Function, Instruction, Program, Signature};
use crate::Refusal;

/// Walks every function, in file order.
pub fn check_types(program: &Program) -> Result<(), Refusal> {
    let mut kept = Kept::new();
    for (number, function) in program.functions.iter().enumerate() {
        types(program, function, &mut kept).map_err(|place| Refusal::new(8, number, place))?;
        kept.clear();
    }
    Ok(())
}

/// The types of one function, or the instruction that breaks a rule. Behind a return or stop comes a branch
/// target: the flow is a tree.
fn types(program: &Program, function: &Function, kept: &mut Kept<Stack>) -> Result<(), usize> {
    let signature = &function.signature;
    let start = Stack::EMPTY.replaced(0, signature.arity, signature.types);
    let mut stack = start.ok_or(1usize)?;
    for (place, instruction) in (1..).zip(program.code_of(function)) {
        if let Instruction::Branch { target, .. } = *instruction {
            kept.keep(target, &stack);
        }
        stack = step(program, signature.result, *instruction, &stack).ok_or(place)?;
        if matches!(instruction, Instruction::Return | Instruction::Stop) {
            kept.take(place + 1, &mut stack);
        }
    }
    Ok(())
}

/// What an instruction makes of a stack of types; for a branch, where it is taken.
#[inline(always)]
fn step(program: &Program, result: u8, instruction: Instruction, stack: &Stack) -> Option<Stack> {
    match instruction {
        Instruction::Load(slot) => stack.pushed(stack.slot(slot)?),
        Instruction::Build(number) => {
            let constructor = program.constructors.get(usize::from(number))?;
            apply(&constructor.signature, stack)
        }
        Instruction::Call(number) => {
            let function = program.functions.get(usize::from(number))?;
            apply(&function.signature, stack)
        }
        Instruction::Branch { constructor, .. } => {
            let tested = &program
                .constructors
                .get(usize::from(constructor))?
                .signature;
            let right = stack.height() > 0 && stack.top() as u8 == tested.result;
            right.then_some(())?;
            stack.replaced(1, tested.arity, tested.types)
        }
        Instruction::Return => {
            let right = stack.height() > 0 && stack.top() as u8 == result;
            right.then_some(*stack)
        }
        Instruction::Stop => Some(*stack),
    }
}

/// Replaces arguments on top of the stack by the result.
fn apply(signature: &Signature, stack: &Stack) -> Option<Stack> {
    let arity = signature.arity;
    let arguments = u64::from(stack.top()) & ((1 << (8 * arity)) - 1);
    let right = stack.height() >= arity && arguments == u64::from(signature.types);
    right.then_some(())?;
    stack.replaced(arity, 1, u32::from(signature.result))
}
