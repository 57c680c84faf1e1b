//! The records of a payload, decoded into plain structs and one vector of instructions.

use std::ops::Range;

use crate::Refusal;

/// The most arguments a constructor or function takes.
pub const MOST_ARGUMENTS: usize = 4;
/// The most alternatives of a function's bound.
const MOST_ALTERNATIVES: usize = 4;

/// Result and argument types of a constructor or function.
#[derive(Clone, Copy, Debug)]
pub struct Signature {
    pub result: u8,
    pub arity: u8,
    /// The arguments' types, one byte each, the last one lowest: as they stand on top of a stack.
    pub types: u32,
}

impl Signature {
    /// How many arguments there are.
    pub fn arity(&self) -> usize {
        usize::from(self.arity)
    }

    /// The types of the arguments and zeros, the last argument first.
    pub fn reversed_types(&self) -> [u8; MOST_ARGUMENTS] {
        self.types.to_le_bytes()
    }
}

/// A constructor: what it takes and gives, and what one of it weighs.
#[derive(Clone, Copy, Debug)]
pub struct Constructor {
    pub signature: Signature,
    pub weight: u8,
}

/// One alternative of a function's size bound.
#[derive(Clone, Copy, Debug, Default)]
pub struct Alternative {
    pub coefficients: [u8; MOST_ARGUMENTS],
    pub constant: u16,
}

/// An instruction with its operands. Targets count from 1.
#[derive(Clone, Copy, Debug, PartialEq, Eq)]
pub enum Instruction {
    Load(u8),
    Build(u8),
    Call(u8),
    Branch { constructor: u8, target: u16 },
    Return,
    Stop,
}

/// A function: its signature, its size bound, and where its code stands among all instructions.
#[derive(Clone, Debug)]
pub struct Function {
    pub signature: Signature,
    alternatives: [Alternative; MOST_ALTERNATIVES],
    count: u8,
    pub code: Range<usize>,
}

impl Function {
    /// The alternatives of the size bound.
    pub fn bound(&self) -> &[Alternative] {
        &self.alternatives[..usize::from(self.count)]
    }
}

/// A decoded program.
#[derive(Clone, Debug)]
pub struct Program {
    pub types: u8,
    pub constructors: Vec<Constructor>,
    pub functions: Vec<Function>,
    /// The code of all functions, one after the other.
    pub code: Vec<Instruction>,
}

impl Program {
    /// The code of one function.
    pub fn code_of(&self, function: &Function) -> &[Instruction] {
        &self.code[function.code.clone()]
    }
}

/// The payload and how far it has been read.
struct Reader<'a> {
    payload: &'a [u8],
    at: usize,
}

impl<'a> Reader<'a> {
    /// Reads a record of `N` bytes with `parse`, which says `None` to a field outside its range.
    fn record<const N: usize, T>(
        &mut self,
        parse: impl FnOnce(&[u8; N]) -> Option<T>,
    ) -> Result<T, Refusal> {
        let rest = &self.payload[self.at..];
        let parsed = rest.first_chunk::<N>().and_then(parse);
        let value = parsed.ok_or(Refusal::new(4, self.at, 0))?;
        self.at += N;
        Ok(value)
    }

    /// Reads so many instructions and adds them to the code.
    fn instructions(&mut self, count: usize, code: &mut Vec<Instruction>) -> Result<(), Refusal> {
        let records = self.payload[self.at..].as_chunks().0;
        for record in records.iter().take(count) {
            code.push(parse_instruction(record).ok_or(Refusal::new(4, self.at, 0))?);
            self.at += record.len();
        }
        if records.len() < count {
            return Err(Refusal::new(4, self.at, 0));
        }
        Ok(())
    }

    /// Refuses bytes that are left over.
    fn end(&self) -> Result<(), Refusal> {
        if self.at == self.payload.len() {
            Ok(())
        } else {
            Err(Refusal::new(4, self.at, 0))
        }
    }
}

/// Type, constructor and function counts.
struct Header {
    types: u8,
    constructors: u8,
    functions: u8,
}

fn parse_header(&[edition, types, constructors, functions]: &[u8; 4]) -> Option<Header> {
    let right = edition == 1
        && (1..=32).contains(&types)
        && (1..=64).contains(&constructors)
        && (1..=32).contains(&functions);
    right.then_some(Header {
        types,
        constructors,
        functions,
    })
}

/// Whether the fields past the arity are zero.
fn zero_past(fields: [u8; MOST_ARGUMENTS], arity: u8) -> bool {
    u64::from(u32::from_le_bytes(fields)) >> (8 * arity) == 0
}

fn parse_signature(&[result, arity, a, b, c, d]: &[u8; 6]) -> Option<Signature> {
    let types = [a, b, c, d];
    if usize::from(arity) > MOST_ARGUMENTS || !zero_past(types, arity) {
        return None;
    }
    let unused = 8 * (MOST_ARGUMENTS as u8 - arity);
    let types = (u64::from(u32::from_be_bytes(types)) >> unused) as u32;
    Some(Signature {
        result,
        arity,
        types,
    })
}

fn parse_constructor(record: &[u8; 8]) -> Option<Constructor> {
    let &[result, arity, a, b, c, d, weight, zero] = record;
    let signature = parse_signature(&[result, arity, a, b, c, d])?;
    (zero == 0).then_some(Constructor { signature, weight })
}

/// A function's head: its signature, and how many alternatives and instructions follow.
struct Head {
    signature: Signature,
    alternatives: u8,
    instructions: u16,
}

fn parse_head(record: &[u8; 10]) -> Option<Head> {
    let &[result, arity, a, b, c, d, alternatives, zero, low, high] = record;
    let signature = parse_signature(&[result, arity, a, b, c, d])?;
    let instructions = u16::from_le_bytes([low, high]);
    let right = (1..=4).contains(&alternatives) && zero == 0 && (1..=256).contains(&instructions);
    right.then_some(Head {
        signature,
        alternatives,
        instructions,
    })
}

fn parse_alternative(record: &[u8; 6], arity: u8) -> Option<Alternative> {
    let &[a, b, c, d, low, high] = record;
    let coefficients = [a, b, c, d];
    let right = coefficients.iter().all(|&k| k <= 15) && zero_past(coefficients, arity);
    right.then_some(Alternative {
        coefficients,
        constant: u16::from_le_bytes([low, high]),
    })
}

fn parse_instruction(&[operation, a, low, high]: &[u8; 4]) -> Option<Instruction> {
    let b = u16::from_le_bytes([low, high]);
    match (operation, a, b) {
        (1, slot, 0) => Some(Instruction::Load(slot)),
        (2, constructor, 0) => Some(Instruction::Build(constructor)),
        (3, function, 0) => Some(Instruction::Call(function)),
        (4, constructor, target) => Some(Instruction::Branch {
            constructor,
            target,
        }),
        (5, 0, 0) => Some(Instruction::Return),
        (6, 0, 0) => Some(Instruction::Stop),
        _ => None,
    }
}

fn read_function(reader: &mut Reader, code: &mut Vec<Instruction>) -> Result<Function, Refusal> {
    let head = reader.record(parse_head)?;
    let signature = head.signature;
    let mut alternatives = [Alternative::default(); MOST_ALTERNATIVES];
    for alternative in &mut alternatives[..usize::from(head.alternatives)] {
        *alternative = reader.record(|record| parse_alternative(record, signature.arity))?;
    }
    let start = code.len();
    reader.instructions(usize::from(head.instructions), code)?;
    Ok(Function {
        signature,
        alternatives,
        count: head.alternatives,
        code: start..code.len(),
    })
}

/// Decodes a payload; every refusal is by rule 4.
pub fn decode(payload: &[u8]) -> Result<Program, Refusal> {
    let mut reader = Reader { payload, at: 0 };
    let header = reader.record(parse_header)?;
    let mut constructors = Vec::with_capacity(usize::from(header.constructors));
    for _ in 0..header.constructors {
        constructors.push(reader.record(parse_constructor)?);
    }
    let mut functions = Vec::with_capacity(usize::from(header.functions));
    let mut code = Vec::with_capacity(payload.len() / 4);
    for _ in 0..header.functions {
        functions.push(read_function(&mut reader, &mut code)?);
    }
    reader.end()?;
    Ok(Program {
        types: header.types,
        constructors,
        functions,
        code,
    })
}
