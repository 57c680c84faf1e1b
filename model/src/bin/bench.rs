//! Does a job from standard input many times; then one line: nanoseconds, and a sum over all answers.
//!
//! A job: ten numbers of four bytes, low byte first, then the program's bytes and the argument bytes.
//! The numbers: mode (1 check, 2 run, 3 lines), repetitions, length of program, length of arguments,
//! entry, budget, lengths of the lent cells (numbers), stack (numbers), frames (numbers, three to a
//! record) and output. For lines a text, a table, and the numbers of cons and nil stand in the places
//! of the program, the arguments, the entry and the budget.

use std::hint::black_box;
use std::io::{self, Read};
use std::time::Instant;

use model::check::check;
use model::lines::lines;
use model::machine::{run, Ending, Frame, Tables};

/// A job as it was read.
struct Job {
    numbers: [u32; 10],
    program: Vec<u8>,
    arguments: Vec<u8>,
}

fn read_job() -> io::Result<Job> {
    let mut input = io::stdin().lock();
    let mut numbers = [0; 10];
    for number in &mut numbers {
        let mut bytes = [0; 4];
        input.read_exact(&mut bytes)?;
        *number = u32::from_le_bytes(bytes);
    }
    let mut program = vec![0; numbers[2] as usize];
    input.read_exact(&mut program)?;
    let mut arguments = vec![0; numbers[3] as usize];
    input.read_exact(&mut arguments)?;
    Ok(Job {
        numbers,
        program,
        arguments,
    })
}

/// 100 for each check that accepts, else the refusal's number.
fn checks(job: &Job) -> u64 {
    let mut sum = 0;
    for _ in 0..job.numbers[1] {
        sum += match check(black_box(&job.program)) {
            Ok(_) => 100,
            Err(refusal) => u64::from(refusal.number),
        };
    }
    sum
}

/// The steps of each run, with 100 for a result, 101 for one that gave up, else the refusal's number.
fn runs(job: &Job, tables: &mut Tables, out: &mut [u8]) -> u64 {
    let mut sum = 0;
    for _ in 0..job.numbers[1] {
        let answer = run(
            black_box(&job.program),
            job.numbers[4],
            black_box(&job.arguments),
            job.numbers[5],
            tables,
            out,
        );
        sum += u64::from(answer.steps)
            + match answer.ending {
                Ending::Figure(_) => 100,
                Ending::GaveUp => 101,
                Ending::Refused(refusal) => u64::from(refusal.number),
            };
    }
    sum
}

/// The length of each list, else the refusal's number.
fn surveys(job: &Job, out: &mut [u8]) -> u64 {
    let mut sum = 0;
    for _ in 0..job.numbers[1] {
        let answer = lines(
            black_box(&job.program),
            black_box(&job.arguments),
            job.numbers[4] as u8,
            job.numbers[5] as u8,
            black_box(out),
        );
        sum += match answer {
            Ok(length) => length as u64,
            Err(refusal) => u64::from(refusal.number),
        };
    }
    sum
}

fn main() -> io::Result<()> {
    let job = read_job()?;
    let mut cells = vec![0; job.numbers[6] as usize];
    let mut stack = vec![0; job.numbers[7] as usize];
    let mut frames = vec![Frame::default(); job.numbers[8] as usize / 3];
    let mut out = vec![0; job.numbers[9] as usize];
    let mut tables = Tables {
        cells: &mut cells,
        stack: &mut stack,
        frames: &mut frames,
    };
    let before = Instant::now();
    let sum = match job.numbers[0] {
        1 => checks(&job),
        2 => runs(&job, &mut tables, &mut out),
        _ => surveys(&job, &mut out),
    };
    println!("{} {sum}", before.elapsed().as_nanos());
    Ok(())
}
