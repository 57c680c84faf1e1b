//! Answers commands on standard input, one a line, with one line each.
//!
//! Bytes are lowercase hexadecimal, `-` for none; other words are decimal. Lent tables are filled with
//! a pattern before a run, and what the answer says of them was found by looking.

use std::fmt::Write as _;
use std::io::{self, BufRead, BufWriter, Write};

use model::check::check;
use model::container::{pack, unpack};
use model::lines::lines;
use model::machine::{run, Ending, Frame, Tables};
use model::Refusal;

/// Every number of a lent table before a run.
const NUMBER: u16 = 0xa5a5;
/// Every byte of a lent output before a call.
const BYTE: u8 = 0xa5;
/// Every record of a lent frame table before a run.
const FRAME: Frame = Frame {
    function: NUMBER,
    instruction: NUMBER,
    height: NUMBER,
};

fn from_hex(word: &str) -> Option<Vec<u8>> {
    if word == "-" {
        return Some(Vec::new());
    }
    let digits: Option<Vec<u32>> = word.chars().map(|c| c.to_digit(16)).collect();
    let digits = digits?;
    (digits.len() % 2 == 0).then(|| {
        digits
            .chunks(2)
            .map(|pair| (pair[0] * 16 + pair[1]) as u8)
            .collect()
    })
}

fn to_hex(bytes: &[u8]) -> String {
    if bytes.is_empty() {
        return "-".to_string();
    }
    let mut text = String::with_capacity(2 * bytes.len());
    for byte in bytes {
        write!(text, "{byte:02x}").expect("a string takes all");
    }
    text
}

fn refused(refusal: Refusal) -> String {
    format!(
        "refused {} {} {}",
        refusal.number, refusal.first, refusal.second
    )
}

/// What was written to an output's front, or the refusal, which must have left the output alone.
fn copied(word: &str, result: Result<usize, Refusal>, out: &[u8]) -> String {
    let written = result.unwrap_or(0);
    if out[written..].iter().any(|&byte| byte != BYTE) {
        return "output changed".to_string();
    }
    match result {
        Ok(length) => format!("{word} {}", to_hex(&out[..length])),
        Err(refusal) => refused(refusal),
    }
}

/// What was found in a table: as filled, or its first `usable` entries zero and the rest as filled.
/// A table with no usable entry says neither.
fn was_wiped<T: PartialEq>(
    table: &[T],
    usable: usize,
    filled: &T,
    zero: &T,
) -> Result<Option<bool>, ()> {
    let (front, rest) = table.split_at(usable);
    if rest.iter().any(|entry| entry != filled) {
        Err(())
    } else if front.is_empty() {
        Ok(None)
    } else if front.iter().all(|entry| entry == filled) {
        Ok(Some(false))
    } else if front.iter().all(|entry| entry == zero) {
        Ok(Some(true))
    } else {
        Err(())
    }
}

/// Whether a run had begun, by what all three tables hold.
fn begun(cells: &[u16], stack: &[u16], frames: &[Frame]) -> &'static str {
    let usable_cells = 5 * (cells.len() / 5).min(65_471);
    let found = [
        was_wiped(cells, usable_cells, &NUMBER, &0),
        was_wiped(stack, stack.len().min(65_535), &NUMBER, &0),
        was_wiped(frames, frames.len().min(65_535), &FRAME, &Frame::default()),
    ];
    let said: Result<Vec<Option<bool>>, ()> = found.into_iter().collect();
    let Ok(said) = said else {
        return "tables spoilt";
    };
    let mut said = said.into_iter().flatten();
    let first = said.next().unwrap_or(false);
    match (said.all(|other| other == first), first) {
        (true, true) => "1",
        (true, false) => "0",
        (false, _) => "tables differ",
    }
}

fn answer_run(words: &[&str]) -> Option<String> {
    let file = from_hex(words[1])?;
    let arguments = from_hex(words[3])?;
    let length = |k: usize| words[k].parse::<usize>().ok();
    let mut cells = vec![NUMBER; length(5)?];
    let mut stack = vec![NUMBER; length(6)?];
    let mut frames = vec![FRAME; length(7)?];
    let mut out = vec![BYTE; length(8)?];
    let mut tables = Tables {
        cells: &mut cells,
        stack: &mut stack,
        frames: &mut frames,
    };
    let entry = words[2].parse().ok()?;
    let budget = words[4].parse().ok()?;
    let answer = run(&file, entry, &arguments, budget, &mut tables, &mut out);
    let (said, written) = match answer.ending {
        Ending::Figure(length) => (format!("figure {}", to_hex(&out[..length])), length),
        Ending::GaveUp => ("gaveup".to_string(), 0),
        Ending::Refused(refusal) => (refused(refusal), 0),
    };
    if out[written..].iter().any(|&byte| byte != BYTE) {
        return Some("output changed".to_string());
    }
    let begun = begun(&cells, &stack, &frames);
    Some(format!("{said} {} {begun}", answer.steps))
}

fn answer_lines(words: &[&str]) -> Option<String> {
    let text = from_hex(words[1])?;
    let table = from_hex(words[2])?;
    let constructor = |k: usize| words[k].parse::<u8>().ok();
    let mut out = vec![BYTE; words[5].parse().ok()?];
    let result = lines(&text, &table, constructor(3)?, constructor(4)?, &mut out);
    Some(copied("lines", result, &out))
}

fn answer(line: &str) -> Option<String> {
    let words: Vec<&str> = line.split(' ').collect();
    match (words[0], words.len()) {
        ("pack", 3) => {
            let mut out = vec![BYTE; words[2].parse().ok()?];
            let result = pack(&from_hex(words[1])?, &mut out);
            Some(copied("packed", result, &out))
        }
        ("unpack", 3) => {
            let mut out = vec![BYTE; words[2].parse().ok()?];
            let result = unpack(&from_hex(words[1])?, &mut out);
            Some(copied("unpacked", result, &out))
        }
        ("check", 2) => Some(match check(&from_hex(words[1])?) {
            Ok(c) => format!("accepted {} {} {}", c.types, c.constructors, c.functions),
            Err(refusal) => refused(refusal),
        }),
        ("run", 9) => answer_run(&words),
        ("lines", 6) => answer_lines(&words),
        _ => None,
    }
}

fn main() -> io::Result<()> {
    let mut out = BufWriter::new(io::stdout().lock());
    for line in io::stdin().lock().lines() {
        let said = answer(&line?).unwrap_or_else(|| "bad command".to_string());
        writeln!(out, "{said}")?;
    }
    out.flush()
}
