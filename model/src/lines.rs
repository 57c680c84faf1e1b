//! Survey lines: a logger's text, one find a line, turned into a list argument by a table of letters.

use crate::Refusal;

/// An entry of the table, which is three letters and a constructor, or a line, which is three letters
/// and its end.
type Four = [u8; 4];

/// A letter counted from A takes five bits, so three of them number a place among so many.
const PLACES: usize = 1 << 15;
/// The code of letters that are not in the table. No constructor has it, since those are bytes.
const NONE: u16 = 256;

/// The letters of an entry or a line as numbers from 0 for A, and in the highest byte what is behind
/// them, 0 for a line's end. A byte that is too small borrows from those above it, and is itself then
/// too large, so that only in four bytes that are wrong others are spoilt.
fn from_a(four: &Four) -> u32 {
    u32::from_le_bytes(*four).wrapping_sub(u32::from_le_bytes(*b"AAA\n"))
}

/// Zero if the letters are at most 25: 102 more of each, which is 127 at the most, shows in the bit
/// above. Numbers rather than truth values are quickly gathered over many entries.
fn not_capitals(letters: u32) -> u32 {
    (letters | letters.wrapping_add(0x0066_6666)) & 0x0080_8080
}

/// The place of three letters.
fn place(letters: u32) -> usize {
    ((letters & 31) << 10 | (letters >> 8 & 31) << 5 | (letters >> 16 & 31)) as usize
}

/// The entries of a table, if they are whole and all their letters are capitals.
fn entries(table: &[u8]) -> Option<&[Four]> {
    let (entries, rest) = table.as_chunks();
    let wrong = entries
        .iter()
        .fold(0, |wrong, entry| wrong | not_capitals(from_a(entry)));
    (wrong == 0 && rest.is_empty()).then_some(entries)
}

/// The code at each place. The last entry is put down first, so that the earlier of two counts.
fn codes(entries: &[Four]) -> [u16; PLACES] {
    let mut codes = [NONE; PLACES];
    for entry in entries.iter().rev() {
        codes[place(from_a(entry))] = u16::from(entry[3]);
    }
    codes
}

/// The code of a line, which is [`NONE`] for a malformed one too.
fn code(codes: &[u16; PLACES], line: &Four) -> u16 {
    let letters = from_a(line);
    if not_capitals(letters) | letters >> 24 == 0 {
        codes[place(letters)]
    } else {
        NONE
    }
}

/// The list of a text's lines. All lines before the first wrong one have four bytes, so that it begins
/// at a multiple of four, be it a whole four bytes or what is left behind the last of them.
fn list(text: &[u8], codes: &[u16; PLACES], cons: u8, nil: u8) -> Result<Vec<u8>, Refusal> {
    let (lines, rest) = text.as_chunks();
    let mut list = vec![nil; 2 * lines.len() + 1];
    let pairs = list.as_chunks_mut().0;
    for (before, (line, pair)) in lines.iter().zip(pairs).enumerate() {
        let code = code(codes, line);
        if code == NONE {
            return Err(Refusal::new(20, before + 1, 0));
        }
        *pair = [cons, code as u8];
    }
    if rest.is_empty() {
        Ok(list)
    } else {
        Err(Refusal::new(20, lines.len() + 1, 0))
    }
}

/// Writes the list of a text's lines to the output's front and gives its length.
pub fn lines(
    text: &[u8],
    table: &[u8],
    cons: u8,
    nil: u8,
    out: &mut [u8],
) -> Result<usize, Refusal> {
    let entries = entries(table).filter(|_| cons != nil);
    let codes = codes(entries.ok_or(Refusal::new(19, 0, 0))?);
    let list = list(text, &codes, cons, nil)?;
    let room = out
        .get_mut(..list.len())
        .ok_or(Refusal::new(13, list.len(), 0))?;
    room.copy_from_slice(&list);
    Ok(list.len())
}
