//! The container: blocks of 512 bytes, each with its number, a used count, payload and a check.

use std::borrow::Cow;

use crate::Refusal;

/// Bytes in a block.
pub const BLOCK: usize = 512;
/// Payload bytes in a block.
pub const ROOM: usize = 504;
/// The most blocks a file has.
pub const MOST_BLOCKS: usize = 64;

/// Where the payload starts in a block.
const FRONT: usize = 4;
/// Where the check starts in a block.
const CHECK: usize = FRONT + ROOM;

/// What each byte of a block counts in its check: its place from 1, and 0 for the check itself. Sixteen bits
/// are enough, and products of such numbers are summed several at a time.
const PLACES: [i16; BLOCK] = places();

const fn places() -> [i16; BLOCK] {
    let mut places = [0; BLOCK];
    let mut at = 0;
    while at < CHECK {
        places[at] = at as i16 + 1;
        at += 1;
    }
    places
}

/// The sum over a block's bytes of byte times place.
fn checksum(block: &[u8; BLOCK]) -> u32 {
    let products = block.iter().zip(&PLACES);
    let sum: i32 = products
        .map(|(&byte, &place)| i32::from(byte) * i32::from(place))
        .sum();
    sum as u32
}

/// Whether all bytes are zero. All are looked at, which is faster than stopping at the first that is not.
fn all_zero(bytes: &[u8]) -> bool {
    bytes.iter().fold(0, |seen, &byte| seen | byte) == 0
}

/// Two bytes as a number, low byte first.
fn word(bytes: &[u8]) -> usize {
    usize::from(u16::from_le_bytes([bytes[0], bytes[1]]))
}

/// Whether a used count is right for a block.
fn used_right(used: usize, is_last: bool) -> bool {
    if is_last {
        (1..=ROOM).contains(&used)
    } else {
        used == ROOM
    }
}

/// Verifies one block and gives its used count.
fn verify_block(block: &[u8; BLOCK], number: usize, is_last: bool) -> Result<usize, Refusal> {
    let stored = u32::from_le_bytes([block[CHECK], block[509], block[510], block[511]]);
    if checksum(block) != stored {
        return Err(Refusal::new(2, number, 0));
    }
    let used = word(&block[2..]);
    let right =
        word(block) == number && used_right(used, is_last) && all_zero(&block[FRONT + used..CHECK]);
    if right {
        Ok(used)
    } else {
        Err(Refusal::new(3, number, 0))
    }
}

/// Verifies a file's blocks and gives the payload's length.
pub fn verify(file: &[u8]) -> Result<usize, Refusal> {
    let blocks = file.len() / BLOCK;
    if file.is_empty() || !file.len().is_multiple_of(BLOCK) || blocks > MOST_BLOCKS {
        return Err(Refusal::new(1, 0, 0));
    }
    let mut length = 0;
    for (number, block) in file.as_chunks().0.iter().enumerate() {
        length += verify_block(block, number, number + 1 == blocks)?;
    }
    Ok(length)
}

/// The payload of a file, which stands in one piece where there is only one block.
pub fn payload(file: &[u8]) -> Result<Cow<'_, [u8]>, Refusal> {
    let length = verify(file)?;
    if file.len() == BLOCK {
        return Ok(Cow::Borrowed(&file[FRONT..FRONT + length]));
    }
    let mut payload = Vec::with_capacity(file.len());
    for block in file.chunks_exact(BLOCK) {
        payload.extend_from_slice(&block[FRONT..CHECK]);
    }
    payload.truncate(length);
    Ok(Cow::Owned(payload))
}

/// Writes a file's payload to the output's front and gives its length.
pub fn unpack(file: &[u8], out: &mut [u8]) -> Result<usize, Refusal> {
    let payload = payload(file)?;
    let room = out
        .get_mut(..payload.len())
        .ok_or(Refusal::new(13, payload.len(), 0))?;
    room.copy_from_slice(&payload);
    Ok(payload.len())
}

/// Writes one block around its part of the payload.
fn write_block(number: usize, part: &[u8], block: &mut [u8; BLOCK]) {
    block.fill(0);
    block[..2].copy_from_slice(&(number as u16).to_le_bytes());
    block[2..FRONT].copy_from_slice(&(part.len() as u16).to_le_bytes());
    block[FRONT..FRONT + part.len()].copy_from_slice(part);
    let check = checksum(block);
    block[CHECK..].copy_from_slice(&check.to_le_bytes());
}

/// Writes a payload's blocks to the output's front and gives their length.
pub fn pack(payload: &[u8], out: &mut [u8]) -> Result<usize, Refusal> {
    if payload.is_empty() || payload.len() > MOST_BLOCKS * ROOM {
        return Err(Refusal::new(18, 0, 0));
    }
    let needed = payload.len().div_ceil(ROOM) * BLOCK;
    let room = out.get_mut(..needed).ok_or(Refusal::new(13, needed, 0))?;
    let blocks = room.as_chunks_mut().0;
    for (number, (part, block)) in payload.chunks(ROOM).zip(blocks).enumerate() {
        write_block(number, part, block);
    }
    Ok(needed)
}
