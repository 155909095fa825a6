//! "Traces": starting, appending, checking and running them, as the scope paper says, with the limit that Ask 6 gives.

use super::refusal::{bad_form, bad_length};
use super::{Card, Write};

pub const HEADER: usize = 16;
pub const ENTRY: usize = 12;
/// Ask 6: "Raise the limit to 65,536 everywhere"
pub const MOST_ENTRIES: u64 = 65_536;

/// What a run gives back; `rest` is where the unread part begins in the part. Ask 6: "the run's pixel total then never exceeds
/// 134,217,728", so none of these wraps.
#[derive(Clone, Copy, PartialEq, Eq, Debug)]
pub struct Ran {
    pub number: u32,
    pub entries: u32,
    pub pixels: u32,
    pub changed: u32,
    pub rest: u32,
}

pub(super) fn word(bytes: &[u8], at: usize) -> u32 {
    u32::from_le_bytes([bytes[at], bytes[at + 1], bytes[at + 2], bytes[at + 3]])
}

fn put(bytes: &mut [u8], at: usize, value: u32) {
    bytes[at..at + 4].copy_from_slice(&value.to_le_bytes());
}

/// One entry: space, lanes, two zero bytes, address, data.
pub fn put_entry(bytes: &mut [u8], at: usize, write: Write) {
    bytes[at] = write.space;
    bytes[at + 1] = write.lanes;
    bytes[at + 2] = 0;
    bytes[at + 3] = 0;
    put(bytes, at + 4, write.address);
    put(bytes, at + 8, write.data);
}

pub fn entry(bytes: &[u8], at: usize) -> Write {
    Write {
        space: bytes[at],
        lanes: bytes[at + 1],
        address: word(bytes, at + 4),
        data: word(bytes, at + 8),
    }
}

/// Header of 16 bytes: count, offset of entries, VRAM length, total length.
pub fn put_header(bytes: &mut [u8], count: u32, length: u32) {
    put(bytes, 0, count);
    put(bytes, 4, HEADER as u32);
    put(bytes, 8, length);
    put(bytes, 12, HEADER as u32 + ENTRY as u32 * count);
}

/// Starting a trace: "1, then 11 if the buffer has under 16".
pub fn start(buffer: &mut [u8], length: u32) -> (u32, u32) {
    if bad_length(u64::from(length)) {
        return (1, 0);
    }
    if buffer.len() < HEADER {
        return (11, 0);
    }
    put_header(buffer, 0, length);
    (0, HEADER as u32)
}

/// Appending to the trace in the first `used` bytes: 10, 2, 11 in this order.
pub fn append(buffer: &mut [u8], used: usize, write: Write) -> (u32, u32) {
    if used > buffer.len() || check(&buffer[..used]).0 != 0 {
        return (10, 0);
    }
    if bad_form(write) {
        return (2, 0);
    }
    let count = word(buffer, 0);
    if buffer.len() - used < ENTRY || u64::from(count) == MOST_ENTRIES {
        return (11, 0);
    }
    put_entry(buffer, used, write);
    put_header(buffer, count + 1, word(buffer, 8));
    (0, (used + ENTRY) as u32)
}

/// Reading a trace: its number and VRAM length. The entries are what follows the header.
pub fn check(bytes: &[u8]) -> (u32, u32) {
    if is_trace(bytes) {
        (0, word(bytes, 8))
    } else {
        (10, 0)
    }
}

fn is_trace(bytes: &[u8]) -> bool {
    if bytes.len() < HEADER {
        return false;
    }
    let count = u64::from(word(bytes, 0));
    let offset = word(bytes, 4);
    let length = u64::from(word(bytes, 8));
    let total = u64::from(word(bytes, 12));
    // "The total must equal 16 + 12 times the count and the lent length."
    count <= MOST_ENTRIES
        && offset == 16
        && !bad_length(length)
        && total == 16 + 12 * count
        && total == bytes.len() as u64
        && are_entries(&bytes[HEADER..])
}

/// Document 01 with Ask 6's number: "10 if it isn't whole entries, has a nonzero pad byte, or exceeds 65,536 entries"
fn are_entries(part: &[u8]) -> bool {
    part.len().is_multiple_of(ENTRY)
        && (part.len() / ENTRY) as u64 <= MOST_ENTRIES
        && part
            .chunks(ENTRY)
            .all(|entry| entry[2] == 0 && entry[3] == 0)
}

/// "It draws until the budget or the part ends, or a write is refused."
pub fn run(part: &[u8], card: &mut Card, vram: &mut [u8], budget: u32) -> Ran {
    let mut ran = Ran {
        number: 0,
        entries: 0,
        pixels: 0,
        changed: 0,
        rest: 0,
    };
    if !are_entries(part) {
        ran.number = 10;
        return ran;
    }
    if bad_length(vram.len() as u64) {
        ran.number = 1;
        return ran;
    }
    while ran.entries < budget && (ran.rest as usize) < part.len() {
        let answer = super::write(card, vram, entry(part, ran.rest as usize));
        if answer.number != 0 {
            ran.number = answer.number;
            return ran;
        }
        ran.entries += 1;
        ran.pixels += answer.pixels;
        // Ask 4: "every mode, run and serial reader sums it, so a pixel changed twice in a run counts twice"
        ran.changed += answer.changed;
        ran.rest += ENTRY as u32;
    }
    ran
}
