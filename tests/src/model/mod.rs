//! A reference model of the scope paper, as Asks 1, 2 and 4 to 6 of the change requests amend it, written from the papers alone:
//! slow, bit by bit, and sharing nothing with the engine.
//! Addresses and lengths are handled as u64, and a line's places and errors as i64, so nothing wraps.

pub mod card;
pub mod draw;
pub mod line;
pub mod mode;
pub mod pixel;
pub mod refusal;
pub mod register;
pub mod serial;
pub mod trace;

pub use card::{reset, Card};
pub use register::read_register;

/// One write as a console sends it.
#[derive(Clone, Copy, PartialEq, Eq, Debug)]
pub struct Write {
    pub space: u8,
    pub lanes: u8,
    pub address: u32,
    pub data: u32,
}

pub const FRAME: u8 = 0;
pub const REGISTER: u8 = 1;

/// What one write answers.
#[derive(Clone, Copy, PartialEq, Eq, Debug)]
pub struct Answer {
    pub number: u32,
    /// The pixels enabled, "whether or not a bit changes"; of a line, the "visits that draw".
    pub pixels: u32,
    /// The pixels that really changed; of a line, the visits that draw and "change the byte".
    pub changed: u32,
}

/// "The card we stand in for": one write, and its answer.
pub fn write(card: &mut Card, vram: &mut [u8], write: Write) -> Answer {
    let number = refusal::number(card, vram.len() as u64, write);
    if number != 0 {
        // "A refusal returns count 0 and changes no card state and no VRAM byte."
        // Ask 4: "It is 0 for a refused write"
        return Answer {
            number,
            pixels: 0,
            changed: 0,
        };
    }
    let answer = match line::walk(card, write) {
        Some(walk) => line::draw(card, vram, write, &walk),
        None => no_line(card, vram, write),
    };
    if write.space == FRAME {
        draw::use_up_mask(card);
    }
    answer
}

/// An accepted write that is neither a line nor a continue.
fn no_line(card: &mut Card, vram: &mut [u8], write: Write) -> Answer {
    let before = vram.to_vec();
    let pixels = if write.space == FRAME {
        draw::frame(card, vram, write)
    } else {
        register::accept(card, vram, write)
    };
    Answer {
        number: 0,
        pixels,
        changed: differing(&before, vram),
    }
}

/// Ask 4: "the number of pixels whose stored byte differs after a write". The whole picture before is held against the whole
/// picture after, whatever was drawn between them. Such a write draws no pixel twice; a line may, and counts for itself.
pub fn differing(before: &[u8], after: &[u8]) -> u32 {
    let pairs = before.iter().zip(after);
    pairs.filter(|(old, new)| old != new).count() as u32
}

/// "Modes", last paragraph: read-back of n pixels from address a, its number only.
pub fn read_back(length: u64, a: u64, n: u64) -> u32 {
    if refusal::bad_length(length) {
        1
    } else if u128::from(a) + u128::from(n) > u128::from(length) {
        8
    } else {
        0
    }
}
