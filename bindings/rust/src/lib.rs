//! The drawing engine of the DECchip 21030 (TGA card, 8 bits per pixel), for hosts in Rust: safe calls of the proved library.
//! include/zevkholtai.h says what each promises. A host keeps the card and its video memory, and lends them to each call:
//!
//! ```
//! use zevkholtai::{mode, register, Card, Write};
//!
//! let mut vram = vec![0; 65_536];
//! let mut card = Card::reset(0x80); // plane 7 is held
//! card.write(Write::register(register::MODE, mode::TRANSPARENT_STIPPLE), &mut vram);
//! card.write(Write::register(register::FOREGROUND, 0x40404040), &mut vram);
//! let answer = card.write(Write::frame(256, 0xF0F0_F0F0), &mut vram);
//! assert_eq!((answer.number, answer.count), (0, 16));
//! assert_eq!(card.read(register::FOREGROUND).value, 0x40404040);
//! ```

pub mod entries;
mod layout;
mod names;

pub use layout::*;
pub use names::{mode, number, operation, register, space};

use entries::*;

/// ZEVKHOLTAI_VERSION of the header that this goes with.
pub const VERSION: u32 = 1;
/// The largest number of pixels, and so of bytes, that video memory may have.
pub const LARGEST_VRAM: usize = 2_097_152;
/// The bytes of a trace's header and of each of its entries, and how many entries it may have.
pub const HEADER: usize = 16;
pub const ENTRY: usize = 12;
pub const MOST_ENTRIES: usize = 65_536;

/// One write, as the bus delivers it.
#[derive(Clone, Copy, PartialEq, Eq, Debug)]
pub struct Write {
    pub space: u8,
    pub lanes: u8,
    pub address: u32,
    pub data: u32,
}

impl Write {
    /// A write in the frame space, on all four lanes.
    pub fn frame(address: u32, data: u32) -> Write {
        Write {
            space: space::FRAME as u8,
            lanes: 15,
            address,
            data,
        }
    }

    /// A write in the register space.
    pub fn register(address: u32, data: u32) -> Write {
        Write {
            space: space::REGISTER as u8,
            ..Write::frame(address, data)
        }
    }
}

impl Card {
    /// Every register and mark at reset, with the planes that are 1 in `held` held.
    pub fn reset(held: u8) -> Card {
        let mut card = Card::from_bytes([0; CARD_SIZE]);
        card.set_at_reset(held);
        card
    }

    /// The same, in place.
    pub fn set_at_reset(&mut self, held: u8) {
        unsafe { zevkholtai_reset(self, held) }
    }

    /// One write.
    pub fn write(&mut self, write: Write, vram: &mut [u8]) -> Answer {
        let (place, length) = (vram.as_mut_ptr(), vram.len());
        let Write {
            space,
            lanes,
            address,
            data,
        } = write;
        unsafe { zevkholtai_write(self, space, lanes, address, data, place, length) }
    }

    /// One register read.
    pub fn read(&self, offset: u32) -> Reading {
        unsafe { zevkholtai_read(*self, offset) }
    }

    /// The writes of a part of a trace's entries, until the budget or the part ends or one is refused.
    pub fn run(&mut self, part: &[u8], vram: &mut [u8], budget: u32) -> Ran {
        let (bytes, size) = (part.as_ptr(), part.len());
        let (place, length) = (vram.as_mut_ptr(), vram.len());
        unsafe { zevkholtai_run(self, bytes, size, place, length, budget) }
    }

    /// The card that was saved as these bytes. Every pattern of bytes is a card.
    pub fn from_bytes(bytes: [u8; CARD_SIZE]) -> Card {
        unsafe { std::mem::transmute(bytes) }
    }

    /// The card as bytes, to be saved.
    pub fn to_bytes(self) -> [u8; CARD_SIZE] {
        unsafe { std::mem::transmute(self) }
    }
}

/// The number of a read-back of n pixels from `address`, out of a video memory of this length: 0, 1 or 8.
pub fn read_back(length: usize, address: u32, n: u32) -> u32 {
    unsafe { zevkholtai_read_back(length, address, n) }
}

/// The raster operation that does at once what a and then b do.
pub fn compose(a: u8, b: u8) -> u8 {
    unsafe { zevkholtai_compose(a, b) }
}

/// Starts a trace for a video memory of this length.
pub fn start(buffer: &mut [u8], length: u32) -> Checked {
    unsafe { zevkholtai_start(buffer.as_mut_ptr(), buffer.len(), length) }
}

type OneMore = unsafe extern "C" fn(*mut u8, usize, usize, u8, u8, u32, u32) -> Checked;

fn one_more(entry: OneMore, buffer: &mut [u8], used: usize, write: Write) -> Checked {
    let (place, size) = (buffer.as_mut_ptr(), buffer.len());
    let Write {
        space,
        lanes,
        address,
        data,
    } = write;
    unsafe { entry(place, size, used, space, lanes, address, data) }
}

/// Appends a write to the trace in the buffer's first `used` bytes.
pub fn append(buffer: &mut [u8], used: usize, write: Write) -> Checked {
    one_more(zevkholtai_append, buffer, used, write)
}

/// Appends to what is known for a trace, at one cost however long it is.
pub fn extend(buffer: &mut [u8], used: usize, write: Write) -> Checked {
    one_more(zevkholtai_extend, buffer, used, write)
}

/// Whether the bytes are a trace, and the length of the video memory that it is for.
pub fn check(bytes: &[u8]) -> Checked {
    unsafe { zevkholtai_check(bytes.as_ptr(), bytes.len()) }
}

impl Default for Reader {
    fn default() -> Reader {
        Reader::new()
    }
}

impl Reader {
    pub fn new() -> Reader {
        unsafe { zevkholtai_new_reader() }
    }

    /// Reads a chunk, and draws each entry once it is whole.
    pub fn chunk(self, card: Card, bytes: &[u8], vram: &mut [u8]) -> Fed {
        let (place, length) = (vram.as_mut_ptr(), vram.len());
        unsafe { zevkholtai_chunk(self, card, bytes.as_ptr(), bytes.len(), place, length) }
    }

    /// Says that no more bytes come.
    pub fn end(self) -> Reader {
        unsafe { zevkholtai_end(self) }
    }
}
