//! "Registers": the offsets, Ask 5's among them, what an accepted register write leaves, and what a read gives.

use super::{draw, Card, Write};

#[derive(Clone, Copy, PartialEq, Eq, Debug)]
pub enum Register {
    Foreground,
    Background,
    Plane,
    PixelOnce,
    Mode,
    Raster,
    Shift,
    /// Bresenham 1, 2 or 3, from 0.
    Bresenham(usize),
    Continue,
    PixelLasting,
    Data,
    Block(usize),
    Source,
    Destination,
}

/// The table of offsets.
pub fn at(offset: u32) -> Option<Register> {
    match offset {
        0x0020 => Some(Register::Foreground),
        0x0024 => Some(Register::Background),
        0x0028 => Some(Register::Plane),
        0x002C => Some(Register::PixelOnce),
        0x0030 => Some(Register::Mode),
        0x0034 => Some(Register::Raster),
        0x0038 => Some(Register::Shift),
        0x0040 => Some(Register::Bresenham(0)),
        0x0044 => Some(Register::Bresenham(1)),
        0x0048 => Some(Register::Bresenham(2)),
        0x004C => Some(Register::Continue),
        0x005C => Some(Register::PixelLasting),
        0x0080 => Some(Register::Data),
        0x0140 => Some(Register::Block(0)),
        0x0144 => Some(Register::Block(1)),
        0x0148 => Some(Register::Block(2)),
        0x014C => Some(Register::Block(3)),
        0x0150 => Some(Register::Block(4)),
        0x0154 => Some(Register::Block(5)),
        0x0158 => Some(Register::Block(6)),
        0x015C => Some(Register::Block(7)),
        0x0160 => Some(Register::Source),
        0x0164 => Some(Register::Destination),
        _ => None,
    }
}

/// Ask 5: "new registers ... drop unnamed bits". Bresenham 1 and 2 have none; in Bresenham 3 they are bits 14:4, between the
/// initial error and the length.
fn named_bits(i: usize, value: u32) -> u32 {
    if i == 2 {
        value & 0xFFFF_800F
    } else {
        value
    }
}

/// An accepted register write that is no continue; the count is 0 unless it draws.
pub fn accept(card: &mut Card, vram: &mut [u8], write: Write) -> u32 {
    match at(write.address).expect("an accepted register write has a register") {
        Register::Foreground => card.foreground = write.data,
        Register::Background => card.background = write.data,
        Register::Plane => card.plane = write.data,
        Register::PixelOnce => {
            // "A write at 002Ch also marks it one-shot"
            card.pixel = write.data;
            card.marked = 1;
        }
        Register::Mode => card.mode = write.data,
        // "Raster-operation bits 31:12 and 7:4 ... are ignored and read as zero."
        Register::Raster => card.raster = write.data % 16,
        // "A pixel-shift write returns the direction to read source"; its own value can only be 0.
        Register::Shift => card.writing = 0,
        Register::Bresenham(i) => card.bresenham[i] = named_bits(i, write.data),
        Register::Continue => unreachable!("a continue is drawn as a line"),
        Register::PixelLasting => {
            // "a write at 005Ch unmarks it"
            card.pixel = write.data;
            card.marked = 0;
        }
        Register::Data => card.data = write.data,
        Register::Block(i) => card.block[i] = write.data,
        Register::Source => draw::load64(card, vram, write),
        Register::Destination => return draw::unload64(card, vram, write),
    }
    0
}

/// A register read: number and value. "Reading an offset not listed, 0160h or 0164h answers 4 with the number 0." So does a
/// continue, which is "write only".
pub fn read_register(card: &Card, offset: u32) -> (u32, u32) {
    match at(offset) {
        Some(Register::Foreground) => (0, card.foreground),
        Some(Register::Background) => (0, card.background),
        Some(Register::Plane) => (0, card.plane),
        Some(Register::PixelOnce) | Some(Register::PixelLasting) => (0, card.pixel),
        Some(Register::Mode) => (0, card.mode),
        // Also of a card handed in with other bits.
        Some(Register::Raster) => (0, card.raster % 16),
        Some(Register::Shift) => (0, 0),
        Some(Register::Bresenham(i)) => (0, named_bits(i, card.bresenham[i])),
        Some(Register::Data) => (0, card.data),
        Some(Register::Block(i)) => (0, card.block[i]),
        Some(Register::Source) | Some(Register::Destination) | Some(Register::Continue) | None => {
            (4, 0)
        }
    }
}
