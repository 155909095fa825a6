//! "Modes": the codes, Ask 5's two among them, and the span that a frame write covers in each. Lines have none: they walk.

use super::Write;

pub const SIMPLE: u32 = 0x00;
pub const OPAQUE_STIPPLE: u32 = 0x01;
pub const TRANSPARENT_STIPPLE: u32 = 0x05;
pub const OPAQUE_FILL: u32 = 0x21;
pub const TRANSPARENT_FILL: u32 = 0x45;
pub const BLOCK_STIPPLE: u32 = 0x0D;
pub const BLOCK_FILL: u32 = 0x2D;
pub const COPY: u32 = 0x07;
pub const OPAQUE_LINE: u32 = 0x02;
pub const TRANSPARENT_LINE: u32 = 0x06;

/// Ask 5: "the cap bit, mode bit 15"
const CAP: u32 = 0x8000;

/// Number 5: the register as a whole must be one of the codes, so bits 31:7 are clear in every good value; but Ask 5: "The mode
/// check (5) now allows bit 15 in these modes only."
pub fn is_listed(value: u32) -> bool {
    matches!(
        value,
        SIMPLE
            | OPAQUE_STIPPLE
            | TRANSPARENT_STIPPLE
            | OPAQUE_FILL
            | TRANSPARENT_FILL
            | BLOCK_STIPPLE
            | BLOCK_FILL
            | COPY
    ) || is_line(value)
}

/// Opaque line, with the cap bit or without it.
pub fn is_opaque_line(mode: u32) -> bool {
    mode == OPAQUE_LINE || mode == OPAQUE_LINE + CAP
}

fn is_transparent_line(mode: u32) -> bool {
    mode == TRANSPARENT_LINE || mode == TRANSPARENT_LINE + CAP
}

/// "the two line modes"
pub fn is_line(mode: u32) -> bool {
    is_opaque_line(mode) || is_transparent_line(mode)
}

/// Whether the cap bit of a line mode is set.
pub fn is_capped(mode: u32) -> bool {
    mode == OPAQUE_LINE + CAP || mode == TRANSPARENT_LINE + CAP
}

pub fn is_fill(mode: u32) -> bool {
    mode == OPAQUE_FILL || mode == TRANSPARENT_FILL || mode == BLOCK_FILL
}

pub fn is_block(mode: u32) -> bool {
    mode == BLOCK_STIPPLE || mode == BLOCK_FILL
}

/// The pixels that a write covers, masked or not, and the address that must lie on a boundary.
pub struct Span {
    pub address: u64,
    pub boundary: u64,
    pub first: u64,
    pub pixels: u64,
}

/// Data bits 17:16 of a fill or a line.
pub fn low(write: Write) -> u64 {
    u64::from(write.data >> 16) % 4
}

/// "Frame addresses are multiples of 4, in copy mode of 8." In any mode but the two line modes.
pub fn frame_span(mode: u32, write: Write) -> Span {
    let address = u64::from(write.address);
    let boundary = if mode == COPY { 8 } else { 4 };
    let (first, pixels) = if mode == SIMPLE {
        (address, 4)
    } else if is_fill(mode) {
        // "data bits 10:0 are pixel count less one, bits 17:16 are added to the address"
        (address + low(write), u64::from(write.data) % 2048 + 1)
    } else {
        (address, 32)
    };
    Span {
        address,
        boundary,
        first,
        pixels,
    }
}

/// "for the 64-byte copy of 64": the data written is the address.
pub fn copy64_span(write: Write) -> Span {
    let address = u64::from(write.data);
    Span {
        address,
        boundary: 64,
        first: address,
        pixels: 64,
    }
}
