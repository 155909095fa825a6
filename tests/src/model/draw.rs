//! "Modes": what accepted frame writes, but for lines, and 64-byte copies draw.

use super::mode::{self, Span};
use super::{pixel, Card, Write};

/// Raster operation 3 takes the source.
const TAKE_SOURCE: u32 = 3;

pub(super) fn set(word: u32, i: u64) -> bool {
    (u64::from(word) >> i) % 2 == 1
}

/// An accepted frame write of any mode but the two line modes.
pub fn frame(card: &mut Card, vram: &mut [u8], write: Write) -> u32 {
    let reads = card.mode == mode::COPY && card.writing == 0;
    let count = if reads {
        read_source(card, vram, write);
        0
    } else {
        draw_span(card, vram, write)
    };
    if card.mode == mode::COPY {
        // "Copy (07h): accepted writes alternate."
        card.writing = u32::from(reads);
    }
    count
}

/// "An accepted frame write of any mode, made while it is marked, sets it to all ones and unmarks it afterwards."
pub fn use_up_mask(card: &mut Card) {
    if card.marked != 0 {
        card.pixel = 0xFFFF_FFFF;
        card.marked = 0;
    }
}

/// Draws every enabled pixel of the span and counts them, "whether or not a bit changes".
fn draw_span(card: &Card, vram: &mut [u8], write: Write) -> u32 {
    let span = mode::frame_span(card.mode, write);
    // "Block modes ignore the raster operation and take the source."
    let operation = if mode::is_block(card.mode) {
        TAKE_SOURCE
    } else {
        card.raster
    };
    let mut count = 0;
    for i in 0..span.pixels {
        if let Some(source) = source(card, write, &span, i) {
            paint(card, vram, span.first + i, operation, source);
            count += 1;
        }
    }
    count
}

fn paint(card: &Card, vram: &mut [u8], p: u64, operation: u32, source: u8) {
    let old = vram[p as usize];
    vram[p as usize] = pixel::made(card, p, operation, source, old);
}

/// The source byte of pixel i of the span, or none where the pixel isn't enabled.
fn source(card: &Card, write: Write, span: &Span, i: u64) -> Option<u8> {
    let p = span.first + i;
    // Fills take their picking bit from the fill mask, all other modes from the data.
    let picked = if mode::is_fill(card.mode) {
        // Ask 1: "Pixel j must use mask bit (j + low) mod 32, where low is write data bits 17:16"
        set(card.data, (i + mode::low(write)) % 32)
    } else {
        set(write.data, i)
    };
    let foreground = pixel::byte_of(card.foreground, p % 4);
    let background = pixel::byte_of(card.background, p % 4);
    let chosen = if picked { foreground } else { background };
    match card.mode {
        mode::SIMPLE => {
            let enabled = set(u32::from(write.lanes), i) && set(card.pixel, i);
            enabled.then(|| pixel::byte_of(write.data, i))
        }
        mode::OPAQUE_STIPPLE => set(card.pixel, i).then_some(chosen),
        mode::OPAQUE_FILL => Some(chosen),
        mode::TRANSPARENT_STIPPLE | mode::TRANSPARENT_FILL => picked.then_some(foreground),
        mode::BLOCK_STIPPLE | mode::BLOCK_FILL => picked.then(|| block_byte(card, p)),
        mode::COPY => picked.then(|| card.buffer[i as usize]),
        _ => unreachable!("an accepted write has a listed mode"),
    }
}

/// "pixel p takes byte p mod 8 of block colours 0 and 1, colour 0 first"
fn block_byte(card: &Card, p: u64) -> u8 {
    let place = p % 8;
    if place < 4 {
        pixel::byte_of(card.block[0], place)
    } else {
        pixel::byte_of(card.block[1], place - 4)
    }
}

/// Copy, read source: "bytes 32 to 63 stay; the buffer becomes unloaded".
fn read_source(card: &mut Card, vram: &[u8], write: Write) {
    for i in 0..32 {
        let p = u64::from(write.address) + i;
        card.buffer[i as usize] = if set(write.data, i) {
            vram[p as usize]
        } else {
            0
        };
    }
    card.loaded = 0;
}

/// 64-byte copy: "Source loads 64 pixels and marks the buffer loaded".
pub fn load64(card: &mut Card, vram: &[u8], write: Write) {
    for i in 0..64 {
        card.buffer[i] = vram[write.data as usize + i];
    }
    card.loaded = 1;
}

/// 64-byte copy: "destination draws all 64 with raster operation and plane mask, while a block mode is set too, then unloads".
pub fn unload64(card: &mut Card, vram: &mut [u8], write: Write) -> u32 {
    for i in 0..64 {
        let source = card.buffer[i];
        paint(
            card,
            vram,
            u64::from(write.data) + i as u64,
            card.raster,
            source,
        );
    }
    card.loaded = 0;
    64
}
