//! A plain implementation of the scope paper and Asks 1, 4 and 5, written for speed in safe Rust, as the measure beside the engine in
//! `bench`. It uses the model's types of a card, a write and an answer, and shares none of its rules and tables; `model` checks that
//! both give the same.

mod draw;
mod line;
mod words;

use crate::model::{Answer, Card, Write};

const SIMPLE: u32 = 0x00;
const OPAQUE_STIPPLE: u32 = 0x01;
const OPAQUE_LINE: u32 = 0x02;
const TRANSPARENT_STIPPLE: u32 = 0x05;
const TRANSPARENT_LINE: u32 = 0x06;
const COPY: u32 = 0x07;
const BLOCK_STIPPLE: u32 = 0x0D;
const OPAQUE_FILL: u32 = 0x21;
const BLOCK_FILL: u32 = 0x2D;
const TRANSPARENT_FILL: u32 = 0x45;
/// A line mode may have this bit too: its last pixel is drawn.
const CAP: u32 = 0x8000;
const CAPPED_OPAQUE_LINE: u32 = OPAQUE_LINE | CAP;
const CAPPED_TRANSPARENT_LINE: u32 = TRANSPARENT_LINE | CAP;

/// The pixels of an accepted write.
struct Drawn {
    enabled: u32,
    changed: u32,
}

const NOTHING: Drawn = Drawn {
    enabled: 0,
    changed: 0,
};

/// What a write draws, or the number of the refusal.
type Outcome = Result<Drawn, u32>;

/// Bit v is set where v is the code of a mode other than a line mode.
const LISTED: u128 = 1 << SIMPLE
    | 1 << OPAQUE_STIPPLE
    | 1 << TRANSPARENT_STIPPLE
    | 1 << OPAQUE_FILL
    | 1 << TRANSPARENT_FILL
    | 1 << BLOCK_STIPPLE
    | 1 << BLOCK_FILL
    | 1 << COPY;

fn is_listed(mode: u32) -> bool {
    (mode < 128 && LISTED >> mode & 1 == 1) || is_line(mode)
}

/// The codes of the line modes differ in two bits.
fn is_line(mode: u32) -> bool {
    mode & !(CAP | OPAQUE_LINE ^ TRANSPARENT_LINE) == OPAQUE_LINE & TRANSPARENT_LINE
}

/// Of the line modes.
fn is_opaque(mode: u32) -> bool {
    mode & !CAP == OPAQUE_LINE
}

pub fn reset(held: u8) -> Card {
    Card {
        foreground: 0,
        background: 0,
        plane: u32::MAX,
        pixel: u32::MAX,
        mode: SIMPLE,
        raster: 3,
        data: 0,
        block: [0; 8],
        bresenham: [0; 3],
        buffer: [0; 64],
        marked: 0,
        loaded: 0,
        writing: 0,
        place: 0,
        error: 0,
        kept: 0,
        held: held.into(),
    }
}

/// One write and its answer. It is not inlined, as the engine's can't be.
#[inline(never)]
pub fn write(card: &mut Card, vram: &mut [u8], write: Write) -> Answer {
    let length = vram.len();
    let outcome = if length == 0 || !length.is_multiple_of(64) || length > 1 << 21 {
        Err(1)
    } else if write.space > 1 || write.lanes > 15 {
        Err(2)
    } else if write.space == 0 {
        frame(card, vram, write)
    } else {
        register(card, vram, write)
    };
    let (number, drawn) = match outcome {
        Ok(drawn) => (0, drawn),
        Err(number) => (number, NOTHING),
    };
    Answer {
        number,
        pixels: drawn.enabled,
        changed: drawn.changed,
    }
}

fn frame(card: &mut Card, vram: &mut [u8], write: Write) -> Outcome {
    if write.lanes != 15 && card.mode != SIMPLE {
        return Err(3);
    }
    if card.raster > 15 {
        return Err(if is_listed(card.mode) { 6 } else { 5 });
    }
    let drawn = match card.mode {
        SIMPLE => draw::simple(card, vram, write)?,
        OPAQUE_STIPPLE => draw::opaque_stipple(card, vram, write)?,
        TRANSPARENT_STIPPLE => draw::transparent_stipple(card, vram, write)?,
        OPAQUE_FILL => draw::opaque_fill(card, vram, write)?,
        TRANSPARENT_FILL => draw::transparent_fill(card, vram, write)?,
        BLOCK_STIPPLE => draw::block_stipple(card, vram, write)?,
        BLOCK_FILL => draw::block_fill(card, vram, write)?,
        COPY => draw::copy(card, vram, write)?,
        OPAQUE_LINE | TRANSPARENT_LINE | CAPPED_OPAQUE_LINE | CAPPED_TRANSPARENT_LINE => {
            line::line(card, vram, write)?
        }
        _ => return Err(5),
    };
    if card.marked != 0 {
        card.pixel = 0xFFFF_FFFF;
        card.marked = 0;
    }
    Ok(drawn)
}

fn register(card: &mut Card, vram: &mut [u8], write: Write) -> Outcome {
    let Write { address, data, .. } = write;
    if write.lanes != 15 {
        return Err(3);
    }
    let listed = matches!(address, 0x20..=0x38 | 0x40..=0x4C | 0x5C | 0x80 | 0x140..=0x164);
    if !address.is_multiple_of(4) || !listed {
        return Err(4);
    }
    let bad_mode = address == 0x30 && !is_listed(data);
    let bad_continue = address == 0x4C && !is_line(card.mode);
    if !is_listed(card.mode) || bad_mode || bad_continue {
        return Err(5);
    }
    let bad_raster = address == 0x34 && data & 0xF00 != 0;
    let bad_shift = address == 0x38 && data & 0xF != 0;
    if card.raster > 15 || bad_raster || bad_shift {
        return Err(6);
    }
    match address {
        0x20 => card.foreground = data,
        0x24 => card.background = data,
        0x28 => card.plane = data,
        0x2C => (card.pixel, card.marked) = (data, 1),
        0x30 => card.mode = data,
        0x34 => card.raster = data & 15,
        0x38 => card.writing = 0,
        0x40 => card.bresenham[0] = data,
        0x44 => card.bresenham[1] = data,
        0x48 => card.bresenham[2] = data & !0x7FF0,
        0x4C => return line::go_on(card, vram, data),
        0x5C => (card.pixel, card.marked) = (data, 0),
        0x80 => card.data = data,
        0x160 => return draw::load64(card, vram, data),
        0x164 => return draw::unload64(card, vram, data),
        block => card.block[(block / 4 % 8) as usize] = data,
    }
    Ok(NOTHING)
}
