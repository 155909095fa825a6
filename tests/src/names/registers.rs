//! Each offset is a register exactly where it has a name, and a write there changes what the name says.

use super::{are_named, is, Outcome};
use zevkholtai::register::{self, CONTINUE, COPY_DESTINATION, COPY_SOURCE};
use zevkholtai::{mode, number, Card, Write};

const WRITE_ONLY: [u32; 3] = [CONTINUE, COPY_SOURCE, COPY_DESTINATION];
/// Two offsets of one value.
const TWINS: [&str; 2] = ["PIXEL_MASK_ONCE", "PIXEL_MASK"];

/// The picture of the writes.
const VRAM: [u8; 64] = [0xA5; 64];

/// A register, the value written there, and what that changes in a card in a line mode.
type Row = (&'static str, u32, fn(&mut Card, u32));

const ROWS: [Row; 23] = [
    ("FOREGROUND", 0x1111_1111, |c, v| c.registers.foreground = v),
    ("BACKGROUND", 0x2222_2222, |c, v| c.registers.background = v),
    ("PLANE_MASK", 0x3333_3333, |c, v| c.registers.plane = v),
    ("PIXEL_MASK_ONCE", 0x4444_4444, |c, v| {
        (c.mask.bits, c.mask.marked) = (v, 1)
    }),
    ("MODE", mode::BLOCK_FILL, |c, v| c.registers.mode = v),
    ("RASTER_OPERATION", 9, |c, v| c.registers.raster = v),
    // Its value can only be 0, and the next copy write reads.
    ("PIXEL_SHIFT", 0, |c, _| c.copier.writing = 0),
    ("BRESENHAM_1", 0x5555_5555, |c, v| {
        c.registers.bresenham1 = v
    }),
    ("BRESENHAM_2", 0x6666_6666, |c, v| {
        c.registers.bresenham2 = v
    }),
    ("BRESENHAM_3", 0x7777_0007, |c, v| {
        c.registers.bresenham3 = v
    }),
    // All increments are 0, so the line stays.
    ("CONTINUE", 0xFFFF, |_, _| ()),
    ("PIXEL_MASK", 0x8888_8888, |c, v| {
        (c.mask.bits, c.mask.marked) = (v, 0)
    }),
    ("FILL_MASK", 0x9999_9999, |c, v| c.registers.fill = v),
    ("BLOCK_COLOUR_0", 0xB0B0_B0B0, |c, v| {
        c.registers.block[0] = v
    }),
    ("BLOCK_COLOUR_1", 0xB1B1_B1B1, |c, v| {
        c.registers.block[1] = v
    }),
    ("BLOCK_COLOUR_2", 0xB2B2_B2B2, |c, v| {
        c.registers.block[2] = v
    }),
    ("BLOCK_COLOUR_3", 0xB3B3_B3B3, |c, v| {
        c.registers.block[3] = v
    }),
    ("BLOCK_COLOUR_4", 0xB4B4_B4B4, |c, v| {
        c.registers.block[4] = v
    }),
    ("BLOCK_COLOUR_5", 0xB5B5_B5B5, |c, v| {
        c.registers.block[5] = v
    }),
    ("BLOCK_COLOUR_6", 0xB6B6_B6B6, |c, v| {
        c.registers.block[6] = v
    }),
    ("BLOCK_COLOUR_7", 0xB7B7_B7B7, |c, v| {
        c.registers.block[7] = v
    }),
    ("COPY_SOURCE", 0, |c, _| {
        (c.copier.buffer, c.copier.loaded) = (VRAM, 1)
    }),
    ("COPY_DESTINATION", 0, |c, _| c.copier.loaded = 0),
];

/// Those that draw, with the pixels.
const DRAWN: [(&str, u32); 2] = [("CONTINUE", 15), ("COPY_DESTINATION", 64)];

pub fn check() -> Outcome {
    are_named(register::ALL, ROWS.iter().map(|&(name, ..)| name))?;
    every_offset()?;
    for (row, &(_, offset)) in ROWS.iter().zip(register::ALL) {
        // Once with the marks clear but those that CONTINUE and COPY_DESTINATION need, once with all set.
        for marks in [0, 1] {
            written(row, offset, marks).map_err(|why| format!("{}: {why}", row.0))?;
        }
    }
    Ok(())
}

/// Answers NO_REGISTER exactly where no name has the offset; read, also where it is write only.
fn every_offset() -> Outcome {
    for offset in 0..=0xFFFF {
        let mut card = Card::reset(0);
        let read = card.read(offset).number == number::NO_REGISTER;
        let written = card.write(Write::register(offset, 0), &mut [0; 64]);
        let written = written.number == number::NO_REGISTER;
        let named = register::ALL.iter().any(|&(_, named)| named == offset);
        let hidden = WRITE_ONLY.contains(&offset);
        is(&format!("{offset:X}h unwritable"), written, !named)?;
        is(&format!("{offset:X}h unreadable"), read, !named || hidden)?;
    }
    Ok(())
}

fn lent(marks: u32) -> Card {
    let mut card = Card::reset(0);
    card.registers.mode = mode::OPAQUE_LINE;
    (card.copier.loaded, card.line.kept) = (1, 1);
    (card.mask.marked, card.copier.writing) = (marks, marks);
    card
}

fn written(row: &Row, offset: u32, marks: u32) -> Outcome {
    let (name, value, change) = *row;
    let before = lent(marks);
    let (mut card, mut vram) = (before, VRAM);
    let answer = card.write(Write::register(offset, value), &mut vram);
    let drawn = DRAWN.iter().find(|&&(draws, _)| draws == name);
    let drawn = drawn.map_or(0, |&(_, pixels)| pixels);
    is(
        "number and pixels",
        (answer.number, answer.count),
        (0, drawn),
    )?;
    is("a new picture", vram != VRAM, drawn != 0)?;
    let mut wanted = before;
    change(&mut wanted, value);
    is("the card", card, wanted)?;
    shown(name, value, &before, &card)
}

/// The value stands under its own name, and no other name shows anything else than before.
fn shown(name: &str, value: u32, before: &Card, after: &Card) -> Outcome {
    for &(other, offset) in register::ALL {
        let twin = TWINS.contains(&name) && TWINS.contains(&other);
        let wanted = if WRITE_ONLY.contains(&offset) {
            (number::NO_REGISTER, 0)
        } else if other == name || twin {
            (0, value)
        } else {
            (0, before.read(offset).value)
        };
        let read = after.read(offset);
        is(
            &format!("{other} after it"),
            (read.number, read.value),
            wanted,
        )?;
    }
    Ok(())
}
