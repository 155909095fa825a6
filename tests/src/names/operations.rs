//! What each raster operation makes of source s and old pixel d, as the X Window System says.

use super::{are_named, is, Outcome};
use zevkholtai::{operation, register, Card, Write};

type Formula = fn(u8, u8) -> u8;

const FORMULAS: [(&str, Formula); 16] = [
    ("CLEAR", |_, _| 0),
    ("AND", |s, d| s & d),
    ("AND_REVERSE", |s, d| s & !d),
    ("COPY", |s, _| s),
    ("AND_INVERTED", |s, d| !s & d),
    ("NOOP", |_, d| d),
    ("XOR", |s, d| s ^ d),
    ("OR", |s, d| s | d),
    ("NOR", |s, d| !(s | d)),
    ("EQUIV", |s, d| !(s ^ d)),
    ("INVERT", |_, d| !d),
    ("OR_REVERSE", |s, d| s | !d),
    ("COPY_INVERTED", |s, _| !s),
    ("OR_INVERTED", |s, d| !s | d),
    ("NAND", |s, d| !(s & d)),
    ("SET", |_, _| 0xFF),
];

/// Every pair of a source and an old bit is among these.
const SOURCE: u8 = 0b0011_0011;
const OLD: u8 = 0b0101_0101;

pub fn check() -> Outcome {
    are_named(operation::ALL, FORMULAS.iter().map(|&(name, _)| name))?;
    for ((name, formula), &(_, code)) in FORMULAS.iter().zip(operation::ALL) {
        let (mut card, mut vram) = (Card::reset(0), [OLD; 64]);
        card.write(Write::register(register::RASTER_OPERATION, code), &mut vram);
        card.write(Write::frame(0, u32::from(SOURCE)), &mut vram);
        is(name, vram[0], formula(SOURCE, OLD))?;
    }
    Ok(())
}
