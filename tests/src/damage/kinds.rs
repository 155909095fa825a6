//! Traces of some kinds of writes only.

use super::{list, NEVER};
use crate::generate::Maker;
use crate::listed::mode;
use crate::listed::{BRESENHAM_1, BRESENHAM_2, BRESENHAM_3, CONTINUE};
use crate::model::{Card, Write, REGISTER};

/// Accepted writes for a trace from reset that libraries from before Ask 5 can take too: no lines, and none of their registers.
pub fn without_lines(maker: &mut Maker, length: usize, entries: usize) -> Vec<Write> {
    list(maker, no_line, length, entries, NEVER)
}

fn no_line(maker: &mut Maker, card: &Card, length: usize) -> Write {
    loop {
        let write = maker.write(card, length);
        let of_lines = match write.address {
            BRESENHAM_1 | BRESENHAM_2 | BRESENHAM_3 | CONTINUE => true,
            0x0030 => mode::is_line(write.data),
            _ => false,
        };
        if write.space != REGISTER || !of_lines {
            return write;
        }
    }
}

/// Opaque stipples for a trace from reset, and the register writes that they go by.
pub fn stipples(maker: &mut Maker, length: usize, entries: usize, rare: u64) -> Vec<Write> {
    list(maker, stipple_or_setting, length, entries, rare)
}

fn stipple_or_setting(maker: &mut Maker, card: &Card, length: usize) -> Write {
    let wanted = maker.stipple_card();
    let settings = [
        (0x0020, wanted.foreground),
        (0x0024, wanted.background),
        (0x0028, wanted.plane),
        (0x002C, wanted.pixel),
        (0x0034, wanted.raster),
        (0x005C, wanted.pixel),
    ];
    let (address, data) = match card.mode {
        mode::OPAQUE_STIPPLE if maker.random.one_in(2) => return maker.stipple(card, length),
        mode::OPAQUE_STIPPLE => maker.random.pick(&settings),
        _ => (0x0030, mode::OPAQUE_STIPPLE),
    };
    Write {
        space: REGISTER,
        lanes: 15,
        address,
        data,
    }
}
