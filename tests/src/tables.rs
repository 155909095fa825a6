//! The scope paper's register table and Ask 5's registers, read at reset, and its rule for read-back, with the values that the
//! papers give.

use crate::model::{self, Write, REGISTER};

/// Offset, then number and value at reset.
const AT_RESET: [(u32, u32, u32); 32] = [
    (0x0020, 0, 0),
    (0x0024, 0, 0),
    (0x0028, 0, 0xFFFFFFFF),
    (0x002C, 0, 0xFFFFFFFF),
    (0x0030, 0, 0),
    (0x0034, 0, 3),
    (0x0038, 0, 0),
    (0x0040, 0, 0),
    (0x0044, 0, 0),
    (0x0048, 0, 0),
    (0x004C, 4, 0),
    (0x005C, 0, 0xFFFFFFFF),
    (0x0080, 0, 0),
    (0x0140, 0, 0),
    (0x0144, 0, 0),
    (0x0148, 0, 0),
    (0x014C, 0, 0),
    (0x0150, 0, 0),
    (0x0154, 0, 0),
    (0x0158, 0, 0),
    (0x015C, 0, 0),
    (0x0160, 4, 0),
    (0x0164, 4, 0),
    (0x0000, 4, 0),
    (0x0021, 4, 0),
    (0x003C, 4, 0),
    (0x004D, 4, 0),
    (0x0050, 4, 0),
    (0x013C, 4, 0),
    (0x0168, 4, 0),
    (0x0220, 4, 0),
    (0xFFFFFFFF, 4, 0),
];

/// VRAM length, address, pixels, number.
const READ_BACK: [(u64, u64, u64, u32); 9] = [
    (64, 0, 64, 0),
    (64, 64, 0, 0),
    (64, 63, 1, 0),
    (64, 63, 2, 8),
    (64, 65, 0, 8),
    (64, u64::MAX, 1, 8),
    (0, 0, 0, 1),
    (63, 64, 64, 1),
    (2_097_216, 0, 0, 1),
];

/// Raster operation of a card handed in, then what 0034h reads.
const HANDED_IN: [(u32, u32); 3] = [(0xFFFF_F0F6, 6), (0x0000_0F00, 0), (0x0000_000F, 15)];

/// Offset of a Bresenham register, what is written there or handed in, and what it then reads. Ask 5: "new registers reset to 0 and
/// drop unnamed bits"; of Bresenham 3 they are bits 14:4.
const BRESENHAM: [(u32, u32, u32); 5] = [
    (0x0040, 0xFFFF_FFFF, 0xFFFF_FFFF),
    (0x0044, 0x1234_5678, 0x1234_5678),
    (0x0048, 0xFFFF_FFFF, 0xFFFF_800F),
    (0x0048, 0x0000_7FF0, 0x0000_0000),
    (0x0048, 0x1234_8567, 0x1234_8007),
];

pub fn check_all() -> Result<usize, String> {
    check_registers()?;
    check_bresenham()?;
    check_read_back()?;
    Ok(AT_RESET.len() + HANDED_IN.len() + BRESENHAM.len() + READ_BACK.len())
}

fn check_registers() -> Result<(), String> {
    let card = model::reset(0x5A);
    for (offset, number, value) in AT_RESET {
        let read = model::read_register(&card, offset);
        if read != (number, value) {
            return Err(format!(
                "register {offset:04X}h reads {read:?} at reset, expected {:?}",
                (number, value)
            ));
        }
    }
    for (raster, value) in HANDED_IN {
        let mut card = model::reset(0);
        card.raster = raster;
        let read = model::read_register(&card, 0x0034);
        if read != (0, value) {
            return Err(format!(
                "a raster operation of {raster:08X}h reads {read:?}, expected {value}"
            ));
        }
    }
    Ok(())
}

/// Written or handed in, a value reads the same; and the one written is stored without the bits that it drops.
fn check_bresenham() -> Result<(), String> {
    for (offset, value, read) in BRESENHAM {
        let i = (offset as usize - 0x0040) / 4;
        let mut handed = model::reset(0);
        handed.bresenham[i] = value;
        let mut written = model::reset(0);
        let write = Write {
            space: REGISTER,
            lanes: 15,
            address: offset,
            data: value,
        };
        let number = model::write(&mut written, &mut [0; 64], write).number;
        let reads = |card| model::read_register(card, offset);
        if number != 0
            || written.bresenham[i] != read
            || (reads(&handed), reads(&written)) != ((0, read), (0, read))
        {
            return Err(format!(
                "register {offset:04X}h holding {value:08X}h doesn't read {read:08X}h"
            ));
        }
    }
    Ok(())
}

fn check_read_back() -> Result<(), String> {
    for (length, a, n, number) in READ_BACK {
        let read = model::read_back(length, a, n);
        if read != number {
            return Err(format!(
                "read-back of {n} from {a} of {length} answers {read}, expected {number}"
            ));
        }
    }
    Ok(())
}
