//! What a write does, by the card that it meets, in a few words.

use crate::entry::{is_frame, is_register};
use crate::names::{counted, mode_name, operation_name, register_name};
use zevkholtai::{mode, register, Card, Write};

/// Bits of a word, from bit `low` on, as a signed number.
fn signed(word: u32, low: u32, bits: u32) -> i64 {
    let value = i64::from(word >> low) % (1 << bits);
    if value < 1 << (bits - 1) {
        value
    } else {
        value - (1 << bits)
    }
}

fn four_bytes(word: u32) -> String {
    let [a, b, c, d] = word.to_le_bytes();
    format!("{a:02X} {b:02X} {c:02X} {d:02X}")
}

fn is_line_mode(code: u32) -> bool {
    matches!(
        code,
        mode::OPAQUE_LINE
            | mode::OPAQUE_LINE_CAP
            | mode::TRANSPARENT_LINE
            | mode::TRANSPARENT_LINE_CAP
    )
}

/// Whether the write is a line or a continue.
pub fn walks(card: &Card, write: Write) -> bool {
    if is_frame(write) {
        is_line_mode(card.registers.mode)
    } else {
        is_register(write) && write.address == register::CONTINUE
    }
}

/// Bits 3:0 of Bresenham 3 as a number of places: 0 means 16.
fn line_length(bresenham3: u32) -> u32 {
    match bresenham3 % 16 {
        0 => 16,
        length => length,
    }
}

/// A frame write's first pixel, where data bits 17:16 are added to the address.
fn moved(write: Write) -> u64 {
    u64::from(write.address) + u64::from(write.data >> 16 & 3)
}

fn frame(card: &Card, write: Write) -> String {
    let code = card.registers.mode;
    let name = mode_name(code);
    let address = write.address;
    match code {
        mode::SIMPLE => format!("{name}, 4 pixels from {address}"),
        mode::OPAQUE_FILL | mode::TRANSPARENT_FILL | mode::BLOCK_FILL => {
            let width = counted(write.data % 2048 + 1, "pixel");
            format!("{name}, {width} from {}", moved(write))
        }
        mode::COPY => {
            let half = if card.copier.writing == 0 {
                "reads"
            } else {
                "writes"
            };
            format!("{name}, {half} 32 pixels from {address}")
        }
        _ if is_line_mode(code) => {
            let places = counted(line_length(card.registers.bresenham3), "place");
            format!("{name}, {places} from {}", moved(write))
        }
        _ => format!("{name}, 32 pixels from {address}"),
    }
}

fn continued(card: &Card, data: u32) -> String {
    let mask = data % 65_536;
    if card.line.kept == 0 {
        return format!("line mask {mask:04X}h, with no line before it");
    }
    format!("line mask {mask:04X}h, 16 places from {}", card.line.place)
}

fn register_write(card: &Card, offset: u32, data: u32) -> String {
    match offset {
        register::MODE => mode_name(data),
        register::RASTER_OPERATION => operation_name(data),
        register::PIXEL_MASK => format!("{} of 32 pixels", data.count_ones()),
        register::PIXEL_MASK_ONCE => format!("{} of 32 pixels, one-shot", data.count_ones()),
        register::PIXEL_SHIFT => format!("shift {}, the next copy reads", data % 16),
        register::BRESENHAM_1 | register::BRESENHAM_2 => format!(
            "address step {}, error step {}",
            signed(data, 16, 16),
            signed(data, 0, 16)
        ),
        register::BRESENHAM_3 => {
            let places = counted(line_length(data), "place");
            format!("error {}, {places}", signed(data, 15, 17))
        }
        register::CONTINUE => continued(card, data),
        register::COPY_SOURCE | register::COPY_DESTINATION => format!("64 pixels from {data}"),
        _ if register_name(offset).is_some() => four_bytes(data),
        _ => "no register".to_string(),
    }
}

/// What the write does to a card in this state.
pub fn what(card: &Card, write: Write) -> String {
    if is_frame(write) {
        frame(card, write)
    } else if is_register(write) {
        register_write(card, write.address, write.data)
    } else {
        "neither frame nor register".to_string()
    }
}
