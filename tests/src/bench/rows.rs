//! What is measured: for each row writes on a card, all of them accepted.

use crate::listed::mode::{self, MODES};
use crate::model::{Write, FRAME, REGISTER};
use crate::random::Random;

/// The VRAM of the demonstration program.
pub const VRAM: usize = 65_536;

/// Turns in one pass over a row of one kind of write.
const TURNS: usize = 1_000;

pub struct Row {
    pub name: String,
    /// Held planes at reset.
    pub held: u8,
    /// Register writes, on a card at reset, that set what the row needs.
    pub setting: Vec<Write>,
    pub writes: Vec<Write>,
    /// Turns in one pass over the writes; a turn is one write, the two of a copy, or one stipple of a text with the register writes
    /// around it.
    pub turns: usize,
    /// The writes of a turn that count in a rate: all of them, but of a text the stipple alone.
    pub writes_a_turn: usize,
    /// The pixels that a turn covers, masked or not, from each of these places on; none for a register write.
    pub pixels: usize,
    pub places: Vec<usize>,
}

/// Every row with this raster operation and plane mask.
pub fn rows(raster: u32, plane: u32) -> Vec<Row> {
    let mut random = Random::of_case(1, 0);
    let mut setting = vec![
        register_write(0x0020, random.word()),
        register_write(0x0024, random.word()),
        register_write(0x0028, plane),
        register_write(0x0034, raster),
        register_write(0x0080, random.word()),
    ];
    setting.extend((0..8).map(|i| register_write(0x0140 + 4 * i, random.word())));
    let mut rows: Vec<Row> = MODES
        .iter()
        .map(|&(mode, name)| frame_row(&mut random, &setting, mode, name))
        .collect();
    rows.push(copy64_row(&mut random, &setting));
    rows.push(register_row(&mut random, &setting));
    rows
}

pub fn empty_row(setting: &[Write], name: String, pixels: usize) -> Row {
    Row {
        name,
        held: 0,
        setting: setting.to_vec(),
        writes: Vec::new(),
        turns: TURNS,
        writes_a_turn: 1,
        pixels,
        places: Vec::new(),
    }
}

/// A multiple of the boundary with room for so many pixels after it.
fn address(random: &mut Random, boundary: usize, pixels: usize) -> u32 {
    let last = (VRAM - pixels) / boundary;
    (random.below(last as u64 + 1) as usize * boundary) as u32
}

fn frame_row(random: &mut Random, setting: &[Write], mode: u32, name: &str) -> Row {
    let fill = mode::is_fill(mode);
    let copy = mode == mode::COPY;
    let (name, pixels, boundary) = match mode {
        mode::SIMPLE => (String::from(name), 4, 4),
        mode::COPY => (format!("{name}, both writes"), 32, 8),
        _ if fill => (format!("{name} of 2,048"), 2048, 4),
        _ => (String::from(name), 32, 4),
    };
    let mut row = empty_row(setting, name, pixels);
    row.setting.push(register_write(0x0030, mode));
    row.writes_a_turn = if copy { 2 } else { 1 };
    for _ in 0..TURNS {
        // A fill starts at any pixel; the bits of a stipple are random, a copy takes all its pixels.
        let low = if fill { random.below(4) as u32 } else { 0 };
        let data = match mode {
            mode::COPY => 0xFFFF_FFFF,
            _ if fill => low << 16 | (pixels as u32 - 1),
            _ => random.word(),
        };
        if copy {
            let source = address(random, boundary, pixels);
            row.writes.push(frame_write(source, data));
        }
        let first = address(random, boundary, pixels + low as usize);
        row.writes.push(frame_write(first, data));
        row.places.push((first + low) as usize);
    }
    row
}

pub fn frame_write(address: u32, data: u32) -> Write {
    Write {
        space: FRAME,
        lanes: 15,
        address,
        data,
    }
}

pub fn register_write(offset: u32, data: u32) -> Write {
    Write {
        space: REGISTER,
        lanes: 15,
        address: offset,
        data,
    }
}

fn copy64_row(random: &mut Random, setting: &[Write]) -> Row {
    let mut row = empty_row(setting, String::from("64-byte copy, both writes"), 64);
    row.writes_a_turn = 2;
    for _ in 0..TURNS {
        let source = address(random, 64, 64);
        let destination = address(random, 64, 64);
        row.writes.push(register_write(0x0160, source));
        row.writes.push(register_write(0x0164, destination));
        row.places.push(destination as usize);
    }
    row
}

fn register_row(random: &mut Random, setting: &[Write]) -> Row {
    let mut row = empty_row(setting, String::from("register write"), 0);
    row.writes = (0..TURNS)
        .map(|_| register_write(0x0020, random.word()))
        .collect();
    row
}
