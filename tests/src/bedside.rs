//! The sample trace: the bedside screen of the demonstration program, 256 by 256 pixels, with a heartbeat of lines and the caliper left
//! on.
//! One card draws it from reset, so plane masks stand for the planes that the demonstration's two cards hold.

use crate::lines::{self, Point, Rest, Screen};
use crate::listed::mode;
use crate::model::trace::{self, ENTRY, HEADER, MOST_ENTRIES};
use crate::model::{self, Write, FRAME, REGISTER};
use std::fs;

const WIDTH: u32 = 256;
const ROWS: u32 = 256;

const FOREGROUND: u32 = 0x0020;
const PLANE_MASK: u32 = 0x0028;
const MODE: u32 = 0x0030;
const RASTER_OPERATION: u32 = 0x0034;
const FILL_MASK: u32 = 0x0080;

/// One beat of 64 columns, as the corners of a curve: column and row.
const BEAT: [Point; 23] = [
    (0, 170),
    (7, 170),
    (9, 166),
    (11, 163),
    (13, 163),
    (15, 166),
    (17, 170),
    (19, 170),
    (21, 179),
    (23, 96),
    (26, 187),
    (28, 170),
    (31, 169),
    (33, 167),
    (35, 163),
    (37, 157),
    (39, 154),
    (40, 154),
    (42, 157),
    (44, 162),
    (46, 167),
    (48, 169),
    (50, 170),
];
const BEAT_COLUMNS: i64 = 64;

/// The columns of the curve.
const FROM: i64 = 8;
const UPTO: i64 = 248;

/// The curve is drawn at these places, so that it is two pixels wide where it is flat and where it is steep.
const STROKES: [Point; 3] = [(0, 0), (1, 0), (0, 1)];

/// A hatch: the fill mask of each of eight rows. It comes again every 32 pixels, no sooner.
const HATCH: [u32; 8] = [
    0x0000_000F,
    0x0000_00F0,
    0x0000_0F00,
    0x0000_F000,
    0x000F_0000,
    0x00F0_0000,
    0x0F00_0000,
    0xF000_0000,
];

/// A trace as it is written; the first refusal is kept.
struct Recorder {
    buffer: Vec<u8>,
    used: usize,
    refused: u32,
}

impl Recorder {
    fn new() -> Recorder {
        let mut buffer = vec![0; HEADER + ENTRY * MOST_ENTRIES as usize];
        let (refused, used) = trace::start(&mut buffer, WIDTH * ROWS);
        Recorder {
            buffer,
            used: used as usize,
            refused,
        }
    }

    fn write(&mut self, space: u8, address: u32, data: u32) {
        if self.refused != 0 {
            return;
        }
        let write = Write {
            space,
            lanes: 15,
            address,
            data,
        };
        let (refused, used) = trace::append(&mut self.buffer, self.used, write);
        self.refused = refused;
        self.used = used as usize;
    }

    fn register(&mut self, offset: u32, data: u32) {
        self.write(REGISTER, offset, data);
    }

    /// A box in the foreground colour, one fill a row.
    fn filled(&mut self, x: u32, y: u32, columns: u32, rows: u32) {
        for row in y..y + rows {
            let address = row * WIDTH + x / 4 * 4;
            self.write(FRAME, address, (x % 4) << 16 | (columns - 1));
        }
    }
}

/// From here on fills draw every pixel in the foreground colour.
fn solid(to: &mut Recorder) {
    to.register(MODE, mode::OPAQUE_FILL);
    to.register(FILL_MASK, 0xFFFF_FFFF);
}

/// The alarm border, four pixels wide, in plane 7 alone.
fn border(to: &mut Recorder) {
    to.register(PLANE_MASK, 0x8080_8080);
    to.register(FOREGROUND, 0xFFFF_FFFF);
    to.filled(0, 0, 256, 4);
    to.filled(0, 252, 256, 4);
    to.filled(0, 0, 4, 256);
    to.filled(252, 0, 4, 256);
}

/// The grey screen, in the other planes, so that the border stays.
fn screen(to: &mut Recorder) {
    to.register(PLANE_MASK, 0x7F7F_7F7F);
    to.register(FOREGROUND, 0x3030_3030);
    to.filled(0, 0, 256, 256);
}

/// The corners of beat after beat, up to the curve's last column.
fn curve() -> Vec<Point> {
    let beats = (0..).flat_map(|beat| BEAT.map(|(x, y)| (FROM + BEAT_COLUMNS * beat + x, y)));
    beats.take_while(|&(x, _)| x <= UPTO).collect()
}

/// Transparent lines from corner to corner; the long ones go on by continues.
fn heartbeat(to: &mut Recorder) {
    let screen = Screen {
        columns: WIDTH.into(),
        length: (WIDTH * ROWS).into(),
    };
    to.register(MODE, mode::TRANSPARENT_LINE | mode::CAP);
    to.register(FOREGROUND, 0x7F7F_7F7F);
    for (across, down) in STROKES {
        let shifted = |(x, y): Point| (x + across, y + down);
        for corners in curve().windows(2) {
            let [first, last] = [corners[0], corners[1]].map(shifted);
            for write in lines::writes(screen, first, last, Rest::Continued) {
                to.write(write.space, write.address, write.data);
            }
        }
    }
}

/// A hatched band, each row in two fills side by side: from column 17, low bits 1, and from column 114, low bits 2. The hatch goes on
/// across the seam, since both addresses are 16 more than a multiple of 32.
fn hatched(to: &mut Recorder) {
    to.register(MODE, mode::TRANSPARENT_FILL);
    to.register(FOREGROUND, 0x5858_5858);
    for (y, mask) in (208..232).zip(HATCH.into_iter().cycle()) {
        to.register(FILL_MASK, mask);
        to.filled(17, y, 97, 1);
        to.filled(114, y, 126, 1);
    }
}

/// Two upright lines and a bar between them, by exclusive-or.
fn caliper(to: &mut Recorder) {
    solid(to);
    to.register(RASTER_OPERATION, 6);
    to.register(FOREGROUND, 0x4040_4040);
    to.filled(31, 60, 1, 130);
    to.filled(95, 60, 1, 130);
    to.filled(32, 124, 63, 1);
}

/// The bytes of the sample trace.
fn trace_bytes() -> Result<Vec<u8>, String> {
    let mut to = Recorder::new();
    solid(&mut to);
    border(&mut to);
    screen(&mut to);
    heartbeat(&mut to);
    hatched(&mut to);
    caliper(&mut to);
    if to.refused != 0 {
        return Err(format!("the sample trace is refused: {}", to.refused));
    }
    to.buffer.truncate(to.used);
    Ok(to.buffer)
}

pub fn save(path: &str) -> Result<(), String> {
    fs::write(path, trace_bytes()?).map_err(|why| format!("{path}: {why}"))
}

/// The stored file is what `sample` writes, and the model runs it whole; gives its entries.
pub fn check() -> Result<u32, String> {
    let path = concat!(env!("CARGO_MANIFEST_DIR"), "/sample/bedside.trace");
    let stored = fs::read(path).map_err(|why| format!("{path}: {why}"))?;
    if stored != trace_bytes()? {
        return Err(format!("{path} is not what `sample` writes"));
    }
    let mut vram = vec![0; (WIDTH * ROWS) as usize];
    let ran = trace::run(
        &stored[HEADER..],
        &mut model::reset(0),
        &mut vram,
        MOST_ENTRIES as u32,
    );
    if ran.number != 0 || ran.rest as usize + HEADER != stored.len() {
        return Err(format!("the sample trace runs to {ran:?}"));
    }
    Ok(ran.entries)
}
