//! Right lines: the writes that a driver makes for a line between two pixels, and their pictures beside those of a textbook.
//!
//! Bresenham 1: address major step, error 2 minor. Bresenham 2: address major step + minor step, error 2 (major - minor).
//! Bresenham 3: error 2 minor - major, length pixels mod 16. Ties need no adjustment: at error 0 both take the minor step.

use crate::listed::mode::{CAP, OPAQUE_LINE, TRANSPARENT_LINE};
use crate::listed::{BRESENHAM_1, BRESENHAM_2, BRESENHAM_3, CONTINUE};
use crate::model::{self, Answer, Card, Write, FRAME, REGISTER};
use crate::random::Random;

/// A line or a continue makes at most so many visits.
const PIECE: i64 = 16;

/// Rows of so many pixels, and the length of VRAM.
#[derive(Clone, Copy)]
pub struct Screen {
    pub columns: i64,
    pub length: i64,
}

/// A pixel as column and row.
pub type Point = (i64, i64);

/// How a line of more than sixteen pixels is drawn.
#[derive(Clone, Copy, PartialEq, Eq)]
pub enum Rest {
    /// By a continue, the bits past the line's end clear, wherever its visits stay in VRAM; so for transparent lines alone.
    Continued,
    /// By a continue where all its sixteen pixels are wanted, else by a fresh line of the length left.
    Fresh,
    /// By whole continues alone: the line takes the pixels that they leave. include/zevkholtai.h has it so.
    Whole,
}

/// A line as the driver sees it: so many major steps, and among them, as evenly as can be, so many minor ones.
struct Line {
    screen: Screen,
    first: i64,
    major: i64,
    minor: i64,
    /// What a step adds to the place.
    major_step: i64,
    minor_step: i64,
}

impl Line {
    fn new(screen: Screen, from: Point, to: Point) -> Line {
        let (across, down) = (to.0 - from.0, to.1 - from.1);
        let column = across.signum();
        let row = down.signum() * screen.columns;
        let (across, down) = (across.abs(), down.abs());
        let steep = down > across;
        Line {
            screen,
            first: from.1 * screen.columns + from.0,
            major: if steep { down } else { across },
            minor: if steep { across } else { down },
            major_step: if steep { row } else { column },
            minor_step: if steep { column } else { row },
        }
    }

    fn pixels(&self) -> i64 {
        self.major + 1
    }

    /// The minor steps in the first k major ones: minor times k / major, to the nearest whole number, a half up.
    fn minor_steps(&self, k: i64) -> i64 {
        if self.major == 0 {
            0
        } else {
            (2 * self.minor * k + self.major).div_euclid(2 * self.major)
        }
    }

    fn place(&self, k: i64) -> i64 {
        self.first + self.major_step * k + self.minor_step * self.minor_steps(k)
    }

    /// The error after k steps: each adds 2 minor, and each minor one among them takes away 2 major.
    fn error(&self, k: i64) -> i64 {
        2 * self.minor * (k + 1) - self.major - 2 * self.major * self.minor_steps(k)
    }

    /// Whether all visits of a continue after k steps lie in VRAM.
    fn continue_fits(&self, k: i64) -> bool {
        (k..k + PIECE).all(|k| (0..self.screen.length).contains(&self.place(k)))
    }

    fn increments(&self) -> [Write; 2] {
        let diagonal = self.major_step + self.minor_step;
        [
            register(BRESENHAM_1, halves(self.major_step, 2 * self.minor)),
            register(BRESENHAM_2, halves(diagonal, 2 * (self.major - self.minor))),
        ]
    }

    /// A line of so many pixels from the place after k steps on.
    fn piece(&self, k: i64, pixels: i64) -> [Write; 2] {
        let place = self.place(k);
        let start = (self.error(k) as u32) << 15 | (pixels % PIECE) as u32;
        let low = (place % 4) as u32;
        let line = Write {
            space: FRAME,
            lanes: 15,
            address: place as u32 - low,
            data: low << 16 | ones(pixels),
        };
        [register(BRESENHAM_3, start), line]
    }
}

fn register(address: u32, data: u32) -> Write {
    Write {
        space: REGISTER,
        lanes: 15,
        address,
        data,
    }
}

fn halves(high: i64, low: i64) -> u32 {
    (high as u32) << 16 | (low as u32 & 0xFFFF)
}

/// A line mask for so many pixels.
fn ones(pixels: i64) -> u32 {
    (1 << pixels) - 1
}

/// The writes for a line from one pixel to another, in a line mode with the cap bit that is set already.
pub fn writes(screen: Screen, from: Point, to: Point, rest: Rest) -> Vec<Write> {
    let line = Line::new(screen, from, to);
    let mut writes = line.increments().to_vec();
    let mut drawn = match rest {
        Rest::Whole => (line.pixels() - 1) % PIECE + 1,
        _ => line.pixels().min(PIECE),
    };
    writes.extend(line.piece(0, drawn));
    while drawn < line.pixels() {
        let wanted = (line.pixels() - drawn).min(PIECE);
        let whole = wanted == PIECE || rest == Rest::Continued;
        if whole && line.continue_fits(drawn) {
            writes.push(register(CONTINUE, ones(wanted)));
        } else {
            writes.extend(line.piece(drawn, wanted));
        }
        drawn += wanted;
    }
    writes
}

/// Bresenham's algorithm as textbooks have it for all directions at once, on whole numbers.
fn textbook(from: Point, to: Point, mut plot: impl FnMut(Point)) {
    let (mut x, mut y) = from;
    let dx = (to.0 - x).abs();
    let dy = -(to.1 - y).abs();
    let sx = if x < to.0 { 1 } else { -1 };
    let sy = if y < to.1 { 1 } else { -1 };
    let mut err = dx + dy;
    loop {
        plot((x, y));
        if (x, y) == to {
            return;
        }
        let twice = 2 * err;
        if twice >= dy {
            err += dy;
            x += sx;
        }
        if twice <= dx {
            err += dx;
            y += sy;
        }
    }
}

/// The model's write or the engine's.
type Entry = fn(&mut Card, &mut [u8], Write) -> Answer;

const COLOUR: u8 = 0x5A;

/// A screen for lines, and what they came to.
struct Sheet {
    write: Entry,
    screen: Screen,
    lines: usize,
    continues: usize,
    /// Fresh lines for a rest, as its continue would have left VRAM.
    fresh: usize,
}

impl Sheet {
    fn new(write: Entry, columns: i64, rows: i64) -> Sheet {
        let length = columns * rows;
        Sheet {
            write,
            screen: Screen { columns, length },
            lines: 0,
            continues: 0,
            fresh: 0,
        }
    }

    /// A card in this mode and with the colour. What it answers is seen in what it draws.
    fn card(&self, mode: u32) -> Card {
        let mut card = model::reset(0);
        let colour = u32::from_le_bytes([COLOUR; 4]);
        for write in [register(0x0030, mode), register(0x0020, colour)] {
            (self.write)(&mut card, &mut [0; 64], write);
        }
        card
    }

    fn picture(&self) -> Vec<u8> {
        vec![0; self.screen.length as usize]
    }

    /// What the textbook draws, with its last pixel or without it; and how many pixels that are.
    fn expected(&self, from: Point, to: Point, last: bool) -> (Vec<u8>, u32) {
        let mut picture = self.picture();
        let mut pixels = 0;
        textbook(from, to, |(x, y)| {
            if last || (x, y) != to {
                picture[(y * self.screen.columns + x) as usize] = COLOUR;
                pixels += 1;
            }
        });
        (picture, pixels)
    }

    fn check(&self, mode: u32, writes: &[Write], expected: &(Vec<u8>, u32)) -> Result<(), String> {
        let mut card = self.card(mode);
        let mut vram = self.picture();
        let mut pixels = 0;
        for &write in writes {
            let answer = (self.write)(&mut card, &mut vram, write);
            // Every pixel is drawn once, and was 0.
            if answer.number != 0 || answer.changed != answer.pixels {
                return Err(format!("{write:X?} answers {answer:?}"));
            }
            pixels += answer.pixels;
        }
        if (&vram, pixels) != (&expected.0, expected.1) {
            return Err(format!(
                "another picture with mode {mode:04X}h, {writes:X?}"
            ));
        }
        Ok(())
    }

    /// One pair of end points, in each of the three ways; where one write does it, also without its last pixel.
    fn pair(&mut self, from: Point, to: Point) -> Result<(), String> {
        let whole = self.expected(from, to, true);
        let continued = writes(self.screen, from, to, Rest::Continued);
        let fresh = writes(self.screen, from, to, Rest::Fresh);
        self.check(TRANSPARENT_LINE | CAP, &continued, &whole)?;
        self.check(OPAQUE_LINE | CAP, &fresh, &whole)?;
        let in_sixteens = writes(self.screen, from, to, Rest::Whole);
        self.check(OPAQUE_LINE | CAP, &in_sixteens, &whole)?;
        if whole.1 <= PIECE as u32 {
            let without = self.expected(from, to, false);
            self.check(OPAQUE_LINE, &fresh, &without)?;
        }
        self.lines += 1;
        let count = |wanted: fn(&Write) -> bool| continued.iter().filter(|w| wanted(w)).count();
        self.continues += count(|write| write.space == REGISTER && write.address == CONTINUE);
        self.fresh += count(|write| write.space == FRAME) - 1;
        Ok(())
    }

    fn named_pair(&mut self, from: Point, to: Point) -> Result<(), String> {
        self.pair(from, to)
            .map_err(|why| format!("line from {from:?} to {to:?}: {why}"))
    }

    /// Both ways to draw a rest must have come up.
    fn done(&self) -> Result<usize, String> {
        if self.continues == 0 || self.fresh == 0 {
            return Err(format!(
                "lines of {} columns: {} continues, {} fresh lines",
                self.screen.columns, self.continues, self.fresh
            ));
        }
        Ok(self.lines)
    }
}

const GRID: i64 = 24;
const LONG_COLUMNS: i64 = 512;
const LONG_ROWS: i64 = 128;
const LONG_PAIRS: usize = 2_000;

/// Every ordered pair of points of a grid at both ends of VRAM, and random pairs far apart. Gives the number of lines.
pub fn check_all(write: Entry) -> Result<usize, String> {
    Ok(grid(write)? + far_apart(write)?)
}

fn grid(write: Entry) -> Result<usize, String> {
    let mut sheet = Sheet::new(write, 64, GRID);
    let points = || (0..GRID * GRID).map(|i| (i % GRID, i / GRID));
    for from in points() {
        for to in points() {
            sheet.named_pair(from, to)?;
        }
    }
    sheet.done()
}

fn far_apart(write: Entry) -> Result<usize, String> {
    let mut sheet = Sheet::new(write, LONG_COLUMNS, LONG_ROWS);
    let mut random = Random::of_case(1, 0);
    for _ in 0..LONG_PAIRS {
        let [from, to] = [(); 2].map(|()| {
            let x = random.below(LONG_COLUMNS as u64) as i64;
            let y = random.below(LONG_ROWS as u64) as i64;
            (x, y)
        });
        sheet.named_pair(from, to)?;
    }
    sheet.done()
}
