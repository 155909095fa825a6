//! A text as a host draws it on a terminal that fills the VRAM, in opaque stipples: the colours are set at the start of each word.
//! Before stipples of fewer than 32 pixels the lasting pixel mask is set, and put back after them, as in the recorded traces of
//! Linux's driver. The text is made up for this: no patient is meant.

use super::font::FONT;
use super::rows::{empty_row, frame_write, register_write, Row, VRAM};
use crate::listed::mode;

/// Stipples in one pass; a turn is one of them.
pub const STIPPLES: usize = 1_000_000;

const TEXT: &str = include_str!("text.txt");

/// Cells of the terminal, each 8 pixels wide and so many rows high.
const COLUMNS: usize = 64;
const LINES: usize = 8;
const ROWS: usize = 16;
/// Pixels in a row of the screen.
const WIDTH: usize = 8 * COLUMNS;
/// The characters that one stipple covers.
const TOGETHER: usize = 4;

const _: () = assert!(WIDTH * ROWS * LINES == VRAM && STIPPLES.is_multiple_of(ROWS));

const EVERY_PIXEL: u32 = 0xFFFF_FFFF;

/// Up to four characters of one word and the blanks after it; the first of them come with foreground and background.
struct Group<'a> {
    colours: Option<(u8, u8)>,
    line: usize,
    column: usize,
    characters: &'a [u8],
}

pub fn rows() -> [Row; 2] {
    [
        row("a million text stipples", 0),
        row("a million, H = 80h", 0x80),
    ]
}

/// The register writes in a pass.
pub fn register_writes(row: &Row) -> usize {
    row.writes.len() - STIPPLES
}

fn row(name: &str, held: u8) -> Row {
    let setting = [
        register_write(0x0028, 0xFFFF_FFFF),
        register_write(0x0030, mode::OPAQUE_STIPPLE),
        register_write(0x0034, 3),
    ];
    let mut row = Row {
        held,
        turns: STIPPLES,
        ..empty_row(&setting, String::from(name), 8 * TOGETHER)
    };
    // After the last line of the screen or of the text comes the first again.
    let lines = wrapped(TEXT);
    let places = (0..LINES).cycle();
    let groups = lines
        .iter()
        .cycle()
        .zip(places)
        .flat_map(|(text, line)| groups(text.as_bytes(), line));
    for group in groups.take(STIPPLES / ROWS) {
        group.draw(&mut row);
    }
    row
}

/// The lines that the terminal shows: broken between words, and filled up with blanks.
fn wrapped(text: &str) -> Vec<String> {
    let mut lines = Vec::new();
    for paragraph in text.lines() {
        let mut line = String::new();
        for word in paragraph.split_inclusive(' ') {
            if line.len() + word.trim_end().len() > COLUMNS {
                lines.push(line);
                line = String::new();
            }
            line += word;
        }
        lines.push(line);
    }
    lines
        .iter()
        .map(|line| format!("{:<COLUMNS$}", line.trim_end()))
        .collect()
}

fn groups(text: &[u8], line: usize) -> Vec<Group<'_>> {
    let mut column = 0;
    let mut groups = Vec::new();
    for word in text.chunk_by(|&a, &b| a != b' ' || b == b' ') {
        let mut colours = Some(colours(word));
        for characters in word.chunks(TOGETHER) {
            groups.push(Group {
                colours: colours.take(),
                line,
                column,
                characters,
            });
            column += characters.len();
        }
    }
    groups
}

/// Numbers, capitalised words and all others differ.
fn colours(word: &[u8]) -> (u8, u8) {
    match word[0] {
        b'0'..=b'9' => (0x8E, 0x01),
        b'A'..=b'Z' => (0xFF, 0x90),
        _ => (0xE0, 0x10),
    }
}

impl Group<'_> {
    fn draw(&self, row: &mut Row) {
        if let Some((foreground, background)) = self.colours {
            row.writes.push(register_write(0x0020, alike(foreground)));
            row.writes.push(register_write(0x0024, alike(background)));
        }
        // At the right edge a stipple starts further to the left: on the last row it would end outside VRAM.
        let start = self.column.min(COLUMNS - TOGETHER);
        let before = 8 * (self.column - start);
        let mask = EVERY_PIXEL >> (8 * (TOGETHER - self.characters.len())) << before;
        if mask != EVERY_PIXEL {
            row.writes.push(register_write(0x005C, mask));
        }
        for i in 0..ROWS {
            let place = (ROWS * self.line + i) * WIDTH + 8 * start;
            let bits = self.bits(i) << before;
            row.writes.push(frame_write(place as u32, bits));
            row.places.push(place);
        }
        if mask != EVERY_PIXEL {
            row.writes.push(register_write(0x005C, EVERY_PIXEL));
        }
    }

    /// Row i of the characters, the first of them lowest.
    fn bits(&self, i: usize) -> u32 {
        let row = |&character: &u8| FONT[usize::from(character - b' ')][i];
        self.characters
            .iter()
            .rev()
            .fold(0, |bits, character| bits << 8 | u32::from(row(character)))
    }
}

/// A register of four bytes alike.
fn alike(byte: u8) -> u32 {
    u32::from_le_bytes([byte; 4])
}
