//! What lines and continues met, of all that Ask 5 is about.

use crate::listed::mode::{self, CAP, LINES};
use crate::listed::CONTINUE;
use crate::model::line::{self, Walk};
use crate::model::{Answer, Card, Write, FRAME, REGISTER};

/// Accepted continues in each line mode, accepted lines of each length, and each situation: how often they must be met.
const CONTINUES: u64 = 500;
const LINES_OF_A_LENGTH: u64 = 200;

const SITUATIONS: [(&str, u64); 36] = [
    ("line, 8 below 0", 10),
    ("line, 8 past the end", 10),
    ("line, 8 for a last visit that isn't drawn, no other", 10),
    ("line, 8 where 12 applies too", 10),
    ("line, 12 at the start", 10),
    ("line, 12 after the last step alone", 10),
    ("line, 12 above", 10),
    ("line, 12 below", 10),
    ("continue, 8 from below 0", 10),
    ("continue, 8 from past the end", 10),
    ("continue, 8 on its way", 10),
    ("continue, 8 where 12 applies too", 10),
    ("continue, 12 at the start", 10),
    ("continue, 12 on its way", 10),
    ("continue, 12 after the last step alone", 1),
    ("continue, 13", 10),
    (
        "continue, 13, place outside VRAM or error outside 16 bits",
        1,
    ),
    ("continue, 5 before any line", 10),
    ("continue, 5 after a line", 10),
    ("accepted, place left below 0", 10),
    ("accepted, place left past the end", 10),
    ("accepted, address increment 1 below zero taken", 10),
    ("accepted, address increment 2 below zero taken", 10),
    ("accepted, error increment 1 below zero taken", 10),
    ("accepted, error increment 2 below zero taken", 10),
    ("accepted, both increments taken", 10),
    ("accepted, an error of 32,767 or -32,768", 10),
    ("accepted, pixels visited twice", 10),
    ("accepted, more changes than pixels", 10),
    ("accepted, no visit draws", 10),
    ("line accepted, one-shot mask used up", 10),
    ("continue accepted, one-shot mask stays", 10),
    ("accepted, pixels drawn with pixel mask 0", 10),
    ("line accepted, unnamed bits of Bresenham 3 handed in", 10),
    ("continue accepted, mark over 1", 10),
    ("continue accepted, other modes since the line", 10),
];

pub struct Met {
    /// Accepted continues, by line mode.
    continues: [u64; LINES.len()],
    /// Accepted lines, by bits 3:0 of Bresenham 3.
    lengths: [u64; 16],
    situations: [u64; SITUATIONS.len()],
    /// What a line left behind, as it was last seen on a card in another mode.
    elsewhere: Option<(i32, i32)>,
}

/// A number outside signed 16 bits.
fn too_large(error: i64) -> bool {
    i16::try_from(error).is_err()
}

/// The signed number in bits 31:16 or 15:0.
fn below_zero(register: u32, bit: u32) -> bool {
    register >> bit & 0x8000 != 0
}

fn distinct(places: &[i64]) -> usize {
    let mut places = places.to_vec();
    places.sort_unstable();
    places.dedup();
    places.len()
}

/// A walk refused by 8 or 12, with what stands outside.
fn refused(card: &Card, length: usize, walk: &Walk, number: u32) -> [bool; 10] {
    let visited = walk.visited();
    let errors = walk.errors();
    let outside: Vec<bool> = visited
        .iter()
        .map(|&place| usize::try_from(place).map_or(true, |place| place >= length))
        .collect();
    let (last, others) = outside.split_last().expect("a walk has a visit");
    let (last_error, other_errors) = errors.split_last().expect("a walk has an error");
    let by_8 = number == 8;
    let by_12 = number == 12;
    [
        by_8 && visited.iter().any(|&place| place < 0),
        by_8 && visited.iter().any(|&place| place >= length as i64),
        by_8 && card.mode & CAP == 0 && *last && !others.contains(&true),
        by_8 && errors.iter().any(|&error| too_large(error)),
        by_8 && !outside[0],
        by_12 && too_large(errors[0]),
        by_12 && !too_large(errors[0]),
        by_12 && too_large(*last_error) && !other_errors.iter().any(|&error| too_large(error)),
        by_12 && errors.iter().any(|&error| error > 32_767),
        by_12 && errors.iter().any(|&error| error < -32_768),
    ]
}

/// A walk that was accepted.
fn accepted(card: &Card, length: usize, walk: &Walk, answer: Answer) -> [bool; 11] {
    let [one, two, _] = card.bresenham;
    let visited = walk.visited();
    let errors = walk.errors();
    // The error of each visit chooses its step.
    let first = errors[..visited.len()].iter().any(|&error| error < 0);
    let second = errors[..visited.len()].iter().any(|&error| error >= 0);
    let (place, _) = walk.left();
    let pixels = distinct(visited);
    [
        place < 0,
        place >= length as i64,
        first && below_zero(one, 16),
        second && below_zero(two, 16),
        first && below_zero(one, 0),
        second && below_zero(two, 0),
        first && second,
        errors.iter().any(|error| [32_767, -32_768].contains(error)),
        pixels < visited.len(),
        answer.changed as usize > pixels,
        answer.pixels == 0,
    ]
}

impl Met {
    pub fn new() -> Met {
        Met {
            continues: [0; LINES.len()],
            lengths: [0; 16],
            situations: [0; SITUATIONS.len()],
            elsewhere: None,
        }
    }

    /// Counts one write, if it is a line or a continue.
    pub fn write(&mut self, card: &Card, length: usize, write: Write, answer: Answer) {
        let in_line_mode = mode::is_line(card.mode);
        let left = (card.place, card.error);
        let line = write.space == FRAME && in_line_mode;
        let on = write.space == REGISTER && write.address == CONTINUE;
        if line || on {
            self.count(card, length, write, answer, line);
        }
        if !in_line_mode && card.kept != 0 {
            self.elsewhere = Some(left);
        }
    }

    fn count(&mut self, card: &Card, length: usize, write: Write, answer: Answer, line: bool) {
        let number = answer.number;
        let on = !line;
        // Other refusals have nothing to do with the walk, and 13 has none.
        let walk = match number {
            0 | 8 | 12 => line::walk(card, write),
            _ => None,
        };
        let out = walk
            .as_ref()
            .filter(|_| number != 0)
            .map_or([false; 10], |walk| refused(card, length, walk, number));
        let [below, past, last, both, on_its_way, at_start, later, after_last, high, low] = out;
        let taken = walk
            .as_ref()
            .filter(|_| number == 0)
            .map_or([false; 11], |walk| accepted(card, length, walk, answer));
        let good = number == 0;
        let handed_in =
            !(0..length as i64).contains(&card.place.into()) || too_large(card.error.into());
        let left = (card.place, card.error);
        let refusals = [
            line && below,
            line && past,
            line && last,
            line && both,
            line && at_start,
            line && after_last,
            line && high,
            line && low,
            on && number == 8 && card.place < 0,
            on && number == 8 && i64::from(card.place) >= length as i64,
            on && on_its_way,
            on && both,
            on && at_start,
            on && later,
            on && after_last,
            on && number == 13,
            on && number == 13 && handed_in,
            on && number == 5 && !mode::is_line(card.mode) && card.kept == 0,
            on && number == 5 && !mode::is_line(card.mode) && card.kept != 0,
        ];
        let marks = [
            line && good && card.marked != 0,
            on && good && card.marked != 0,
            answer.pixels > 0 && card.pixel == 0,
            line && good && card.bresenham[2] & 0x7FF0 != 0,
            on && good && card.kept > 1,
            on && good && self.elsewhere == Some(left),
        ];
        let met = refusals.iter().chain(&taken).chain(&marks);
        for (counter, &met) in self.situations.iter_mut().zip(met) {
            *counter += u64::from(met);
        }
        if line && good {
            self.lengths[(card.bresenham[2] % 16) as usize] += 1;
        }
        let mode = LINES.iter().position(|&(code, _)| code == card.mode);
        if let Some(mode) = mode.filter(|_| on && good) {
            self.continues[mode] += 1;
        }
    }

    /// What was left behind on one card says nothing of another run's.
    pub fn end_run(&mut self) {
        self.elsewhere = None;
    }

    /// Each situation, with how often it must be met and was.
    pub fn all(&self) -> impl Iterator<Item = (String, u64, u64)> + '_ {
        let continues = LINES
            .iter()
            .zip(self.continues)
            .map(|((_, name), count)| (format!("continue accepted, {name}"), CONTINUES, count));
        let lengths = self.lengths.iter().enumerate().map(|(length, &count)| {
            let name = format!("line accepted, length bits {length}");
            (name, LINES_OF_A_LENGTH, count)
        });
        let situations = SITUATIONS
            .iter()
            .zip(self.situations)
            .map(|(&(name, least), count)| (String::from(name), least, count));
        continues.chain(lengths).chain(situations)
    }
}
