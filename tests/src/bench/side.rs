//! What is timed: all that makes the writes of a row.

use super::rows::Row;
use crate::model::{Answer, Write};
use std::hint::black_box;

/// What makes writes on a card of its own, and its picture.
pub struct Side<F> {
    write: F,
    pub vram: Vec<u8>,
}

/// No write yet.
pub const NONE: Answer = Answer {
    number: 0,
    pixels: 0,
    changed: 0,
};

/// With one write more: number 0 if all were accepted, and the pixels of all.
pub fn added(so_far: Answer, answer: Answer) -> Answer {
    Answer {
        number: so_far.number | answer.number,
        pixels: so_far.pixels + answer.pixels,
        changed: so_far.changed + answer.changed,
    }
}

impl<F: FnMut(&mut [u8], Write) -> Answer> Side<F> {
    pub fn new(write: F, picture: &[u8]) -> Side<F> {
        Side {
            write,
            vram: picture.to_vec(),
        }
    }

    /// Makes every write.
    pub fn pass(&mut self, writes: &[Write]) -> Answer {
        let mut all = NONE;
        for &write in black_box(writes) {
            all = added(all, (self.write)(&mut self.vram, write));
        }
        all
    }

    /// Sets the card at reset for the row, and makes one pass: all of it must be accepted.
    pub fn first_pass(&mut self, row: &Row) -> Result<Answer, String> {
        let setting = self.pass(&row.setting);
        let all = self.pass(&row.writes);
        if setting.number == 0 && all.number == 0 {
            Ok(all)
        } else {
            Err(format!("{}: a write is refused", row.name))
        }
    }

    /// Whether a first pass does the work of another, which gave this answer and this picture. The pixels changed are compared
    /// where they are `counted`.
    pub fn same_work(
        &mut self,
        row: &Row,
        wanted: Answer,
        counted: bool,
        vram: &[u8],
    ) -> Result<bool, String> {
        let all = self.first_pass(row)?;
        Ok(same_answer(all, wanted, counted) && self.vram == vram)
    }
}

/// The same answer; the pixels changed are compared where they are `counted`.
pub fn same_answer(all: Answer, wanted: Answer, counted: bool) -> bool {
    let changed = if counted { all.changed } else { wanted.changed };
    Answer { changed, ..all } == wanted
}
