//! The lines of a listing.

use crate::entry::words;
use crate::meaning::{walks, what};
use crate::words::sentence_for;
use std::fmt::Write as _;
use zevkholtai::{number, Answer, Card, Write};

/// A card that makes one write after the other, refused ones too: these leave it as it was.
pub struct Lister {
    card: Card,
    vram: Vec<u8>,
    /// The first refused entry, at which a run ends.
    pub ended: Option<usize>,
}

impl Lister {
    pub fn new(vram: Vec<u8>) -> Lister {
        Lister {
            card: Card::reset(0),
            vram,
            ended: None,
        }
    }

    /// Makes the entry's write.
    pub fn pass(&mut self, index: usize, write: Write) -> Answer {
        let answer = self.card.write(write, &mut self.vram);
        if answer.number != number::ACCEPTED {
            self.ended.get_or_insert(index);
        }
        answer
    }

    /// Makes the entry's write, and tells of it.
    pub fn line(&mut self, index: usize, write: Write) -> String {
        let (card, ended) = (self.card, self.ended);
        let Answer { number, count, .. } = self.pass(index, write);
        let mut line = format!(
            "{index:>5}: {:<35} | {number} {count} | {}",
            words(write),
            what(&card, write)
        );
        if number != number::ACCEPTED {
            let sentence = sentence_for(number, walks(&card, write));
            let _ = write!(line, "; refused, {number}: {sentence}");
        }
        match ended {
            Some(end) => {
                let _ = write!(line, "; after the run's end at entry {end}");
            }
            None if number != number::ACCEPTED => line.push_str("; a run ends here"),
            None => {}
        }
        line
    }
}
