//! Calipers: lists of writes under the conditions of include/zevkholtai.h, made twice from one card. The picture is as it was,
//! and every write answers the same both times.

use super::{picture, same, Outcome};
use crate::engine;
use crate::generate::Maker;
use crate::listed::{mode, CONTINUE};
use crate::model::{self, Answer, Card, Write, FRAME, REGISTER};

/// The operations that, made twice, change nothing.
const OPERATIONS: [u32; 4] = [5, 6, 9, 10];
const WRITES: usize = 60;

type Entry = fn(&mut Card, &mut [u8], Write) -> Answer;

/// Makes the next write for a card and a VRAM length.
type Next = fn(&mut Maker, &Card, usize) -> Write;

/// Lists that showed, and the lines and continues that changed a pixel in them. Ask 5: "restoring by 5, 6, 9 and 10 holds for every
/// line and continue", also for one that comes to a pixel more than once.
pub struct Shown {
    lists: u64,
    lines: u64,
    continues: u64,
}

impl Shown {
    pub fn new() -> Shown {
        Shown {
            lists: 0,
            lines: 0,
            continues: 0,
        }
    }

    fn each(&self) -> [(&str, u64); 3] {
        [
            ("calipers drawn, and taken off again", self.lists),
            ("caliper lines that show", self.lines),
            ("caliper continues that show", self.continues),
        ]
    }

    /// Counts an accepted write on the card as it stood before.
    fn write(&mut self, card: &Card, write: Write, answer: Answer) {
        if answer.changed > 0 && mode::is_line(card.mode) {
            self.lines += u64::from(write.space == FRAME);
            self.continues += u64::from(write.space == REGISTER && write.address == CONTINUE);
        }
    }

    pub fn print(&self) {
        for (name, count) in self.each() {
            println!("{name}: {count}");
        }
    }

    /// What should have been reached and was not.
    pub fn missing(&self) -> Vec<String> {
        let none = self.each().into_iter().filter(|&(_, count)| count == 0);
        none.map(|(name, _)| String::from(name)).collect()
    }
}

/// One list, on the model and on the engine; half of the lists are of lines.
pub fn case(maker: &mut Maker, shown: &mut Shown) -> Outcome {
    let (length, _) = maker.length();
    let before = picture(maker, length);
    let (card, next): (Card, Next) = if maker.random.one_in(2) {
        (maker.good_card(), Maker::write)
    } else {
        (maker.line_card(), Maker::line)
    };
    let card = Card {
        raster: maker.random.pick(&OPERATIONS),
        ..card
    };
    let writes = list(maker, next, &card, length, shown);
    let made = |write: Entry| {
        made_twice(write, &card, &before, &writes)
            .map_err(|why| format!("{why}: card {card:X?}, {writes:X?}"))
    };
    let shows = made(model::write)?;
    same("whether a caliper shows", &shows, &made(engine::write)?)?;
    shown.lists += u64::from(shows);
    Ok(())
}

/// Writes that keep the conditions, refused ones among them.
fn list(
    maker: &mut Maker,
    next: Next,
    card: &Card,
    length: usize,
    shown: &mut Shown,
) -> Vec<Write> {
    let mut card = card.clone();
    let mut vram = vec![0; length];
    let mut list = Vec::new();
    while list.len() < WRITES {
        let write = next(maker, &card, length);
        let mut after = card.clone();
        let answer = model::write(&mut after, &mut vram, write);
        if answer.number != 0 || keeps(&card, write) {
            shown.write(&card, write, answer);
            list.push(write);
            card = after;
        }
    }
    list
}

/// Whether an accepted write draws under one of the operations and obeys it, or doesn't draw; and reads no pixels.
fn keeps(card: &Card, write: Write) -> bool {
    let obeys = OPERATIONS.contains(&card.raster);
    match (write.space, write.address) {
        (FRAME, _) if card.mode == mode::COPY => obeys && card.writing != 0,
        (FRAME, _) => obeys && !mode::is_block(card.mode),
        (REGISTER, 0x0160) => false,
        (REGISTER, 0x0164 | CONTINUE) => obeys,
        _ => true,
    }
}

fn made_twice(write: Entry, card: &Card, before: &[u8], writes: &[Write]) -> Result<bool, String> {
    let mut vram = before.to_vec();
    let first = answers(write, card, &mut vram, writes);
    let shown = vram != before;
    let second = answers(write, card, &mut vram, writes);
    same("what the second time answers", &first, &second)?;
    if vram == before {
        Ok(shown)
    } else {
        Err(String::from("made twice, a list leaves another picture"))
    }
}

fn answers(write: Entry, card: &Card, vram: &mut [u8], writes: &[Write]) -> Vec<Answer> {
    let mut card = card.clone();
    let answer = |&w| write(&mut card, vram, w);
    writes.iter().map(answer).collect()
}
