//! The library's calls. They take and give the model's types, so that both sides can be compared whole.

mod card;
pub mod reader;

use crate::model::{self, trace, Answer, Write};
pub use zevkholtai::{compose, read_back};
use zevkholtai::{Card, Checked};

/// The card that reset leaves, whatever card stood there before.
pub fn reset(before: &model::Card, held: u8) -> model::Card {
    let mut card = Card::from(before);
    card.set_at_reset(held);
    model::Card::from(&card)
}

fn bus(write: Write) -> zevkholtai::Write {
    let Write {
        space,
        lanes,
        address,
        data,
    } = write;
    zevkholtai::Write {
        space,
        lanes,
        address,
        data,
    }
}

pub fn write(card: &mut model::Card, vram: &mut [u8], write: Write) -> Answer {
    let mut lent = Card::from(&*card);
    let answer = lent.write(bus(write), vram);
    *card = model::Card::from(&lent);
    Answer {
        number: answer.number,
        pixels: answer.count,
        changed: answer.changed,
    }
}

pub fn read(card: &model::Card, offset: u32) -> (u32, u32) {
    let reading = Card::from(card).read(offset);
    (reading.number, reading.value)
}

fn pair(checked: Checked) -> (u32, u32) {
    (checked.number, checked.length)
}

pub fn start(buffer: &mut [u8], length: u32) -> (u32, u32) {
    pair(zevkholtai::start(buffer, length))
}

pub fn append(buffer: &mut [u8], used: usize, write: Write) -> (u32, u32) {
    pair(zevkholtai::append(buffer, used, bus(write)))
}

pub fn extend(buffer: &mut [u8], used: usize, write: Write) -> (u32, u32) {
    pair(zevkholtai::extend(buffer, used, bus(write)))
}

pub fn check(bytes: &[u8]) -> (u32, u32) {
    pair(zevkholtai::check(bytes))
}

pub fn run(part: &[u8], card: &mut model::Card, vram: &mut [u8], budget: u32) -> trace::Ran {
    let mut lent = Card::from(&*card);
    let ran = lent.run(part, vram, budget);
    *card = model::Card::from(&lent);
    trace::Ran {
        number: ran.number,
        entries: ran.entries,
        pixels: ran.pixels,
        changed: ran.changed,
        rest: ran.rest,
    }
}
