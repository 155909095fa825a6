//! A trace of mixed entries from reset, lines left out: run whole, and read in chunks. The plain implementation makes its writes one by one.

use super::library::{self, Library, Other, This, OTHER};
use super::rows::{Row, VRAM};
use super::side::{added, same_answer, NONE};
use super::timing::{timed, Times};
use crate::damage;
use crate::fast;
use crate::generate::Maker;
use crate::model::trace::HEADER;
use crate::model::{Answer, Write};
use crate::random::Random;
use zevkholtai::{Card, Fed, Reader};

/// The longest trace that libraries from before Ask 6 take too.
pub const ENTRIES: usize = 4_096;

#[derive(Clone, Copy)]
pub enum Way {
    Run,
    /// Chunks of up to so many bytes.
    Chunks(usize),
}

const WAYS: [(&str, Way); 3] = [
    ("run whole", Way::Run),
    ("read in one chunk", Way::Chunks(usize::MAX)),
    ("read in chunks of 64", Way::Chunks(64)),
];

/// The rows, with what each measures. Spans differ from entry to entry, so no pixels are shown.
pub fn rows() -> impl Iterator<Item = (Row, Way)> {
    let mut maker = Maker::new(Random::of_case(1, 2));
    let writes = damage::without_lines(&mut maker, VRAM, ENTRIES);
    WAYS.into_iter().map(move |(name, way)| {
        let row = Row {
            name: String::from(name),
            held: 0,
            setting: Vec::new(),
            writes: writes.clone(),
            turns: ENTRIES,
            writes_a_turn: 1,
            pixels: 0,
            places: Vec::new(),
        };
        (row, way)
    })
}

pub fn measure(row: &Row, way: Way) -> Result<Times, String> {
    let picture = Random::of_case(1, 1).bytes(VRAM);
    let mut vrams = [picture.clone(), picture.clone(), picture];
    let bytes = damage::whole(VRAM, &row.writes);
    let part = &bytes[HEADER..];
    let engine = |vram: &mut [u8]| match way {
        Way::Run => library::run(This, part, vram),
        Way::Chunks(size) => read(&bytes, size, vram),
    };
    // A reader and its card go by value, and another commit may lay them out otherwise, so its reader is not called.
    let other = OTHER.filter(|_| matches!(way, Way::Run));
    let wanted = written(&row.writes, &mut vrams[2]);
    if wanted.number != 0 {
        return Err(format!("{}: a write is refused", row.name));
    }
    if engine(&mut vrams[0]) != wanted || vrams[0] != vrams[2] {
        return Err(format!("{}: the sides differ", row.name));
    }
    let other_rule = other.is_some_and(|other| {
        let all = library::run(other, part, &mut vrams[1]);
        !same_answer(all, wanted, Other::CHANGED) || vrams[1] != vrams[2]
    });
    let rounds = std::array::from_fn(|_| {
        // In the order of `Timed`.
        [
            Some(timed(row.turns, || engine(&mut vrams[0]))),
            other.map(|other| timed(row.turns, || library::run(other, part, &mut vrams[1]))),
            Some(timed(row.turns, || written(&row.writes, &mut vrams[2]))),
            None,
            None,
        ]
    });
    Ok(Times { rounds, other_rule })
}

/// The number and the totals of a trace that a new reader gets in chunks.
pub(super) fn read(bytes: &[u8], size: usize, vram: &mut [u8]) -> Answer {
    let mut line = Fed {
        reader: Reader::new(),
        card: Card::reset(0),
    };
    for chunk in bytes.chunks(size) {
        line = line.reader.chunk(line.card, chunk, vram);
    }
    Answer {
        number: line.reader.end().number,
        pixels: line.reader.pixels,
        changed: line.reader.changed,
    }
}

fn written(writes: &[Write], vram: &mut [u8]) -> Answer {
    let mut card = fast::reset(0);
    let answers = writes
        .iter()
        .map(|&write| fast::write(&mut card, vram, write));
    answers.fold(NONE, added)
}
