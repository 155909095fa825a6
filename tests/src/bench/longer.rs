//! Ask 6: what an entry costs in traces of 4,096 entries and more, run, read and recorded.

use super::library::{self, This};
use super::timing::timed;
use super::traces::read;
use crate::damage;
use crate::engine;
use crate::generate::Maker;
use crate::model::trace::{HEADER, MOST_ENTRIES};
use crate::model::Write;
use crate::random::Random;

const COUNTS: [usize; 3] = [4_096, 16_384, MOST_ENTRIES as usize];
/// Recording by appends costs the square of the entries, so rounds are few.
const ROUNDS: usize = 5;
const VRAM: usize = 4_096;

struct Long {
    writes: Vec<Write>,
    bytes: Vec<u8>,
    vram: Vec<u8>,
}

impl Long {
    fn new(writes: &[Write]) -> Long {
        Long {
            writes: writes.to_vec(),
            bytes: damage::whole(VRAM, writes),
            vram: vec![0; VRAM],
        }
    }

    /// Records the writes in the buffer, each by this call.
    fn record(&mut self, one_more: fn(&mut [u8], usize, Write) -> (u32, u32)) -> u32 {
        let (mut number, mut used) = engine::start(&mut self.bytes, VRAM as u32);
        for &write in &self.writes {
            let (refused, longer) = one_more(&mut self.bytes, used as usize, write);
            (number, used) = (number | refused, longer);
        }
        number
    }
}

/// What is done with a trace, and the number that it answers.
type Way = fn(&mut Long) -> u32;

const WAYS: [(&str, Way); 5] = [
    ("run whole", |long| {
        library::run(This, &long.bytes[HEADER..], &mut long.vram).number
    }),
    ("read in one chunk", |long| {
        read(&long.bytes, usize::MAX, &mut long.vram).number
    }),
    ("read in chunks of 64", |long| {
        read(&long.bytes, 64, &mut long.vram).number
    }),
    ("recorded by extending", |long| long.record(engine::extend)),
    ("recorded by appending", |long| long.record(engine::append)),
];

pub fn print() -> Result<(), String> {
    let mut maker = Maker::new(Random::of_case(1, 3));
    let writes = damage::without_lines(&mut maker, VRAM, MOST_ENTRIES as usize);
    println!("\ntraces of mixed entries, lines left out, on a VRAM of {VRAM} bytes: nanoseconds an entry, medians of {ROUNDS} rounds");
    let heading = COUNTS.map(|count| format!("{count:>9}"));
    println!("{:<26}{}", "entries", heading.concat());
    for (name, way) in WAYS {
        let cells = COUNTS
            .iter()
            .map(|&count| measure(Long::new(&writes[..count]), way))
            .collect::<Result<Vec<f64>, String>>()
            .map_err(|why| format!("{name}: {why}"))?;
        let cells: String = cells.iter().map(|n| format!("{n:>9.1}")).collect();
        println!("{name:<26}{cells}");
    }
    Ok(())
}

fn measure(mut long: Long, way: Way) -> Result<f64, String> {
    let number = way(&mut long);
    if number != 0 {
        return Err(format!("{number} answered"));
    }
    let mut rounds = [0.0; ROUNDS].map(|_: f64| 1e9 * timed(long.writes.len(), || way(&mut long)));
    rounds.sort_by(f64::total_cmp);
    Ok(rounds[ROUNDS / 2])
}
