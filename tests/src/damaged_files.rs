//! Numbered trace files, the same ones every time, for two programs to be run on each: whole, with each thing wrong, and refused
//! midway with each number that an entry can get. The model says what each of them is.

use crate::damage;
use crate::generate::Maker;
use crate::model::trace::{self, HEADER, MOST_ENTRIES};
use crate::model::{self, Card, Write};
use crate::random::Random;
use std::fs;

pub const COUNT: u64 = 240;

const SEED: u64 = 11;
const LENGTHS: [usize; 4] = [64, 128, 2048, 4096];
/// The numbers that a trace's entry can get; 1 is for a length that no trace has.
const REFUSALS: [u32; 10] = [2, 3, 4, 5, 6, 7, 8, 9, 12, 13];
/// In turn: two whole, one damaged in each way, one refused with each number.
const TURN: u64 = 2 + damage::WAYS + REFUSALS.len() as u64;
/// A list that came so far without the wanted number is given up: after a line, say, none can get 13.
const MOST_BEFORE: usize = 60;

/// Files by what the model answers for them.
struct Tally([u64; 14]);

pub fn save(folder: &str, count: u64) -> Result<(), String> {
    fs::create_dir_all(folder).map_err(|why| format!("{folder}: {why}"))?;
    let mut tally = Tally([0; 14]);
    for number in 0..count {
        let bytes = file(number);
        let path = format!("{folder}/{number:04}.trace");
        fs::write(&path, &bytes).map_err(|why| format!("{path}: {why}"))?;
        tally.0[answered(&bytes) as usize] += 1;
    }
    println!("{count} traces: {}", tally.said());
    if count >= COUNT {
        tally.all_met()?;
    }
    Ok(())
}

fn file(number: u64) -> Vec<u8> {
    let mut maker = Maker::new(Random::of_case(SEED, number));
    match number {
        0 => Vec::new(),
        1 => damage::whole(64, &[]),
        2 => too_long(&mut maker),
        _ => in_turn(&mut maker, (number - 3) % TURN),
    }
}

/// Every entry is good, but there is one too many.
fn too_long(maker: &mut Maker) -> Vec<u8> {
    let entries = MOST_ENTRIES as usize + 1;
    damage::whole(64, &damage::writes(maker, 64, entries, damage::NEVER))
}

fn in_turn(maker: &mut Maker, turn: u64) -> Vec<u8> {
    let length = maker.random.pick(&LENGTHS);
    if let Some(refusal) = turn.checked_sub(2 + damage::WAYS) {
        return damage::whole(length, &refused(maker, length, REFUSALS[refusal as usize]));
    }
    let entries = 1 + maker.random.below(60) as usize;
    let writes = damage::writes(maker, length, entries, damage::NEVER);
    let whole = damage::whole(length, &writes);
    match turn.checked_sub(2) {
        None => whole,
        Some(way) => damage::damaged_in(maker, &whole, way),
    }
}

/// Accepted writes, one that gets this number, and a few more.
fn refused(maker: &mut Maker, length: usize, number: u32) -> Vec<Write> {
    loop {
        if let Some(mut list) = refused_once(maker, length, number) {
            list.extend((0..3).map(|_| maker.write(&model::reset(0), length)));
            return list;
        }
    }
}

/// None where the number does not come up.
fn refused_once(maker: &mut Maker, length: usize, number: u32) -> Option<Vec<Write>> {
    let mut card = model::reset(0);
    let mut vram = vec![0; length];
    let mut list = Vec::new();
    while list.len() < MOST_BEFORE {
        let write = next(maker, &card, length);
        let given = model::write(&mut card, &mut vram, write).number;
        let found = given == number && !list.is_empty();
        if given == 0 || found {
            list.push(write);
        }
        if found {
            return Some(list);
        }
    }
    None
}

fn next(maker: &mut Maker, card: &Card, length: usize) -> Write {
    if maker.random.one_in(3) {
        maker.line(card, length)
    } else {
        maker.write(card, length)
    }
}

/// What check answers or, for a trace, what its run from reset does.
fn answered(bytes: &[u8]) -> u32 {
    let (number, length) = trace::check(bytes);
    if number != 0 {
        return number;
    }
    let mut vram = vec![0; length as usize];
    let part = &bytes[HEADER..];
    trace::run(part, &mut model::reset(0), &mut vram, u32::MAX).number
}

impl Tally {
    fn said(&self) -> String {
        let met = self.0.iter().enumerate().filter(|(_, &files)| files > 0);
        let cells: Vec<String> = met.map(|(n, files)| format!("{n}: {files}")).collect();
        cells.join(", ")
    }

    fn all_met(&self) -> Result<(), String> {
        let mut wanted = [0, 10].into_iter().chain(REFUSALS);
        match wanted.find(|&number| self.0[number as usize] == 0) {
            None => Ok(()),
            Some(number) => Err(format!("no trace gets number {number}")),
        }
    }
}
