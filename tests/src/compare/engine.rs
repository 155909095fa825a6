//! The engine against the model: the names of the header, the recorded traces, samples by hand, the limits of traces and a textbook's lines, then numbered cases of writes of every kind, of opaque
//! stipples, of traces, of calipers, of serial lines, of waveform lines and of restored cards.

use super::calls::Calls;
use super::serial::{self, Met};
use super::{all_reached, caliper, reads, traces, writes, Other, Outcome};
use super::{CASES, FIRST_CALIPER, FIRST_LINES, FIRST_READS, FIRST_SERIAL, WRITE_CASES};
use crate::coverage::Coverage;
use crate::engine;
use crate::engine::reader::{self, Reader};
use crate::generate::Maker;
use crate::limits;
use crate::lines;
use crate::model;
use crate::names;
use crate::random::Random;
use crate::recorded;
use crate::samples;

pub(super) const ENGINE: Other = Other {
    reset: engine::reset,
    write: engine::write,
};

const CALLS: limits::Calls = limits::Calls {
    append: engine::append,
    extend: Some(engine::extend),
    check: engine::check,
    run: engine::run,
    write: engine::write,
    arrives: |bytes, vram| {
        let mut reader = Reader::new();
        let number = reader::chunk(&mut reader, bytes, &mut model::reset(0), vram);
        [number, reader.applied, reader.pixels, reader.changed]
    },
};

/// Runs the cases from first to last; coverage is judged only where all of them ran.
pub fn compare(seed: u64, first: u64, last: u64) -> Outcome {
    let named = names::check_all()?;
    println!("{named} names of the header as the bindings and the library have them");
    let recorded = recorded::check_all(engine::run)?;
    println!("{recorded} recorded traces give their pictures on the engine");
    let samples = samples::check_writes(engine::write)?;
    println!("{samples} samples worked out by hand on the engine");
    let limits = limits::check_all(&CALLS)?;
    println!("{limits} traces at the limits on the engine");
    let drawn = lines::check_all(engine::write)?;
    println!("{drawn} lines on the engine, every byte as in a textbook");
    println!("seed {seed}, cases {first} to {last}");
    let mut coverage = Coverage::new();
    let mut calls = Calls::new();
    let mut shown = caliper::Shown::new();
    let mut met = Met::new();
    for case in first..=last {
        let mut maker = Maker::new(Random::of_case(seed, case));
        let outcome = if case < WRITE_CASES {
            writes::case(&ENGINE, &mut maker, &mut coverage, case)
        } else if case < FIRST_CALIPER {
            traces::case(&mut maker, &mut calls, case - WRITE_CASES)
        } else if case < FIRST_SERIAL {
            caliper::case(&mut maker, &mut shown)
        } else if case < FIRST_LINES {
            serial::case(&mut maker, &mut met, case - FIRST_SERIAL)
        } else if case < FIRST_READS {
            writes::lines(&ENGINE, &mut maker, &mut coverage)
        } else {
            reads::case(&mut maker, &mut calls, case - FIRST_READS)
        };
        outcome.map_err(|why| {
            format!(
                "seed {seed} case {case}: {why}\nrun it again with: compare {seed} {case} {case}"
            )
        })?;
    }
    coverage.print();
    calls.print();
    shown.print();
    met.print();
    println!("no difference");
    if first == 0 && last + 1 == CASES {
        let missing = [
            coverage.missing(),
            calls.missing(),
            shown.missing(),
            met.missing(),
        ]
        .concat();
        return all_reached(&missing).map_err(|why| format!("seed {seed}: {why}"));
    }
    Ok(())
}
