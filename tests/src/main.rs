//! `model`: the reference model alone, on the scope paper's samples, the limits of traces, the recorded traces, the sample trace and a textbook's lines, and
//! the plain implementation against it.
//! `sample FILE`: writes the sample trace.
//! `damaged FOLDER [COUNT]`: writes numbered trace files, whole, damaged and refused.
//! `compare [SEED [FIRST [LAST]]]`: the model against the engine (feature `engine`), on numbered random cases: all of them, the
//! one case FIRST, or those from FIRST to LAST.
//! `bench`: the engine's speed (feature `engine`) beside the plain implementation's and, with the feature `other`, beside that of
//! another commit's library.

mod bedside;
#[cfg(feature = "engine")]
mod bench;
mod compare;
mod coverage;
mod damage;
mod damaged_files;
#[cfg(feature = "engine")]
mod engine;
mod fast;
mod generate;
mod limits;
mod lines;
mod listed;
mod model;
#[cfg(feature = "engine")]
mod names;
mod random;
mod recorded;
mod samples;
mod tables;

use std::env;
use std::process::ExitCode;

const USE: &str =
    "use: model, sample FILE, damaged FOLDER [COUNT], compare [SEED [FIRST [LAST]]], or bench";

fn main() -> ExitCode {
    let words: Vec<String> = env::args().skip(1).collect();
    let words: Vec<&str> = words.iter().map(String::as_str).collect();
    let outcome = match words[..] {
        ["model"] => check_model(),
        ["sample", path] => bedside::save(path),
        ["damaged", folder] => damaged_files::save(folder, damaged_files::COUNT),
        ["damaged", folder, count] => {
            whole_number(count).and_then(|count| damaged_files::save(folder, count))
        }
        ["compare", ref numbers @ ..] if numbers.len() <= 3 => check_engine(numbers),
        ["bench"] => measure_engine(),
        _ => Err(String::from(USE)),
    };
    match outcome {
        Ok(()) => ExitCode::SUCCESS,
        Err(why) => {
            eprintln!("FAILED: {why}");
            ExitCode::FAILURE
        }
    }
}

fn whole_number(word: &str) -> Result<u64, String> {
    word.parse().map_err(|_| format!("{word} is not a number"))
}

fn check_model() -> Result<(), String> {
    println!("samples on the model: {}", samples::check_all()?);
    println!(
        "register and read-back rows on the model: {}",
        tables::check_all()?
    );
    println!(
        "traces at the limits on the model: {}",
        limits::check_all(&limits::MODEL)?
    );
    println!(
        "recorded traces on the model, every byte: {}",
        recorded::check_all(model::trace::run)?
    );
    println!(
        "entries of the sample trace on the model: {}",
        bedside::check()?
    );
    println!(
        "lines on the model, every byte as in a textbook: {}",
        lines::check_all(model::write)?
    );
    println!(
        "writes on the plain implementation as on the model: {}",
        compare::plain::check_all()?
    );
    Ok(())
}

#[cfg(feature = "engine")]
fn check_engine(words: &[&str]) -> Result<(), String> {
    use compare::engine::compare;
    use compare::CASES;
    let number = |i: usize, default: u64| match words.get(i) {
        None => Ok(default),
        Some(word) => whole_number(word),
    };
    let first = number(1, 0)?;
    let last = number(2, if words.len() > 1 { first } else { CASES - 1 })?;
    if first > last || last >= CASES {
        return Err(format!("cases run from 0 to {}", CASES - 1));
    }
    compare(number(0, 1)?, first, last)
}

#[cfg(feature = "engine")]
fn measure_engine() -> Result<(), String> {
    bench::bench()
}

#[cfg(not(feature = "engine"))]
const NO_ENGINE: &str =
    "this verb needs the engine: build with --features engine and ZEVKHOLTAI_LIB set";

#[cfg(not(feature = "engine"))]
fn check_engine(_words: &[&str]) -> Result<(), String> {
    Err(String::from(NO_ENGINE))
}

#[cfg(not(feature = "engine"))]
fn measure_engine() -> Result<(), String> {
    Err(String::from(NO_ENGINE))
}
