//! Makes the same calls on the model and on another, and compares everything that comes back.

#[cfg(feature = "engine")]
mod caliper;
#[cfg(feature = "engine")]
mod calls;
#[cfg(feature = "engine")]
pub mod engine;
pub mod plain;
#[cfg(feature = "engine")]
mod reads;
#[cfg(feature = "engine")]
mod serial;
#[cfg(feature = "engine")]
mod traces;
mod writes;

use crate::generate::Maker;
use crate::model::{self, Answer, Card, Write};
use std::fmt::Debug;

/// Cases below this number are runs of writes and of stipples. Then come traces, calipers, serial lines, waveform lines and, last,
/// restored cards with the calls that only read. New kinds go to the end, so that no case gets another number.
const WRITE_CASES: u64 = writes::FIRST_STIPPLES + 700;
const FIRST_CALIPER: u64 = WRITE_CASES + 4_000;
const FIRST_SERIAL: u64 = FIRST_CALIPER + 1_000;
const FIRST_LINES: u64 = FIRST_SERIAL + 3_000;
const FIRST_READS: u64 = FIRST_LINES + 300;
#[cfg(feature = "engine")]
pub const CASES: u64 = FIRST_READS + 300;

type Outcome = Result<(), String>;

/// What is compared with the model: a reset, given the card that stood there, and a write.
struct Other {
    reset: fn(&Card, u8) -> Card,
    write: fn(&mut Card, &mut [u8], Write) -> Answer,
}

fn same<T: PartialEq + Debug>(what: &str, model: &T, other: &T) -> Outcome {
    if model == other {
        Ok(())
    } else {
        Err(format!(
            "{what} differs\n  model {model:?}\n  other {other:?}"
        ))
    }
}

fn same_bytes(what: &str, model: &[u8], other: &[u8]) -> Outcome {
    if model == other {
        return Ok(());
    }
    let at = (0..model.len())
        .find(|&at| model[at] != other[at])
        .unwrap_or(0);
    Err(format!(
        "{what} differs first at {at}: model {:02X}, other {:02X}",
        model[at], other[at]
    ))
}

/// A picture lent to both sides.
struct Pair {
    model: Vec<u8>,
    other: Vec<u8>,
}

impl Pair {
    fn new(bytes: Vec<u8>) -> Pair {
        Pair {
            model: bytes.clone(),
            other: bytes,
        }
    }

    fn same(&self, what: &str) -> Outcome {
        same_bytes(what, &self.model, &self.other)
    }
}

fn picture(maker: &mut Maker, length: usize) -> Vec<u8> {
    if maker.random.one_in(2) {
        vec![0; length]
    } else {
        maker.random.bytes(length)
    }
}

/// Reset leaves the same card on both sides, whatever stood there.
fn fresh_card(other: &Other, maker: &mut Maker) -> Result<Card, String> {
    let held = maker.held();
    let before = maker.good_card();
    let card = model::reset(held);
    same("card after reset", &card, &(other.reset)(&before, held))?;
    Ok(card)
}

/// Every case ran, so nothing may have been left out.
fn all_reached(missing: &[String]) -> Outcome {
    if missing.is_empty() {
        Ok(())
    } else {
        Err(format!("not reached: {}", missing.join("; ")))
    }
}
