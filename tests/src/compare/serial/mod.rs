//! Traces that arrive over a serial line: the engine's reader beside the model's, after every chunk and end call.

mod by_hand;
mod line;
mod met;
mod short;

pub use met::Met;

use super::traces::card_for_run;
use super::{picture, Outcome};
use crate::damage;
use crate::generate::Maker;
use crate::listed::LARGEST_VRAM;
use crate::model::{self, trace::MOST_ENTRIES};
use line::{Sent, Start};

/// The first case has a trace of the largest count, all of it accepted; the next ones have short traces, cut everywhere.
const LONG: u64 = 0;
const LAST_SHORT: u64 = 40;
const READERS_BY_HAND: usize = 40;

pub fn case(maker: &mut Maker, met: &mut Met, case: u64) -> Outcome {
    match case {
        LONG => long(maker, met),
        1..=LAST_SHORT => short::case(maker, met, case as usize % 4),
        _ => any(maker, met),
    }
}

fn long(maker: &mut Maker, met: &mut Met) -> Outcome {
    let length = 4096;
    let writes = damage::writes(maker, length, MOST_ENTRIES as usize, damage::NEVER);
    let bytes = damage::whole(length, &writes);
    let start = Start {
        card: model::reset(0),
        picture: picture(maker, length),
    };
    let chunks = cut(maker, &bytes, 5_000);
    let sent = start.sent(met, &chunks)?;
    beside(met, &start, &bytes, &sent)
}

/// A trace whole and damaged, in chunks; and readers put together by hand.
fn any(maker: &mut Maker, met: &mut Met) -> Outcome {
    let (length, _) = maker.length();
    let entries = maker.random.below(30) as usize;
    let rare = maker.random.pick(&[5, damage::FEW]);
    let writes = damage::writes(maker, length, entries, rare);
    let whole = damage::whole(length, &writes);
    in_chunks(maker, met, &whole, length)?;
    for _ in 0..3 {
        let bad = damage::damaged(maker, &whole);
        in_chunks(maker, met, &bad, length)?;
    }
    for _ in 0..READERS_BY_HAND {
        by_hand::case(maker, met)?;
    }
    Ok(())
}

fn in_chunks(maker: &mut Maker, met: &mut Met, bytes: &[u8], length: usize) -> Outcome {
    // "The VRAM length in a trace's header isn't compared with the lent VRAM."
    let lent = if maker.random.one_in(6) {
        maker.length().0
    } else {
        length
    };
    let start = start(maker, lent)?;
    let most = maker.random.pick(&[2, 5, 13, 30, 400]);
    let chunks = cut(maker, bytes, most);
    let sent = start.sent(met, &chunks)?;
    beside(met, &start, bytes, &sent)?;
    disturbed(maker, met, &start, &chunks)
}

fn start(maker: &mut Maker, length: usize) -> Result<Start, String> {
    Ok(Start {
        card: card_for_run(maker)?,
        picture: picture(maker, length),
    })
}

/// Chunks of up to so many bytes, empty ones among them, and one at least.
fn cut<'a>(maker: &mut Maker, bytes: &'a [u8], most: u64) -> Vec<&'a [u8]> {
    let mut chunks = vec![&bytes[..0]];
    let mut rest = bytes;
    while !rest.is_empty() {
        let length = (maker.random.below(most + 1) as usize).min(rest.len());
        let (chunk, after) = rest.split_at(length);
        chunks.push(chunk);
        rest = after;
    }
    chunks
}

/// "From a new reader, in one or many chunks, ... the same, and for a trace that check 10 passes they are those of one whole run."
/// The reader too is the same, cut as they may be.
fn beside(met: &mut Met, start: &Start, bytes: &[u8], sent: &Sent) -> Outcome {
    sent.same("in one chunk", &start.at_once(bytes))?;
    if let Some(run) = start.run(bytes) {
        met.runs += 1;
        run.same("of one whole run", &sent.standing)?;
    }
    Ok(())
}

/// The same chunks with an end call or a forbidden picture among them or none, two end calls, and chunks after these.
fn disturbed(maker: &mut Maker, met: &mut Met, start: &Start, chunks: &[&[u8]]) -> Outcome {
    let at = maker.random.below(chunks.len() as u64 + 1) as usize;
    let mut line = start.line(met);
    for (i, chunk) in chunks.iter().enumerate() {
        if i == at {
            match maker.random.below(3) {
                0 => line.end()?,
                1 => line.elsewhere(chunk, forbidden(maker))?,
                _ => line.elsewhere(&[], forbidden(maker))?,
            }
        }
        line.chunk(chunk)?;
    }
    line.end()?;
    line.end()?;
    line.chunk(&[])?;
    line.chunk(&maker.random.bytes(1))?;
    line.end()
}

/// A length that number 1 forbids.
fn forbidden(maker: &mut Maker) -> usize {
    if maker.random.one_in(50) {
        LARGEST_VRAM + 64
    } else {
        maker.random.pick(&[0, 1, 63, 65, 4095])
    }
}
