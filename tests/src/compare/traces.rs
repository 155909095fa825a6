//! Traces: started, appended to, extended, checked and run on both sides, whole and damaged, with several budgets.

use super::calls::{Call, Calls};
use super::engine::ENGINE;
use super::{fresh_card, picture, same, Outcome, Pair};
use crate::damage;
use crate::engine;
use crate::generate::Maker;
use crate::model::trace::{self, Ran, ENTRY, HEADER, MOST_ENTRIES};
use crate::model::{self, Card, Write};

/// The first cases have traces of the largest number of entries, one less and one more.
const AT_THE_LIMIT: u64 = 3;

/// One trace: written entry by entry, checked whole and damaged, and run in pieces.
pub fn case(maker: &mut Maker, calls: &mut Calls, case: u64) -> Outcome {
    if case < AT_THE_LIMIT {
        return at_the_limit(maker, calls, (MOST_ENTRIES - 1 + case) as usize);
    }
    let (length, _) = maker.length();
    let entries = maker.random.below(50) as usize;
    let writes = if maker.random.one_in(4) {
        damage::stipples(maker, length, entries, damage::FEW)
    } else {
        damage::writes(maker, length, entries, damage::FEW)
    };
    written(maker, calls, length, &writes)?;
    let whole = damage::whole(length, &writes);
    lengthened(maker, calls, &whole)?;
    checked(calls, &whole)?;
    run_in_pieces(maker, calls, &whole[HEADER..], length)?;
    for _ in 0..3 {
        let bad = damage::damaged(maker, &whole);
        checked(calls, &bad)?;
        lengthened(maker, calls, &bad)?;
        run_in_pieces(maker, calls, &bad[HEADER.min(bad.len())..], length)?;
    }
    Ok(())
}

/// So many writes, all accepted, on a small VRAM, since the model looks at all of it at each write: checked and appended to, whole and
/// damaged, and run whole.
fn at_the_limit(maker: &mut Maker, calls: &mut Calls, entries: usize) -> Outcome {
    let length = 256;
    let writes = damage::writes(maker, length, entries, damage::NEVER);
    let whole = damage::whole(length, &writes);
    for bytes in [damage::damaged(maker, &whole), whole.clone()] {
        lengthened(maker, calls, &bytes)?;
        checked(calls, &bytes)?;
    }
    let mut vram = Pair::new(picture(maker, length));
    run(
        calls,
        &whole[HEADER..],
        &mut model::reset(0),
        &mut vram,
        u32::MAX,
    )?;
    Ok(())
}

/// Starts a trace in a buffer that may be too small and appends, now and then with a false length.
fn written(maker: &mut Maker, calls: &mut Calls, length: usize, writes: &[Write]) -> Outcome {
    let size = match maker.random.below(4) {
        0 => maker.random.below(HEADER as u64 + 1) as usize,
        1 => HEADER + maker.random.below((ENTRY * writes.len()) as u64 + 1) as usize,
        _ => HEADER + ENTRY * writes.len() + maker.random.below(30) as usize,
    };
    let mut buffer = Pair::new(maker.random.bytes(size));
    let started = trace::start(&mut buffer.model, length as u32);
    same(
        "start",
        &started,
        &engine::start(&mut buffer.other, length as u32),
    )?;
    buffer.same("buffer after start")?;
    calls.add(Call::Start, started.0);
    let mut used = started.1 as usize;
    for &write in writes {
        let wrong = maker.random.pick(&[
            used + 1,
            used.saturating_sub(1),
            used + ENTRY,
            size + 1,
            usize::MAX,
            0,
        ]);
        let claimed = if maker.random.one_in(12) { wrong } else { used };
        let (number, longer) = appended(calls, &mut buffer, claimed, write)?;
        if number == 0 {
            used = longer as usize;
        }
    }
    Ok(())
}

fn appended(
    calls: &mut Calls,
    buffer: &mut Pair,
    used: usize,
    write: Write,
) -> Result<(u32, u32), String> {
    let extension = extended(calls, &buffer.model, used, write)?;
    let ours = trace::append(&mut buffer.model, used, write);
    let theirs = engine::append(&mut buffer.other, used, write);
    same(&format!("append of {write:X?} at {used}"), &ours, &theirs)?;
    buffer.same("buffer after append")?;
    calls.add(Call::Append, ours.0);
    if ours.0 == 10 && extension != 10 {
        calls.add(Call::ExtendOverPad, extension);
    }
    Ok(ours)
}

/// Extends a copy of the buffer. The answer is what the model's append gives where every pad byte is zero, and the bytes are those
/// too, but that no pad byte is looked at or changed.
fn extended(calls: &mut Calls, buffer: &[u8], used: usize, write: Write) -> Result<u32, String> {
    let mut lent = Pair::new(buffer.to_vec());
    let before = used.min(buffer.len());
    let pads = (HEADER..before).filter(|at| matches!((at - HEADER) % ENTRY, 2 | 3));
    let kept: Vec<(usize, u8)> = pads.map(|at| (at, buffer[at])).collect();
    for &(at, _) in &kept {
        lent.model[at] = 0;
    }
    let ours = trace::append(&mut lent.model, used, write);
    for (at, pad) in kept {
        lent.model[at] = pad;
    }
    let theirs = engine::extend(&mut lent.other, used, write);
    same(
        &format!("extension by {write:X?} at {used}"),
        &ours,
        &theirs,
    )?;
    lent.same("buffer after extension")?;
    calls.add(Call::Extend, ours.0);
    Ok(ours.0)
}

/// Appends three entries to bytes that may be a trace already; the third never has room.
fn lengthened(maker: &mut Maker, calls: &mut Calls, bytes: &[u8]) -> Outcome {
    let mut lent = bytes.to_vec();
    lent.extend(maker.random.bytes(3 * ENTRY - 1));
    let mut buffer = Pair::new(lent);
    let mut used = bytes.len();
    for _ in 0..3 {
        let lanes = if maker.random.one_in(20) { 16 } else { 15 };
        let write = Write {
            space: maker.random.byte() % 2,
            lanes,
            address: maker.random.word(),
            data: maker.random.word(),
        };
        let (number, longer) = appended(calls, &mut buffer, used, write)?;
        if number == 0 {
            used = longer as usize;
        }
    }
    Ok(())
}

fn checked(calls: &mut Calls, bytes: &[u8]) -> Outcome {
    let ours = trace::check(bytes);
    same("check", &ours, &engine::check(bytes))?;
    calls.add(Call::Check, ours.0);
    Ok(())
}

/// Runs a part with several budgets; after a refusal the entry is left out and the rest goes on.
fn run_in_pieces(maker: &mut Maker, calls: &mut Calls, part: &[u8], length: usize) -> Outcome {
    // "The VRAM length in a trace's header isn't compared with the lent VRAM."
    let lent = if maker.random.one_in(6) {
        maker.length().0
    } else {
        length
    };
    let mut vram = Pair::new(picture(maker, lent));
    let mut card = card_for_run(maker)?;
    let mut from = 0;
    for _ in 0..6 {
        let random = maker.random.below(100) as u32;
        let budget = maker
            .random
            .pick(&[0, 1, 7, 40, random, MOST_ENTRIES as u32, u32::MAX]);
        let ran = run(calls, &part[from..], &mut card, &mut vram, budget)?;
        if ran.number == 10 || ran.number == 1 {
            return Ok(());
        }
        from += ran.rest as usize;
        if ran.number != 0 {
            from += ENTRY;
        }
    }
    Ok(())
}

fn run(
    calls: &mut Calls,
    part: &[u8],
    card: &mut Card,
    vram: &mut Pair,
    budget: u32,
) -> Result<Ran, String> {
    let mut theirs = card.clone();
    let ran = trace::run(part, card, &mut vram.model, budget);
    let given = engine::run(part, &mut theirs, &mut vram.other, budget);
    let what = format!("run of {} bytes with budget {budget}", part.len());
    same(&what, &ran, &given)?;
    same("card after run", card, &theirs)?;
    vram.same("VRAM after run")?;
    calls.add(Call::Run, ran.number);
    Ok(ran)
}

/// Most runs start from reset, some from another card, good or bad.
pub(super) fn card_for_run(maker: &mut Maker) -> Result<Card, String> {
    let card = fresh_card(&ENGINE, maker)?;
    Ok(match maker.random.below(12) {
        0 => maker.bad_card(&card),
        1..=3 => maker.good_card(),
        _ => card,
    })
}
