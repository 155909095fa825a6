//! Runs of writes: number, pixels enabled and changed, whole card and whole VRAM are compared after every one.

use super::{fresh_card, picture, same, Other, Outcome, Pair};
use crate::coverage::Coverage;
use crate::generate::Maker;
use crate::model::{self, Answer, Card, Write};

/// Cases from this number on are opaque stipples.
pub const FIRST_STIPPLES: u64 = 1_000;

/// After so many writes on average a case of lines goes on with another card.
const LINES_A_CARD: u64 = 15;

const LINES_A_CASE: usize = 300;
const WRITES_A_CASE: usize = 300;
const WRITES_A_SHORT_CASE: usize = 12;
const STIPPLES_A_CASE: usize = 500;

pub fn case(other: &Other, maker: &mut Maker, coverage: &mut Coverage, case: u64) -> Outcome {
    if case < FIRST_STIPPLES {
        any(other, maker, coverage)
    } else {
        stipples(other, maker, coverage)
    }
}

/// Some hundred writes on a kept card and picture; now and then another card is handed in.
fn any(other: &Other, maker: &mut Maker, coverage: &mut Coverage) -> Outcome {
    let (length, short) = maker.length();
    let first = picture(maker, length);
    let mut vram = Pair::new(first.clone());
    let mut card = fresh_card(other, maker)?;
    let writes = if short {
        WRITES_A_SHORT_CASE
    } else {
        WRITES_A_CASE
    };
    for _ in 0..writes {
        if maker.random.one_in(60) {
            card = maker.good_card();
        }
        let bad = maker.random.one_in(40);
        let handed = if bad {
            maker.bad_card(&card)
        } else {
            card.clone()
        };
        let write = maker.write(&handed, length);
        let after = one_write(other, coverage, &handed, &mut vram, write)?;
        // A card that is bad would be refused for ever, so the good one goes on.
        card = if bad { card } else { after };
    }
    coverage.end_run(&first, &vram.model);
    Ok(())
}

/// Opaque stipples on a kept picture, each on a card of its own.
fn stipples(other: &Other, maker: &mut Maker, coverage: &mut Coverage) -> Outcome {
    let length = maker.short_length();
    let first = maker.random.bytes(length);
    let mut vram = Pair::new(first.clone());
    for _ in 0..STIPPLES_A_CASE {
        let mut card = maker.stipple_card();
        if maker.random.one_in(40) {
            card = maker.bad_card(&card);
        }
        let write = maker.stipple(&card, length);
        one_write(other, coverage, &card, &mut vram, write)?;
    }
    coverage.end_run(&first, &vram.model);
    Ok(())
}

/// Lines and continues, and what they go by, on a kept card and picture; now and then another card is handed in.
pub fn lines(other: &Other, maker: &mut Maker, coverage: &mut Coverage) -> Outcome {
    let length = if maker.random.one_in(2) {
        maker.short_length()
    } else {
        4096
    };
    let first = picture(maker, length);
    let mut vram = Pair::new(first.clone());
    let mut card = fresh_card(other, maker)?;
    for _ in 0..LINES_A_CASE {
        if maker.random.one_in(LINES_A_CARD) {
            card = handed_for_lines(maker);
        }
        let bad = maker.random.one_in(60);
        let handed = if bad {
            maker.bad_card(&card)
        } else {
            card.clone()
        };
        let write = maker.line(&handed, length);
        let after = one_write(other, coverage, &handed, &mut vram, write)?;
        card = if bad { card } else { after };
    }
    coverage.end_run(&first, &vram.model);
    Ok(())
}

/// A card in a line mode with anything left behind, or one at reset, which has no line to go on with.
fn handed_for_lines(maker: &mut Maker) -> Card {
    if maker.random.one_in(4) {
        model::reset(maker.held())
    } else {
        maker.line_card()
    }
}

fn one_write(
    other: &Other,
    coverage: &mut Coverage,
    card: &Card,
    vram: &mut Pair,
    write: Write,
) -> Result<Card, String> {
    let (after, answer) = made(other, card, vram, write)?;
    coverage.write(card, vram.model.len(), write, answer);
    Ok(after)
}

/// One write on both sides, and the card that it leaves on both.
pub(super) fn made(
    other: &Other,
    card: &Card,
    vram: &mut Pair,
    write: Write,
) -> Result<(Card, Answer), String> {
    let mut ours = card.clone();
    let mut theirs = card.clone();
    let answer = model::write(&mut ours, &mut vram.model, write);
    let given = (other.write)(&mut theirs, &mut vram.other, write);
    same("answer", &answer, &given)
        .and_then(|()| within_enabled(&answer))
        .and_then(|()| same("card", &ours, &theirs))
        .and_then(|()| vram.same("VRAM"))
        .map_err(|why| {
            format!(
                "VRAM {}, {write:X?}, card {card:X?}: {why}",
                vram.model.len()
            )
        })?;
    Ok((ours, answer))
}

/// Ask 4: "never above the enabled count".
fn within_enabled(answer: &Answer) -> Outcome {
    if answer.changed <= answer.pixels {
        Ok(())
    } else {
        Err(format!("more changed than enabled: {answer:?}"))
    }
}
