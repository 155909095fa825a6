//! Lines and continues: one pass over the walk judges it, a second one draws.

use super::draw::drawn;
use super::words::{twice, Change};
use super::{is_opaque, Drawn, Outcome, CAP};
use crate::model::{Card, Write};

/// Where a line starts or goes on. Sixteen steps of 16 bits from any numbers of 32 bits don't wrap in 64.
struct Start {
    place: i64,
    error: i64,
    visits: usize,
}

pub fn line(card: &mut Card, vram: &mut [u8], write: Write) -> Outcome {
    if !write.address.is_multiple_of(4) {
        return Err(7);
    }
    let start = Start {
        place: i64::from(write.address) + i64::from(write.data >> 16 & 3),
        error: i64::from(card.bresenham[2] as i32 >> 15),
        // 1 to 16, as the bits less one are 0 to 15.
        visits: (card.bresenham[2].wrapping_sub(1) & 15) as usize + 1,
    };
    walk(card, vram, start, write.data)
}

/// A continue.
pub fn go_on(card: &mut Card, vram: &mut [u8], mask: u32) -> Outcome {
    if card.kept == 0 {
        return Err(13);
    }
    let start = Start {
        place: card.place.into(),
        error: card.error.into(),
        visits: 16,
    };
    walk(card, vram, start, mask)
}

/// The halves of a register, each a signed number: address increment and error increment.
fn halves(register: u32) -> (i64, i64) {
    let low = register as i16;
    let high = (register >> 16) as i16;
    (high.into(), low.into())
}

fn walk(card: &mut Card, vram: &mut [u8], start: Start, mask: u32) -> Outcome {
    let below = halves(card.bresenham[0]);
    let (address, error) = halves(card.bresenham[1]);
    let other = (address, -error);
    let Start {
        mut place,
        mut error,
        visits,
    } = start;
    let mut places = [0; 16];
    let mut fits = error == i64::from(error as i16);
    for visited in &mut places[..visits] {
        // A place below zero is far past the end as an unsigned number.
        if place as u64 >= vram.len() as u64 {
            return Err(8);
        }
        *visited = place as usize;
        let (by, change) = if error < 0 { below } else { other };
        place += by;
        error += change;
        fits &= error == i64::from(error as i16);
    }
    if !fits {
        return Err(12);
    }
    (card.place, card.error, card.kept) = (place as i32, error as i32, 1);
    let drawn = if card.mode & CAP == 0 {
        visits - 1
    } else {
        visits
    };
    Ok(draw(card, vram, &places[..drawn], mask))
}

fn draw(card: &Card, vram: &mut [u8], places: &[usize], mask: u32) -> Drawn {
    let set = drawn(card, twice(card.foreground), 0);
    let clear = if is_opaque(card.mode) {
        drawn(card, twice(card.background), 0)
    } else {
        Change::NONE
    };
    let changes = [clear, set].map(|change| (change.and.to_le_bytes(), change.xor.to_le_bytes()));
    let mut changed = 0;
    for (i, &p) in places.iter().enumerate() {
        let (and, xor) = &changes[(mask >> i & 1) as usize];
        let old = vram[p];
        let new = old & and[p % 4] ^ xor[p % 4];
        vram[p] = new;
        changed += u32::from(old != new);
    }
    let enabled = if is_opaque(card.mode) {
        places.len() as u32
    } else {
        (mask & ((1 << places.len()) - 1)).count_ones()
    };
    Drawn { enabled, changed }
}
