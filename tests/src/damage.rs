//! Traces whole and damaged.

#[cfg(feature = "engine")]
mod kinds;

#[cfg(feature = "engine")]
pub use kinds::{stipples, without_lines};

use crate::generate::Maker;
use crate::model::trace::{self, ENTRY, HEADER, MOST_ENTRIES};
use crate::model::{self, refusal, Card, Write};

/// Of the refused writes that come up one in so many is taken into a trace, so that runs are long.
#[cfg(feature = "engine")]
pub const FEW: u64 = 60;
/// So rare a refused write does not come up: none is taken.
pub const NEVER: u64 = u64::MAX;

/// The ways to damage a trace are numbered from 0.
pub const WAYS: u64 = 8;

/// Makes the next write for a card and a VRAM length.
type Next = fn(&mut Maker, &Card, usize) -> Write;

/// Writes of every kind for a trace from reset.
pub fn writes(maker: &mut Maker, length: usize, entries: usize, rare: u64) -> Vec<Write> {
    list(maker, Maker::write, length, entries, rare)
}

/// Made on a model card as it goes; one in `rare` refused writes is taken, all on a VRAM that 1 forbids.
fn list(maker: &mut Maker, next: Next, length: usize, entries: usize, rare: u64) -> Vec<Write> {
    let mut card = model::reset(0);
    let mut vram = vec![0; length];
    let mut list = Vec::new();
    while list.len() < entries {
        let write = next(maker, &card, length);
        let refused = model::write(&mut card, &mut vram, write).number != 0;
        let wanted = !refused || refusal::bad_length(length as u64) || maker.random.one_in(rare);
        if wanted {
            list.push(write);
        }
    }
    list
}

/// The bytes of a whole trace, put together without the checks of start and append.
pub fn whole(length: usize, writes: &[Write]) -> Vec<u8> {
    let mut bytes = vec![0; HEADER + ENTRY * writes.len()];
    trace::put_header(&mut bytes, writes.len() as u32, length as u32);
    for (i, write) in writes.iter().enumerate() {
        trace::put_entry(&mut bytes, HEADER + ENTRY * i, *write);
    }
    bytes
}

/// A trace with one thing wrong, or by chance still whole.
#[cfg(feature = "engine")]
pub fn damaged(maker: &mut Maker, bytes: &[u8]) -> Vec<u8> {
    let way = maker.random.below(WAYS);
    damaged_in(maker, bytes, way)
}

/// The same, in the way of this number.
pub fn damaged_in(maker: &mut Maker, bytes: &[u8], way: u64) -> Vec<u8> {
    let mut bad = bytes.to_vec();
    match way {
        0 => bad.truncate(maker.random.below(bytes.len() as u64 + 1) as usize),
        1 => {
            let more = 1 + maker.random.below(2 * ENTRY as u64) as usize;
            bad.extend(maker.random.bytes(more));
        }
        2 => flip(maker, &mut bad, HEADER),
        3 => flip(maker, &mut bad, bytes.len()),
        4 => counted(maker, &mut bad),
        5 if bytes.len() > HEADER => {
            let entries = (bytes.len() - HEADER) / ENTRY;
            let entry = maker.random.below(entries as u64) as usize;
            let pad = 2 + maker.random.below(2) as usize;
            bad[HEADER + ENTRY * entry + pad] = 1 << maker.random.below(8);
        }
        6 => {
            let offset = maker
                .random
                .pick(&[0u32, 15, 17, 28, 0x1000_0010, 0xFFFF_FFFF]);
            bad[4..8].copy_from_slice(&offset.to_le_bytes());
        }
        _ => {
            let length = maker
                .random
                .pick(&[0u32, 63, 65, 2_097_216, 0x8000_0000, 0xFFFF_FFC0]);
            bad[8..12].copy_from_slice(&length.to_le_bytes());
        }
    }
    bad
}

fn flip(maker: &mut Maker, bytes: &mut [u8], upto: usize) {
    let at = maker.random.below(upto as u64) as usize;
    bytes[at] ^= 1 << maker.random.below(8);
}

/// A false count, with a total that would match it if the sum were taken modulo 2^32.
fn counted(maker: &mut Maker, bytes: &mut [u8]) {
    let count = match maker.random.below(5) {
        0 => maker.random.word(),
        1 => 0xFFFF_FFFF - maker.random.below(4) as u32,
        // Twelve times this count is the true size again, modulo 2^32.
        2 => (((bytes.len() - HEADER) / ENTRY) as u32).wrapping_add(1 << 30),
        // The largest number before Ask 6, and the one since.
        3 => 4096 + maker.random.below(2) as u32,
        _ => MOST_ENTRIES as u32 + maker.random.below(2) as u32,
    };
    let total = count.wrapping_mul(12).wrapping_add(16);
    bytes[0..4].copy_from_slice(&count.to_le_bytes());
    bytes[12..16].copy_from_slice(&total.to_le_bytes());
}
