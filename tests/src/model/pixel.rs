//! "How one pixel is made", one bit at a time.

use super::Card;

fn bit(word: u32, i: u32) -> bool {
    (word >> i) % 2 == 1
}

/// "the new bit, for source bit s and old bit d, is bit (3 - 2s - d) of the raster operation"
fn made_bit(operation: u32, s: bool, d: bool) -> bool {
    bit(operation, 3 - 2 * u32::from(s) - u32::from(d))
}

/// Byte i of a register; "Byte 0 of a register is its bits 7:0."
pub fn byte_of(register: u32, i: u64) -> u8 {
    register.to_le_bytes()[i as usize]
}

/// The plane byte of pixel p with H's bits cleared.
fn effective_mask(card: &Card, p: u64) -> u8 {
    byte_of(card.plane, p % 4) & !byte_of(card.held, 0)
}

/// The byte that pixel p becomes from its old byte and a source byte. "Bits outside it keep their old state."
pub fn made(card: &Card, p: u64, operation: u32, source: u8, old: u8) -> u8 {
    let mask = effective_mask(card, p);
    let mut new = 0;
    for i in 0..8 {
        let s = bit(u32::from(source), i);
        let d = bit(u32::from(old), i);
        let kept = if bit(u32::from(mask), i) {
            made_bit(operation, s, d)
        } else {
            d
        };
        new += u8::from(kept) << i;
    }
    new
}

/// "The composite of a then b has, for each s and d, the bit that b gives for s and for the bit that a gives for s and d."
pub fn composite(a: u32, b: u32) -> u32 {
    let mut operation = 0;
    for s in [false, true] {
        for d in [false, true] {
            let place = 3 - 2 * u32::from(s) - u32::from(d);
            operation += u32::from(made_bit(b, s, made_bit(a, s, d))) << place;
        }
    }
    operation
}
