//! Eight pixels at a time, as a word whose byte i is pixel i.

/// For each byte, the word whose byte i is FFh where bit i is set.
const SPREAD: [u64; 256] = spread_table();

const fn spread_table() -> [u64; 256] {
    let mut table = [0; 256];
    let mut bits = 0;
    while bits < 256 {
        let mut i = 0;
        while i < 8 {
            if bits >> i & 1 == 1 {
                table[bits] |= 0xFF << (8 * i);
            }
            i += 1;
        }
        bits += 1;
    }
    table
}

/// Bits 8k to 8k + 7 of a mask, one byte for each.
pub fn spread(mask: u32, k: usize) -> u64 {
    SPREAD[mask.to_le_bytes()[k] as usize]
}

/// A register of four bytes, twice.
pub fn twice(register: u32) -> u64 {
    u64::from(register) << 32 | u64::from(register)
}

/// The word as the pixels from `first` on take it, which pixel 0 would take from its byte 0 on.
pub fn from_pixel(word: u64, first: u32) -> u64 {
    word.rotate_right(8 * (first % 8))
}

/// The word whose byte i is 1 where byte i of this one is not zero, and 0 elsewhere. Bits 6:0 of a byte with 7Fh added reach its bit 7
/// unless all are zero, and no further.
pub fn nonzero(word: u64) -> u64 {
    const LOW: u64 = 0x7F7F_7F7F_7F7F_7F7F;
    ((((word & LOW) + LOW) | word) & !LOW) >> 7
}

/// The sum of a word's bytes: first in pairs, then the four pairs by the multiplication, in its upper bits.
pub fn sum_of_bytes(word: u64) -> u32 {
    const EVEN: u64 = 0x00FF_00FF_00FF_00FF;
    let pairs = (word & EVEN) + (word >> 8 & EVEN);
    (pairs.wrapping_mul(0x0001_0001_0001_0001) >> 48) as u32
}

/// What becomes of eight old pixels: `(old & and) ^ xor`.
#[derive(Clone, Copy)]
pub struct Change {
    pub and: u64,
    pub xor: u64,
}

impl Change {
    /// Every pixel stays.
    pub const NONE: Change = Change {
        and: u64::MAX,
        xor: 0,
    };

    /// A source drawn with a raster operation, in the planes of a mask.
    pub fn new(operation: u32, source: u64, mask: u64) -> Change {
        let bit = |i: u32| 0u64.wrapping_sub(u64::from(operation >> i & 1));
        let of_zero = (!source & bit(3)) | (source & bit(1));
        let of_one = (!source & bit(2)) | (source & bit(0));
        Change {
            and: (of_zero ^ of_one) & mask | !mask,
            xor: of_zero & mask,
        }
    }

    /// This change in the bytes that are enabled, none in the others.
    pub fn only(self, enabled: u64) -> Change {
        Change {
            and: self.and | !enabled,
            xor: self.xor & enabled,
        }
    }

    /// This change in the bytes that are picked, the other in the rest.
    pub fn or(self, other: Change, picked: u64) -> Change {
        Change {
            and: (self.and & picked) | (other.and & !picked),
            xor: (self.xor & picked) | (other.xor & !picked),
        }
    }

    pub fn of(self, old: u64) -> u64 {
        (old & self.and) ^ self.xor
    }

    /// Makes this change; gives the word whose byte i is 1 where pixel i has another byte then, and 0 elsewhere.
    pub fn apply(self, pixels: &mut [u8; 8]) -> u64 {
        let old = u64::from_le_bytes(*pixels);
        let new = self.of(old);
        *pixels = new.to_le_bytes();
        nonzero(old ^ new)
    }
}
