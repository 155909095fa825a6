//! One write, as bytes of a trace and as the words of a listing.

use crate::names::{hex, hyphened, register_name};
use zevkholtai::{space, Write};

/// All four lanes, which a listing does not mention.
pub const ALL_LANES: u8 = 15;

/// The number in the four bytes from `at` on, lowest first; a byte that is not there counts as 0.
pub fn word_at(bytes: &[u8], at: usize) -> u32 {
    (0..4).rev().fold(0, |word, i| {
        word << 8 | u32::from(bytes.get(at + i).copied().unwrap_or(0))
    })
}

/// The write in the 12 bytes of an entry.
pub fn write_of(entry: &[u8]) -> Write {
    Write {
        space: entry.first().copied().unwrap_or(0),
        lanes: entry.get(1).copied().unwrap_or(0),
        address: word_at(entry, 4),
        data: word_at(entry, 8),
    }
}

pub fn is_frame(write: Write) -> bool {
    u32::from(write.space) == space::FRAME
}

pub fn is_register(write: Write) -> bool {
    u32::from(write.space) == space::REGISTER
}

/// The write's words in a listing, which `record` reads again.
pub fn words(write: Write) -> String {
    let space = if is_frame(write) {
        "frame".to_string()
    } else if is_register(write) {
        "register".to_string()
    } else {
        format!("space {}", write.space)
    };
    let lanes = if write.lanes == ALL_LANES {
        String::new()
    } else {
        format!(" lanes {}", write.lanes)
    };
    let place = register_name(write.address)
        .filter(|_| is_register(write))
        .map_or_else(|| hex(write.address), hyphened);
    format!("{space}{lanes} {place} {}", hex(write.data))
}
