//! What is said on standard error where something is refused.

use crate::entry::{is_frame, is_register, ALL_LANES};
use crate::meaning::walks;
use crate::names::{hex, mode_name, register_name, spaced};
use crate::words::sentence_for;
use zevkholtai::{number, Card, Write};

/// The write by its name, for a sentence; the lanes where they are not all.
pub fn named(card: &Card, write: Write) -> String {
    let (address, data) = (hex(write.address), hex(write.data));
    let name = if is_frame(write) {
        format!("{}, frame {address}", mode_name(card.registers.mode))
    } else if is_register(write) {
        let register = register_name(write.address).map_or(address, spaced);
        format!("register {register} = {data}")
    } else {
        format!("space {}, {address} = {data}", write.space)
    };
    match write.lanes {
        ALL_LANES => name,
        lanes => format!("{name}, lanes {lanes}"),
    }
}

/// An entry that was refused, with the card that it met.
pub fn refused(index: usize, number: u32, card: &Card, write: Write) -> String {
    let sentence = sentence_for(number, walks(card, write));
    let name = named(card, write);
    format!("entry {index} refused, {number}: {sentence} ({name})")
}

/// Bytes that are no trace, with what is wrong.
pub fn no_trace(fault: &str) -> String {
    format!("no trace, {}: {fault}", number::MALFORMED)
}
