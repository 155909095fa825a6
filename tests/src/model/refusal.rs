//! "Numbers returned": which number a write gets. Each test below is one row of the table; the lowest wins.

use super::line;
use super::mode::{self, Span};
use super::register::{self, Register};
use super::{Card, Write, FRAME, REGISTER};

const LARGEST_VRAM: u64 = 2_097_152;

/// Number 1.
pub fn bad_length(length: u64) -> bool {
    length == 0 || !length.is_multiple_of(64) || length > LARGEST_VRAM
}

/// Number 2, which appending to a trace tests too.
pub fn bad_form(write: Write) -> bool {
    (write.space != FRAME && write.space != REGISTER) || write.lanes > 15
}

/// Number 3. A card handed in with an unlisted mode is in some mode other than simple.
fn bad_lanes(card: &Card, write: Write) -> bool {
    write.lanes != 15 && (write.space == REGISTER || card.mode != mode::SIMPLE)
}

pub(super) fn register(write: Write) -> Option<Register> {
    if write.space == REGISTER {
        register::at(write.address)
    } else {
        None
    }
}

/// Number 4.
fn no_register(write: Write) -> bool {
    write.space == REGISTER && register(write).is_none()
}

/// Number 5, also for a card handed in with a mode that no reset or accepted write leaves. Ask 5 of a continue: "outside the two
/// line modes it answers 5"
fn bad_mode(card: &Card, write: Write) -> bool {
    !mode::is_listed(card.mode)
        || (register(write) == Some(Register::Mode) && !mode::is_listed(write.data))
        || (register(write) == Some(Register::Continue) && !mode::is_line(card.mode))
}

/// Number 6, also for a card handed in with a raster operation that no reset or accepted write leaves.
fn bad_operation(card: &Card, write: Write) -> bool {
    let bad_write = match register(write) {
        Some(Register::Raster) => write.data & 0x0000_0F00 != 0,
        Some(Register::Shift) => write.data & 0x0000_000F != 0,
        _ => false,
    };
    card.raster > 15 || bad_write
}

/// A frame write in a line mode.
fn is_line(card: &Card, write: Write) -> bool {
    write.space == FRAME && mode::is_line(card.mode)
}

/// The span of a write that draws or loads; other register writes have none, and lines walk.
fn span(card: &Card, write: Write) -> Option<Span> {
    match register(write) {
        Some(Register::Source) | Some(Register::Destination) => Some(mode::copy64_span(write)),
        Some(_) => None,
        None if is_line(card, write) => None,
        None => Some(mode::frame_span(card.mode, write)),
    }
}

/// Number 7. "Frame addresses are multiples of 4", a line's too: "Address bits 1:0 come from data bits 17:16".
fn off_boundary(card: &Card, write: Write) -> bool {
    (is_line(card, write) && !write.address.is_multiple_of(4))
        || span(card, write).is_some_and(|span| !span.address.is_multiple_of(span.boundary))
}

/// Number 8. Ask 5: "any visited pixel outside VRAM, drawn or not, answers 8"
fn outside(card: &Card, length: u64, write: Write) -> bool {
    span(card, write).is_some_and(|span| span.first + span.pixels > length)
        || line::walk(card, write).is_some_and(|walk| walk.leaves(length))
}

/// Number 9.
fn nothing_loaded(card: &Card, write: Write) -> bool {
    register(write) == Some(Register::Destination) && card.loaded == 0
}

/// Number 12. Ask 5: "an error outside signed 16 bits, at the start or after any step, the last too, answers 12"
fn error_too_large(card: &Card, write: Write) -> bool {
    line::walk(card, write).is_some_and(|walk| walk.errs())
}

/// Number 13. Ask 5 of a continue: "before any accepted line 13"
fn nothing_to_continue(card: &Card, write: Write) -> bool {
    register(write) == Some(Register::Continue) && card.kept == 0
}

/// "Where several apply, the lowest number is returned."
pub fn number(card: &Card, length: u64, write: Write) -> u32 {
    if bad_length(length) {
        1
    } else if bad_form(write) {
        2
    } else if bad_lanes(card, write) {
        3
    } else if no_register(write) {
        4
    } else if bad_mode(card, write) {
        5
    } else if bad_operation(card, write) {
        6
    } else if off_boundary(card, write) {
        7
    } else if outside(card, length, write) {
        8
    } else if nothing_loaded(card, write) {
        9
    } else if error_too_large(card, write) {
        12
    } else if nothing_to_continue(card, write) {
        13
    } else {
        0
    }
}
