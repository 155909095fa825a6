//! The sentences of the numbers 0 to 13. Document 01 and include/zevkholtai.h say them at length.

pub const SENTENCES: [&str; 14] = [
    "accepted",
    "the length of video memory is 0, no multiple of 64, or over 2097152",
    "the space is not 0 (frame) or 1 (register), or the lanes exceed 15",
    "the lanes are not 15, on a register write or in a mode other than simple",
    "there is no such register",
    "the mode is not listed, or a continue comes outside the line modes",
    "a raster operation has any of bits 11:8 set, or a pixel shift any of bits 3:0",
    "the address is off its boundary",
    "a pixel of the span lies outside video memory",
    "a 64-byte destination comes with no 64-byte source loaded",
    "the bytes are no trace",
    "there is no room for a trace's entry or header",
    "the error of a line or a continue lies outside signed 16 bits",
    "a continue comes before any accepted line",
];

/// 8, where the write is a line or a continue.
const LINE_OUTSIDE: &str = "a place that the line visits lies outside video memory";

/// What a number says.
pub fn sentence(number: u32) -> &'static str {
    SENTENCES
        .get(number as usize)
        .unwrap_or(&"a number that is not listed")
}

/// What a number says of a write that walks, as lines and continues do, or of one that does not.
pub fn sentence_for(number: u32, walks: bool) -> &'static str {
    if walks && number == zevkholtai::number::OUTSIDE {
        LINE_OUTSIDE
    } else {
        sentence(number)
    }
}
