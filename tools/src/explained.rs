//! What `explain` says of each number, register, mode and operation, after document 01 and its change requests.

use zevkholtai::{mode, register};

/// Which writes can get a number, and what to look at.
pub const ADVICE: [&str; 14] = [
    "Any write can get it, and a trace as a whole. It was made: the count tells how many pixels were enabled.",
    "Any write can get it, a read-back, and the start of a trace. Look at the length of the video memory, not at the write; a trace read with such a length gets 10.",
    "Any write can get it. Look at the entry's first two bytes, its space and its lanes.",
    "Register writes can get it, and frame writes in any mode but simple. Look at the lanes, and at the mode that was set last.",
    "Register writes can get it, and register reads, also of a register that can only be written. Look at the address: all its bits are compared with the offsets of the table.",
    "Mode writes can get it, and continues. Look at the value of the mode written, of which all bits count; before a continue, at the mode that was set last. A card that a host restored with a mode that is not listed answers it to every write that 1 to 4 let pass.",
    "Raster-operation and pixel-shift writes can get it. Look at the data. A card that a host restored with an operation over 15 answers it to every write that 1 to 5 let pass.",
    "Frame writes can get it, where the address is no multiple of 4, in copy mode of 8, and the 64-byte copy, where the data is no multiple of 64. Look at that number.",
    "Frame writes, the 64-byte copy, continues and read-backs can get it. Look at the first pixel, the width and the length of video memory: pixels count though they are masked, and places of a line though they are not drawn.",
    "Copy-destination writes can get it. Look at what came before: a copy-source loads the buffer, and a copy-destination or a copy-mode write that reads unloads it.",
    "No write gets it, but a trace or a part of one. Look at the byte that the message names.",
    "No write gets it, but recording does. Look at the buffer's size and at the number of entries, of which there are at most 65536.",
    "Frame writes in the line modes can get it, and continues. Look at bresenham-1, 2 and 3: the error must fit 16 bits at the start and after every step.",
    "Continues can get it. Look at what came before: since reset no frame write in a line mode was accepted.",
];

/// What a register holds.
pub fn register(offset: u32) -> &'static str {
    match offset {
        register::FOREGROUND => "colour of set bits; pixel p takes byte p mod 4",
        register::BACKGROUND => "colour of clear bits; pixel p takes byte p mod 4",
        register::PLANE_MASK => "planes that can change; pixel p takes byte p mod 4",
        register::PIXEL_MASK_ONCE => "pixel mask for the next accepted frame write alone",
        register::PIXEL_MASK => "pixels of simple and opaque-stipple writes",
        register::MODE => "what frame writes draw",
        register::RASTER_OPERATION => "how source and old pixel mix, bits 3:0",
        register::PIXEL_SHIFT => "always 0; a write makes the next copy read",
        register::BRESENHAM_1 => "steps below zero: address 31:16, error 15:0, added",
        register::BRESENHAM_2 => "other steps: address 31:16, added, error 15:0, taken away",
        register::BRESENHAM_3 => "a line's error 31:15 and length 3:0, 0 meaning 16",
        register::CONTINUE => "16 more places of a line, by a mask in bits 15:0",
        register::FILL_MASK => "32 bits that a fill repeats",
        register::COPY_SOURCE => "address of 64 pixels to load",
        register::COPY_DESTINATION => "address of 64 pixels to draw from those loaded",
        register::BLOCK_COLOUR_0 | register::BLOCK_COLOUR_1 => {
            "block modes: pixel p takes byte p mod 8 of colours 0 and 1"
        }
        register::BLOCK_COLOUR_2..=register::BLOCK_COLOUR_7 => {
            "a block colour that no mode of this card draws"
        }
        _ => "",
    }
}

/// What a frame write draws.
pub fn mode(code: u32) -> &'static str {
    match code {
        mode::SIMPLE => "4 pixels take the data's bytes, by lanes and pixel mask",
        mode::OPAQUE_STIPPLE => {
            "32 pixels take foreground or background by the data's bits, by pixel mask"
        }
        mode::TRANSPARENT_STIPPLE => "32 pixels take foreground where the data's bits are set",
        mode::BLOCK_STIPPLE => "32 pixels take block colours where the data's bits are set",
        mode::OPAQUE_FILL => "1 to 2048 pixels take foreground or background by the fill mask",
        mode::TRANSPARENT_FILL => "1 to 2048 pixels take foreground where the fill mask is set",
        mode::BLOCK_FILL => "1 to 2048 pixels take block colours where the fill mask is set",
        mode::COPY => "32 pixels are read and, by the next write, drawn elsewhere",
        mode::OPAQUE_LINE => {
            "a line of foreground and background by the data's bits, but its last pixel"
        }
        mode::TRANSPARENT_LINE => {
            "a line of foreground where the data's bits are set, but its last pixel"
        }
        mode::OPAQUE_LINE_CAP => "a line of foreground and background by the data's bits",
        mode::TRANSPARENT_LINE_CAP => "a line of foreground where the data's bits are set",
        _ => "",
    }
}

/// What each operation makes of a source bit and an old bit.
pub const FORMULAS: [&str; 16] = [
    "0",
    "source and old",
    "source and not old",
    "source",
    "not source and old",
    "old",
    "source xor old",
    "source or old",
    "not (source or old)",
    "not (source xor old)",
    "not old",
    "source or not old",
    "not source",
    "not source or old",
    "not (source and old)",
    "1",
];
