//! The paper's lists, for all that makes writes or counts them. The model and the plain implementation state their own, so that
//! a slip in one list is seen as a difference.

pub const LARGEST_VRAM: usize = 2_097_152;

/// Every listed offset.
pub const OFFSETS: [u32; 23] = [
    0x0020,
    0x0024,
    0x0028,
    0x002C,
    0x0030,
    0x0034,
    0x0038,
    BRESENHAM_1,
    BRESENHAM_2,
    BRESENHAM_3,
    CONTINUE,
    0x005C,
    0x0080,
    0x0140,
    0x0144,
    0x0148,
    0x014C,
    0x0150,
    0x0154,
    0x0158,
    0x015C,
    0x0160,
    0x0164,
];

/// The offsets that Ask 5 adds.
pub const BRESENHAM_1: u32 = 0x0040;
pub const BRESENHAM_2: u32 = 0x0044;
pub const BRESENHAM_3: u32 = 0x0048;
pub const CONTINUE: u32 = 0x004C;

pub mod mode {
    pub const SIMPLE: u32 = 0x00;
    pub const OPAQUE_STIPPLE: u32 = 0x01;
    pub const TRANSPARENT_STIPPLE: u32 = 0x05;
    pub const OPAQUE_FILL: u32 = 0x21;
    pub const TRANSPARENT_FILL: u32 = 0x45;
    pub const BLOCK_STIPPLE: u32 = 0x0D;
    pub const BLOCK_FILL: u32 = 0x2D;
    pub const COPY: u32 = 0x07;

    pub const OPAQUE_LINE: u32 = 0x02;
    pub const TRANSPARENT_LINE: u32 = 0x06;
    /// The bit that may go with a line mode's code.
    pub const CAP: u32 = 0x8000;

    /// Every code of a mode that draws spans, with its name.
    pub const MODES: [(u32, &str); 8] = [
        (SIMPLE, "simple"),
        (OPAQUE_STIPPLE, "opaque stipple"),
        (TRANSPARENT_STIPPLE, "transparent stipple"),
        (OPAQUE_FILL, "opaque fill"),
        (TRANSPARENT_FILL, "transparent fill"),
        (BLOCK_STIPPLE, "block stipple"),
        (BLOCK_FILL, "block fill"),
        (COPY, "copy"),
    ];

    /// Ask 5's codes, with the cap bit and without it.
    pub const LINES: [(u32, &str); 4] = [
        (OPAQUE_LINE, "opaque line"),
        (TRANSPARENT_LINE, "transparent line"),
        (OPAQUE_LINE | CAP, "opaque line, cap"),
        (TRANSPARENT_LINE | CAP, "transp. line, cap"),
    ];

    pub fn is_line(code: u32) -> bool {
        LINES.iter().any(|&(line, _)| line == code)
    }

    pub fn is_fill(code: u32) -> bool {
        matches!(code, OPAQUE_FILL | TRANSPARENT_FILL | BLOCK_FILL)
    }

    pub fn is_block(code: u32) -> bool {
        matches!(code, BLOCK_STIPPLE | BLOCK_FILL)
    }
}
