//! The names of include/zevkholtai.h: `ZEVKHOLTAI_REGISTER_PLANE_MASK` there is `register::PLANE_MASK` here.

/// A module of constants, and `ALL` of them as a table.
macro_rules! names {
    ($(#[$said:meta])* $module:ident: $($name:ident = $value:literal),* $(,)?) => {
        $(#[$said])*
        pub mod $module {
            $(pub const $name: u32 = $value;)*
            /// Every name, with its value.
            pub const ALL: &[(&str, u32)] = &[$((stringify!($name), $value)),*];
        }
    };
}

names! {
    /// Where a write goes.
    space:
    FRAME = 0,
    REGISTER = 1,
}

names! {
    /// The offsets of registers: the address of a write in the register space.
    register:
    FOREGROUND = 0x0020,
    BACKGROUND = 0x0024,
    PLANE_MASK = 0x0028,
    PIXEL_MASK_ONCE = 0x002C,
    MODE = 0x0030,
    RASTER_OPERATION = 0x0034,
    PIXEL_SHIFT = 0x0038,
    BRESENHAM_1 = 0x0040,
    BRESENHAM_2 = 0x0044,
    BRESENHAM_3 = 0x0048,
    CONTINUE = 0x004C,
    PIXEL_MASK = 0x005C,
    FILL_MASK = 0x0080,
    BLOCK_COLOUR_0 = 0x0140,
    BLOCK_COLOUR_1 = 0x0144,
    BLOCK_COLOUR_2 = 0x0148,
    BLOCK_COLOUR_3 = 0x014C,
    BLOCK_COLOUR_4 = 0x0150,
    BLOCK_COLOUR_5 = 0x0154,
    BLOCK_COLOUR_6 = 0x0158,
    BLOCK_COLOUR_7 = 0x015C,
    COPY_SOURCE = 0x0160,
    COPY_DESTINATION = 0x0164,
}

names! {
    /// The values of the mode register.
    mode:
    SIMPLE = 0x00,
    OPAQUE_STIPPLE = 0x01,
    OPAQUE_LINE = 0x02,
    TRANSPARENT_STIPPLE = 0x05,
    TRANSPARENT_LINE = 0x06,
    COPY = 0x07,
    BLOCK_STIPPLE = 0x0D,
    OPAQUE_FILL = 0x21,
    BLOCK_FILL = 0x2D,
    TRANSPARENT_FILL = 0x45,
    OPAQUE_LINE_CAP = 0x8002,
    TRANSPARENT_LINE_CAP = 0x8006,
}

names! {
    /// The raster operations, as the X Window System names them.
    operation:
    CLEAR = 0,
    AND = 1,
    AND_REVERSE = 2,
    COPY = 3,
    AND_INVERTED = 4,
    NOOP = 5,
    XOR = 6,
    OR = 7,
    NOR = 8,
    EQUIV = 9,
    INVERT = 10,
    OR_REVERSE = 11,
    COPY_INVERTED = 12,
    OR_INVERTED = 13,
    NAND = 14,
    SET = 15,
}

names! {
    /// The numbers answered.
    number:
    ACCEPTED = 0,
    BAD_LENGTH = 1,
    BAD_SPACE = 2,
    BAD_LANES = 3,
    NO_REGISTER = 4,
    BAD_MODE = 5,
    BAD_OPERATION = 6,
    OFF_BOUNDARY = 7,
    OUTSIDE = 8,
    NOT_LOADED = 9,
    MALFORMED = 10,
    NO_ROOM = 11,
    BAD_LINE_ERROR = 12,
    NO_LINE = 13,
}
