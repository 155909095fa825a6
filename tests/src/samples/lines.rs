//! Ask 5: lines and continues, each worked out by hand from the request. A walk is written as places, each with the error it is
//! visited with in brackets, and what is left behind after an arrow.

use super::{ones, Sample, Step, PLAIN};

/// A register write that is accepted and draws nothing.
const fn set(offset: u32, data: u32) -> Step {
    Step(1, 15, offset, data, 0, Some(0), 0)
}

const fn mode(code: u32) -> Step {
    set(0x0030, code)
}

const fn foreground(colour: u32) -> Step {
    set(0x0020, colour)
}

const fn background(colour: u32) -> Step {
    set(0x0024, colour)
}

/// Bresenham 1: what is added with an error below zero.
const fn one(data: u32) -> Step {
    set(0x0040, data)
}

/// Bresenham 2: the address increment added, the error increment taken away.
const fn two(data: u32) -> Step {
    set(0x0044, data)
}

/// Bresenham 3: initial error in bits 31:15, length in bits 3:0.
const fn three(data: u32) -> Step {
    set(0x0048, data)
}

/// An accepted line, its visits that draw, and those that change the byte.
const fn line(address: u32, data: u32, count: u32, changed: u32) -> Step {
    Step(0, 15, address, data, 0, Some(count), changed)
}

/// An accepted continue.
const fn on(data: u32, count: u32, changed: u32) -> Step {
    Step(1, 15, 0x004C, data, 0, Some(count), changed)
}

/// A line or a continue that is refused.
const fn no_line(address: u32, data: u32, number: u32) -> Step {
    Step(0, 15, address, data, number, Some(0), 0)
}

const fn no_continue(data: u32, number: u32) -> Step {
    Step(1, 15, 0x004C, data, number, Some(0), 0)
}

/// A simple write of four pixels, on which a one-shot mask is seen.
const fn simple(address: u32, data: u32, count: u32, changed: u32) -> Step {
    Step(0, 15, address, data, 0, Some(count), changed)
}

pub const SAMPLES: &[Sample] = &[
    Sample {
        name: "opaque line with the cap bit",
        // 9(-1) 10(3) 19(-3) 20(1) 29(-5) -> 30(-1): error -1, +4 = 3, -6 = -3, +4 = 1, -6 = -5, +4 = -1.
        // Mask 13h: visits 0, 1 and 4 foreground, 2 and 3 background.
        steps: &[
            mode(0x8002),
            foreground(0x01010101),
            background(0x02020202),
            one(0x00010004),
            two(0x00090006),
            three(0xFFFF8005),
            line(8, 0x00010013, 5, 5),
        ],
        after: &[(9, &[1, 1]), (19, &[2, 2]), (29, &[1])],
        ..PLAIN
    },
    Sample {
        name: "opaque line without the cap bit",
        // The same walk; 29 is visited, but isn't drawn. A second line starts from the registers again, and changes nothing.
        steps: &[
            mode(0x0002),
            foreground(0x01010101),
            background(0x02020202),
            one(0x00010004),
            two(0x00090006),
            three(0xFFFF8005),
            line(8, 0x00010013, 4, 4),
            line(8, 0x00010013, 4, 0),
        ],
        after: &[(9, &[1, 1]), (19, &[2, 2])],
        ..PLAIN
    },
    Sample {
        name: "transparent line with a mask",
        // The same walk; mask 13h has bits 0, 1 and 4, so 19 and 20 are left alone. Data bits 31:18 are ignored.
        steps: &[
            mode(0x8006),
            foreground(0x01010101),
            background(0x02020202),
            one(0x00010004),
            two(0x00090006),
            three(0xFFFF8005),
            line(8, 0xFFFD0013, 3, 3),
        ],
        after: &[(9, &[1, 1]), (29, &[1])],
        ..PLAIN
    },
    Sample {
        name: "each pixel by its own byte of foreground and plane mask, held planes kept",
        held: 0xF0,
        before: ones,
        // 2(0) 3(0) 4(0) 5(0) 6(0): foreground bytes 3, 4, 1, 2, 3; the plane byte of pixel 3 is 0; F0h is held.
        steps: &[
            mode(0x8002),
            foreground(0x04030201),
            set(0x0028, 0x00FFFFFF),
            two(0x00010000),
            three(5),
            line(0, 0x0002001F, 5, 4),
        ],
        after: &[(2, &[0xF3, 0xFF, 0xF1, 0xF2, 0xF3])],
        ..PLAIN
    },
    Sample {
        name: "8 for a last visit that isn't drawn",
        // 63(0) 64(0): 64 is outside, though only 63 would be drawn; nor does an empty mask help. One visit fits: 63(0) -> 64(0).
        steps: &[
            mode(0x0006),
            foreground(0x01010101),
            two(0x00010000),
            three(2),
            no_line(60, 0x0003FFFF, 8),
            no_line(60, 0x00030000, 8),
            three(1),
            line(60, 0x0003FFFF, 0, 0),
            mode(0x8006),
            line(60, 0x0003FFFF, 1, 1),
            // "The place kept may lie outside VRAM; a continue from there answers 8."
            no_continue(0, 8),
        ],
        after: &[(63, &[1])],
        ..PLAIN
    },
    Sample {
        name: "8 below 0",
        // Address increment 2 is -1: 2(0) 1(0) 0(0) -> -1(0); four visits reach -1.
        steps: &[
            mode(0x8006),
            foreground(0x01010101),
            two(0xFFFF0000),
            three(4),
            no_line(0, 0x0002FFFF, 8),
            three(3),
            line(0, 0x0002FFFF, 3, 3),
            no_continue(0xFFFF, 8),
        ],
        after: &[(0, &[1, 1, 1])],
        ..PLAIN
    },
    Sample {
        name: "12 after the last step alone",
        // 0(0), and 0 less -32,768 is 32,768; less -32,767 it is 32,767, which fits: 0(0) -> 1(32767).
        steps: &[
            mode(0x8006),
            foreground(0x01010101),
            two(0x00018000),
            three(1),
            no_line(0, 1, 12),
            two(0x00018001),
            line(0, 1, 1, 1),
            // 1(32767) 2(65534): 12 again.
            no_continue(0, 12),
            // With an error increment of 0 it goes on: 1(32767) to 16(32767).
            two(0x00010000),
            on(0x8001, 2, 2),
        ],
        after: &[(0, &[1, 1]), (16, &[1])],
        ..PLAIN
    },
    Sample {
        name: "12 below, after the last step alone",
        // 0(-1), and -1 with -32,768 added is -32,769; with -32,767 it is -32,768, which fits.
        steps: &[
            mode(0x8006),
            foreground(0x01010101),
            one(0x00018000),
            three(0xFFFF8001),
            no_line(0, 1, 12),
            one(0x00018001),
            line(0, 1, 1, 1),
        ],
        after: &[(0, &[1])],
        ..PLAIN
    },
    Sample {
        name: "the initial error is bits 31:15",
        // 0(1) 2(0) 4(-1): bit 15 is the lowest bit, so the error is 1, and the second step too goes by increment 2.
        // Bits 14:4 are dropped.
        steps: &[
            mode(0x8006),
            foreground(0x01010101),
            one(0x00010000),
            two(0x00020001),
            three(0x0000FFF3),
            line(0, 7, 3, 3),
        ],
        after: &[(0, &[1, 0, 1, 0, 1])],
        ..PLAIN
    },
    Sample {
        name: "12 for the initial error",
        // 32,768 and -32,769 are outside; 32,767 and -32,768 are not, and increments of 0 leave them.
        steps: &[
            mode(0x8006),
            foreground(0x01010101),
            three(0x40000001),
            no_line(0, 1, 12),
            three(0xBFFF8001),
            no_line(0, 1, 12),
            three(0x3FFF8001),
            line(0, 1, 1, 1),
            three(0xC0000001),
            line(4, 1, 1, 1),
        ],
        after: &[(0, &[1]), (4, &[1])],
        ..PLAIN
    },
    Sample {
        name: "a continue, and another after mode writes",
        // 4(0) 5(0) 6(0) -> 7(0), 6 undrawn. On from 7 to 22, bits 0, 1 and 15: 22 undrawn. On from 23 to 38, with the cap bit.
        // The place outlasts a mode write; data bits 31:16 of a continue are ignored.
        steps: &[
            mode(0x0006),
            foreground(0x01010101),
            two(0x00010000),
            three(3),
            line(4, 7, 2, 2),
            on(0x8003, 2, 2),
            mode(0x0000),
            mode(0x8006),
            on(0xFFFF8001, 2, 2),
        ],
        after: &[(4, &[1, 1]), (7, &[1, 1]), (23, &[1]), (38, &[1])],
        ..PLAIN
    },
    Sample {
        name: "an opaque continue",
        // 8(0) -> 9(0), then 9 to 24: bits 0 and 15 foreground, the others background. Without the cap bit 24 isn't drawn.
        steps: &[
            mode(0x8002),
            foreground(0x01010101),
            background(0x02020202),
            two(0x00010000),
            three(1),
            line(8, 1, 1, 1),
            mode(0x0002),
            on(0x8001, 15, 15),
        ],
        after: &[
            (8, &[1, 1]),
            (10, &[2, 2, 2, 2, 2, 2, 2, 2, 2, 2, 2, 2, 2, 2]),
        ],
        ..PLAIN
    },
    Sample {
        name: "a continue before any accepted line",
        // A refused line leaves nothing behind: it stays 13.
        steps: &[
            mode(0x0002),
            no_continue(0xFFFF, 13),
            no_line(64, 1, 8),
            no_continue(0xFFFF, 13),
        ],
        ..PLAIN
    },
    Sample {
        name: "a continue outside the line modes",
        // 5 before a line and after one; back in a line mode it goes on from the place left: 0(0) -> 1(0), 1 to 16.
        steps: &[
            no_continue(0xFFFF, 5),
            mode(0x8006),
            foreground(0x01010101),
            two(0x00010000),
            three(1),
            line(0, 1, 1, 1),
            mode(0x0005),
            no_continue(0xFFFF, 5),
            mode(0x8006),
            on(0x8000, 1, 1),
        ],
        after: &[(0, &[1]), (16, &[1])],
        ..PLAIN
    },
    Sample {
        name: "8 before 12",
        // 0(0) 64(32768): the second visit is outside, and so is its error. And 60(-65536) to 64(-65536): 12 at the start, 8 at the end.
        steps: &[
            mode(0x8006),
            one(0x00010000),
            two(0x00408000),
            three(2),
            no_line(0, 3, 8),
            three(0x80000005),
            no_line(60, 0x1F, 8),
            three(0x80000004),
            no_line(60, 0xF, 12),
        ],
        ..PLAIN
    },
    Sample {
        name: "length 0 means 16",
        // 3(0) to 18(0); and 49(0) to 64(0), which is outside.
        steps: &[
            mode(0x8006),
            foreground(0x01010101),
            two(0x00010000),
            line(0, 0x0003FFFF, 16, 16),
            no_line(48, 0x0001FFFF, 8),
        ],
        after: &[(3, &[1; 16])],
        ..PLAIN
    },
    Sample {
        name: "one pixel many times",
        // Increments 0. Five times exclusive-or with 0Fh: 0F, 00, 0F, 00, 0F; four times more, and it stands at 0F as before.
        steps: &[
            mode(0x8006),
            foreground(0x0F0F0F0F),
            set(0x0034, 6),
            three(5),
            line(8, 0x0001FFFF, 5, 5),
            three(4),
            line(8, 0x0001FFFF, 4, 4),
            // Copied, five times foreground: 0F five times, no change. Mask 15h, opaque: 0F (no change), 00, 0F, 00, 0F.
            set(0x0034, 3),
            three(5),
            line(8, 0x0001FFFF, 5, 0),
            mode(0x8002),
            line(8, 0x00010015, 5, 4),
            // A continue from 9(0): sixteen times the same pixel, the last one undrawn: 0F (no change), then 00 and no change.
            mode(0x0002),
            on(1, 15, 1),
        ],
        ..PLAIN
    },
    Sample {
        name: "the pixel mask doesn't count, and its mark is used up by a line",
        // Mask 0, one-shot. The line draws 8 to 11 and uses it up: a simple write then enables four. The continue draws 12 and 13
        // and doesn't: the next simple write enables none, and the one after it four.
        steps: &[
            mode(0x8006),
            foreground(0x01010101),
            two(0x00010000),
            three(4),
            set(0x002C, 0),
            line(8, 0xF, 4, 4),
            mode(0x0000),
            simple(0, 0x44332211, 4, 4),
            mode(0x8006),
            set(0x002C, 0),
            on(3, 2, 2),
            mode(0x0000),
            simple(4, 0x44332211, 0, 0),
            simple(4, 0x44332211, 4, 4),
        ],
        after: &[
            (0, &[0x11, 0x22, 0x33, 0x44, 0x11, 0x22, 0x33, 0x44]),
            (8, &[1, 1, 1, 1, 1, 1]),
        ],
        ..PLAIN
    },
    Sample {
        name: "3, 5 and 7 of lines",
        steps: &[
            // Bit 15 is allowed in the line modes alone, and no other bit with it.
            Step(1, 15, 0x0030, 0x8000, 5, Some(0), 0),
            Step(1, 15, 0x0030, 0x8001, 5, Some(0), 0),
            Step(1, 15, 0x0030, 0x8007, 5, Some(0), 0),
            Step(1, 15, 0x0030, 0x10002, 5, Some(0), 0),
            Step(1, 15, 0x0030, 0x8082, 5, Some(0), 0),
            mode(0x8002),
            // Increments of 0 fit everywhere in VRAM: so 3 is for the lanes, and 7 for the address.
            Step(0, 7, 0, 1, 3, Some(0), 0),
            Step(1, 7, 0x004C, 1, 3, Some(0), 0),
            no_line(2, 1, 7),
            no_line(66, 1, 7),
            no_line(64, 1, 8),
        ],
        ..PLAIN
    },
];
