//! Lines and continues for Ask 5, and what they go by: increments, initial errors, lengths, and places and errors left behind.
//! Most are small, so that walks stay inside and are accepted; the rest stand at the limits, just past them, or anywhere.

use super::Maker;
use crate::listed::mode::LINES;
use crate::listed::{BRESENHAM_1, BRESENHAM_2, BRESENHAM_3, CONTINUE};
use crate::model::{Card, Write, REGISTER};

/// The largest and the smallest signed number of 16 bits.
const HIGHEST: i32 = 32_767;
const LOWEST: i32 = -32_768;

impl Maker {
    /// The number or its opposite.
    fn signed(&mut self, number: i32) -> i32 {
        if self.random.one_in(2) {
            number
        } else {
            -number
        }
    }

    fn up_to(&mut self, most: i32) -> i32 {
        self.random.below(most as u64 + 1) as i32
    }

    fn any_number(&mut self) -> i32 {
        self.random.word() as i32
    }

    /// Bresenham 1 or 2: an address increment, and an error increment.
    pub(super) fn increments(&mut self) -> u32 {
        let address = match self.random.below(12) {
            0 | 1 => 0,
            2..=5 => self.signed(1),
            6 | 7 => self.up_to(20) - 10,
            8 => self.signed(64),
            9 => self.up_to(600) - 300,
            10 => self.random.pick(&[HIGHEST, LOWEST]),
            _ => self.any_number(),
        };
        let error = match self.random.below(12) {
            0 | 1 => 0,
            2..=6 => self.up_to(40),
            7 => -self.up_to(40),
            8 => self.signed(2_000),
            9 | 10 => self.random.pick(&[HIGHEST, LOWEST, LOWEST + 1]),
            _ => self.any_number(),
        };
        (address as u32) << 16 | (error as u32 & 0xFFFF)
    }

    /// Bresenham 3: an initial error, any bits that are dropped, and a length.
    pub(super) fn line_start(&mut self) -> u32 {
        let error = match self.random.below(12) {
            0 | 1 => 0,
            2 => -1,
            3..=6 => self.up_to(80) - 40,
            7 => HIGHEST - self.up_to(60),
            8 => LOWEST + self.up_to(60),
            9 => self
                .random
                .pick(&[HIGHEST, LOWEST, HIGHEST + 1, LOWEST - 1]),
            10 => self.signed(10_000),
            _ => self.any_number(),
        };
        let dropped = self.mask() & 0x7FF0;
        (error as u32) << 15 | dropped | self.random.below(16) as u32
    }

    /// A place left behind: most lie in a VRAM of some length, some before or after it, some anywhere.
    pub(super) fn place(&mut self) -> i32 {
        match self.random.below(12) {
            0 => self.any_number(),
            1 => -1 - self.up_to(40),
            2 => self.random.pick(&[-1, LOWEST, i32::MIN, i32::MAX]),
            3 => 4096 + self.up_to(40),
            4..=8 => self.up_to(300),
            _ => self.up_to(4095),
        }
    }

    /// An error left behind: most are of 16 bits.
    pub(super) fn error(&mut self) -> i32 {
        match self.random.below(12) {
            0 => self.any_number(),
            1 => self
                .random
                .pick(&[HIGHEST + 1, LOWEST - 1, i32::MIN, i32::MAX]),
            2 => self.random.pick(&[HIGHEST, LOWEST]),
            3 => self.signed(20_000),
            4 => 0,
            5 => -1,
            _ => self.up_to(80) - 40,
        }
    }

    /// A line mode's code with one more bit than it may have.
    pub(super) fn bad_line_mode(&mut self) -> u32 {
        let bit = self.random.below(24);
        // Bits 31:16 and 14:7: all but the cap bit.
        let place = if bit < 8 { 7 + bit } else { 8 + bit };
        self.random.pick(&LINES).0 | 1 << place
    }

    /// A good card in a line mode.
    pub fn line_card(&mut self) -> Card {
        Card {
            mode: self.random.pick(&LINES).0,
            ..self.good_card()
        }
    }

    /// The next write for a card that draws lines: lines and continues, and the register writes that they go by; other modes for a
    /// while, and any write.
    pub fn line(&mut self, card: &Card, length: usize) -> Write {
        let write = match self.random.below(40) {
            0..=15 => self.frame_write(card, length as u64),
            16..=24 => self.continued(),
            25..=35 => self.line_setting(),
            _ => return self.write(card, length),
        };
        self.spoilt(write)
    }

    pub(super) fn continued(&mut self) -> Write {
        Write {
            space: REGISTER,
            lanes: 15,
            address: CONTINUE,
            data: self.mask(),
        }
    }

    /// What a line or a continue goes by. A mode is a line mode, but for one in six.
    fn line_setting(&mut self) -> Write {
        let (address, data) = match self.random.below(12) {
            0 | 1 => (BRESENHAM_1, self.increments()),
            2 | 3 => (BRESENHAM_2, self.increments()),
            4 | 5 => (BRESENHAM_3, self.line_start()),
            6 if self.random.one_in(6) => (0x0030, self.good_mode()),
            6..=8 => (0x0030, self.random.pick(&LINES).0),
            9 => (0x0034, self.random.below(16) as u32),
            10 => (0x002C, self.mask()),
            _ => (
                self.random.pick(&[0x0020, 0x0024, 0x0028, 0x005C]),
                self.mask(),
            ),
        };
        Write {
            space: REGISTER,
            lanes: 15,
            address,
            data,
        }
    }
}
