//! Cards and writes that reach every mode, register, refusal and boundary.

mod lines;
mod stipples;

use crate::listed::mode::{self, LINES, MODES};
use crate::listed::{BRESENHAM_1, BRESENHAM_2, BRESENHAM_3, LARGEST_VRAM, OFFSETS};
use crate::model::{Card, Write, FRAME, REGISTER};
use crate::random::Random;

/// Makes writes that follow each other; the last address is kept so that copies overlap.
pub struct Maker {
    pub random: Random,
    last: u64,
}

/// Codes near the listed ones, among them those of the manual and of Linux, and others with the cap bit.
const UNLISTED_CODES: [u32; 18] = [
    0x03, 0x0A, 0x0E, 0x10, 0x17, 0x23, 0x25, 0x4E, 0x65, 0x6D, 0x7F, 0x80, 0x8000, 0x8001, 0x8003,
    0x8007, 0x4002, 0x10002,
];

/// Offsets beside the listed ones: other registers of the chip, aliases, and near misses.
const UNLISTED_OFFSETS: [u32; 18] = [
    0x0000, 0x001C, 0x0021, 0x003C, 0x0042, 0x004D, 0x0050, 0x0058, 0x0060, 0x007C, 0x0084, 0x013C,
    0x0141, 0x0162, 0x0168, 0x016C, 0x0220, 0xFFFFFFFF,
];

impl Maker {
    pub fn new(random: Random) -> Maker {
        Maker { random, last: 0 }
    }

    /// A VRAM length, and whether a case on it should be short.
    pub fn length(&mut self) -> (usize, bool) {
        match self.random.below(100) {
            0 => (0, true),
            1 => (63, true),
            2 => (self.random.below(4096) as usize, true),
            3 => (LARGEST_VRAM, true),
            4 if self.random.one_in(2) => (LARGEST_VRAM + 64, true),
            5..=19 => (64, false),
            20..=34 => (128, false),
            35..=49 => (2048, false),
            50..=64 => (4096, false),
            _ => (64 + 64 * self.random.below(64) as usize, false),
        }
    }

    /// A mask or colour: all, none, single bits, or any.
    fn mask(&mut self) -> u32 {
        match self.random.below(8) {
            0 => 0,
            1 | 2 => 0xFFFF_FFFF,
            3 => 1 << self.random.below(32),
            4 => !(1 << self.random.below(32)),
            _ => self.random.word(),
        }
    }

    /// A card that a reset and accepted writes can leave, but that its marks and held planes may be any words, and so may what a
    /// line left behind.
    pub fn good_card(&mut self) -> Card {
        let mut buffer = [0; 64];
        buffer.copy_from_slice(&self.random.bytes(64));
        Card {
            foreground: self.random.word(),
            background: self.random.word(),
            plane: self.mask(),
            pixel: self.mask(),
            mode: self.good_mode(),
            raster: self.random.below(16) as u32,
            data: self.mask(),
            block: std::array::from_fn(|_| self.random.word()),
            bresenham: [self.increments(), self.increments(), self.line_start()],
            buffer,
            marked: self.mark(),
            loaded: self.mark(),
            writing: self.mark(),
            place: self.place(),
            error: self.error(),
            kept: self.mark(),
            held: u32::from(self.held()) + (self.mark() & 0xFFFF_FF00),
        }
    }

    /// 0, 1 or any word.
    fn mark(&mut self) -> u32 {
        match self.random.below(4) {
            0 | 1 => 0,
            2 => 1,
            _ => self.mask(),
        }
    }

    /// The card with a mode or raster operation that no reset or accepted write leaves.
    pub fn bad_card(&mut self, card: &Card) -> Card {
        let mut bad = card.clone();
        let which = self.random.below(3);
        if which != 1 {
            bad.mode = self.bad_mode();
        }
        if which != 0 {
            let high = 16 << self.random.below(28);
            bad.raster = self.random.pick(&[16, 0x103, 0xFFFF_FFFF, high, high + 3]);
        }
        bad
    }

    /// None, one or any.
    pub fn held(&mut self) -> u8 {
        match self.random.below(4) {
            0 | 1 => 0,
            2 => 1 << self.random.below(8),
            _ => self.random.byte(),
        }
    }

    fn good_mode(&mut self) -> u32 {
        if self.random.one_in(3) {
            self.random.pick(&LINES).0
        } else {
            self.random.pick(&MODES).0
        }
    }

    fn bad_mode(&mut self) -> u32 {
        let code = self.random.pick(&MODES).0;
        match self.random.below(4) {
            0 => self.random.pick(&UNLISTED_CODES),
            1 => code + (0x80 << self.random.below(25)),
            2 => self.bad_line_mode(),
            _ => self.random.word() | 0x80,
        }
    }

    /// The next write for this card and VRAM length.
    pub fn write(&mut self, card: &Card, length: usize) -> Write {
        let write = match self.random.below(20) {
            // A continue goes with the line modes; in others, register writes bring it.
            0..=2 if mode::is_line(card.mode) => self.continued(),
            0..=10 => self.frame_write(card, length as u64),
            11..=18 => self.register_write(length as u64),
            _ => Write {
                space: REGISTER,
                lanes: 15,
                address: self.unlisted_offset(),
                data: self.random.word(),
            },
        };
        self.spoilt(write)
    }

    /// The write, now and then with another space or other lanes.
    fn spoilt(&mut self, mut write: Write) -> Write {
        if self.random.one_in(40) {
            write.space = self.random.byte().max(2);
        }
        if self.random.one_in(30) {
            write.lanes = if self.random.one_in(2) {
                self.random.byte()
            } else {
                self.random.byte() % 16
            };
        }
        write
    }

    fn unlisted_offset(&mut self) -> u32 {
        match self.random.below(3) {
            0 => self.random.word(),
            // A listed offset with one more bit, as an alias would have.
            1 => self.random.pick(&OFFSETS) + (0x200 << self.random.below(22)),
            _ => self.random.pick(&UNLISTED_OFFSETS),
        }
    }

    fn register_write(&mut self, length: u64) -> Write {
        let address = if self.random.one_in(3) {
            0x0030
        } else {
            self.random.pick(&OFFSETS)
        };
        let data = match address {
            0x0030 if self.random.one_in(6) => self.bad_mode(),
            0x0030 => self.good_mode(),
            0x0034 if self.random.one_in(3) => self.random.word(),
            0x0034 => self.random.word() & 0xFFFF_F0FF,
            0x0038 if self.random.one_in(3) => self.random.word(),
            0x0038 => self.random.word() & 0xFFFF_FFF0,
            BRESENHAM_1 | BRESENHAM_2 => self.increments(),
            BRESENHAM_3 => self.line_start(),
            0x0160 | 0x0164 => self.address(64, 64, length),
            _ => self.mask(),
        };
        Write {
            space: REGISTER,
            lanes: 15,
            address,
            data,
        }
    }

    fn frame_write(&mut self, card: &Card, length: u64) -> Write {
        let (boundary, pixels) = match card.mode {
            mode::SIMPLE => (4, 4),
            mode::COPY => (8, 32),
            other if mode::is_fill(other) => (4, 1),
            other if mode::is_line(other) => (4, 4),
            _ => (4, 32),
        };
        let address = self.address(boundary, pixels, length);
        let data = if mode::is_fill(card.mode) {
            self.fill_data(u64::from(address), length)
        } else {
            self.mask()
        };
        let lanes = if card.mode == mode::SIMPLE {
            self.random.byte() % 16
        } else {
            15
        };
        Write {
            space: FRAME,
            lanes,
            address,
            data,
        }
    }

    /// An address: most lie inside; the rest stand at the end, one past it, off the boundary or near 2^32.
    fn address(&mut self, boundary: u64, pixels: u64, length: u64) -> u32 {
        let last_that_fits = length.saturating_sub(pixels) / boundary * boundary;
        let inside = self.random.below(last_that_fits / boundary + 1) * boundary;
        let address = match self.random.below(24) {
            0 => 0,
            1 | 2 => last_that_fits,
            3 => last_that_fits + boundary,
            4 => length,
            5 => inside + 1 + self.random.below(boundary - 1),
            6 => (1 << 32) - boundary * (1 + self.random.below(16)),
            7 => u64::from(self.random.word()),
            // Close to the last one, so that source and destination overlap.
            8..=12 => self.last + boundary * self.random.below(4),
            13 => self.last.saturating_sub(boundary),
            _ => inside,
        };
        self.last = if address + pixels <= length {
            address
        } else {
            inside
        };
        address as u32
    }

    /// A fill's data: counts at their ends, to the end of VRAM and one past it, and any bits that are ignored.
    fn fill_data(&mut self, address: u64, length: u64) -> u32 {
        let low = self.random.below(4);
        let room = length.saturating_sub(address + low);
        let count = match self.random.below(12) {
            0 => 1,
            1 => 2048,
            2 | 3 => room,
            4 => room + 1,
            5 => 31 + self.random.below(3),
            6 => 1 + self.random.below(2048),
            _ => 1 + self.random.below(room.clamp(1, 200)),
        };
        let ignored = self.random.word() & 0xFFFC_F800;
        ignored | (low as u32) << 16 | (count.clamp(1, 2048) as u32 - 1)
    }
}
