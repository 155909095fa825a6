//! Opaque stipples for Ask 3: those with raster operation 3 and a full plane mask, which may go a shorter way inside, and others, near
//! misses of these among them.

use super::Maker;
use crate::listed::mode;
use crate::model::{Card, Write};

const TAKE_SOURCE: u32 = 3;
const FULL: u32 = 0xFFFF_FFFF;

impl Maker {
    /// A short length, now and then one that number 1 forbids.
    pub fn short_length(&mut self) -> usize {
        if self.random.one_in(25) {
            self.random.pick(&[0, 1, 63, 65, 100])
        } else {
            64 + 64 * self.random.below(8) as usize
        }
    }

    /// A good card in opaque stipple mode, of either kind as often.
    pub fn stipple_card(&mut self) -> Card {
        let (raster, plane) = match self.random.below(8) {
            0..=3 => (TAKE_SOURCE, FULL),
            4 => (TAKE_SOURCE, self.one_plane_missing()),
            5 => (self.other_operation(), FULL),
            6 => (TAKE_SOURCE, self.one_plane_missing() & self.mask()),
            _ => (self.other_operation(), self.mask()),
        };
        Card {
            mode: mode::OPAQUE_STIPPLE,
            raster,
            plane,
            ..self.good_card()
        }
    }

    fn one_plane_missing(&mut self) -> u32 {
        !(1 << self.random.below(32))
    }

    fn other_operation(&mut self) -> u32 {
        (TAKE_SOURCE + 1 + self.random.below(15) as u32) % 16
    }

    /// A frame write for a card in opaque stipple mode.
    pub fn stipple(&mut self, card: &Card, length: usize) -> Write {
        let write = self.frame_write(card, length as u64);
        self.spoilt(write)
    }
}
