//! Ask 5, "Waveform lines": the walk of a line or a continue, "in whole numbers without limit", and what it draws.

use super::draw::set;
use super::refusal::register;
use super::register::Register;
use super::{mode, pixel, Answer, Card, Write, FRAME};

/// "A continue write ... extends by 16 pixels"
const CONTINUED: u32 = 16;

/// "Increments are signed 16-bit numbers": bits 31:16 of Bresenham 1 or 2.
fn address_increment(register: u32) -> i64 {
    i64::from((register >> 16) as u16 as i16)
}

/// Bits 15:0 of Bresenham 1 or 2.
fn error_increment(register: u32) -> i64 {
    i64::from(register as u16 as i16)
}

/// Bits 31:15 of Bresenham 3, a signed number of 17 bits.
fn initial_error(register: u32) -> i64 {
    i64::from(register as i32).div_euclid(0x8000)
}

/// Bits 3:0 of Bresenham 3. "Length 0 means 16"
fn visits(register: u32) -> u32 {
    match register % 16 {
        0 => 16,
        length => length,
    }
}

/// The places and errors of a walk: the first ones and those after each step. So the last of each belong to no visit; they are
/// what is left behind.
pub struct Walk {
    places: Vec<i64>,
    errors: Vec<i64>,
}

impl Walk {
    fn new(card: &Card, mut place: i64, mut error: i64, visits: u32) -> Walk {
        let [one, two, _] = card.bresenham;
        let mut walk = Walk {
            places: vec![place],
            errors: vec![error],
        };
        for _ in 0..visits {
            if error < 0 {
                // "with a signed error below zero, add address increment 1 and error increment 1"
                place += address_increment(one);
                error += error_increment(one);
            } else {
                // "else add address increment 2 and take away error increment 2"
                place += address_increment(two);
                error -= error_increment(two);
            }
            walk.places.push(place);
            walk.errors.push(error);
        }
        walk
    }

    /// The places visited, drawn or not.
    pub fn visited(&self) -> &[i64] {
        &self.places[..self.places.len() - 1]
    }

    /// The error "at the start" and "after any step, the last too".
    pub fn errors(&self) -> &[i64] {
        &self.errors
    }

    /// Whether a place visited lies outside VRAM, below 0 too.
    pub fn leaves(&self, length: u64) -> bool {
        self.visited()
            .iter()
            .any(|&place| place < 0 || place >= length as i64)
    }

    /// Whether an error is "outside signed 16 bits".
    pub fn errs(&self) -> bool {
        self.errors
            .iter()
            .any(|&error| !(-32_768..=32_767).contains(&error))
    }

    /// The place and the error after the last step.
    pub fn left(&self) -> (i64, i64) {
        (
            self.places[self.visited().len()],
            self.errors[self.visited().len()],
        )
    }
}

/// The walk of a frame write in a line mode, or of a continue in one; other writes have none. Nor has a continue before any
/// accepted line.
pub fn walk(card: &Card, write: Write) -> Option<Walk> {
    if !mode::is_line(card.mode) {
        None
    } else if write.space == FRAME {
        // "Address bits 1:0 come from data bits 17:16"
        let first = u64::from(write.address) + mode::low(write);
        let three = card.bresenham[2];
        Some(Walk::new(
            card,
            first as i64,
            initial_error(three),
            visits(three),
        ))
    } else if register(write) == Some(Register::Continue) && card.kept != 0 {
        // "from the place and error left behind"
        Some(Walk::new(
            card,
            card.place.into(),
            card.error.into(),
            CONTINUED,
        ))
    } else {
        None
    }
}

/// Draws an accepted line or continue. "The count is of visits that draw, Ask 4's number of those that change the byte": each
/// visit is judged by itself, on the picture as it finds it.
pub fn draw(card: &mut Card, vram: &mut [u8], write: Write, walk: &Walk) -> Answer {
    let mut answer = Answer {
        number: 0,
        pixels: 0,
        changed: 0,
    };
    let visited = walk.visited();
    for (i, &place) in visited.iter().enumerate() {
        // "with the cap bit, mode bit 15, clear, the last pixel, a continue's too, isn't drawn but the step is taken"
        let left_out = i + 1 == visited.len() && !mode::is_capped(card.mode);
        let p = place as u64;
        if let Some(source) = source(card, write, i as u64, p).filter(|_| !left_out) {
            let old = vram[p as usize];
            let new = pixel::made(card, p, card.raster, source, old);
            vram[p as usize] = new;
            answer.pixels += 1;
            answer.changed += u32::from(new != old);
        }
    }
    let (place, error) = walk.left();
    // An accepted walk ends within one step of VRAM, and with an error of 16 bits.
    card.place = place as i32;
    card.error = error as i32;
    card.kept = 1;
    answer
}

/// "At each visit i, from 0, draw by bit i of that mask, without the pixel mask": opaque line picks foreground or background,
/// transparent line draws foreground where the bit is set.
fn source(card: &Card, write: Write, i: u64, p: u64) -> Option<u8> {
    // "a 16-bit line mask from data bits 15:0"; no walk has more than 16 visits.
    let picked = set(write.data, i);
    let foreground = pixel::byte_of(card.foreground, p % 4);
    let background = pixel::byte_of(card.background, p % 4);
    if picked {
        Some(foreground)
    } else if mode::is_opaque_line(card.mode) {
        Some(background)
    } else {
        None
    }
}
