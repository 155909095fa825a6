//! Ask 2, "Traces that arrive over a serial line". The reader keeps every byte it has heard. It judges the header once that is
//! whole, each byte after it by its place alone, and all of them afresh at the end call.

use super::refusal::bad_length;
use super::trace::{check, entry, word, ENTRY, HEADER, MOST_ENTRIES};
use super::Card;

#[derive(Clone, PartialEq, Eq, Debug)]
pub struct Reader {
    /// All bytes so far, the refused one among them; none after it is heard.
    heard: Vec<u8>,
    number: u32,
    entries: u32,
    pixels: u32,
    changed: u32,
}

impl Reader {
    pub fn new() -> Reader {
        Reader {
            heard: Vec::new(),
            number: 0,
            entries: 0,
            pixels: 0,
            changed: 0,
        }
    }

    /// Entries applied.
    pub fn entries(&self) -> u32 {
        self.entries
    }

    /// Total pixels.
    pub fn pixels(&self) -> u32 {
        self.pixels
    }

    /// Total of the pixels that changed.
    pub fn changed(&self) -> u32 {
        self.changed
    }

    /// "After a refusal, later chunks and the end call return the same number and draw nothing."
    pub fn chunk(&mut self, bytes: &[u8], card: &mut Card, vram: &mut [u8]) -> u32 {
        // "a VRAM that number 1 forbids answers 1 before any of the chunk is read"
        if self.number == 0 && bad_length(vram.len() as u64) {
            self.number = 1;
        }
        for byte in bytes {
            if self.number == 0 {
                self.heard.push(*byte);
                self.number = self.judge(card, vram);
            }
        }
        self.number
    }

    /// "An end call with bytes owed ... answers 10": where none is owed, the bytes heard are a trace.
    pub fn end(&mut self) -> u32 {
        if self.number == 0 {
            self.number = check(&self.heard).0;
        }
        self.number
    }

    /// The number that the newest byte gets.
    fn judge(&mut self, card: &mut Card, vram: &mut [u8]) -> u32 {
        if newest_is_wrong(&self.heard) {
            return 10;
        }
        let at = HEADER + ENTRY * self.entries as usize;
        if self.heard.len() < at + ENTRY {
            return 0;
        }
        // "draw each entry once it is whole"
        let answer = super::write(card, vram, entry(&self.heard, at));
        if answer.number == 0 {
            self.entries += 1;
            self.pixels += answer.pixels;
            // Ask 4: "every mode, run and serial reader sums it"
            self.changed += answer.changed;
        }
        answer.number
    }
}

/// Whether the newest of these bytes answers 10. Those before it did not, so only what it can have changed is asked.
fn newest_is_wrong(heard: &[u8]) -> bool {
    // "A bad header answers 10 at its sixteenth byte"
    if heard.len() <= HEADER {
        return heard.len() == HEADER && !begins_trace(heard);
    }
    let newest = heard.len() - 1;
    // "a byte past the total, answers 10"
    let past = newest >= word(heard, 12) as usize;
    // "a bad pad byte at once": an entry is space, lanes, two zero bytes, address, data.
    let pad = matches!((newest - HEADER) % ENTRY, 2 | 3);
    past || (pad && heard[newest] != 0)
}

/// Whether a trace begins with this header. If any does, it and zeros up to its total are one, as check lets an entry be all
/// zeros. A total too long for any trace is cut, one under 16 is taken as 16, and check then refuses it.
fn begins_trace(header: &[u8]) -> bool {
    let longest = HEADER + ENTRY * MOST_ENTRIES as usize;
    let total = word(header, 12) as usize;
    let mut bytes = vec![0; total.clamp(HEADER, longest)];
    bytes[..HEADER].copy_from_slice(header);
    check(&bytes).0 == 0
}
