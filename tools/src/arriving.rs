//! A trace that is drawn as it arrives. The header's 16 bytes are gathered first, since the length of video memory stands
//! there; then each read is fed as soon as it has come.

use crate::diagnosis;
use crate::entry::{word_at, write_of};
use crate::failure::Failure;
use crate::files::Source;
use crate::refusal::{no_trace, refused};
use crate::replay::Played;
use zevkholtai::{number, Card, Fed, Reader, ENTRY, HEADER};

/// The most bytes of one read.
const AT_ONCE: usize = 4096;
/// The shortest video memory that there is: a header draws nothing, so any serves while it is read.
const SHORTEST: usize = 64;

struct Arrival {
    source: Source,
    /// All bytes that came, to tell what was wrong with them. No more come than the longest trace has, and one read.
    came: Vec<u8>,
    fed: Fed,
    vram: Vec<u8>,
}

impl Arrival {
    /// One read of up to so many bytes, fed. False where the input has ended.
    fn more(&mut self, most: usize) -> Result<bool, Failure> {
        let mut buffer = vec![0; most];
        let count = self.source.some(&mut buffer)?;
        buffer.truncate(count);
        let Fed { reader, card } = self.fed;
        self.fed = reader.chunk(card, &buffer, &mut self.vram);
        self.came.append(&mut buffer);
        Ok(count > 0)
    }

    fn number(&self) -> u32 {
        self.fed.reader.number
    }

    /// Reads the header. Its length of video memory, where it is a good one.
    fn header(&mut self) -> Result<Option<usize>, Failure> {
        while self.came.len() < HEADER && self.more(HEADER - self.came.len())? {}
        let good = self.fed.reader.opened != 0 && self.number() == number::ACCEPTED;
        Ok(good.then(|| word_at(&self.came, 8) as usize))
    }

    /// What is said where it was refused.
    fn said(&self) -> Option<String> {
        let index = self.fed.reader.applied as usize;
        let at = HEADER + ENTRY * index;
        match self.number() {
            number::ACCEPTED => None,
            number::MALFORMED => Some(no_trace(&diagnosis::of_arrival(&self.came))),
            number => {
                let write = write_of(self.came.get(at..at + ENTRY).unwrap_or_default());
                Some(refused(index, number, &self.fed.card, write))
            }
        }
    }

    /// No more is read.
    fn close(mut self) -> Played {
        self.fed.reader = self.fed.reader.end();
        let said = self.said();
        let reader = self.fed.reader;
        Played {
            number: reader.number,
            entries: reader.applied,
            pixels: reader.pixels,
            changed: reader.changed,
            vram: self.vram,
            said,
        }
    }
}

/// The trace from reset to the end of the input. The length of video memory is judged before anything is drawn.
pub fn play(
    source: Source,
    held: u8,
    judge: impl Fn(usize) -> Result<(), Failure>,
) -> Result<Played, Failure> {
    let mut arrival = Arrival {
        source,
        came: Vec::new(),
        fed: Fed {
            reader: Reader::new(),
            card: Card::reset(held),
        },
        vram: vec![0; SHORTEST],
    };
    let Some(length) = arrival.header()? else {
        arrival.vram.clear();
        return Ok(arrival.close());
    };
    judge(length)?;
    arrival.vram = vec![0; length];
    while arrival.number() == number::ACCEPTED && arrival.more(AT_ONCE)? {}
    Ok(arrival.close())
}
