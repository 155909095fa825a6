//! A serial line with both readers at its end: after every call, all that can be seen of them is compared.

use super::met::{Call, Met};
use crate::compare::{same, same_bytes, Outcome, Pair};
use crate::engine::reader::{self, Reader};
use crate::model::{serial, trace, Card};
use std::mem;

/// The card and the picture on which a line starts.
pub struct Start {
    pub card: Card,
    pub picture: Vec<u8>,
}

/// How a line stands: the number, the entries applied, the total pixels, those changed, the card and the picture.
pub struct Standing {
    numbers: [u32; 4],
    card: Card,
    picture: Vec<u8>,
}

impl Standing {
    pub fn same(&self, what: &str, other: &Standing) -> Outcome {
        same(
            &format!("number and totals {what}"),
            &self.numbers,
            &other.numbers,
        )?;
        same(&format!("card {what}"), &self.card, &other.card)?;
        same_bytes(&format!("VRAM {what}"), &self.picture, &other.picture)
    }
}

/// What a line leaves: how it stands, and the engine's reader with the bytes that wait in it.
pub struct Sent {
    pub standing: Standing,
    reader: Reader,
}

impl Sent {
    pub fn same(&self, what: &str, other: &Sent) -> Outcome {
        self.standing.same(what, &other.standing)?;
        same(&format!("reader {what}"), &self.reader, &other.reader)
    }
}

impl Start {
    pub fn line<'a>(&self, met: &'a mut Met) -> Line<'a> {
        met.lines += 1;
        Line {
            met,
            ours: serial::Reader::new(),
            theirs: Reader::new(),
            cards: (self.card.clone(), self.card.clone()),
            vram: Pair::new(self.picture.clone()),
            sent: Vec::new(),
            number: 0,
            ended: false,
        }
    }

    /// All chunks, and the end call.
    pub fn sent(&self, met: &mut Met, chunks: &[&[u8]]) -> Result<Sent, String> {
        let mut line = self.line(met);
        for chunk in chunks {
            line.chunk(chunk)?;
        }
        line.end()?;
        Ok(line.left())
    }

    /// The engine alone, with all bytes in one chunk.
    pub fn at_once(&self, bytes: &[u8]) -> Sent {
        let mut reader = Reader::new();
        let mut card = self.card.clone();
        let mut picture = self.picture.clone();
        reader::chunk(&mut reader, bytes, &mut card, &mut picture);
        let number = reader::end(&mut reader);
        let standing = Standing {
            numbers: [number, reader.applied, reader.pixels, reader.changed],
            card,
            picture,
        };
        Sent { standing, reader }
    }

    /// The model's one whole run, where check accepts the bytes.
    pub fn run(&self, bytes: &[u8]) -> Option<Standing> {
        if trace::check(bytes).0 != 0 {
            return None;
        }
        let mut card = self.card.clone();
        let mut picture = self.picture.clone();
        let ran = trace::run(&bytes[trace::HEADER..], &mut card, &mut picture, u32::MAX);
        Some(Standing {
            numbers: [ran.number, ran.entries, ran.pixels, ran.changed],
            card,
            picture,
        })
    }
}

fn totals(number: u32, reader: &serial::Reader) -> [u32; 4] {
    [number, reader.entries(), reader.pixels(), reader.changed()]
}

pub struct Line<'a> {
    met: &'a mut Met,
    ours: serial::Reader,
    theirs: Reader,
    cards: (Card, Card),
    vram: Pair,
    sent: Vec<u8>,
    number: u32,
    ended: bool,
}

impl Line<'_> {
    pub fn chunk(&mut self, bytes: &[u8]) -> Outcome {
        self.sent.extend(bytes);
        let ours = self
            .ours
            .chunk(bytes, &mut self.cards.0, &mut self.vram.model);
        let (card, picture) = (&mut self.cards.1, &mut self.vram.other);
        let theirs = reader::chunk(&mut self.theirs, bytes, card, picture);
        self.answered(Some(bytes.len()), ours, theirs)
    }

    /// A chunk that comes with a picture of another length, for once.
    pub fn elsewhere(&mut self, bytes: &[u8], length: usize) -> Outcome {
        let kept = mem::replace(&mut self.vram, Pair::new(vec![0x5A; length]));
        let outcome = self.chunk(bytes);
        self.vram = kept;
        outcome
    }

    pub fn end(&mut self) -> Outcome {
        let ours = self.ours.end();
        let theirs = reader::end(&mut self.theirs);
        self.answered(None, ours, theirs)?;
        self.ended |= ours == 0;
        Ok(())
    }

    /// Compares what a chunk of so many bytes, or the end call, left.
    fn answered(&mut self, chunk: Option<usize>, ours: u32, theirs: u32) -> Outcome {
        let at = match chunk {
            Some(new) => format!("after a chunk of {new} bytes, {} in all", self.sent.len()),
            None => format!("after the end call, {} bytes in all", self.sent.len()),
        };
        let before = mem::replace(&mut self.number, ours);
        let reader = &self.theirs;
        let others = [theirs, reader.applied, reader.pixels, reader.changed];
        same(
            &format!("number and totals {at}"),
            &totals(ours, &self.ours),
            &others,
        )?;
        same(&format!("card {at}"), &self.cards.0, &self.cards.1)?;
        self.vram.same(&format!("VRAM {at}"))?;
        self.met.call(&Call {
            sent: &self.sent,
            new: chunk.unwrap_or(0),
            end: chunk.is_none(),
            ended: self.ended,
            before,
            number: ours,
            entries: self.ours.entries(),
        });
        Ok(())
    }

    fn left(self) -> Sent {
        let standing = Standing {
            numbers: totals(self.number, &self.ours),
            card: self.cards.0,
            picture: self.vram.model,
        };
        Sent {
            standing,
            reader: self.theirs,
        }
    }
}
