//! A trace that the library has checked.

use crate::diagnosis;
use crate::entry::write_of;
use crate::failure::Failure;
use crate::files::{Input, Source};
use std::ffi::OsStr;
use zevkholtai::{check, number, Card, Ran, Write, ENTRY, HEADER, MOST_ENTRIES};

/// The bytes of the longest trace.
pub const LONGEST: usize = HEADER + ENTRY * MOST_ENTRIES;

#[derive(Clone)]
pub struct Trace {
    bytes: Vec<u8>,
    /// The pixels of the video memory that it is for.
    pub length: usize,
}

/// Reads the file of a trace, or standard input where that is `-`.
pub fn read(path: &OsStr) -> Result<Input, Failure> {
    Source::open(path)?.read(LONGEST)
}

impl Trace {
    /// The trace in these bytes; else what is wrong with them.
    pub fn of(bytes: Vec<u8>) -> Result<Trace, String> {
        let checked = check(&bytes);
        if checked.number != number::ACCEPTED {
            return Err(diagnosis::of_file(&bytes));
        }
        let length = checked.length as usize;
        Ok(Trace { bytes, length })
    }

    fn entries(&self) -> &[u8] {
        self.bytes.get(HEADER..).unwrap_or_default()
    }

    pub fn count(&self) -> usize {
        self.entries().len() / ENTRY
    }

    pub fn writes(&self) -> impl Iterator<Item = Write> + '_ {
        self.entries().chunks_exact(ENTRY).map(write_of)
    }

    pub fn write(&self, index: usize) -> Option<Write> {
        self.writes().nth(index)
    }

    /// A video memory of zeros for it.
    pub fn vram(&self) -> Vec<u8> {
        vec![0; self.length]
    }

    /// Runs the entries from one index up to another, which is not run.
    pub fn run(&self, card: &mut Card, vram: &mut [u8], from: usize, to: usize) -> Ran {
        let part = self.entries().get(from * ENTRY..).unwrap_or_default();
        card.run(part, vram, to.saturating_sub(from) as u32)
    }
}
