//! Counts what the serial reader met: numbers, places of cuts, and situations that Ask 2 is about.

use crate::engine::reader::Reader;
use crate::model::trace::{self, ENTRY, HEADER, MOST_ENTRIES};

/// Situations of a call on a line.
const SITUATIONS: [&str; 16] = [
    "10 for a bad header",
    "10 for a pad byte",
    "10 for a pad byte, entries before it drawn",
    "10 for a byte past the total",
    "10 for bytes of a header owed at the end",
    "10 for bytes of an entry owed at the end",
    "entry refused, entries before it drawn",
    "1 for a chunk with bytes",
    "1 for an empty chunk",
    "empty chunk accepted",
    "number that sticks, later chunk",
    "number that sticks, end call",
    "end call accepted twice",
    "empty chunk after an accepted end call",
    "10 for a byte after an accepted end call",
    "end call accepted, 65,536 entries applied",
];

/// Readers put together by hand.
const BY_HAND: [&str; 9] = [
    "number that sticks, by hand",
    "10 for bytes that wait alone",
    "10 for entries applied alone",
    "10 for entries announced alone",
    "10 for pixels alone",
    "10 for pixels changed alone",
    "header read on, by hand",
    "entries read on, by hand",
    "nonzero pad byte waits and its entry is drawn, by hand",
];

/// One call on a line. `sent` are the bytes of all chunks so far, of which `new` are this chunk's.
pub struct Call<'a> {
    pub sent: &'a [u8],
    pub new: usize,
    pub end: bool,
    /// An end call was accepted before.
    pub ended: bool,
    pub before: u32,
    pub number: u32,
    pub entries: u32,
}

/// What is wrong with bytes that were refused by 10.
#[derive(PartialEq)]
enum Wrong {
    Header,
    Pad,
    Past,
}

fn wrong(sent: &[u8]) -> Wrong {
    let total = u32::from_le_bytes([sent[12], sent[13], sent[14], sent[15]]) as usize;
    // A good header and zeros are a trace; no trace is so long as the longest total here.
    let longest = HEADER + ENTRY * MOST_ENTRIES as usize;
    let mut blank = sent[..HEADER].to_vec();
    blank.resize(total.clamp(HEADER, longest + 1), 0);
    let entries = &sent[HEADER..total.clamp(HEADER, sent.len())];
    if trace::check(&blank).0 != 0 {
        Wrong::Header
    } else if (0..entries.len()).any(|i| matches!(i % ENTRY, 2 | 3) && entries[i] != 0) {
        Wrong::Pad
    } else {
        Wrong::Past
    }
}

pub struct Met {
    /// By number; 11 is for a buffer without room, so it never comes up.
    chunks: [u64; 14],
    ends: [u64; 14],
    /// Cuts of a header and of an entry, after so many bytes of it.
    headers: [u64; HEADER],
    entries: [u64; ENTRY],
    situations: [u64; SITUATIONS.len()],
    by_hand: [u64; BY_HAND.len()],
    pub lines: u64,
    /// Lines whose bytes check accepts, beside one whole run.
    pub runs: u64,
}

fn add(counts: &mut [u64], met: &[bool]) {
    for (count, &met) in counts.iter_mut().zip(met) {
        *count += u64::from(met);
    }
}

impl Met {
    pub fn new() -> Met {
        Met {
            chunks: [0; 14],
            ends: [0; 14],
            headers: [0; HEADER],
            entries: [0; ENTRY],
            situations: [0; SITUATIONS.len()],
            by_hand: [0; BY_HAND.len()],
            lines: 0,
            runs: 0,
        }
    }

    pub fn call(&mut self, call: &Call) {
        let &Call {
            sent,
            new,
            end,
            ended,
            before,
            number,
            entries,
        } = call;
        let numbers = if end {
            &mut self.ends
        } else {
            &mut self.chunks
        };
        numbers[number as usize] += 1;
        let refused = before == 0 && number != 0;
        let owed = refused && end;
        let wrong = (refused && !end && number == 10).then(|| wrong(sent));
        let pad = wrong == Some(Wrong::Pad);
        let empty = !end && new == 0;
        let met = [
            wrong == Some(Wrong::Header),
            pad,
            pad && entries > 0,
            wrong == Some(Wrong::Past),
            owed && sent.len() < HEADER,
            owed && sent.len() >= HEADER,
            refused && number != 10 && entries > 0,
            refused && number == 1 && !empty,
            refused && number == 1 && empty,
            empty && number == 0,
            !end && before != 0,
            end && before != 0,
            end && ended && number == 0,
            empty && ended && number == 0,
            ended && wrong.is_some(),
            end && number == 0 && u64::from(entries) == MOST_ENTRIES,
        ];
        add(&mut self.situations, &met);
        if !end && new > 0 && number == 0 {
            self.cut(sent.len() - new);
        }
    }

    /// A chunk's edge after so many bytes, after which more came and were accepted.
    fn cut(&mut self, edge: usize) {
        match edge.checked_sub(HEADER) {
            None => self.headers[edge] += 1,
            Some(edge) => self.entries[edge % ENTRY] += 1,
        }
    }

    /// A chunk for a reader put together by hand, and the reader that it left; `faults` say why it cannot be.
    pub fn by_hand(&mut self, reader: &Reader, faults: [bool; 5], left: &Reader) {
        let alone = |i| reader.number == 0 && (0..5).all(|k| faults[k] == (k == i));
        let read = reader.number == 0 && faults == [false; 5];
        let entries = read && reader.opened != 0;
        let pad = (2..4).any(|i| i < reader.filled as usize && reader.waiting[i] != 0);
        let met = [
            reader.number != 0,
            alone(0),
            alone(1),
            alone(2),
            alone(3),
            alone(4),
            read && reader.opened == 0,
            entries,
            entries && pad && left.applied > reader.applied,
        ];
        add(&mut self.by_hand, &met);
    }

    /// Counts by number or by place, with the first of them.
    fn numbered(&self) -> [(&str, usize, &[u64]); 6] {
        // A cut after no byte is none.
        [
            ("chunk, number", 0, &self.chunks[..11]),
            ("chunk, number", 12, &self.chunks[12..]),
            ("end call, number", 0, &self.ends[..11]),
            ("end call, number", 12, &self.ends[12..]),
            ("header cut after", 1, &self.headers[1..]),
            ("entry cut after", 1, &self.entries[1..]),
        ]
    }

    fn named(&self) -> impl Iterator<Item = (&str, u64)> {
        let situations = SITUATIONS.into_iter().zip(self.situations);
        let by_hand = BY_HAND.into_iter().zip(self.by_hand);
        let runs = [("line beside one whole run", self.runs)];
        situations.chain(by_hand).chain(runs)
    }

    pub fn print(&self) {
        println!("serial lines, compared after every call: {}", self.lines);
        for (name, first, counts) in self.numbered() {
            let cells: Vec<String> = (first..)
                .zip(counts)
                .map(|(n, count)| format!("{n}: {count}"))
                .collect();
            println!("serial {name} {}", cells.join(", "));
        }
        for (name, count) in self.named() {
            println!("serial {name}: {count}");
        }
    }

    /// What should have been reached and was not.
    pub fn missing(&self) -> Vec<String> {
        let mut missing = Vec::new();
        for (name, first, counts) in self.numbered() {
            for (n, _) in (first..).zip(counts).filter(|(_, &count)| count == 0) {
                missing.push(format!("serial {name} {n}"));
            }
        }
        for (name, _) in self.named().filter(|&(_, count)| count == 0) {
            missing.push(format!("serial {name}"));
        }
        missing
    }
}
