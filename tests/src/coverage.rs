//! Counts what writes reached: by mode or register and number, and in some situations, those of lines among them.

mod lines;

use crate::listed::mode::{self, LINES, MODES};
use crate::listed::OFFSETS;
use crate::model::{self, Answer, Card, Write, FRAME, REGISTER};

const OTHER_MODE: usize = MODES.len() + LINES.len();
const FIRST_REGISTER: usize = OTHER_MODE + 1;
const OTHER_REGISTER: usize = FIRST_REGISTER + OFFSETS.len();
const OTHER_SPACE: usize = OTHER_REGISTER + 1;
const ROWS: usize = OTHER_SPACE + 1;

/// The numbers that a write answers are 0 to 13, but 10 and 11 are for traces.
const NUMBERS: usize = 14;
const FOR_TRACES: [usize; 2] = [10, 11];

/// Ask 3: opaque stipples with raster operation 3 and a full plane mask go a shorter way inside. So many are due on each way.
const EACH_WAY: u64 = 100_000;

/// Situations that the paper's easy slips and its change requests are about, with how often each must be met.
const SITUATIONS: [(&str, u64); 24] = [
    ("one-shot mask, accepted frame write", 1),
    ("one-shot mask, refused frame write", 1),
    ("copy, source read", 1),
    ("copy, destination drawn", 1),
    ("64-byte destination drawn in a block mode", 1),
    ("pixels drawn with held planes", 1),
    ("pixels drawn with held bits above 7", 1),
    ("one-shot mark over 1, accepted frame write", 1),
    ("copy mark over 1, destination drawn", 1),
    ("64-byte mark over 1, destination drawn", 1),
    ("any mark over 1, refused", 1),
    ("opaque fill accepted, the slid mask another word", 1),
    ("transparent fill accepted, the slid mask another word", 1),
    ("block fill accepted, the slid mask another word", 1),
    ("opaque stipple accepted, the short way", EACH_WAY),
    ("opaque stipple accepted, the long way", EACH_WAY),
    ("the short way, pixels drawn with held planes", 1),
    ("the short way, some pixels drawn and some masked", 1),
    ("the long way, operation 3 and one plane bit clear", 1),
    ("the long way, full plane mask, another operation", 1),
    ("pixels enabled, none changed", 1),
    ("pixels enabled, some changed and some not", 1),
    ("pixels enabled, all changed", 1),
    ("the short way, some enabled pixels changed and some not", 1),
];

/// Ask 4: "a pixel changed twice in a run counts twice".
const CHANGED_TWICE: &str = "run of writes, more pixels changed than differ at its end";

pub struct Coverage {
    writes: [[u64; NUMBERS]; ROWS],
    situations: [u64; SITUATIONS.len()],
    lines: lines::Met,
    /// Pixels changed so far in a run of writes.
    changed: u64,
    changed_twice: u64,
}

/// Every listed mode, with its name.
fn modes() -> impl Iterator<Item = &'static (u32, &'static str)> {
    MODES.iter().chain(&LINES)
}

fn row(card: &Card, write: Write) -> usize {
    let mode = modes().position(|&(code, _)| code == card.mode);
    let register = OFFSETS.iter().position(|&offset| offset == write.address);
    match write.space {
        FRAME => mode.unwrap_or(OTHER_MODE),
        REGISTER => register.map_or(OTHER_REGISTER, |i| FIRST_REGISTER + i),
        _ => OTHER_SPACE,
    }
}

fn row_name(row: usize) -> String {
    match row {
        OTHER_MODE => String::from("frame, mode not listed"),
        OTHER_REGISTER => String::from("register not listed"),
        OTHER_SPACE => String::from("space not 0 or 1"),
        _ => match modes().nth(row) {
            Some((code, name)) => format!("{code:02X}h {name}"),
            None => format!("register {:04X}h", OFFSETS[row - FIRST_REGISTER]),
        },
    }
}

impl Coverage {
    pub fn new() -> Coverage {
        Coverage {
            writes: [[0; NUMBERS]; ROWS],
            situations: [0; SITUATIONS.len()],
            lines: lines::Met::new(),
            changed: 0,
            changed_twice: 0,
        }
    }

    /// Counts one write, made on the card as it stood before, and on a VRAM of this length.
    pub fn write(&mut self, card: &Card, length: usize, write: Write, answer: Answer) {
        self.lines.write(card, length, write, answer);
        let Answer {
            number,
            pixels,
            changed,
        } = answer;
        self.writes[row(card, write)][number as usize] += 1;
        let frame = write.space == FRAME;
        let copy = frame && card.mode == mode::COPY && number == 0;
        let slid = card.data.rotate_right(write.data >> 16 & 3) != card.data;
        let filled = |code| frame && card.mode == code && number == 0 && slid;
        let stippled = frame && card.mode == mode::OPAQUE_STIPPLE && number == 0;
        let copies = card.raster == 3;
        let short = stippled && copies && card.plane == u32::MAX;
        let long = stippled && !short;
        let destination = write.space == REGISTER && write.address == 0x0164 && number == 0;
        let some_changed = (1..pixels).contains(&changed);
        let met = [
            frame && card.marked != 0 && number == 0,
            frame && card.marked != 0 && number != 0,
            copy && card.writing == 0,
            copy && card.writing != 0,
            destination && mode::is_block(card.mode),
            pixels > 0 && card.held & 0xFF != 0,
            pixels > 0 && card.held > 0xFF,
            frame && card.marked > 1 && number == 0,
            copy && card.writing > 1,
            destination && card.loaded > 1,
            number != 0 && card.marked.max(card.writing).max(card.loaded) > 1,
            filled(mode::OPAQUE_FILL),
            filled(mode::TRANSPARENT_FILL),
            filled(mode::BLOCK_FILL),
            short,
            long,
            short && pixels > 0 && card.held & 0xFF != 0,
            short && (1..32).contains(&pixels),
            long && copies && card.plane.count_zeros() == 1,
            long && card.plane == u32::MAX,
            pixels > 0 && changed == 0,
            some_changed,
            pixels > 0 && changed == pixels,
            short && some_changed,
        ];
        for (counter, met) in self.situations.iter_mut().zip(met) {
            *counter += u64::from(met);
        }
        self.changed += u64::from(changed);
    }

    /// Ends a run of writes, with the picture on which it began and the one that it left.
    pub fn end_run(&mut self, first: &[u8], last: &[u8]) {
        let differing = u64::from(model::differing(first, last));
        self.changed_twice += u64::from(self.changed > differing);
        self.changed = 0;
        self.lines.end_run();
    }

    /// Each situation, with how often it must be met and was.
    fn all_situations(&self) -> impl Iterator<Item = (String, u64, u64)> + '_ {
        let of_writes = SITUATIONS.iter().zip(self.situations);
        of_writes
            .map(|(&(name, least), count)| (String::from(name), least, count))
            .chain([(String::from(CHANGED_TWICE), 1, self.changed_twice)])
            .chain(self.lines.all())
    }

    pub fn all_writes(&self) -> u64 {
        self.writes.iter().flatten().sum()
    }

    #[cfg(feature = "engine")]
    pub fn print(&self) {
        let heading: String = (0..NUMBERS).map(|number| format!("{number:>8}")).collect();
        println!("{:<26}{heading}", "write, by number");
        for (row, counts) in self.writes.iter().enumerate() {
            let cells: String = counts.iter().map(|count| format!("{count:>8}")).collect();
            println!("{:<26}{cells}", row_name(row));
        }
        println!("{:<26}{:>8}", "all writes", self.all_writes());
        for (name, _, count) in self.all_situations() {
            println!("{name}: {count}");
        }
    }

    /// What should have been reached and was not.
    pub fn missing(&self) -> Vec<String> {
        let mut missing = Vec::new();
        for number in (0..NUMBERS).filter(|number| !FOR_TRACES.contains(number)) {
            if self.writes.iter().all(|counts| counts[number] == 0) {
                missing.push(format!("number {number}"));
            }
        }
        for (row, counts) in self.writes.iter().enumerate() {
            let must_accept = row != OTHER_MODE && row < OTHER_REGISTER;
            if must_accept && counts[0] == 0 {
                missing.push(format!("{}, accepted", row_name(row)));
            }
            if counts[1..].iter().all(|&count| count == 0) {
                missing.push(format!("{}, refused", row_name(row)));
            }
        }
        for (name, least, count) in self.all_situations() {
            if count < least {
                missing.push(format!("{name}, {count} of {least}"));
            }
        }
        missing
    }
}
