//! "Samples": S1 to S12 and the two sizes to be run as tests, with the values that the scope paper gives, and Ask 1 for S6. What
//! Ask 4 makes of them is counted by hand, in the bytes that the paper gives before and after. Ask 5's lines have samples of
//! their own.

mod lines;

use crate::model::serial::Reader;
use crate::model::trace::{self, ENTRY, HEADER};
use crate::model::{self, pixel, Answer, Card, Write};

/// A write with the number it must answer; its count, where the paper says it; and the pixels it changes.
struct Step(u8, u8, u32, u32, u32, Option<u32>, u32);

struct Sample {
    name: &'static str,
    held: u8,
    /// The picture before: its length and the byte at each place.
    length: usize,
    before: fn(usize) -> u8,
    steps: &'static [Step],
    /// Where the picture differs from the one before, and the bytes there.
    after: &'static [(usize, &'static [u8])],
}

fn zeros(_: usize) -> u8 {
    0
}

fn ones(_: usize) -> u8 {
    0xFF
}

fn index_to_31(p: usize) -> u8 {
    if p < 32 {
        p as u8
    } else {
        0
    }
}

/// "all from reset, H = 0, VRAM of 64 zeros unless said"; nothing changes unless said.
const PLAIN: Sample = Sample {
    name: "",
    held: 0,
    length: 64,
    before: zeros,
    steps: &[],
    after: &[],
};

const SAMPLES: &[Sample] = &[
    Sample {
        name: "S1",
        steps: &[Step(0, 15, 0, 0x44332211, 0, Some(4), 4)],
        after: &[(0, &[0x11, 0x22, 0x33, 0x44])],
        ..PLAIN
    },
    Sample {
        name: "S2",
        steps: &[Step(0, 5, 0, 0x44332211, 0, Some(2), 2)],
        after: &[(0, &[0x11, 0x00, 0x33, 0x00])],
        ..PLAIN
    },
    Sample {
        name: "S3",
        held: 0x80,
        before: ones,
        steps: &[Step(0, 15, 0, 0, 0, None, 4)],
        after: &[(0, &[0x80, 0x80, 0x80, 0x80])],
        ..PLAIN
    },
    Sample {
        name: "S4",
        steps: &[
            Step(1, 15, 0x0030, 0x05, 0, Some(0), 0),
            Step(1, 15, 0x0020, 0xAAAAAAAA, 0, Some(0), 0),
            Step(0, 15, 32, 0x80000001, 0, Some(2), 2),
        ],
        after: &[(32, &[0xAA]), (63, &[0xAA])],
        ..PLAIN
    },
    Sample {
        name: "S5",
        steps: &[
            Step(1, 15, 0x0030, 0x05, 0, Some(0), 0),
            Step(1, 15, 0x0020, 0xAAAAAAAA, 0, Some(0), 0),
            Step(0, 15, 36, 0x80000001, 8, Some(0), 0),
        ],
        ..PLAIN
    },
    Sample {
        name: "S6",
        steps: &[
            Step(1, 15, 0x0030, 0x21, 0, Some(0), 0),
            Step(1, 15, 0x0020, 0x01010101, 0, Some(0), 0),
            Step(1, 15, 0x0024, 0x02020202, 0, Some(0), 0),
            Step(1, 15, 0x0080, 0xF, 0, Some(0), 0),
            Step(0, 15, 0, 0x00020005, 0, Some(6), 6),
        ],
        // The reading that Ask 1 gives it.
        after: &[(2, &[1, 1]), (4, &[2, 2, 2, 2])],
        ..PLAIN
    },
    Sample {
        name: "S7",
        steps: &[
            Step(1, 15, 0x0030, 0x2D, 0, Some(0), 0),
            Step(1, 15, 0x0140, 0x03020100, 0, Some(0), 0),
            Step(1, 15, 0x0144, 0x07060504, 0, Some(0), 0),
            Step(1, 15, 0x0080, 0xFFFFFFFF, 0, Some(0), 0),
            Step(0, 15, 4, 3, 0, None, 4),
        ],
        after: &[(4, &[4, 5, 6, 7])],
        ..PLAIN
    },
    Sample {
        name: "S8",
        steps: &[
            Step(1, 15, 0x0028, 0x0F, 0, Some(0), 0),
            // Pixels 1 to 3 stay 0.
            Step(0, 15, 0, 0xFFFFFFFF, 0, Some(4), 1),
        ],
        after: &[(0, &[0x0F, 0, 0, 0])],
        ..PLAIN
    },
    Sample {
        name: "S10",
        before: index_to_31,
        steps: &[
            Step(1, 15, 0x0030, 0x07, 0, Some(0), 0),
            Step(0, 15, 0, 0xFFFFFFFF, 0, Some(0), 0),
            // Pixel 32 takes the 0 of pixel 0, and was 0.
            Step(0, 15, 32, 0xFFFF, 0, Some(16), 15),
        ],
        after: &[(32, &[0, 1, 2, 3, 4, 5, 6, 7, 8, 9, 10, 11, 12, 13, 14, 15])],
        ..PLAIN
    },
    Sample {
        name: "S11",
        steps: &[Step(1, 15, 0x0164, 0, 9, Some(0), 0)],
        ..PLAIN
    },
    Sample {
        name: "VRAM of 2,097,152",
        length: 2_097_152,
        steps: &[Step(0, 15, 2_097_148, 0x44332211, 0, Some(4), 4)],
        after: &[(2_097_148, &[0x11, 0x22, 0x33, 0x44])],
        ..PLAIN
    },
    Sample {
        name: "VRAM of 2,097,216",
        length: 2_097_216,
        steps: &[Step(0, 15, 0, 0x44332211, 1, Some(0), 0)],
        ..PLAIN
    },
    Sample {
        name: "a 2,048-pixel fill at 0 of VRAM 2,048, and at 4",
        length: 2048,
        steps: &[
            Step(1, 15, 0x0030, 0x21, 0, Some(0), 0),
            // Reset leaves 0 in the background, and the picture is 0.
            Step(0, 15, 0, 2047, 0, Some(2048), 0),
            Step(0, 15, 4, 2047, 8, Some(0), 0),
        ],
        ..PLAIN
    },
];

/// S9: a, b and the composite of a then b.
const COMPOSITES: [(u32, u32, u32); 4] = [(6, 6, 5), (3, 6, 0), (1, 7, 3), (6, 1, 2)];

/// S12, whole.
const TRACE: [u8; 28] = [
    0x01, 0x00, 0x00, 0x00, 0x10, 0x00, 0x00, 0x00, 0x40, 0x00, 0x00, 0x00, 0x1C, 0x00, 0x00, 0x00,
    0x00, 0x0F, 0x00, 0x00, 0x00, 0x00, 0x00, 0x00, 0x11, 0x22, 0x33, 0x44,
];

/// Simple writes of all lanes, as address and data, and the totals of a run of them: number, entries, pixels enabled and pixels
/// changed.
struct Run(&'static [(u32, u32)], [u32; 4]);

/// Ask 4 on traces, with S1's pixels; from reset, VRAM of 64 zeros.
const RUNS: [Run; 5] = [
    // S12's trace.
    Run(&[(0, 0x44332211)], [0, 1, 4, 4]),
    // What is drawn again doesn't change.
    Run(&[(0, 0x44332211), (0, 0x44332211)], [0, 2, 8, 4]),
    // "a pixel changed twice in a run counts twice": all four, though the last picture is the first.
    Run(&[(0, 0x44332211), (0, 0)], [0, 2, 8, 8]),
    // And pixel 1 alone.
    Run(&[(0, 0x44332211), (0, 0x44330011)], [0, 2, 8, 5]),
    // "Earlier entries stay drawn, and the total counts them."
    Run(&[(0, 0x44332211), (64, 0x44332211)], [8, 1, 4, 4]),
];

/// What makes a write: the model's, or another's.
type Entry = fn(&mut Card, &mut [u8], Write) -> Answer;

/// Runs the samples that are writes, and counts them.
pub fn check_writes(write: Entry) -> Result<usize, String> {
    for sample in SAMPLES.iter().chain(lines::SAMPLES) {
        check_one(write, sample).map_err(|why| format!("{}: {why}", sample.name))?;
    }
    Ok(SAMPLES.len() + lines::SAMPLES.len())
}

/// Runs every sample on the model and counts them.
pub fn check_all() -> Result<usize, String> {
    let writes = check_writes(model::write)?;
    check_composites()?;
    check_trace()?;
    for run in &RUNS {
        check_run(run).map_err(|why| format!("run of {:X?}: {why}", run.0))?;
    }
    Ok(writes + 2 + RUNS.len())
}

fn check_one(write: Entry, sample: &Sample) -> Result<(), String> {
    let mut card = model::reset(sample.held);
    let mut vram: Vec<u8> = (0..sample.length).map(sample.before).collect();
    let mut expected = vram.clone();
    for step in sample.steps {
        check_step(write, &mut card, &mut vram, step)?;
    }
    for (at, bytes) in sample.after {
        expected[*at..*at + bytes.len()].copy_from_slice(bytes);
    }
    match (0..vram.len()).find(|&p| vram[p] != expected[p]) {
        None => Ok(()),
        Some(p) => Err(format!(
            "pixel {p} is {:02X}, expected {:02X}",
            vram[p], expected[p]
        )),
    }
}

fn check_step(write: Entry, card: &mut Card, vram: &mut [u8], step: &Step) -> Result<(), String> {
    let &Step(space, lanes, address, data, number, count, changed) = step;
    let answer = write(
        card,
        vram,
        Write {
            space,
            lanes,
            address,
            data,
        },
    );
    let expected = Answer {
        number,
        pixels: count.unwrap_or(answer.pixels),
        changed,
    };
    if answer == expected {
        Ok(())
    } else {
        Err(format!(
            "write at {address:X} of {data:X} answers {answer:?}, expected {expected:?}"
        ))
    }
}

fn check_composites() -> Result<(), String> {
    match COMPOSITES
        .iter()
        .find(|&&(a, b, both)| pixel::composite(a, b) != both)
    {
        None => Ok(()),
        Some(&(a, b, both)) => Err(format!(
            "S9: {a},{b} is {}, expected {both}",
            pixel::composite(a, b)
        )),
    }
}

fn check_trace() -> Result<(), String> {
    let mut buffer = [0xEE; 28];
    let started = trace::start(&mut buffer, 64);
    let appended = trace::append(&mut buffer, 16, simple(0, 0x44332211));
    if (started, appended) != ((0, 16), (0, 28)) || buffer != TRACE {
        return Err(format!("S12: {started:?}, {appended:?}, {buffer:02X?}"));
    }
    Ok(())
}

fn simple(address: u32, data: u32) -> Write {
    Write {
        space: 0,
        lanes: 15,
        address,
        data,
    }
}

/// A trace of the writes gives its totals when it is run whole, and when it arrives over a serial line.
fn check_run(run: &Run) -> Result<(), String> {
    let &Run(writes, totals) = run;
    let mut bytes = vec![0; HEADER + ENTRY * writes.len()];
    trace::start(&mut bytes, 64);
    for (i, &(address, data)) in writes.iter().enumerate() {
        trace::append(&mut bytes, HEADER + ENTRY * i, simple(address, data));
    }
    let ran = trace::run(
        &bytes[HEADER..],
        &mut model::reset(0),
        &mut [0; 64],
        u32::MAX,
    );
    let whole = [ran.number, ran.entries, ran.pixels, ran.changed];
    let mut reader = Reader::new();
    reader.chunk(&bytes, &mut model::reset(0), &mut [0; 64]);
    let heard = [
        reader.end(),
        reader.entries(),
        reader.pixels(),
        reader.changed(),
    ];
    if (whole, heard) == (totals, totals) {
        Ok(())
    } else {
        Err(format!(
            "run whole {whole:?}, heard {heard:?}, expected {totals:?}"
        ))
    }
}
