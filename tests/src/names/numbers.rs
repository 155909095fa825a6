//! One call for each number, that must answer it.

use super::{are_named, is, Outcome};
use zevkholtai::{mode, number, register, Card, Write};

type Call = fn() -> u32;

const CALLS: [(&str, Call); 14] = [
    ("ACCEPTED", || last(&[Write::frame(60, 0)])),
    ("BAD_LENGTH", || {
        let mut card = Card::reset(0);
        card.write(Write::frame(0, 0), &mut [0; 63]).number
    }),
    ("BAD_SPACE", || {
        let space = 2;
        last(&[Write {
            space,
            ..Write::frame(0, 0)
        }])
    }),
    ("BAD_LANES", || {
        let lanes = 14;
        last(&[Write {
            lanes,
            ..Write::register(register::FOREGROUND, 0)
        }])
    }),
    ("NO_REGISTER", || last(&[Write::register(0, 0)])),
    ("BAD_MODE", || last(&[Write::register(register::MODE, 3)])),
    ("BAD_OPERATION", || {
        last(&[Write::register(register::RASTER_OPERATION, 0x100)])
    }),
    ("OFF_BOUNDARY", || last(&[Write::frame(1, 0)])),
    ("OUTSIDE", || last(&[Write::frame(64, 0)])),
    ("NOT_LOADED", || {
        last(&[Write::register(register::COPY_DESTINATION, 0)])
    }),
    ("MALFORMED", || zevkholtai::check(&[]).number),
    ("NO_ROOM", || zevkholtai::start(&mut [0; 15], 64).number),
    // An error of 32,768 at the start.
    ("BAD_LINE_ERROR", || {
        last(&[
            Write::register(register::BRESENHAM_3, 32_768 << 15),
            Write::register(register::MODE, mode::OPAQUE_LINE),
            Write::frame(0, 0xFFFF),
        ])
    }),
    ("NO_LINE", || {
        last(&[
            Write::register(register::MODE, mode::OPAQUE_LINE),
            Write::register(register::CONTINUE, 0xFFFF),
        ])
    }),
];

/// What the last of these writes answers, from reset.
fn last(writes: &[Write]) -> u32 {
    let (mut card, mut vram) = (Card::reset(0), [0; 64]);
    let answers = writes.iter().map(|&write| card.write(write, &mut vram));
    answers.last().map_or(u32::MAX, |answer| answer.number)
}

pub fn check() -> Outcome {
    are_named(number::ALL, CALLS.iter().map(|&(name, _)| name))?;
    for ((name, call), &(_, value)) in CALLS.iter().zip(number::ALL) {
        is(name, call(), value)?;
    }
    Ok(())
}
