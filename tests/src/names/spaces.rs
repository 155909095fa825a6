//! A write in the frame space draws; one in the register space changes a register.

use super::{are_named, is, Outcome};
use zevkholtai::{space, Card, Write};

/// Each name, with whether a write of its space draws at the address that is also a register's.
const DRAWS: [(&str, bool); 2] = [("FRAME", true), ("REGISTER", false)];

pub fn check() -> Outcome {
    are_named(space::ALL, DRAWS.iter().map(|&(name, _)| name))?;
    for ((name, draws), (_, value)) in DRAWS.iter().zip(space::ALL) {
        let before = Card::reset(0);
        let (mut card, mut vram) = (before, [0; 64]);
        let write = Write {
            space: *value as u8,
            ..Write::frame(0x0020, 0x4433_2211)
        };
        let number = card.write(write, &mut vram).number;
        is(&format!("the number of a write in {name}"), number, 0)?;
        is(&format!("drawing in {name}"), vram != [0; 64], *draws)?;
        is(&format!("a new card in {name}"), card != before, !draws)?;
    }
    Ok(())
}
