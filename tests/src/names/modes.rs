//! The register takes the modes that have a name, and no other; each has the name that the paper's list gives its code.

use super::{is, Outcome};
use crate::listed::mode::{LINES, MODES};
use zevkholtai::{mode, number, register, Card, Write};

pub fn check() -> Outcome {
    let mut listed: Vec<(u32, String)> = MODES.iter().chain(&LINES).map(spelt).collect();
    listed.sort();
    let named = mode::ALL.iter();
    let named: Vec<(u32, String)> = named.map(|&(name, code)| (code, name.into())).collect();
    is("the list of modes", named, listed)?;
    for code in 0..=0xFFFF {
        let mut card = Card::reset(0);
        let answer = card.write(Write::register(register::MODE, code), &mut [0; 64]);
        let named = mode::ALL.iter().any(|&(_, named)| named == code);
        let wanted = if named {
            number::ACCEPTED
        } else {
            number::BAD_MODE
        };
        is(
            &format!("the number of mode {code:X}h"),
            answer.number,
            wanted,
        )?;
    }
    Ok(())
}

/// A name of the list, as the header spells it.
fn spelt(&(code, name): &(u32, &str)) -> (u32, String) {
    let name = name.replace("transp.", "transparent").replace(',', "");
    (code, name.replace(' ', "_").to_uppercase())
}
