//! `explain`: numbers, registers, modes and operations.

use crate::arguments::Arguments;
use crate::explained::{self, ADVICE, FORMULAS};
use crate::failure::{failed, Failure, Verdict};
use crate::names::hyphened;
use crate::streams::print;
use crate::text::hexadecimal;
use crate::values::decimal_of;
use crate::verbs::Verb;
use crate::words::SENTENCES;
use std::ffi::OsString;
use zevkholtai::{mode, number, operation, register, Card};

pub const VERB: Verb = Verb {
    name: "explain",
    summary: "tell what a number, a register, a mode or an operation means",
    usage: include_str!("../help/explain.txt"),
    options: &[],
    words: 0..=usize::MAX,
    run,
};

fn number_line(number: usize, sentence: &str) -> String {
    format!("number {number:<2}  {sentence}\n")
}

fn register_line(name: &str, offset: u32) -> String {
    let readable = Card::reset(0).read(offset).number == number::ACCEPTED;
    let holds = explained::register(offset);
    let way = if readable {
        "read, write"
    } else {
        "write only"
    };
    let name = hyphened(name);
    format!("register {offset:04X}h  {name:<16}  {way:<11}  {holds}\n")
}

fn mode_line(name: &str, code: u32) -> String {
    let (name, draws) = (hyphened(name), explained::mode(code));
    format!("mode {code:04X}h  {name:<20}  {draws}\n")
}

fn operation_line(name: &str, number: u32) -> String {
    let formula = FORMULAS.get(number as usize).unwrap_or(&"");
    format!("operation {number:<2}  {:<13}  {formula}\n", hyphened(name))
}

type Table = (&'static [(&'static str, u32)], fn(&str, u32) -> String);

const REGISTERS: Table = (register::ALL, register_line);
const MODES: Table = (mode::ALL, mode_line);
const OPERATIONS: Table = (operation::ALL, operation_line);

/// The lines of the rows that are asked for.
fn rows(table: Table, asked: impl Fn(&str, u32) -> bool) -> String {
    let (rows, line) = table;
    rows.iter()
        .filter(|(name, value)| asked(name, *value))
        .map(|(name, value)| line(name, *value))
        .collect()
}

fn everything() -> String {
    let numbers: String = SENTENCES
        .iter()
        .enumerate()
        .map(|(number, sentence)| number_line(number, sentence))
        .collect();
    let tables = [REGISTERS, MODES, OPERATIONS].map(|table| rows(table, |_, _| true));
    format!("{numbers}\n{}", tables.join("\n"))
}

/// A number answered is in decimal, and has no zero in front.
fn answered(word: &str) -> Option<String> {
    let number = decimal_of(word).filter(|number| number.to_string() == word)?;
    let (sentence, advice) = (SENTENCES.get(number)?, ADVICE.get(number)?);
    Some(format!("{}{advice}\n", number_line(number, sentence)))
}

/// What bears this name.
fn named(word: &str) -> String {
    let wanted = word.to_ascii_lowercase().replace([' ', '_'], "-");
    [REGISTERS, MODES, OPERATIONS]
        .map(|table| rows(table, |name, _| hyphened(name) == wanted))
        .concat()
}

/// The register with this offset and the mode with this code.
fn coded(word: &str) -> String {
    let Some(wanted) = hexadecimal(word) else {
        return String::new();
    };
    [REGISTERS, MODES]
        .map(|table| rows(table, |_, value| value == wanted))
        .concat()
}

fn lines(word: &str) -> String {
    if let Some(text) = answered(word) {
        return text;
    }
    let text = named(word);
    if text.is_empty() {
        coded(word)
    } else {
        text
    }
}

fn explained(words: &[OsString]) -> Result<String, Failure> {
    let words: Vec<String> = words
        .iter()
        .map(|word| word.to_string_lossy().into_owned())
        .collect();
    // `explain plane mask` is one name in two words.
    let together = named(&words.join(" "));
    if !together.is_empty() {
        return Ok(together);
    }
    let mut text = String::new();
    for word in &words {
        let lines = lines(word);
        if lines.is_empty() {
            return failed(format!(
                "nothing is called '{word}'; 'zevkholtai explain' lists all"
            ));
        }
        text += &lines;
    }
    Ok(text)
}

fn run(arguments: Arguments) -> Result<Verdict, Failure> {
    let text = if arguments.words.is_empty() {
        everything()
    } else {
        explained(&arguments.words)?
    };
    print(&text)?;
    Ok(Verdict::Good)
}
