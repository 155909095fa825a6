//! One line of a listing, read again.

use crate::entry::ALL_LANES;
use crate::names::register_named;
use crate::values::decimal_of;
use std::str::SplitWhitespace;
use zevkholtai::{space, Write};

pub enum Line {
    /// Blank, or a comment.
    Nothing,
    /// The length of video memory.
    Vram(u32),
    Write(Write),
}

/// The line's meaning; else what is wrong with it.
pub fn parse(line: &str) -> Result<Line, String> {
    let said = line.split('|').next().unwrap_or_default().trim();
    if line.trim().is_empty() || line.trim_start().starts_with('#') {
        return Ok(Line::Nothing);
    }
    let mut words = without_index(said).split_whitespace();
    let first = words.next().unwrap_or_default();
    let line = if first == "vram" {
        Line::Vram(length(words.next())?)
    } else {
        Line::Write(write(first, &mut words)?)
    };
    match words.next() {
        None => Ok(line),
        Some(word) => Err(format!("'{word}' is one word too many")),
    }
}

/// What stands after `INDEX:`, or all of it.
fn without_index(said: &str) -> &str {
    match said.split_once(':') {
        Some((index, rest)) if decimal_of(index.trim()).is_some() => rest,
        _ => said,
    }
}

/// A length that does not fit is the largest that does, which the library refuses.
fn length(word: Option<&str>) -> Result<u32, String> {
    word.and_then(decimal_of)
        .map(|length| u32::try_from(length).unwrap_or(u32::MAX))
        .ok_or_else(|| "after 'vram' comes a decimal number".to_string())
}

fn byte(what: &str, word: Option<&str>) -> Result<u8, String> {
    word.and_then(decimal_of)
        .and_then(|value| u8::try_from(value).ok())
        .ok_or_else(|| format!("after '{what}' comes a decimal number up to 255"))
}

/// Hexadecimal, with or without `h` or `0x`.
pub fn hexadecimal(word: &str) -> Option<u32> {
    let lower = word.to_ascii_lowercase();
    let digits = lower
        .strip_prefix("0x")
        .or_else(|| lower.strip_suffix('h'))
        .unwrap_or(&lower);
    if !digits.bytes().all(|byte| byte.is_ascii_hexdigit()) {
        return None;
    }
    u32::from_str_radix(digits, 16).ok()
}

fn number(what: &str, word: Option<&str>) -> Result<u32, String> {
    let Some(word) = word else {
        return Err(format!("the {what} is missing"));
    };
    hexadecimal(word)
        .ok_or_else(|| format!("the {what} '{word}' is no hexadecimal number of 32 bits"))
}

fn offset(word: Option<&str>) -> Result<u32, String> {
    match word.and_then(register_named) {
        Some(offset) => Ok(offset),
        None => match number("register", word) {
            Err(_) if word.is_some() => Err(format!(
                "there is no register '{}', and it is no hexadecimal number of 32 bits",
                word.unwrap_or_default()
            )),
            read => read,
        },
    }
}

fn write(first: &str, words: &mut SplitWhitespace) -> Result<Write, String> {
    let space = match first {
        "frame" => space::FRAME as u8,
        "register" => space::REGISTER as u8,
        "space" => byte("space", words.next())?,
        _ => return Err(format!("'{first}' is not vram, frame, register or space")),
    };
    let mut word = words.next();
    let mut lanes = ALL_LANES;
    if word == Some("lanes") {
        lanes = byte("lanes", words.next())?;
        word = words.next();
    }
    let address = if first == "register" {
        offset(word)?
    } else {
        number("address", word)?
    };
    let data = number("data", words.next())?;
    Ok(Write {
        space,
        lanes,
        address,
        data,
    })
}
