//! Numbers as they are typed on a command line.

use crate::arguments::{Arguments, Opt};
use crate::failure::{failed, Failure};
use std::ffi::OsStr;
use zevkholtai::LARGEST_VRAM;

/// Digits and nothing else. A number that does not fit is the largest that does: too large wherever it is compared.
pub fn decimal_of(text: &str) -> Option<usize> {
    if text.is_empty() || !text.bytes().all(|byte| byte.is_ascii_digit()) {
        return None;
    }
    Some(text.parse().unwrap_or(usize::MAX))
}

pub fn decimal(name: &str, text: &OsStr) -> Result<usize, Failure> {
    match text.to_str().and_then(decimal_of) {
        Some(value) => Ok(value),
        None => failed(format!(
            "{name} is a decimal number, not '{}'",
            text.display()
        )),
    }
}

/// The planes that are 1 in two hexadecimal digits.
pub fn planes(name: &str, text: &OsStr) -> Result<u8, Failure> {
    let digits = text
        .to_str()
        .filter(|text| text.len() == 2 && text.bytes().all(|byte| byte.is_ascii_hexdigit()));
    match digits.and_then(|digits| u8::from_str_radix(digits, 16).ok()) {
        Some(value) => Ok(value),
        None => failed(format!(
            "{name} is two hexadecimal digits, not '{}'",
            text.display()
        )),
    }
}

/// The planes that an option gives, or `other`.
pub fn planes_or(arguments: &Arguments, option: &Opt, other: u8) -> Result<u8, Failure> {
    arguments
        .value(option)
        .map_or(Ok(other), |text| planes(option.name, text))
}

/// The columns of a picture.
pub struct Width {
    name: String,
    typed: String,
    pub columns: usize,
    given: bool,
}

impl Width {
    /// A width as it is typed, under the name that the user knows it by; 512 where none is.
    pub fn of(name: &str, text: Option<&OsStr>) -> Result<Width, Failure> {
        let columns = text.map_or(Ok(512), |text| decimal(name, text))?;
        let width = Width {
            name: name.to_string(),
            typed: text.map_or(columns.to_string(), |text| text.display().to_string()),
            columns,
            given: text.is_some(),
        };
        if columns == 0 {
            return failed(format!("{name} is not 0"));
        }
        if columns > LARGEST_VRAM {
            return width.too_large("the largest video memory", LARGEST_VRAM);
        }
        Ok(width)
    }

    fn too_large<T>(&self, whose: &str, pixels: usize) -> Result<T, Failure> {
        let (name, typed) = (&self.name, &self.typed);
        failed(format!(
            "{name} {typed} is too large: {whose} has {pixels} pixels"
        ))
    }

    /// Whether it can be used for a video memory of this length, of which a picture is asked for or not.
    pub fn judge(&self, length: usize, picture: bool) -> Result<(), Failure> {
        if (self.given || picture) && self.columns > length {
            return self.too_large("video memory", length);
        }
        if picture && !length.is_multiple_of(self.columns) {
            return failed(format!(
                "{} does not divide the {length} pixels of video memory",
                self.name
            ));
        }
        Ok(())
    }
}
