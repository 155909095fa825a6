//! Pictures, as files.

use crate::failure::{failed, Failure};
use crate::files;
use crate::pgm;
use crate::png::{self, Palette};
use std::ffi::OsStr;
use std::path::Path;

#[derive(Clone, Copy)]
pub enum Form {
    Pgm,
    Png,
}

impl Form {
    /// What the file's suffix asks for.
    pub fn of(path: &OsStr) -> Option<Form> {
        let suffix = Path::new(path).extension()?.to_ascii_lowercase();
        match suffix.to_str() {
            Some("pgm") => Some(Form::Pgm),
            Some("png") => Some(Form::Png),
            _ => None,
        }
    }

    pub fn needed(path: &OsStr) -> Result<Form, Failure> {
        match Form::of(path) {
            Some(form) => Ok(form),
            None => failed(format!(
                "{}: a picture's name ends in .png or .pgm",
                path.display()
            )),
        }
    }
}

/// Saves the pixels. A palette gives a PNG its colours; a PGM has none. `columns` divides the number of pixels.
pub fn save(
    path: &OsStr,
    form: Form,
    columns: usize,
    pixels: &[u8],
    palette: Option<&Palette>,
) -> Result<(), Failure> {
    let bytes = match form {
        Form::Pgm => pgm::encode(columns, pixels),
        Form::Png => png::encode(columns, pixels, palette),
    };
    files::write(path, &bytes)
}
