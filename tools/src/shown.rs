//! What is asked of `show`: which pictures it leaves, and their colours.

use crate::arguments::{Arguments, ALARM, AT, EVERY, HELD, ON, OUTPUT, PLAIN, WIDTH};
use crate::failure::{failed, Failure};
use crate::picture::{self, Form};
use crate::png::Palette;
use crate::trace::Trace;
use crate::values::{decimal, planes_or, Width};
use std::ffi::{OsStr, OsString};
use std::path::Path;

/// The options of `show`, judged.
pub struct Asked<'a> {
    output: &'a OsStr,
    form: Form,
    at: Option<usize>,
    every: Option<usize>,
    pub width: Width,
    pub held: u8,
    pub on: Option<&'a OsStr>,
    palette: Option<Palette>,
}

impl Asked<'_> {
    pub fn of(arguments: &Arguments) -> Result<Asked<'_>, Failure> {
        let Some(output) = arguments.value(&OUTPUT) else {
            return failed("show needs -o PICTURE");
        };
        let number = |option| {
            let text = arguments.value(option);
            text.map(|text| decimal(option.name, text)).transpose()
        };
        let (at, every) = (number(&AT)?, number(&EVERY)?);
        if at.is_some() && every.is_some() {
            return failed("--at and --every do not go together");
        }
        if every == Some(0) {
            return failed("--every is not 0");
        }
        let held = planes_or(arguments, &HELD, 0)?;
        let alarm = planes_or(arguments, &ALARM, held)?;
        let red = !arguments.has(&PLAIN);
        Ok(Asked {
            output,
            form: Form::needed(output)?,
            at,
            every,
            width: Width::of(WIDTH.name, arguments.value(&WIDTH))?,
            held,
            on: arguments.value(&ON),
            palette: red.then(|| alarm_palette(alarm)),
        })
    }

    /// How many entries are run.
    pub fn end(&self, trace: &Trace) -> Result<usize, Failure> {
        let count = trace.count();
        match self.at {
            Some(at) if at >= count => failed(format!(
                "--at is past the last entry: the trace has {count}, counted from 0"
            )),
            Some(at) => Ok(at + 1),
            None if self.every.is_some() && count == 0 => failed("--every: the trace has no entry"),
            None => Ok(count),
        }
    }

    /// The files, each with the count of entries after which it is written, where a run of `end` entries stops after so many.
    pub fn pictures(&self, end: usize, stopped: usize) -> Vec<(usize, OsString)> {
        match self.every {
            None => vec![(end, self.output.to_os_string())],
            Some(every) => stops(every, end.min(stopped + 1))
                .into_iter()
                .map(|stop| (stop, numbered(self.output, stop - 1)))
                .collect(),
        }
    }

    pub fn save(&self, path: &OsStr, vram: &[u8]) -> Result<(), Failure> {
        let palette = self.palette.as_ref();
        picture::save(path, self.form, self.width.columns, vram, palette)
    }
}

/// The counts of entries after which a picture is left: `every`, twice that, and so on, and the last.
fn stops(every: usize, last: usize) -> Vec<usize> {
    let mut stops: Vec<usize> = (1..)
        .map_while(|turn| every.checked_mul(turn))
        .take_while(|stop| *stop < last)
        .collect();
    stops.push(last);
    stops
}

/// The name of the picture after an entry: its index stands before the suffix.
fn numbered(path: &OsStr, index: usize) -> OsString {
    let path = Path::new(path);
    let mut name = path.file_stem().unwrap_or_default().to_os_string();
    name.push(format!("-{index:05}."));
    name.push(path.extension().unwrap_or_default());
    path.with_file_name(name).into_os_string()
}

/// The colour of every byte: red where any alarm plane is set, over the grey of its other planes.
fn alarm_palette(alarm: u8) -> Palette {
    std::array::from_fn(|byte| {
        let grey = byte as u8 & !alarm;
        if byte as u8 & alarm == 0 {
            [grey; 3]
        } else {
            [255, grey / 4, grey / 4]
        }
    })
}
