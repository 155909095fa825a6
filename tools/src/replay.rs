//! `replay`: a trace run whole from reset, and how it went.

use crate::arguments::{Arguments, Opt, HELD, OUTPUT, WIDTH};
use crate::arriving;
use crate::failure::{failed, Failure, Verdict};
use crate::files::{judge_output, Source};
use crate::picture::{self, Form};
use crate::refusal::{no_trace, refused};
use crate::streams::{print, say};
use crate::trace::{Trace, LONGEST};
use crate::values::{planes, Width};
use crate::verbs::Verb;
use std::ffi::{OsStr, OsString};
use zevkholtai::{number, Card};

pub const VERB: Verb = Verb {
    name: "replay",
    summary: "run a trace whole from reset, and tell how it went",
    usage: include_str!("../help/replay.txt"),
    options: &[OUTPUT, WIDTH, HELD],
    words: 1..=4,
    run,
};

/// How a run went.
#[derive(Default)]
pub struct Played {
    pub number: u32,
    pub entries: u32,
    pub pixels: u32,
    pub changed: u32,
    /// Empty where there is no trace and no good header.
    pub vram: Vec<u8>,
    /// What is said where it was refused.
    pub said: Option<String>,
}

impl Played {
    fn text(&self) -> String {
        format!(
            "number {}\nentries {}\npixels {}\nvram {}\nchanged {}\n",
            self.number,
            self.entries,
            self.pixels,
            self.vram.len(),
            self.changed
        )
    }
}

struct Asked {
    picture: Option<OsString>,
    width: Width,
    held: u8,
}

/// What stands in a position or is given as an option, with the name that the user used.
fn given<'a>(
    arguments: &'a Arguments,
    position: usize,
    name: &'static str,
    option: &Opt,
) -> Result<(&'static str, Option<&'a OsStr>), Failure> {
    match (arguments.word(position), arguments.value(option)) {
        (Some(_), Some(_)) => failed(format!("{name} and {} are the same", option.name)),
        (word @ Some(_), None) => Ok((name, word)),
        (None, value) => Ok((option.name, value)),
    }
}

impl Asked {
    fn of(arguments: &Arguments) -> Result<Asked, Failure> {
        let (_, picture) = given(arguments, 1, "PICTURE", &OUTPUT)?;
        let (name, width) = given(arguments, 2, "WIDTH", &WIDTH)?;
        let width = Width::of(name, width)?;
        let (name, held) = given(arguments, 3, "HELD", &HELD)?;
        let held = held.map_or(Ok(0), |text| planes(name, text))?;
        Ok(Asked {
            picture: picture.map(OsStr::to_os_string),
            width,
            held,
        })
    }

    fn judge_width(&self, length: usize) -> Result<(), Failure> {
        self.width.judge(length, self.picture.is_some())
    }

    fn save(&self, vram: &[u8]) -> Result<(), Failure> {
        match &self.picture {
            Some(path) if !vram.is_empty() => {
                let form = Form::of(path).unwrap_or(Form::Pgm);
                picture::save(path, form, self.width.columns, vram, None)
            }
            _ => Ok(()),
        }
    }
}

fn whole(source: Source, asked: &Asked) -> Result<Played, Failure> {
    let trace = match Trace::of(source.read(LONGEST)?.bytes) {
        Ok(trace) => trace,
        Err(fault) => {
            return Ok(Played {
                number: number::MALFORMED,
                said: Some(no_trace(&fault)),
                ..Played::default()
            })
        }
    };
    asked.judge_width(trace.length)?;
    let mut vram = trace.vram();
    let mut card = Card::reset(asked.held);
    let ran = trace.run(&mut card, &mut vram, 0, trace.count());
    let stopped = ran.entries as usize;
    let said = trace
        .write(stopped)
        .map(|write| refused(stopped, ran.number, &card, write));
    Ok(Played {
        number: ran.number,
        entries: ran.entries,
        pixels: ran.pixels,
        changed: ran.changed,
        vram,
        said,
    })
}

fn run(arguments: Arguments) -> Result<Verdict, Failure> {
    let asked = Asked::of(&arguments)?;
    let path = arguments.file(0);
    let source = Source::open(path)?;
    if let Some(picture) = &asked.picture {
        judge_output(picture, &[source.identity()])?;
    }
    let played = if path == "-" {
        arriving::play(source, asked.held, |length| asked.judge_width(length))?
    } else {
        whole(source, &asked)?
    };
    if let Some(said) = &played.said {
        say(said);
    }
    let saved = asked.save(&played.vram);
    print(&played.text())?;
    saved?;
    Ok(Verdict::good_if(played.number == number::ACCEPTED))
}
