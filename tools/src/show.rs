//! `show`: the picture after an entry, or pictures on the way.

use crate::arguments::{Arguments, ALARM, AT, EVERY, HELD, ON, OUTPUT, PLAIN, WIDTH};
use crate::failure::{failed, Failure, Verdict};
use crate::files::{judge_output, Identity, Input, Source};
use crate::pgm;
use crate::refusal::{no_trace, refused};
use crate::shown::Asked;
use crate::streams::say;
use crate::trace::{self, Trace};
use crate::verbs::Verb;
use std::ffi::{OsStr, OsString};
use zevkholtai::{number, Card, LARGEST_VRAM};

pub const VERB: Verb = Verb {
    name: "show",
    summary: "leave the picture after an entry of a trace, or every so many entries",
    usage: include_str!("../help/show.txt"),
    options: &[OUTPUT, AT, EVERY, WIDTH, HELD, ON, ALARM, PLAIN],
    words: 1..=1,
    run,
};

/// What is read: the trace's file, and the picture that video memory starts as.
struct Inputs {
    trace: Input,
    on: Option<Input>,
}

impl Inputs {
    fn read(path: &OsStr, on: Option<&OsStr>) -> Result<Inputs, Failure> {
        let trace = trace::read(path)?;
        // The header of a PGM may have comments.
        let most = LARGEST_VRAM + 65_536;
        let on = on.map(|path| Source::named(path)?.read(most)).transpose()?;
        Ok(Inputs { trace, on })
    }

    fn identities(&self) -> Vec<Identity> {
        let on = self.on.iter().map(|picture| picture.identity);
        on.chain([self.trace.identity]).collect()
    }

    /// Video memory before the first entry.
    fn vram(&self, length: usize) -> Result<Vec<u8>, Failure> {
        let Some(Input { name, bytes, .. }) = &self.on else {
            return Ok(vec![0; length]);
        };
        match pgm::decode(bytes) {
            Err(fault) => failed(format!("{name}: {fault}")),
            Ok(pixels) if pixels.len() != length => failed(format!(
                "{name}: it has {} pixels, and video memory {length}",
                pixels.len()
            )),
            Ok(pixels) => Ok(pixels.to_vec()),
        }
    }
}

/// Draws, and leaves a picture after each of these counts of entries.
fn draw(
    asked: &Asked,
    trace: &Trace,
    mut vram: Vec<u8>,
    pictures: &[(usize, OsString)],
) -> Result<(), Failure> {
    let mut card = Card::reset(asked.held);
    let mut from = 0;
    for (to, path) in pictures {
        trace.run(&mut card, &mut vram, from, *to);
        asked.save(path, &vram)?;
        from = *to;
    }
    Ok(())
}

fn show(asked: &Asked, inputs: &Inputs, trace: &Trace) -> Result<Verdict, Failure> {
    asked.width.judge(trace.length, true)?;
    let end = asked.end(trace)?;
    let vram = inputs.vram(trace.length)?;

    // A first run finds where it ends, so that every file is known before one is written.
    let mut card = Card::reset(asked.held);
    let ran = trace.run(&mut card, &mut vram.clone(), 0, end);
    let stopped = ran.entries as usize;
    let pictures = asked.pictures(end, stopped);
    let identities = inputs.identities();
    for (_, path) in &pictures {
        judge_output(path, &identities)?;
    }
    draw(asked, trace, vram, &pictures)?;
    match trace.write(stopped) {
        Some(write) if ran.number != number::ACCEPTED => {
            say(&refused(stopped, ran.number, &card, write));
            Ok(Verdict::Bad)
        }
        _ => Ok(Verdict::Good),
    }
}

fn run(arguments: Arguments) -> Result<Verdict, Failure> {
    let asked = Asked::of(&arguments)?;
    let mut inputs = Inputs::read(arguments.file(0), asked.on)?;
    match Trace::of(std::mem::take(&mut inputs.trace.bytes)) {
        Ok(trace) => show(&asked, &inputs, &trace),
        Err(fault) => {
            say(&no_trace(&fault));
            Ok(Verdict::Bad)
        }
    }
}
