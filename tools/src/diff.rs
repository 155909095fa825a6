//! `diff`: where two traces differ, or one trace under two held bytes.

use crate::arguments::{Arguments, HELD_TWICE, OUTPUT, WIDTH};
use crate::difference::{answers, entries, pictures, Side};
use crate::failure::{failed, Failure, Verdict};
use crate::files::{judge_output, Identity};
use crate::picture::{self, Form};
use crate::png::Palette;
use crate::refusal::no_trace;
use crate::streams::{print, say};
use crate::trace::{self, Trace};
use crate::values::{planes, Width};
use crate::verbs::Verb;
use std::ffi::OsStr;

pub const VERB: Verb = Verb {
    name: "diff",
    summary: "tell where two traces, or one under two held bytes, differ",
    usage: include_str!("../help/diff.txt"),
    options: &[HELD_TWICE, WIDTH, OUTPUT],
    words: 1..=2,
    run,
};

/// A value that no pixel of the darkened picture has.
const RED: u8 = 255;

fn held(arguments: &Arguments) -> Result<(u8, u8), Failure> {
    let given: Vec<u8> = arguments
        .all(&HELD_TWICE)
        .map(|text| planes(HELD_TWICE.name, text))
        .collect::<Result<_, _>>()?;
    match (given.as_slice(), arguments.words.len()) {
        ([a, b], _) => Ok((*a, *b)),
        (_, 1) => failed("diff needs a second trace, or --held twice"),
        ([both], _) => Ok((*both, *both)),
        _ => Ok((0, 0)),
    }
}

fn output(arguments: &Arguments) -> Result<Option<(&OsStr, Form)>, Failure> {
    arguments
        .value(&OUTPUT)
        .map(|path| Ok((path, Form::needed(path)?)))
        .transpose()
}

/// What is read, and the traces in it, of which the second may be the first again; none where one of them is no trace.
struct Read {
    identities: Vec<Identity>,
    traces: Option<(Trace, Trace)>,
}

fn read(arguments: &Arguments) -> Result<Read, Failure> {
    if arguments.words.len() == 2 && arguments.words.iter().all(|path| path == "-") {
        return failed("standard input is read once, and cannot be both A and B");
    }
    let mut identities = Vec::new();
    let mut traces = Vec::new();
    for path in &arguments.words {
        let input = trace::read(path)?;
        identities.push(input.identity);
        match Trace::of(input.bytes) {
            Ok(trace) => traces.push(trace),
            Err(fault) => say(&format!("{}: {}", input.name, no_trace(&fault))),
        }
    }
    let whole = traces.len() == arguments.words.len();
    let second = traces.pop();
    let first = traces.pop().or_else(|| second.clone());
    Ok(Read {
        identities,
        traces: first.zip(second).filter(|_| whole),
    })
}

/// A quarter of the greys, and red.
fn palette() -> Palette {
    let mut palette: Palette = std::array::from_fn(|grey| [grey as u8; 3]);
    palette[usize::from(RED)] = [255, 0, 0];
    palette
}

fn save(path: &OsStr, form: Form, columns: usize, a: &Side, b: &Side) -> Result<(), Failure> {
    let pixels: Vec<u8> = a
        .vram
        .iter()
        .zip(&b.vram)
        .map(|(x, y)| match form {
            _ if x != y => RED,
            Form::Pgm => 0,
            Form::Png => x / 4,
        })
        .collect();
    picture::save(path, form, columns, &pixels, Some(&palette()))
}

fn run(arguments: Arguments) -> Result<Verdict, Failure> {
    let (held_a, held_b) = held(&arguments)?;
    let width = Width::of(WIDTH.name, arguments.value(&WIDTH))?;
    let output = output(&arguments)?;
    let Read { identities, traces } = read(&arguments)?;
    if let Some((path, _)) = output {
        judge_output(path, &identities)?;
    }
    let Some((a, b)) = traces else {
        return Ok(Verdict::Bad);
    };
    for trace in [&a, &b] {
        width.judge(trace.length, output.is_some())?;
    }
    let (a, b) = (Side::of(a, held_a), Side::of(b, held_b));
    let findings = [
        entries(&a, &b),
        answers(&a, &b),
        pictures(&a, &b, width.columns),
    ];
    let saved = match output {
        Some(_) if a.vram.len() != b.vram.len() => {
            say("no picture: the two differ in length");
            Ok(())
        }
        Some((path, form)) => save(path, form, width.columns, &a, &b),
        None => Ok(()),
    };
    let text: String = findings.iter().map(|found| found.said.as_str()).collect();
    print(&text)?;
    saved?;
    Ok(Verdict::good_if(findings.iter().all(|found| found.alike)))
}
