//! `record`: a trace made of a listing.

use crate::arguments::Arguments;
use crate::failure::{failed, Failure, Verdict};
use crate::files::{self, judge_output, Source};
use crate::streams::say;
use crate::text::{parse, Line};
use crate::trace::LONGEST;
use crate::verbs::Verb;
use crate::words::sentence;
use zevkholtai::{append, check, number, start, Checked};

pub const VERB: Verb = Verb {
    name: "record",
    summary: "make a trace of a listing",
    usage: include_str!("../help/record.txt"),
    options: &[],
    words: 2..=2,
    run,
};

/// Twice what `list` writes for the longest trace, and more.
const LONGEST_TEXT: usize = 32 << 20;

/// A trace in the front of a buffer.
struct Recording {
    buffer: Vec<u8>,
    /// The bytes that it has; 0 before its `vram` line.
    used: usize,
}

impl Recording {
    fn take(&mut self, checked: Checked) -> Result<(), String> {
        if checked.number != number::ACCEPTED {
            let number = checked.number;
            return Err(format!("refused, {number}: {}", sentence(number)));
        }
        self.used = checked.length as usize;
        Ok(())
    }

    fn line(&mut self, line: &str) -> Result<(), String> {
        match parse(line)? {
            Line::Nothing => Ok(()),
            Line::Vram(_) if self.used > 0 => Err("a second 'vram'".to_string()),
            Line::Vram(length) => {
                let started = start(&mut self.buffer, length);
                self.take(started)
            }
            Line::Write(_) if self.used == 0 => Err("before it comes 'vram N'".to_string()),
            Line::Write(write) => {
                let appended = append(&mut self.buffer, self.used, write);
                self.take(appended)
            }
        }
    }
}

/// The trace; else what is wrong, with the number of the line where there is one.
fn recorded(text: &[u8]) -> Result<Vec<u8>, (Option<usize>, String)> {
    let mut recording = Recording {
        buffer: vec![0; LONGEST],
        used: 0,
    };
    for (index, line) in text.split(|byte| *byte == b'\n').enumerate() {
        recording
            .line(&String::from_utf8_lossy(line))
            .map_err(|fault| (Some(index + 1), fault))?;
    }
    recording.buffer.truncate(recording.used);
    if check(&recording.buffer).number != number::ACCEPTED {
        return Err((None, "no line says 'vram N'".to_string()));
    }
    Ok(recording.buffer)
}

fn run(arguments: Arguments) -> Result<Verdict, Failure> {
    let text = Source::open(arguments.file(0))?.read(LONGEST_TEXT)?;
    let output = arguments.file(1);
    judge_output(output, &[text.identity])?;
    if text.bytes.len() > LONGEST_TEXT {
        return failed(format!("{}: it has over {LONGEST_TEXT} bytes", text.name));
    }
    match recorded(&text.bytes) {
        Ok(trace) => {
            files::write(output, &trace)?;
            Ok(Verdict::Good)
        }
        Err((line, fault)) => {
            let line = line.map_or(String::new(), |line| format!("{line}:"));
            say(&format!("{}:{line} {fault}", text.name));
            Ok(Verdict::Bad)
        }
    }
}
