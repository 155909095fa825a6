//! The verbs, and which of them a command line asks for.

use crate::arguments::{Arguments, Opt};
use crate::failure::{failed, Failure, Verdict};
use crate::streams::print;
use crate::{diff, explain, list, record, replay, show};
use std::ffi::OsString;
use std::ops::RangeInclusive;

pub struct Verb {
    pub name: &'static str,
    /// For the list of verbs.
    pub summary: &'static str,
    /// A usage line, what the verb does, its options and exit status.
    pub usage: &'static str,
    pub options: &'static [Opt],
    /// How many words it takes.
    pub words: RangeInclusive<usize>,
    pub run: fn(Arguments) -> Result<Verdict, Failure>,
}

const VERBS: [Verb; 6] = [
    replay::VERB,
    list::VERB,
    record::VERB,
    show::VERB,
    diff::VERB,
    explain::VERB,
];

impl Verb {
    fn call(&self, line: Vec<OsString>) -> Result<Verdict, Failure> {
        let arguments = Arguments::of(line, self.options)?;
        if arguments.asks_help {
            print(self.usage)?;
            return Ok(Verdict::Good);
        }
        if !self.words.contains(&arguments.words.len()) {
            return failed(self.usage.lines().next().unwrap_or_default());
        }
        (self.run)(arguments)
    }
}

fn help() -> Result<Verdict, Failure> {
    let mut text = "usage: zevkholtai VERB [ARGUMENT...]\n\n".to_string();
    for verb in &VERBS {
        text += &format!("  {:<8} {}\n", verb.name, verb.summary);
    }
    text += "
'zevkholtai VERB --help' tells about one of them, 'zevkholtai --version' the version.
Exit status: 0 accepted or alike, 1 refused or different, 2 an error.
";
    print(&text)?;
    Ok(Verdict::Good)
}

fn version() -> Result<Verdict, Failure> {
    print(&format!("zevkholtai {}\n", zevkholtai::VERSION))?;
    Ok(Verdict::Good)
}

pub fn run(line: Vec<OsString>) -> Result<Verdict, Failure> {
    let mut rest = line.into_iter();
    let Some(first) = rest.next() else {
        return failed("no verb; 'zevkholtai help' lists them");
    };
    let rest: Vec<OsString> = rest.collect();
    if let Some(verb) = VERBS.iter().find(|verb| first == verb.name) {
        return verb.call(rest);
    }
    match first.to_str() {
        Some("help" | "--help" | "-h") if rest.is_empty() => help(),
        Some("--version") if rest.is_empty() => version(),
        Some(name @ ("help" | "--help" | "-h" | "--version")) => {
            failed(format!("{name} takes no argument"))
        }
        _ => failed(format!(
            "unknown verb '{}'; 'zevkholtai help' lists them",
            first.display()
        )),
    }
}
