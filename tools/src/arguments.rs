//! The words and options of a command line.

use crate::failure::{failed, Failure};
use std::ffi::{OsStr, OsString};
use std::os::unix::ffi::{OsStrExt, OsStringExt};

/// An option that a verb knows.
pub struct Opt {
    pub name: &'static str,
    pub has_value: bool,
    /// How often it may stand on a line.
    pub most: usize,
}

const fn once(name: &'static str) -> Opt {
    Opt {
        name,
        has_value: true,
        most: 1,
    }
}

pub const OUTPUT: Opt = once("-o");
pub const WIDTH: Opt = once("--width");
pub const HELD: Opt = once("--held");
pub const AT: Opt = once("--at");
pub const EVERY: Opt = once("--every");
pub const ALARM: Opt = once("--alarm");
pub const ON: Opt = once("--on");
pub const PLAIN: Opt = Opt {
    has_value: false,
    ..once("--plain")
};
pub const HELD_TWICE: Opt = Opt { most: 2, ..HELD };

/// What stands on a line after the verb.
#[derive(Default)]
pub struct Arguments {
    pub words: Vec<OsString>,
    values: Vec<(&'static str, OsString)>,
    pub asks_help: bool,
}

impl Arguments {
    pub fn of(line: Vec<OsString>, known: &[Opt]) -> Result<Arguments, Failure> {
        let mut arguments = Arguments::default();
        let mut rest = line.into_iter();
        while let Some(word) = rest.next() {
            if word == "--" {
                arguments.words.extend(rest);
                break;
            }
            if word == "--help" || word == "-h" {
                arguments.asks_help = true;
                break;
            }
            if word.as_bytes().starts_with(b"-") && word != "-" {
                arguments.option(&word, &mut rest, known)?;
            } else {
                arguments.words.push(word);
            }
        }
        Ok(arguments)
    }

    fn option(
        &mut self,
        word: &OsStr,
        rest: &mut impl Iterator<Item = OsString>,
        known: &[Opt],
    ) -> Result<(), Failure> {
        let (name, joined) = split(word);
        let Some(option) = known.iter().find(|option| name == option.name) else {
            return failed(format!("unknown option '{}'", name.display()));
        };
        let name = option.name;
        let value = match (option.has_value, joined) {
            (true, Some(value)) => value,
            (true, None) => match rest.next() {
                Some(value) => value,
                None => return failed(format!("{name} needs a value")),
            },
            (false, Some(_)) => return failed(format!("{name} takes no value")),
            (false, None) => OsString::new(),
        };
        if self.all(option).count() == option.most {
            return failed(format!("{name} is given too often"));
        }
        self.values.push((name, value));
        Ok(())
    }

    /// The values of an option, in the order of the line.
    pub fn all(&self, option: &Opt) -> impl Iterator<Item = &OsStr> {
        let name = option.name;
        self.values
            .iter()
            .filter(move |(given, _)| *given == name)
            .map(|(_, value)| value.as_os_str())
    }

    pub fn value(&self, option: &Opt) -> Option<&OsStr> {
        self.all(option).next()
    }

    pub fn has(&self, option: &Opt) -> bool {
        self.value(option).is_some()
    }

    pub fn word(&self, index: usize) -> Option<&OsStr> {
        self.words.get(index).map(OsString::as_os_str)
    }

    /// A word that the verb cannot do without: it was counted before.
    pub fn file(&self, index: usize) -> &OsStr {
        self.word(index).unwrap_or_default()
    }
}

/// `--name=value` in its two parts.
fn split(word: &OsStr) -> (OsString, Option<OsString>) {
    let bytes = word.as_bytes();
    let end = bytes.iter().position(|byte| *byte == b'=');
    match end.filter(|_| bytes.starts_with(b"--")) {
        Some(end) => {
            let (name, value) = bytes.split_at(end);
            let value = value.iter().skip(1).copied().collect();
            (
                OsString::from_vec(name.to_vec()),
                Some(OsString::from_vec(value)),
            )
        }
        None => (word.to_os_string(), None),
    }
}
