//! `list`: what every entry of a trace does.

use crate::arguments::Arguments;
use crate::failure::{failed, Failure, Verdict};
use crate::listing::Lister;
use crate::refusal::no_trace;
use crate::streams::{print, say};
use crate::trace::{self, Trace};
use crate::values::decimal;
use crate::verbs::Verb;
use std::ops::RangeInclusive;

pub const VERB: Verb = Verb {
    name: "list",
    summary: "tell every entry of a trace, and what it does",
    usage: include_str!("../help/list.txt"),
    options: &[],
    words: 1..=3,
    run,
};

fn index(arguments: &Arguments, at: usize, name: &str) -> Result<Option<usize>, Failure> {
    arguments
        .word(at)
        .map(|text| decimal(name, text))
        .transpose()
}

/// The indices asked for. Of a trace without entries, which has no last one, none are.
fn asked(
    from: Option<usize>,
    to: Option<usize>,
    count: usize,
) -> Result<Option<RangeInclusive<usize>>, Failure> {
    for (name, index) in [("FROM", from), ("TO", to)] {
        if index.is_some_and(|index| index >= count) {
            return failed(format!(
                "{name} is past the last entry: the trace has {count}, counted from 0"
            ));
        }
    }
    let first = from.unwrap_or(0);
    let last = to.or_else(|| count.checked_sub(1));
    if last.is_some_and(|last| first > last) {
        return failed("FROM is larger than TO");
    }
    Ok(last.map(|last| first..=last))
}

fn run(arguments: Arguments) -> Result<Verdict, Failure> {
    let from = index(&arguments, 1, "FROM")?;
    let to = index(&arguments, 2, "TO")?;
    let input = trace::read(arguments.file(0))?;
    let trace = match Trace::of(input.bytes) {
        Ok(trace) => trace,
        Err(fault) => {
            say(&no_trace(&fault));
            return Ok(Verdict::Bad);
        }
    };
    let mut lister = Lister::new(trace.vram());
    let mut text = format!("vram {}\n", trace.length);
    if let Some(asked) = asked(from, to, trace.count())? {
        for (index, write) in trace.writes().enumerate().take(asked.end() + 1) {
            if asked.contains(&index) {
                text += &lister.line(index, write);
                text.push('\n');
            } else {
                lister.pass(index, write);
            }
        }
    }
    print(&text)?;
    Ok(Verdict::good_if(lister.ended.is_none()))
}
