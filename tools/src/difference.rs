//! Two runs compared.

use crate::listing::Lister;
use crate::names::counted;
use crate::refusal::named;
use crate::trace::Trace;
use zevkholtai::{number, Answer, Card};

/// A trace, run whole from reset under some held planes.
pub struct Side {
    pub trace: Trace,
    held: u8,
    /// Up to the refused entry, which ends the run.
    answers: Vec<Answer>,
    pub vram: Vec<u8>,
}

/// What is found of one thing: whether it is alike, and what is said of it.
pub struct Finding {
    pub alike: bool,
    pub said: String,
}

impl Finding {
    fn alike(said: String) -> Finding {
        Finding { alike: true, said }
    }

    fn differs(said: String) -> Finding {
        Finding { alike: false, said }
    }
}

impl Side {
    pub fn of(trace: Trace, held: u8) -> Side {
        let mut card = Card::reset(held);
        let mut vram = trace.vram();
        let mut answers = Vec::new();
        for write in trace.writes() {
            let answer = card.write(write, &mut vram);
            answers.push(answer);
            if answer.number != number::ACCEPTED {
                break;
            }
        }
        Side {
            trace,
            held,
            answers,
            vram,
        }
    }

    /// The number of the run.
    fn number(&self) -> u32 {
        self.answers
            .last()
            .map_or(number::ACCEPTED, |answer| answer.number)
    }

    /// An entry as it is listed, or that there is none.
    fn listed(&self, index: usize) -> String {
        let mut lister = Lister::new(self.trace.vram());
        for (earlier, write) in self.trace.writes().enumerate().take(index) {
            lister.pass(earlier, write);
        }
        match self.trace.write(index) {
            Some(write) => lister.line(index, write),
            None => format!("ends at {index}"),
        }
    }

    /// An entry that was made, by its name.
    fn name(&self, index: usize) -> String {
        let mut card = Card::reset(self.held);
        self.trace.run(&mut card, &mut self.trace.vram(), 0, index);
        self.trace
            .write(index)
            .map_or(String::new(), |write| named(&card, write))
    }
}

pub fn entries(a: &Side, b: &Side) -> Finding {
    let (many, more) = (a.trace.count(), b.trace.count());
    let first = a
        .trace
        .writes()
        .zip(b.trace.writes())
        .position(|(x, y)| x != y);
    let Some(first) = first.or((many != more).then(|| many.min(more))) else {
        return Finding::alike(format!("entries: alike, {many}\n"));
    };
    Finding::differs(format!(
        "entries: {many} and {more}, the first that differs is {first}\nA {}\nB {}\n",
        a.listed(first),
        b.listed(first)
    ))
}

/// Numbers and counts, of the entries that both have; where these are alike and one run is refused later, its refused entry.
pub fn answers(a: &Side, b: &Side) -> Finding {
    let (x, y) = (a.number(), b.number());
    let numbers = if x == y {
        format!("number {x}")
    } else {
        format!("number {x} and {y}")
    };
    let mut both = a.answers.iter().zip(&b.answers).enumerate();
    let first = both.find(|(_, (p, q))| (p.number, p.count) != (q.number, q.count));
    if let Some((index, (p, q))) = first {
        let name = a.name(index);
        let (p, q) = (told(p), told(q));
        return Finding::differs(format!(
            "answers: {numbers}, the first that differs is of entry {index} ({name}): {p} and {q}\n"
        ));
    }
    if x == y {
        return Finding::alike(format!("answers: alike, {numbers}\n"));
    }
    let (letter, longer) = if a.answers.len() > b.answers.len() {
        ('A', a)
    } else {
        ('B', b)
    };
    let last = longer.answers.len() - 1;
    let name = longer.name(last);
    Finding::differs(format!(
        "answers: {numbers}, {letter} at entry {last} ({name})\n"
    ))
}

fn told(answer: &Answer) -> String {
    format!("{} {}", answer.number, answer.count)
}

/// The places where two video memories of one length differ.
fn places<'a>(a: &'a Side, b: &'a Side) -> impl Iterator<Item = usize> + 'a {
    let both = a.vram.iter().zip(&b.vram).enumerate();
    both.filter(|(_, (x, y))| x != y).map(|(place, _)| place)
}

pub fn pictures(a: &Side, b: &Side, columns: usize) -> Finding {
    let (length, other) = (a.vram.len(), b.vram.len());
    if length != other {
        return Finding::differs(format!(
            "video memory: {length} and {other} bytes\npictures: they differ\n"
        ));
    }
    let Some(first) = places(a, b).next() else {
        return Finding::alike("pictures: alike\n".to_string());
    };
    let (mut count, mut left, mut right, mut bottom) = (0, columns, 0, 0);
    for place in places(a, b) {
        count += 1;
        left = left.min(place % columns);
        right = right.max(place % columns);
        bottom = place / columns;
    }
    let differ = if count == 1 { "differs" } else { "differ" };
    let pixels = counted(count, "pixel");
    let top = first / columns;
    Finding::differs(format!(
        "pictures: {pixels} {differ}, columns {left} to {right}, rows {top} to {bottom}\n"
    ))
}
