//! `zevkholtai VERB ...`: what a technician does with recorded traces. All drawing is done by the proved library.
//!
//! Exit status: 0 accepted or alike, 1 refused or different, 2 an error.

mod arguments;
mod arriving;
mod diagnosis;
mod diff;
mod difference;
mod entry;
mod explain;
mod explained;
mod failure;
mod files;
mod list;
mod listing;
mod meaning;
mod names;
mod pgm;
mod picture;
mod png;
mod record;
mod refusal;
mod replay;
mod show;
mod shown;
mod streams;
mod text;
mod trace;
mod values;
mod verbs;
mod words;

use failure::{Failure, Verdict};
use std::env;
use std::panic;
use std::process::ExitCode;

fn status(outcome: Result<Verdict, Failure>) -> u8 {
    match outcome {
        Ok(Verdict::Good) => 0,
        Ok(Verdict::Bad) => 1,
        Err(failure) => {
            if let Failure::Said(what) = failure {
                streams::say(&what);
            }
            2
        }
    }
}

fn main() -> ExitCode {
    panic::set_hook(Box::new(|fault| {
        streams::say(&format!("a fault of this program: {fault}"))
    }));
    let outcome = panic::catch_unwind(|| verbs::run(env::args_os().skip(1).collect()));
    ExitCode::from(outcome.map_or(2, status))
}
