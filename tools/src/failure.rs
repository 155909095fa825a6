//! How a verb can end.

use std::fmt::Display;

/// What a verb found: exit status 0 or 1.
pub enum Verdict {
    /// Accepted, or alike.
    Good,
    /// Refused, or different.
    Bad,
}

impl Verdict {
    pub fn good_if(good: bool) -> Verdict {
        if good {
            Verdict::Good
        } else {
            Verdict::Bad
        }
    }
}

/// An error: exit status 2.
pub enum Failure {
    Said(String),
    /// Whoever read standard output is gone, and a message would help nobody.
    Quiet,
}

/// An error with a message.
pub fn failed<T>(what: impl Into<String>) -> Result<T, Failure> {
    Err(Failure::Said(what.into()))
}

/// What the system said about a file.
pub fn by_system(name: impl Display, error: impl Display) -> Failure {
    Failure::Said(format!("{name}: {error}"))
}
