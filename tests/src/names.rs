//! The names of include/zevkholtai.h: the bindings have the same ones, and the library does what each says.

mod header;
mod modes;
mod numbers;
mod operations;
mod registers;
mod spaces;

use std::fmt::Debug;

type Outcome = Result<(), String>;

/// Gives the number of names.
pub fn check_all() -> Result<usize, String> {
    let names = header::check()?;
    spaces::check()?;
    registers::check()?;
    modes::check()?;
    operations::check()?;
    numbers::check()?;
    Ok(names)
}

fn is<T: PartialEq + Debug>(what: &str, given: T, wanted: T) -> Outcome {
    if given == wanted {
        Ok(())
    } else {
        Err(format!("{what} is {given:X?}, not {wanted:X?}"))
    }
}

/// A table of the bindings must have these names, in this order.
fn are_named<'a>(table: &[(&str, u32)], names: impl Iterator<Item = &'a str>) -> Outcome {
    let given: Vec<&str> = table.iter().map(|&(name, _)| name).collect();
    is("a table's list of names", given, names.collect())
}
