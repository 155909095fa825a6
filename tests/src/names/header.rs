//! The enums and the version of the header beside the tables of the bindings: every name, value and place.

use super::{is, Outcome};
use std::collections::BTreeSet;
use std::fs;
use zevkholtai::{mode, number, operation, register, space, VERSION};

const HEADER: &str = concat!(env!("CARGO_MANIFEST_DIR"), "/../include/zevkholtai.h");

/// A table's name, then its names with their values.
type Table = (String, Vec<(String, u32)>);

/// The bindings' tables, in the header's order.
const TABLES: [(&str, &[(&str, u32)]); 5] = [
    ("space", space::ALL),
    ("register", register::ALL),
    ("mode", mode::ALL),
    ("operation", operation::ALL),
    ("number", number::ALL),
];

/// Gives the number of names, the version's among them.
pub fn check() -> Result<usize, String> {
    let text = fs::read_to_string(HEADER).map_err(|why| format!("{HEADER}: {why}"))?;
    let text = without_comments(&text)?;
    is("the bindings' VERSION", VERSION, version(&text)?)?;
    let enums = enums(&text)?;
    let tables: Vec<&str> = enums.iter().map(|(table, _)| table.as_str()).collect();
    is(
        "the list of enums",
        tables,
        TABLES.map(|(table, _)| table).to_vec(),
    )?;
    for ((table, names), (_, bound)) in enums.iter().zip(TABLES) {
        same_names(names, bound)
            .and_then(|()| no_twice(names))
            .map_err(|why| format!("{table}: {why}"))?;
    }
    let names: usize = enums.iter().map(|(_, names)| names.len()).sum();
    every_name_is_taken(&text, names)?;
    Ok(names + 1)
}

/// Name by name, to the end of the longer list.
fn same_names(names: &[(String, u32)], bound: &[(&str, u32)]) -> Outcome {
    for i in 0..names.len().max(bound.len()) {
        let wanted = names.get(i).map(|(name, value)| (name.as_str(), *value));
        let what = format!("name {i} in the bindings");
        is(&what, bound.get(i).copied(), wanted)?;
    }
    Ok(())
}

fn without_comments(text: &str) -> Result<String, String> {
    let mut pieces = text.split("/*");
    let mut rest = String::from(pieces.next().unwrap_or(""));
    for piece in pieces {
        let (_, after) = piece.split_once("*/").ok_or("a comment has no end")?;
        rest += after;
    }
    Ok(rest)
}

fn version(text: &str) -> Result<u32, String> {
    let mut lines = text.lines();
    let line = lines.find_map(|line| line.strip_prefix("#define ZEVKHOLTAI_VERSION "));
    value(line.ok_or("the header has no version")?)
}

fn enums(text: &str) -> Result<Vec<Table>, String> {
    let pieces = text.split("enum zevkholtai_").skip(1);
    pieces.map(one_enum).collect()
}

/// `register { ZEVKHOLTAI_REGISTER_MODE = 0x0030, ... }`, and what follows.
fn one_enum(piece: &str) -> Result<Table, String> {
    let (table, rest) = piece.split_once(" {").ok_or("an enum does not begin")?;
    let (items, _) = rest.split_once('}').ok_or("an enum does not end")?;
    let front = format!("ZEVKHOLTAI_{}_", table.to_uppercase());
    let item = |item: &str| {
        let parts = item.trim().strip_prefix(&front);
        let (name, number) = parts
            .and_then(|parts| parts.split_once(" = "))
            .ok_or(format!("{item} has no place in the enum {table}"))?;
        Ok((String::from(name), value(number)?))
    };
    let names: Result<_, String> = items.split(',').map(item).collect();
    Ok((String::from(table), names?))
}

fn value(text: &str) -> Result<u32, String> {
    let text = text.trim();
    match text.strip_prefix("0x") {
        Some(digits) => u32::from_str_radix(digits, 16),
        None => text.parse(),
    }
    .map_err(|why| format!("{text}: {why}"))
}

fn no_twice(names: &[(String, u32)]) -> Outcome {
    let spelt: BTreeSet<_> = names.iter().map(|(name, _)| name).collect();
    let values: BTreeSet<_> = names.iter().map(|(_, value)| value).collect();
    is("the number of different names", spelt.len(), names.len())?;
    is("the number of different values", values.len(), names.len())
}

/// None stands outside the enums.
fn every_name_is_taken(text: &str, taken: usize) -> Outcome {
    let words = text.split_whitespace().collect::<Vec<_>>();
    let given = words
        .windows(2)
        .filter(|pair| pair[0].starts_with("ZEVKHOLTAI_") && pair[1] == "=");
    is("the number of names in enums", taken, given.count())
}
