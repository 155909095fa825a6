//! The names of the bindings' tables, as they are written here: PLANE_MASK is `plane-mask` in listings, `plane mask` in
//! sentences.

use zevkholtai::{mode, operation, register};

pub fn hyphened(name: &str) -> String {
    name.to_ascii_lowercase().replace('_', "-")
}

pub fn spaced(name: &str) -> String {
    name.to_ascii_lowercase().replace('_', " ")
}

fn name_of(table: &[(&'static str, u32)], value: u32) -> Option<&'static str> {
    table
        .iter()
        .find(|(_, listed)| *listed == value)
        .map(|(name, _)| *name)
}

pub fn register_name(offset: u32) -> Option<&'static str> {
    name_of(register::ALL, offset)
}

/// The offset of the register that a listing names so.
pub fn register_named(word: &str) -> Option<u32> {
    register::ALL
        .iter()
        .find(|(name, _)| hyphened(name).eq_ignore_ascii_case(word))
        .map(|(_, offset)| *offset)
}

pub fn mode_name(code: u32) -> String {
    name_of(mode::ALL, code).map_or("a mode that is not listed".to_string(), spaced)
}

/// The operation that bits 3:0 name.
pub fn operation_name(data: u32) -> String {
    name_of(operation::ALL, data % 16)
        .map(spaced)
        .unwrap_or_default()
}

/// `1 pixel`, `2 pixels`.
pub fn counted(count: u32, what: &str) -> String {
    let more = if count == 1 { "" } else { "s" };
    format!("{count} {what}{more}")
}

/// Eight hexadecimal digits.
pub fn hex(value: u32) -> String {
    format!("{value:08X}h")
}
