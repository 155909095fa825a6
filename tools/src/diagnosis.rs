//! What is wrong with bytes that are no trace, and where. Whether they are one is always the library's answer; this finds a
//! fault exactly where that is 10.

use crate::entry::word_at;
use crate::words::sentence;
use zevkholtai::{number, ENTRY, HEADER, LARGEST_VRAM, MOST_ENTRIES};

fn header_fault(bytes: &[u8]) -> Option<String> {
    let came = bytes.len();
    if came < HEADER {
        return Some(format!("the header ends at byte {came} of {HEADER}"));
    }
    let count = word_at(bytes, 0) as usize;
    if count > MOST_ENTRIES {
        return Some(format!(
            "byte 0: {count} entries announced, at most {MOST_ENTRIES}"
        ));
    }
    let offset = word_at(bytes, 4) as usize;
    if offset != HEADER {
        return Some(format!(
            "byte 4: the entries' offset is {offset}, not {HEADER}"
        ));
    }
    let length = word_at(bytes, 8) as usize;
    if length == 0 || !length.is_multiple_of(64) || length > LARGEST_VRAM {
        return Some(format!(
            "byte 8: a video memory of {length} bytes (0, no multiple of 64, or over {LARGEST_VRAM})"
        ));
    }
    let said = said_total(bytes);
    let total = HEADER + ENTRY * count;
    (said != total).then(|| {
        format!("byte 12: the total is {said}, not {HEADER} + {ENTRY} * {count} = {total}")
    })
}

/// The length that the header says.
fn said_total(bytes: &[u8]) -> usize {
    word_at(bytes, 12) as usize
}

fn past_fault(bytes: &[u8]) -> Option<String> {
    let total = said_total(bytes);
    (bytes.len() > total)
        .then(|| format!("it goes on past byte {total}, where its header says it ends"))
}

/// The first pad byte of any entry that is not 0, also of an entry that is not whole.
fn pad_fault(bytes: &[u8]) -> Option<String> {
    let end = said_total(bytes);
    let in_entries = bytes.iter().enumerate().take(end).skip(HEADER);
    in_entries
        .filter(|(at, _)| matches!((at - HEADER) % ENTRY, 2 | 3))
        .find(|(_, byte)| **byte != 0)
        .map(|(at, byte)| {
            let entry = (at - HEADER) / ENTRY;
            format!("byte {at}: a pad byte of entry {entry} is {byte}, not 0")
        })
}

fn short_fault(bytes: &[u8]) -> Option<String> {
    let (came, total) = (bytes.len(), said_total(bytes));
    (came < total).then(|| format!("it breaks off at byte {came}; its header says {total}"))
}

/// What is wrong with a file.
pub fn of_file(bytes: &[u8]) -> String {
    header_fault(bytes)
        .or_else(|| short_fault(bytes))
        .or_else(|| past_fault(bytes))
        .or_else(|| pad_fault(bytes))
        .unwrap_or_else(|| sentence(number::MALFORMED).to_string())
}

/// What is wrong with bytes that arrived, in the order in which they came: a pad byte is seen before the end is.
pub fn of_arrival(bytes: &[u8]) -> String {
    header_fault(bytes)
        .or_else(|| pad_fault(bytes))
        .or_else(|| past_fault(bytes))
        .unwrap_or_else(|| {
            let (came, total) = (bytes.len(), said_total(bytes));
            let owed = total.saturating_sub(came);
            format!("it breaks off: {came} bytes came, and {owed} of its {total} are owed")
        })
}
