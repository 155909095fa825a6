//! The recorded traces under cases/, with what each must answer.

use crate::model::trace::{self, Ran};
use crate::model::{self, Card};
use std::fs;

/// Name, and the number, the entries applied, the total pixels and those changed. The pixels are not recorded: they are the
/// model's, counted once; model and engine are held to them.
const RECORDED: [(&str, [u32; 4]); 9] = [
    ("l8-000", [0, 811, 3478, 2094]),
    ("l8-004", [0, 468, 10672, 9995]),
    ("l8-012", [0, 830, 10433, 7790]),
    ("l8-015e", [8, 4080, 128360, 125176]),
    ("l8-021", [0, 4076, 217148, 193324]),
    ("x8-000-ask1", [0, 988, 39049, 30498]),
    ("x8-004", [0, 474, 35009, 9822]),
    ("x8-009", [0, 477, 36285, 30602]),
    ("x8-015", [0, 491, 36434, 27020]),
];

/// How a checked part is run; the model's run or the engine's.
pub type Run = fn(&[u8], &mut Card, &mut [u8], u32) -> Ran;

/// Runs every recorded trace whole and compares its totals and each byte of its picture.
pub fn check_all(run: Run) -> Result<usize, String> {
    for (name, answer) in RECORDED {
        check_one(run, name, answer).map_err(|why| format!("recorded trace {name}: {why}"))?;
    }
    Ok(RECORDED.len())
}

fn check_one(run: Run, name: &str, answer: [u32; 4]) -> Result<(), String> {
    let bytes = read(name, "trace")?;
    let expected = read(name, "expected")?;
    let (checked, length) = trace::check(&bytes);
    if checked != 0 {
        return Err(format!("check answers {checked}"));
    }
    let mut card = model::reset(0);
    let mut vram = vec![0; length as usize];
    let ran = run(&bytes[trace::HEADER..], &mut card, &mut vram, u32::MAX);
    let given = [ran.number, ran.entries, ran.pixels, ran.changed];
    if given != answer {
        return Err(format!("answers {given:?}, not {answer:?}"));
    }
    match (0..vram.len().max(expected.len())).find(|&p| vram.get(p) != expected.get(p)) {
        None => Ok(()),
        Some(p) => Err(format!(
            "pixel {p} is {:?}, expected {:?}",
            vram.get(p),
            expected.get(p)
        )),
    }
}

fn read(name: &str, ending: &str) -> Result<Vec<u8>, String> {
    let path = format!("{}/cases/{name}.{ending}", env!("CARGO_MANIFEST_DIR"));
    fs::read(&path).map_err(|why| format!("{path}: {why}"))
}
