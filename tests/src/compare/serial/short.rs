//! Short traces, whole and with each thing wrong, cut at every place.

use super::line::Start;
use super::met::Met;
use super::{beside, start};
use crate::compare::Outcome;
use crate::damage;
use crate::generate::Maker;
use crate::model::trace::{ENTRY, HEADER};

/// A trace of so many entries.
pub fn case(maker: &mut Maker, met: &mut Met, entries: usize) -> Outcome {
    let length = maker.random.pick(&[64, 128]);
    let writes = damage::writes(maker, length, entries, damage::FEW);
    let whole = damage::whole(length, &writes);
    let start = start(maker, length)?;
    for bytes in variants(maker, &whole) {
        every_cut(met, &start, &bytes).map_err(|why| format!("{bytes:02X?}: {why}"))?;
    }
    Ok(())
}

/// The trace; with each byte of its header and each pad byte damaged, too long, and broken off.
fn variants(maker: &mut Maker, whole: &[u8]) -> Vec<Vec<u8>> {
    let mut variants = vec![whole.to_vec()];
    let pads = (HEADER..whole.len()).filter(|i| matches!((i - HEADER) % ENTRY, 2 | 3));
    for at in (0..HEADER).chain(pads) {
        let mut bad = whole.to_vec();
        bad[at] ^= 1 << maker.random.below(8);
        variants.push(bad);
    }
    for more in [1, ENTRY] {
        let mut long = whole.to_vec();
        long.resize(whole.len() + more, 0);
        variants.push(long);
    }
    variants.extend((0..whole.len()).map(|length| whole[..length].to_vec()));
    variants
}

/// In one chunk, in two cut at every place, and every byte by itself.
fn every_cut(met: &mut Met, start: &Start, bytes: &[u8]) -> Outcome {
    let whole = start.sent(met, &[bytes])?;
    beside(met, start, bytes, &whole)?;
    for at in 0..=bytes.len() {
        let cut = start.sent(met, &[&bytes[..at], &bytes[at..]])?;
        whole.same(&format!("cut at {at}"), &cut)?;
    }
    let single: Vec<&[u8]> = bytes.chunks(1).collect();
    whole.same("byte by byte", &start.sent(met, &single)?)
}
