//! Readers put together by hand: each field is any, often near its limit. What they must answer is said here from the words of
//! include/zevkholtai.h, on top of the model.

use super::met::Met;
use super::{forbidden, start};
use crate::compare::{same, same_bytes, Outcome};
use crate::damage;
use crate::engine::reader::{self, Reader};
use crate::generate::Maker;
use crate::model::refusal::bad_length;
use crate::model::trace::{self, ENTRY, HEADER, MOST_ENTRIES};
use crate::model::{serial, Card};

/// The number and totals, the card and the picture that a chunk must leave. No totals where a header is unfinished.
struct Expected {
    number: u32,
    totals: Option<[u32; 3]>,
    card: Card,
    picture: Vec<u8>,
}

pub fn case(maker: &mut Maker, met: &mut Met) -> Outcome {
    let opened = mark(maker);
    let length = maker.random.pick(&[64, 2048]);
    let entries = maker.random.below(5) as usize;
    let writes = damage::writes(maker, length, entries, damage::FEW);
    let mut bytes = damage::whole(length, &writes);
    if opened != 0 {
        bytes.drain(..HEADER);
    }
    let reader = reader(maker, opened, &bytes);
    let from = bytes.len().min(reader.filled as usize);
    let upto = from + maker.random.below((bytes.len() - from) as u64 + 1) as usize;
    let lent = if maker.random.one_in(10) {
        forbidden(maker)
    } else {
        length
    };
    let left = ended(&reader)
        .and_then(|()| fed(maker, &reader, &bytes[..upto], from, lent))
        .map_err(|why| {
            format!(
                "{reader:X?}, {:02X?}, VRAM {lent}: {why}",
                &bytes[from..upto]
            )
        })?;
    met.by_hand(&reader, faults(&reader), &left);
    Ok(())
}

/// A mark: 0, 1 or any word.
fn mark(maker: &mut Maker) -> u32 {
    let word = maker.random.word();
    maker.random.pick(&[0, 1, word])
}

/// A number up to the limit in most cases; else just past it, or any.
fn near(maker: &mut Maker, limit: u32) -> u32 {
    let under = maker.random.below(u64::from(limit) + 1) as u32;
    let small = under.min(maker.random.below(8) as u32);
    let word = maker.random.word();
    let past = limit.wrapping_add(1);
    maker.random.pick(&[
        0, small, small, under, under, limit, limit, limit, past, word,
    ])
}

/// The first of these bytes wait in it, as far as there are so many; pad bytes of an entry among them are now and then not zero.
fn reader(maker: &mut Maker, opened: u32, bytes: &[u8]) -> Reader {
    let awaited = if opened == 0 { HEADER } else { ENTRY };
    let announced = near(maker, MOST_ENTRIES as u32);
    let applied = near(maker, announced);
    let pixels = near(maker, applied.wrapping_mul(2048));
    let changed = near(maker, pixels);
    let filled = near(maker, (awaited - 1).min(bytes.len()) as u32);
    let mut waiting = [0; 16];
    waiting.copy_from_slice(&maker.random.bytes(16));
    let front = bytes.len().min(filled as usize).min(16);
    waiting[..front].copy_from_slice(&bytes[..front]);
    for pad in [2, 3] {
        if opened != 0 && pad < front && maker.random.one_in(3) {
            waiting[pad] = maker.random.byte();
        }
    }
    let any = maker.random.word().max(1);
    let number = maker.random.pick(&[0, 0, 0, 0, 0, 0, 1, 8, 10, any]);
    Reader {
        number,
        opened,
        announced,
        applied,
        pixels,
        changed,
        filled,
        waiting,
    }
}

/// Why no bytes can leave this reader: by the bytes that wait, the entries applied or announced, the pixels, or those changed.
fn faults(reader: &Reader) -> [bool; 5] {
    let awaited = if reader.opened == 0 { HEADER } else { ENTRY };
    [
        reader.filled as usize >= awaited,
        reader.applied > reader.announced,
        u64::from(reader.announced) > MOST_ENTRIES,
        u64::from(reader.pixels) > 2048 * u64::from(reader.applied),
        reader.changed > reader.pixels,
    ]
}

/// The number that a reader gets whatever comes: its own, or 10 where it cannot be.
fn at_sight(reader: &Reader) -> Option<u32> {
    if reader.number != 0 {
        Some(reader.number)
    } else if faults(reader) != [false; 5] {
        Some(10)
    } else {
        None
    }
}

fn ended(reader: &Reader) -> Outcome {
    let complete = reader.opened != 0 && reader.applied == reader.announced;
    let number = at_sight(reader).unwrap_or(if complete { 0 } else { 10 });
    let mut given = *reader;
    reader::end(&mut given);
    same("end call", &Reader { number, ..*reader }, &given)
}

/// A chunk of the bytes from a place on, those before it wait in the reader. Gives the reader that it leaves.
fn fed(
    maker: &mut Maker,
    reader: &Reader,
    bytes: &[u8],
    from: usize,
    lent: usize,
) -> Result<Reader, String> {
    let start = start(maker, lent)?;
    let mut given = *reader;
    let mut card = start.card.clone();
    let mut picture = start.picture.clone();
    reader::chunk(&mut given, &bytes[from..], &mut card, &mut picture);
    let forbidden = bad_length(lent as u64).then_some(1);
    if let Some(number) = at_sight(reader).or(forbidden) {
        same("reader", &Reader { number, ..*reader }, &given)?;
        same("card", &start.card, &card)?;
        same_bytes("VRAM", &start.picture, &picture)?;
        return Ok(given);
    }
    let expected = if reader.opened == 0 {
        opening(bytes, from, start.card, start.picture)
    } else {
        going_on(reader, bytes, from, start.card, start.picture)
    };
    same("number", &expected.number, &given.number)?;
    let of = |reader: &Reader| [reader.applied, reader.pixels, reader.changed];
    same(
        "totals",
        &expected.totals.unwrap_or(of(reader)),
        &of(&given),
    )?;
    same("card", &expected.card, &card)?;
    same_bytes("VRAM", &expected.picture, &picture)?;
    Ok(given)
}

/// A header that is not whole yet: as a new reader that heard the same bytes. Its totals count once the header is good.
fn opening(bytes: &[u8], from: usize, mut card: Card, mut picture: Vec<u8>) -> Expected {
    let mut model = serial::Reader::new();
    model.chunk(&bytes[..from], &mut card, &mut picture);
    let number = model.chunk(&bytes[from..], &mut card, &mut picture);
    let whole = bytes.len() >= HEADER;
    Expected {
        number,
        totals: whole.then(|| [model.entries(), model.pixels(), model.changed()]),
        card,
        picture,
    }
}

/// Entries: a run of those that are whole and announced, and 10 for a byte past them. "A pad byte that already waits is not judged
/// again": the bytes have zeros there, whatever waits in the reader.
fn going_on(
    reader: &Reader,
    bytes: &[u8],
    from: usize,
    mut card: Card,
    mut picture: Vec<u8>,
) -> Expected {
    let left = (reader.announced - reader.applied) as usize;
    let whole = left.min(bytes.len() / ENTRY);
    let ran = trace::run(&bytes[..ENTRY * whole], &mut card, &mut picture, u32::MAX);
    let past = bytes.len() > from && bytes.len() > ENTRY * left;
    Expected {
        number: if ran.number == 0 && past {
            10
        } else {
            ran.number
        },
        totals: Some([
            reader.applied + ran.entries,
            reader.pixels + ran.pixels,
            reader.changed + ran.changed,
        ]),
        card,
        picture,
    }
}
