//! Cards restored from any bytes: their registers are read at every kind of offset and they are written to; and the calls that
//! need no card, read-back and the composite of two operations.

use super::calls::{Call, Calls};
use super::engine::ENGINE;
use super::{picture, same, writes, Outcome, Pair};
use crate::engine;
use crate::generate::Maker;
use crate::listed::mode::{LINES, MODES};
use crate::listed::{LARGEST_VRAM, OFFSETS};
use crate::model::{self, mode, pixel, Card, Write, REGISTER};
use zevkholtai::CARD_SIZE;

const RANDOM_OFFSETS: usize = 64;
const LAST_OFFSETS: u32 = 0x100;
/// So many of each kind, for each register.
const ALIASES: u32 = 16;
/// Besides one to every register.
const ANY_WRITES: usize = 24;
const ANY_READ_BACKS: usize = 64;

/// Of VRAM, for read-backs. One is a good length in its lower 32 bits alone.
const LENGTHS: [usize; 8] = [
    0,
    63,
    64,
    128,
    LARGEST_VRAM,
    LARGEST_VRAM + 64,
    (1 << 32) + 64,
    usize::MAX,
];

pub fn case(maker: &mut Maker, calls: &mut Calls, case: u64) -> Outcome {
    if case == 0 {
        composites()?;
    }
    let card = restored(maker)?;
    read(maker, calls, &card).map_err(|why| format!("{why}, card {card:X?}"))?;
    write(maker, calls, &card)?;
    read_back(maker, calls)
}

/// A card from any bytes, or one that writes can leave. As bytes it is the same again on either side.
fn restored(maker: &mut Maker) -> Result<Card, String> {
    let bytes = match maker.random.below(6) {
        0 => zevkholtai::Card::from(&maker.good_card()).to_bytes(),
        1 => zevkholtai::Card::from(&left_by_writes(maker)).to_bytes(),
        _ => any_bytes(maker),
    };
    let lent = zevkholtai::Card::from_bytes(bytes);
    let card = Card::from(&lent);
    let back = zevkholtai::Card::from(&card).to_bytes();
    same("card as bytes", &bytes, &lent.to_bytes())?;
    same("card as bytes, converted", &bytes, &back)?;
    Ok(card)
}

fn left_by_writes(maker: &mut Maker) -> Card {
    let mut card = model::reset(maker.held());
    let mut vram = [0; 2048];
    for _ in 0..maker.random.below(60) {
        let write = maker.write(&card, vram.len());
        model::write(&mut card, &mut vram, write);
    }
    card
}

/// Any bytes, in half of the cards but for a listed mode, and in half of these but for a good operation too.
fn any_bytes(maker: &mut Maker) -> [u8; CARD_SIZE] {
    let mut bytes = [0; CARD_SIZE];
    bytes.copy_from_slice(&maker.random.bytes(CARD_SIZE));
    let mut card = zevkholtai::Card::from_bytes(bytes);
    let good = maker.random.below(4);
    if good > 1 {
        card.registers.mode = maker.random.pick(&[&MODES[..], &LINES].concat()).0;
    }
    if good > 2 {
        card.registers.raster = maker.random.below(16) as u32;
    }
    card.to_bytes()
}

fn read(maker: &mut Maker, calls: &mut Calls, card: &Card) -> Outcome {
    let near = (0..=0x400).chain(u32::MAX - LAST_OFFSETS + 1..=u32::MAX);
    let aliases = OFFSETS.into_iter().flat_map(aliases);
    let any = (0..RANDOM_OFFSETS).map(|_| maker.random.word());
    for offset in near.chain(aliases).chain(any) {
        let ours = model::read_register(card, offset);
        let theirs = engine::read(card, offset);
        same(&format!("read at {offset:X}h"), &ours, &theirs)?;
        calls.add(Call::Read, ours.0);
    }
    Ok(())
}

/// Where a decoder that leaves out some bits would see a register again.
fn aliases(offset: u32) -> impl Iterator<Item = u32> {
    let steps = (0..ALIASES).flat_map(|k| {
        [
            0x1_0000 * (k + 1),
            0x100_0000 * (k + 1),
            0x8000_0000 + 0x1_0000 * k,
        ]
    });
    steps.map(move |step| offset + step)
}

/// Each write starts from this card, and from the picture that the last one left.
fn write(maker: &mut Maker, calls: &mut Calls, card: &Card) -> Outcome {
    let (length, short) = maker.length();
    let mut vram = Pair::new(picture(maker, length));
    let call = if !mode::is_listed(card.mode) {
        Call::WriteBadMode
    } else if card.raster > 15 {
        Call::WriteBadOperation
    } else {
        Call::Write
    };
    let mut list = of_every_kind(maker, card, length);
    if short {
        // Whole pictures are compared, and this one may be large.
        list.truncate(list.len() / 4);
    }
    for write in list {
        let (_, answer) = writes::made(&ENGINE, card, &mut vram, write)?;
        calls.add(call, answer.number);
    }
    Ok(())
}

/// Any fields, the writes that the other cases make, and a write to every register.
fn of_every_kind(maker: &mut Maker, card: &Card, length: usize) -> Vec<Write> {
    let mut list = vec![Write {
        space: maker.random.byte(),
        lanes: maker.random.byte(),
        address: maker.random.word(),
        data: maker.random.word(),
    }];
    list.extend((0..ANY_WRITES).map(|_| maker.write(card, length)));
    list.extend(OFFSETS.map(|address| Write {
        space: REGISTER,
        lanes: 15,
        address,
        data: maker.random.word(),
    }));
    list
}

fn read_back(maker: &mut Maker, calls: &mut Calls) -> Outcome {
    for length in LENGTHS {
        for address in edges(length) {
            for n in edges(length) {
                one_read_back(calls, length, address, n)?;
            }
        }
    }
    for _ in 0..ANY_READ_BACKS {
        let length = maker.length().0;
        let n = maker.random.below(length as u64 + 2) as u32;
        let last = (length as u32).wrapping_sub(n);
        let any = maker.random.below(length as u64 + 2) as u32;
        let word = maker.random.word();
        for address in [any, word, last, last.wrapping_add(1)] {
            one_read_back(calls, length, address, n)?;
            one_read_back(calls, length, address, word)?;
        }
    }
    Ok(())
}

/// Addresses, and numbers of pixels.
fn edges(length: usize) -> [u32; 9] {
    let low = length as u32;
    let (less, more) = (low.wrapping_sub(1), low.wrapping_add(1));
    [0, 1, 63, 64, less, low, more, 1 << 31, u32::MAX]
}

fn one_read_back(calls: &mut Calls, length: usize, address: u32, n: u32) -> Outcome {
    let ours = model::read_back(length as u64, u64::from(address), u64::from(n));
    let theirs = engine::read_back(length, address, n);
    let what = format!("read-back of {n} from {address} of {length}");
    same(&what, &ours, &theirs)?;
    calls.add(Call::ReadBack, ours);
    Ok(())
}

/// "Of a and b bits 3:0 count."
fn composites() -> Outcome {
    for a in 0..=u8::MAX {
        for b in 0..=u8::MAX {
            let ours = pixel::composite(u32::from(a % 16), u32::from(b % 16));
            let theirs = u32::from(engine::compose(a, b));
            same(&format!("composite of {a} and {b}"), &ours, &theirs)?;
        }
    }
    Ok(())
}
