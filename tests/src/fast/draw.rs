//! Writes that draw, each mode on its own way: registers are digested into words before the first pixel.

use super::words::{from_pixel, nonzero, spread, sum_of_bytes, twice, Change};
use super::{Drawn, Outcome, NOTHING};
use crate::model::{Card, Write};

/// Raster operation 3 takes the source.
const TAKE_SOURCE: u32 = 3;

/// The pixels of a span, or number 7 or 8. An address of 32 bits and 2,051 more don't wrap in 64 bits.
fn span(
    vram: &mut [u8],
    address: u32,
    boundary: u32,
    low: usize,
    pixels: usize,
) -> Result<&mut [u8], u32> {
    if !address.is_multiple_of(boundary) {
        return Err(7);
    }
    let first = address as usize + low;
    vram.get_mut(first..first + pixels).ok_or(8)
}

/// A span of N pixels that starts at the address.
fn pixels<const N: usize>(
    vram: &mut [u8],
    address: u32,
    boundary: u32,
) -> Result<&mut [u8; N], u32> {
    let part = span(vram, address, boundary, 0, N)?;
    part.first_chunk_mut().ok_or(8)
}

/// The plane mask without the held planes, from pixel `first` on.
fn planes(card: &Card, first: u32) -> u64 {
    from_pixel(twice(card.plane), first) & !(u64::from(card.held & 0xFF) * 0x0101_0101_0101_0101)
}

/// A source that pixel 0 would take from its byte 0 on, as the pixels from `first` on are drawn with it.
pub fn drawn(card: &Card, source: u64, first: u32) -> Change {
    Change::new(card.raster, from_pixel(source, first), planes(card, first))
}

fn drawn_block(card: &Card, first: u32) -> Change {
    let colours = u64::from(card.block[1]) << 32 | u64::from(card.block[0]);
    Change::new(TAKE_SOURCE, from_pixel(colours, first), planes(card, first))
}

pub fn simple(card: &Card, vram: &mut [u8], write: Write) -> Outcome {
    let pixels = pixels::<4>(vram, write.address, 4)?;
    let enabled = u32::from(write.lanes) & card.pixel;
    let change = drawn(card, u64::from(write.data), 0).only(spread(enabled, 0));
    let old = u32::from_le_bytes(*pixels);
    let new = change.of(u64::from(old)) as u32;
    *pixels = new.to_le_bytes();
    Ok(Drawn {
        enabled: enabled.count_ones(),
        changed: sum_of_bytes(nonzero(u64::from(old ^ new))),
    })
}

/// Thirty-two pixels, eight a turn; gives how many change.
fn stipple(pixels: &mut [u8; 32], change: impl Fn(usize) -> Change) -> u32 {
    let eights = pixels.as_chunks_mut().0.iter_mut().enumerate();
    sum_of_bytes(eights.map(|(k, eight)| change(k).apply(eight)).sum())
}

pub fn opaque_stipple(card: &Card, vram: &mut [u8], write: Write) -> Outcome {
    let pixels = pixels(vram, write.address, 4)?;
    let foreground = drawn(card, twice(card.foreground), 0);
    let background = drawn(card, twice(card.background), 0);
    let changed = stipple(pixels, |k| {
        foreground
            .or(background, spread(write.data, k))
            .only(spread(card.pixel, k))
    });
    Ok(Drawn {
        enabled: card.pixel.count_ones(),
        changed,
    })
}

pub fn transparent_stipple(card: &Card, vram: &mut [u8], write: Write) -> Outcome {
    let pixels = pixels(vram, write.address, 4)?;
    let foreground = drawn(card, twice(card.foreground), 0);
    let changed = stipple(pixels, |k| foreground.only(spread(write.data, k)));
    Ok(Drawn {
        enabled: write.data.count_ones(),
        changed,
    })
}

pub fn block_stipple(card: &Card, vram: &mut [u8], write: Write) -> Outcome {
    let pixels = pixels(vram, write.address, 4)?;
    let colours = drawn_block(card, write.address);
    let changed = stipple(pixels, |k| colours.only(spread(write.data, k)));
    Ok(Drawn {
        enabled: write.data.count_ones(),
        changed,
    })
}

/// The span of a fill, its first pixel modulo 8, and the fill mask with that pixel's bit lowest.
fn fill_span<'a>(
    card: &Card,
    vram: &'a mut [u8],
    write: Write,
) -> Result<(&'a mut [u8], u32, u32), u32> {
    let low = write.data >> 16 & 3;
    let pixels = (write.data & 2047) as usize + 1;
    let part = span(vram, write.address, 4, low as usize, pixels)?;
    Ok((part, write.address % 8 + low, card.data.rotate_right(low)))
}

/// A span on which the changes of thirty-two pixels repeat; gives how many pixels change. It goes byte by byte: in arrays of this size
/// the compiler takes sixteen at once.
fn fill(pixels: &mut [u8], change: impl Fn(usize) -> Change) -> u32 {
    let changes: [Change; 4] = std::array::from_fn(change);
    let and: [u8; 32] = std::array::from_fn(|i| changes[i / 8].and.to_le_bytes()[i % 8]);
    let xor: [u8; 32] = std::array::from_fn(|i| changes[i / 8].xor.to_le_bytes()[i % 8]);
    // A span of 2,048 has 64 turns, so no count overflows.
    let mut changed = [0u8; 32];
    let mut draw = |i: usize, pixel: &mut u8| {
        let new = (*pixel & and[i]) ^ xor[i];
        changed[i] += u8::from(*pixel != new);
        *pixel = new;
    };
    let (turns, rest) = pixels.as_chunks_mut::<32>();
    for turn in turns {
        for (i, pixel) in turn.iter_mut().enumerate() {
            draw(i, pixel);
        }
    }
    for (i, pixel) in rest.iter_mut().enumerate() {
        draw(i, pixel);
    }
    changed.into_iter().map(u32::from).sum()
}

/// The set bits of a mask that repeats over so many pixels.
fn repeated_ones(mask: u32, pixels: usize) -> u32 {
    let rest = mask & ((1 << (pixels % 32)) - 1);
    (pixels / 32) as u32 * mask.count_ones() + rest.count_ones()
}

pub fn opaque_fill(card: &Card, vram: &mut [u8], write: Write) -> Outcome {
    let (pixels, first, mask) = fill_span(card, vram, write)?;
    let foreground = drawn(card, twice(card.foreground), first);
    let background = drawn(card, twice(card.background), first);
    let enabled = pixels.len() as u32;
    let changed = fill(pixels, |k| foreground.or(background, spread(mask, k)));
    Ok(Drawn { enabled, changed })
}

pub fn transparent_fill(card: &Card, vram: &mut [u8], write: Write) -> Outcome {
    let (pixels, first, mask) = fill_span(card, vram, write)?;
    let foreground = drawn(card, twice(card.foreground), first);
    let enabled = repeated_ones(mask, pixels.len());
    let changed = fill(pixels, |k| foreground.only(spread(mask, k)));
    Ok(Drawn { enabled, changed })
}

pub fn block_fill(card: &Card, vram: &mut [u8], write: Write) -> Outcome {
    let (pixels, first, mask) = fill_span(card, vram, write)?;
    let colours = drawn_block(card, first);
    let enabled = repeated_ones(mask, pixels.len());
    let changed = fill(pixels, |k| colours.only(spread(mask, k)));
    Ok(Drawn { enabled, changed })
}

/// The accepted writes of copy mode alternate.
pub fn copy(card: &mut Card, vram: &mut [u8], write: Write) -> Outcome {
    let pixels = pixels::<32>(vram, write.address, 8)?;
    card.writing = u32::from(card.writing == 0);
    if card.writing == 1 {
        let buffer = card.buffer.as_chunks_mut().0;
        for (k, (to, from)) in buffer.iter_mut().zip(pixels.as_chunks().0).enumerate() {
            *to = (u64::from_le_bytes(*from) & spread(write.data, k)).to_le_bytes();
        }
        card.loaded = 0;
        return Ok(NOTHING);
    }
    let mask = planes(card, 0);
    let buffer = card.buffer.as_chunks().0;
    let changed = stipple(pixels, |k| {
        Change::new(card.raster, u64::from_le_bytes(buffer[k]), mask).only(spread(write.data, k))
    });
    Ok(Drawn {
        enabled: write.data.count_ones(),
        changed,
    })
}

/// The 64-byte copy's source.
pub fn load64(card: &mut Card, vram: &mut [u8], address: u32) -> Outcome {
    card.buffer = *pixels(vram, address, 64)?;
    card.loaded = 1;
    Ok(NOTHING)
}

/// The 64-byte copy's destination.
pub fn unload64(card: &mut Card, vram: &mut [u8], address: u32) -> Outcome {
    let pixels = pixels::<64>(vram, address, 64)?;
    if card.loaded == 0 {
        return Err(9);
    }
    card.loaded = 0;
    let mask = planes(card, 0);
    let sources = card.buffer.as_chunks().0;
    let eights = pixels.as_chunks_mut().0.iter_mut().zip(sources);
    let draw = |(eight, &source): (&mut [u8; 8], &[u8; 8])| {
        Change::new(card.raster, u64::from_le_bytes(source), mask).apply(eight)
    };
    Ok(Drawn {
        enabled: 64,
        changed: sum_of_bytes(eights.map(draw).sum()),
    })
}
