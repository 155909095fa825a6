//! The structs of include/zevkholtai.h, field for field. What each means is said there.

#[repr(C)]
#[derive(Clone, Copy, PartialEq, Eq, Debug)]
pub struct Registers {
    pub foreground: u32,
    pub background: u32,
    pub plane: u32,
    pub mode: u32,
    pub raster: u32,
    pub bresenham1: u32,
    pub bresenham2: u32,
    pub bresenham3: u32,
    pub fill: u32,
    pub block: [u32; 8],
}

/// A mark, here and below, is set where it is not 0; the library stores 0 or 1.
#[repr(C)]
#[derive(Clone, Copy, PartialEq, Eq, Debug)]
pub struct Mask {
    pub bits: u32,
    pub marked: u32,
}

#[repr(C)]
#[derive(Clone, Copy, PartialEq, Eq, Debug)]
pub struct Copier {
    pub buffer: [u8; 64],
    pub loaded: u32,
    pub writing: u32,
}

#[repr(C)]
#[derive(Clone, Copy, PartialEq, Eq, Debug)]
pub struct Line {
    pub place: i32,
    pub error: i32,
    pub kept: u32,
}

#[repr(C)]
#[derive(Clone, Copy, PartialEq, Eq, Debug)]
pub struct Card {
    pub registers: Registers,
    pub mask: Mask,
    pub copier: Copier,
    pub line: Line,
    pub held: u32,
}

#[repr(C)]
#[derive(Clone, Copy, PartialEq, Eq, Debug)]
pub struct Answer {
    pub number: u32,
    pub count: u32,
    pub changed: u32,
}

#[repr(C)]
#[derive(Clone, Copy, PartialEq, Eq, Debug)]
pub struct Reading {
    pub number: u32,
    pub value: u32,
}

#[repr(C)]
#[derive(Clone, Copy, PartialEq, Eq, Debug)]
pub struct Checked {
    pub number: u32,
    pub length: u32,
}

#[repr(C)]
#[derive(Clone, Copy, PartialEq, Eq, Debug)]
pub struct Ran {
    pub number: u32,
    pub entries: u32,
    pub pixels: u32,
    pub changed: u32,
    pub rest: u32,
}

#[repr(C)]
#[derive(Clone, Copy, PartialEq, Eq, Debug)]
pub struct Reader {
    pub number: u32,
    pub opened: u32,
    pub announced: u32,
    pub applied: u32,
    pub pixels: u32,
    pub changed: u32,
    pub filled: u32,
    pub waiting: [u8; 16],
}

#[repr(C)]
#[derive(Clone, Copy, PartialEq, Eq, Debug)]
pub struct Fed {
    pub reader: Reader,
    pub card: Card,
}

/// The bytes of a card.
pub const CARD_SIZE: usize = 164;

const _: () = {
    use core::mem::{offset_of, size_of};
    assert!(size_of::<Registers>() == 68 && size_of::<Mask>() == 8);
    assert!(size_of::<Copier>() == 72 && size_of::<Line>() == 12 && size_of::<Card>() == CARD_SIZE);
    assert!(size_of::<Answer>() == 12 && size_of::<Reading>() == 8 && size_of::<Checked>() == 8);
    assert!(size_of::<Ran>() == 20 && size_of::<Reader>() == 44 && size_of::<Fed>() == 208);
    assert!(offset_of!(Card, registers.foreground) == 0);
    assert!(offset_of!(Card, registers.background) == 4);
    assert!(offset_of!(Card, registers.plane) == 8);
    assert!(offset_of!(Card, registers.mode) == 12);
    assert!(offset_of!(Card, registers.raster) == 16);
    assert!(offset_of!(Card, registers.bresenham1) == 20);
    assert!(offset_of!(Card, registers.bresenham2) == 24);
    assert!(offset_of!(Card, registers.bresenham3) == 28);
    assert!(offset_of!(Card, registers.fill) == 32);
    assert!(offset_of!(Card, registers.block) == 36);
    assert!(offset_of!(Card, mask.bits) == 68);
    assert!(offset_of!(Card, mask.marked) == 72);
    assert!(offset_of!(Card, copier.buffer) == 76);
    assert!(offset_of!(Card, copier.loaded) == 140);
    assert!(offset_of!(Card, copier.writing) == 144);
    assert!(offset_of!(Card, line.place) == 148);
    assert!(offset_of!(Card, line.error) == 152);
    assert!(offset_of!(Card, line.kept) == 156);
    assert!(offset_of!(Card, held) == 160);
    assert!(offset_of!(Reader, number) == 0);
    assert!(offset_of!(Reader, opened) == 4);
    assert!(offset_of!(Reader, announced) == 8);
    assert!(offset_of!(Reader, applied) == 12);
    assert!(offset_of!(Reader, pixels) == 16);
    assert!(offset_of!(Reader, changed) == 20);
    assert!(offset_of!(Reader, filled) == 24);
    assert!(offset_of!(Reader, waiting) == 28);
    assert!(offset_of!(Fed, card) == 44);
};
