//! "Registers": what the card holds, and what reset leaves in it.

/// A mark is a word, as a host keeps it: set where it is not 0, and 1 where the card itself sets it.
#[derive(Clone, PartialEq, Eq, Debug)]
pub struct Card {
    pub foreground: u32,
    pub background: u32,
    pub plane: u32,
    /// The pixel mask, one value for both offsets.
    pub pixel: u32,
    pub mode: u32,
    pub raster: u32,
    /// The data register, used as the fill mask.
    pub data: u32,
    pub block: [u32; 8],
    /// Bresenham 1, 2 and 3.
    pub bresenham: [u32; 3],
    pub buffer: [u8; 64],
    /// The pixel mask is one-shot.
    pub marked: u32,
    /// The buffer holds a 64-byte source.
    pub loaded: u32,
    /// The copy direction: the next accepted copy-mode write draws the destination.
    pub writing: u32,
    /// Ask 5: "Place and error are kept apart from the registers". A card handed in may have any numbers here.
    pub place: i32,
    pub error: i32,
    /// A line was accepted, so place and error are those left behind.
    pub kept: u32,
    /// Bits 7:0 are the held planes H; no write can change any of it.
    pub held: u32,
}

/// The table's column "At reset", and the paragraph on what else reset chooses.
pub fn reset(held: u8) -> Card {
    Card {
        foreground: 0,
        background: 0,
        plane: 0xFFFF_FFFF,
        pixel: 0xFFFF_FFFF,
        mode: 0,
        raster: 3,
        data: 0,
        block: [0; 8],
        // Ask 5: "new registers reset to 0"
        bresenham: [0; 3],
        buffer: [0; 64],
        marked: 0,
        loaded: 0,
        writing: 0,
        place: 0,
        error: 0,
        kept: 0,
        held: u32::from(held),
    }
}
