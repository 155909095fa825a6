//! The library's serial reader, with the model's card.

use crate::model;
use zevkholtai::Card;
pub use zevkholtai::Reader;

pub fn chunk(reader: &mut Reader, bytes: &[u8], card: &mut model::Card, vram: &mut [u8]) -> u32 {
    let left = reader.chunk(Card::from(&*card), bytes, vram);
    *reader = left.reader;
    *card = model::Card::from(&left.card);
    reader.number
}

pub fn end(reader: &mut Reader) -> u32 {
    *reader = reader.end();
    reader.number
}
