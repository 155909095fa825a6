//! The card as the library has it, and as the model has it.

use crate::model;
use zevkholtai::{Card, Copier, Line, Mask, Registers};

impl From<&model::Card> for Card {
    fn from(card: &model::Card) -> Card {
        let [bresenham1, bresenham2, bresenham3] = card.bresenham;
        Card {
            registers: Registers {
                foreground: card.foreground,
                background: card.background,
                plane: card.plane,
                mode: card.mode,
                raster: card.raster,
                bresenham1,
                bresenham2,
                bresenham3,
                fill: card.data,
                block: card.block,
            },
            mask: Mask {
                bits: card.pixel,
                marked: card.marked,
            },
            copier: Copier {
                buffer: card.buffer,
                loaded: card.loaded,
                writing: card.writing,
            },
            line: Line {
                place: card.place,
                error: card.error,
                kept: card.kept,
            },
            held: card.held,
        }
    }
}

impl From<&Card> for model::Card {
    fn from(card: &Card) -> model::Card {
        let Card {
            registers,
            mask,
            copier,
            line,
            held,
        } = card;
        model::Card {
            foreground: registers.foreground,
            background: registers.background,
            plane: registers.plane,
            pixel: mask.bits,
            mode: registers.mode,
            raster: registers.raster,
            bresenham: [
                registers.bresenham1,
                registers.bresenham2,
                registers.bresenham3,
            ],
            data: registers.fill,
            block: registers.block,
            buffer: copier.buffer,
            marked: mask.marked,
            loaded: copier.loaded,
            writing: copier.writing,
            place: line.place,
            error: line.error,
            kept: line.kept,
            held: *held,
        }
    }
}
