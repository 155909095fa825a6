//! The functions of include/zevkholtai.h, as C has them.

use crate::layout::{Answer, Card, Checked, Fed, Ran, Reader, Reading};

extern "C" {
    pub fn zevkholtai_reset(card: *mut Card, held: u8);
    pub fn zevkholtai_write(
        card: *mut Card,
        space: u8,
        lanes: u8,
        address: u32,
        data: u32,
        vram: *mut u8,
        length: usize,
    ) -> Answer;
    pub fn zevkholtai_read(card: Card, offset: u32) -> Reading;
    pub fn zevkholtai_read_back(length: usize, address: u32, n: u32) -> u32;
    pub fn zevkholtai_compose(a: u8, b: u8) -> u8;
    pub fn zevkholtai_start(buffer: *mut u8, size: usize, length: u32) -> Checked;
    pub fn zevkholtai_append(
        buffer: *mut u8,
        size: usize,
        used: usize,
        space: u8,
        lanes: u8,
        address: u32,
        data: u32,
    ) -> Checked;
    pub fn zevkholtai_extend(
        buffer: *mut u8,
        size: usize,
        used: usize,
        space: u8,
        lanes: u8,
        address: u32,
        data: u32,
    ) -> Checked;
    pub fn zevkholtai_check(bytes: *const u8, size: usize) -> Checked;
    pub fn zevkholtai_run(
        card: *mut Card,
        part: *const u8,
        size: usize,
        vram: *mut u8,
        length: usize,
        budget: u32,
    ) -> Ran;
    pub fn zevkholtai_new_reader() -> Reader;
    pub fn zevkholtai_chunk(
        reader: Reader,
        card: Card,
        bytes: *const u8,
        size: usize,
        vram: *mut u8,
        length: usize,
    ) -> Fed;
    pub fn zevkholtai_end(reader: Reader) -> Reader;
}
