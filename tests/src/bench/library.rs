//! The libraries that are measured: this tree's and, with the feature `other`, another commit's. A card may be laid out
//! differently in each, so it is a block of memory here, which only its own library reads and changes.

use crate::model::{Answer, Write};
use std::ffi::c_void;
use std::ptr::from_mut;
use zevkholtai::{entries, Card};

/// A library's entries. A card must be one of that library.
pub trait Library: Copy {
    /// Its answers have the pixels changed; else 0 stands there.
    const CHANGED: bool;
    unsafe fn reset(self, card: *mut c_void, held: u8);
    unsafe fn write(self, card: *mut c_void, write: Write, vram: &mut [u8]) -> Answer;
    unsafe fn run(self, card: *mut c_void, part: &[u8], vram: &mut [u8]) -> Answer;
}

/// The entries under these names, which answer with these structs.
macro_rules! library {
    ($library:ident, $answers:ident, $changed:expr, $reset:path, $write:path, $run:path) => {
        impl Library for $library {
            const CHANGED: bool = $changed;

            unsafe fn reset(self, card: *mut c_void, held: u8) {
                $reset(card.cast(), held)
            }

            unsafe fn write(self, card: *mut c_void, write: Write, vram: &mut [u8]) -> Answer {
                let Write {
                    space,
                    lanes,
                    address,
                    data,
                } = write;
                let (place, length) = (vram.as_mut_ptr(), vram.len());
                $answers::answer($write(
                    card.cast(),
                    space,
                    lanes,
                    address,
                    data,
                    place,
                    length,
                ))
            }

            unsafe fn run(self, card: *mut c_void, part: &[u8], vram: &mut [u8]) -> Answer {
                let (place, length) = (vram.as_mut_ptr(), vram.len());
                $answers::total($run(
                    card.cast(),
                    part.as_ptr(),
                    part.len(),
                    place,
                    length,
                    u32::MAX,
                ))
            }
        }
    };
}

/// Answers of a library that counts the pixels changed.
mod with_changed {
    use crate::model;
    pub use zevkholtai::{Answer, Ran};

    pub fn answer(answer: Answer) -> model::Answer {
        model::Answer {
            number: answer.number,
            pixels: answer.count,
            changed: answer.changed,
        }
    }

    pub fn total(ran: Ran) -> model::Answer {
        model::Answer {
            number: ran.number,
            pixels: ran.pixels,
            changed: ran.changed,
        }
    }
}

#[derive(Clone, Copy)]
pub struct This;

library!(
    This,
    with_changed,
    true,
    entries::zevkholtai_reset,
    entries::zevkholtai_write,
    entries::zevkholtai_run
);

#[cfg(not(feature = "other"))]
pub use This as Other;

#[cfg(not(feature = "other"))]
pub const OTHER: Option<Other> = None;

#[cfg(feature = "other")]
#[derive(Clone, Copy)]
pub struct Other;

#[cfg(feature = "other")]
pub const OTHER: Option<Other> = Some(Other);

/// Before Ask 4 answers were shorter.
#[cfg(all(feature = "other", other_without_changed))]
mod without_changed {
    use crate::model;

    #[repr(C)]
    pub struct Answer {
        number: u32,
        count: u32,
    }

    #[repr(C)]
    pub struct Ran {
        number: u32,
        entries: u32,
        pixels: u32,
        rest: u32,
    }

    pub fn answer(answer: Answer) -> model::Answer {
        model::Answer {
            number: answer.number,
            pixels: answer.count,
            changed: 0,
        }
    }

    pub fn total(ran: Ran) -> model::Answer {
        model::Answer {
            number: ran.number,
            pixels: ran.pixels,
            changed: 0,
        }
    }
}

#[cfg(all(feature = "other", not(other_without_changed)))]
use with_changed as answers;

#[cfg(all(feature = "other", other_without_changed))]
use without_changed as answers;

#[cfg(feature = "other")]
extern "C" {
    fn other_zevkholtai_reset(card: *mut c_void, held: u8);
    fn other_zevkholtai_write(
        card: *mut c_void,
        space: u8,
        lanes: u8,
        address: u32,
        data: u32,
        vram: *mut u8,
        length: usize,
    ) -> answers::Answer;
    fn other_zevkholtai_run(
        card: *mut c_void,
        part: *const u8,
        size: usize,
        vram: *mut u8,
        length: usize,
        budget: u32,
    ) -> answers::Ran;
}

#[cfg(feature = "other")]
library!(
    Other,
    answers,
    cfg!(not(other_without_changed)),
    other_zevkholtai_reset,
    other_zevkholtai_write,
    other_zevkholtai_run
);

/// Room for a card of any layout of at most 256 bytes; on whole cache lines, so that no side has a better place than another.
#[repr(align(64))]
struct Block([u8; 256]);

const _: () = assert!(size_of::<Card>() <= 256);

/// What makes writes on a card of the library's that starts at reset, with these held planes.
pub fn card(library: impl Library, held: u8) -> impl FnMut(&mut [u8], Write) -> Answer {
    let mut block = Block([0; 256]);
    unsafe { library.reset(from_mut(&mut block.0).cast(), held) };
    move |vram, write| unsafe { library.write(from_mut(&mut block.0).cast(), write, vram) }
}

/// The number and the totals of a part, run whole on a card of the library's at reset.
pub fn run(library: impl Library, part: &[u8], vram: &mut [u8]) -> Answer {
    let mut block = Block([0; 256]);
    let card = from_mut(&mut block.0).cast();
    unsafe {
        library.reset(card, 0);
        library.run(card, part, vram)
    }
}
