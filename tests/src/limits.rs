//! Ask 6: the largest number of entries, one less and one more, with what each call must answer, worked out by hand. The number
//! before it is there too. The bytes are put together here, by no side's code.

use crate::model::trace::{self, Ran};
use crate::model::{self, Card, Write, FRAME, REGISTER};
use crate::recorded::Run;

/// The calls of one side.
pub struct Calls {
    pub append: fn(&mut [u8], usize, Write) -> (u32, u32),
    /// None where a side has no such call.
    pub extend: Option<fn(&mut [u8], usize, Write) -> (u32, u32)>,
    pub check: fn(&[u8]) -> (u32, u32),
    pub run: Run,
    pub write: fn(&mut Card, &mut [u8], Write) -> model::Answer,
    /// What a new reader leaves of these bytes and of the picture: its number, the entries applied, the pixels and those changed.
    pub arrives: fn(&[u8], &mut [u8]) -> [u32; 4],
}

const VRAM: u32 = 64;

/// Entries; what check answers; the number of a run; what an append answers; the number after 15 and after 16 bytes.
type Limit = (u32, (u32, u32), u32, (u32, u32), [u32; 2]);

const LIMITS: [Limit; 5] = [
    (4_096, (0, VRAM), 0, (0, 49_180), [0, 0]),
    (4_097, (0, VRAM), 0, (0, 49_192), [0, 0]),
    (65_535, (0, VRAM), 0, (0, 786_448), [0, 0]),
    (65_536, (0, VRAM), 0, (11, 0), [0, 0]),
    (65_537, (10, 0), 10, (10, 0), [0, 10]),
];

const SIMPLE: Write = Write {
    space: FRAME,
    lanes: 15,
    address: 0,
    data: 0x4433_2211,
};

/// What any number of them leave.
const DRAWN: [u8; VRAM as usize] = {
    let mut picture = [0; VRAM as usize];
    (picture[0], picture[1], picture[2], picture[3]) = (0x11, 0x22, 0x33, 0x44);
    picture
};

/// A trace of so many times the simple write, and room for an entry after it.
fn bytes_of(entries: u32) -> Vec<u8> {
    let mut bytes: Vec<u8> = [entries, 16, VRAM, 16 + 12 * entries]
        .iter()
        .flat_map(|word| word.to_le_bytes())
        .collect();
    for _ in 0..entries {
        bytes.extend([0x00, 0x0F, 0, 0, 0, 0, 0, 0, 0x11, 0x22, 0x33, 0x44]);
    }
    bytes.extend([0xEE; 12]);
    bytes
}

fn is<T: PartialEq + std::fmt::Debug>(what: &str, given: T, wanted: T) -> Result<(), String> {
    if given == wanted {
        Ok(())
    } else {
        Err(format!("{what} answers {given:?}, not {wanted:?}"))
    }
}

pub fn check_all(side: &Calls) -> Result<usize, String> {
    for limit in LIMITS {
        check_one(side, limit).map_err(|why| format!("{} entries: {why}", limit.0))?;
    }
    most_pixels(side)?;
    Ok(LIMITS.len() + 1)
}

fn check_one(side: &Calls, limit: Limit) -> Result<(), String> {
    let (entries, checked, number, appended, heard) = limit;
    let buffer = bytes_of(entries);
    let used = buffer.len() - trace::ENTRY;
    is("check", (side.check)(&buffer[..used]), checked)?;
    let (whole, rest, picture) = if number == 0 {
        ([0, entries, 4 * entries, 4], 12 * entries, DRAWN)
    } else {
        ([number, 0, 0, 0], 0, [0; VRAM as usize])
    };
    let mut vram = [0; VRAM as usize];
    let part = &buffer[trace::HEADER..used];
    let ran = (side.run)(part, &mut model::reset(0), &mut vram, u32::MAX);
    is("run", totals(&ran), whole)?;
    is("run's rest", ran.rest, rest)?;
    is("run's picture", vram, picture)?;
    for (n, number) in [15, 16].into_iter().zip(heard) {
        let mut vram = [0; VRAM as usize];
        let left = (side.arrives)(&buffer[..n], &mut vram);
        is("a part that arrives", left, [number, 0, 0, 0])?;
        is("its picture", vram, [0; VRAM as usize])?;
    }
    let mut vram = [0; VRAM as usize];
    let left = (side.arrives)(&buffer[..used], &mut vram);
    is("all that arrives", left, whole)?;
    is("its picture", vram, picture)?;
    let calls = [Some(side.append), side.extend];
    for append in calls.into_iter().flatten() {
        let mut lent = buffer.clone();
        is("append", append(&mut lent, used, SIMPLE), appended)?;
        let wanted = if appended.0 == 0 {
            let mut longer = bytes_of(entries + 1);
            longer.truncate(used + trace::ENTRY);
            longer
        } else {
            buffer.clone()
        };
        is("append's buffer", lent == wanted, true)?;
    }
    Ok(())
}

fn totals(ran: &Ran) -> [u32; 4] {
    [ran.number, ran.entries, ran.pixels, ran.changed]
}

/// "the run's pixel total then never exceeds 134,217,728": the largest number of the widest fills, each of which changes every
/// pixel by exclusive-or.
fn most_pixels(side: &Calls) -> Result<(), String> {
    let mut card = model::reset(0);
    let settings = [
        (0x0020, 0xFFFF_FFFF),
        (0x0080, 0xFFFF_FFFF),
        (0x0034, 6),
        (0x0030, 0x21),
    ];
    for (address, data) in settings {
        let write = Write {
            space: REGISTER,
            lanes: 15,
            address,
            data,
        };
        is(
            "a register write",
            (side.write)(&mut card, &mut [0; 64], write).number,
            0,
        )?;
    }
    let fill = [0x00, 0x0F, 0, 0, 0, 0, 0, 0, 0xFF, 0x07, 0, 0];
    let part = fill.repeat(65_536);
    let mut vram = [0; 2_048];
    let ran = (side.run)(&part, &mut card, &mut vram, u32::MAX);
    let most = [0, 65_536, 134_217_728, 134_217_728];
    is("the widest run", totals(&ran), most)?;
    // An even number of fills.
    is("its picture", vram, [0; 2_048])
}

/// The model's calls.
pub const MODEL: Calls = Calls {
    append: trace::append,
    extend: None,
    check: trace::check,
    run: trace::run,
    write: model::write,
    arrives: |bytes, vram| {
        let mut reader = model::serial::Reader::new();
        let number = reader.chunk(bytes, &mut model::reset(0), vram);
        [number, reader.entries(), reader.pixels(), reader.changed()]
    },
};
