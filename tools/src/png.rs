//! PNG pictures of 8 bits a pixel, grey or with a palette. Nothing is compressed: the bytes stand in stored blocks, which
//! needs no library and no more than this page.

const SIGNATURE: [u8; 8] = *b"\x89PNG\r\n\x1a\n";
const GREY: u8 = 0;
const BY_PALETTE: u8 = 3;
/// The most bytes that a stored block holds.
const BLOCK: usize = 65_535;

pub type Palette = [[u8; 3]; 256];

/// The picture's bytes; `columns` divides the number of pixels.
pub fn encode(columns: usize, pixels: &[u8], palette: Option<&Palette>) -> Vec<u8> {
    let mut header = Vec::new();
    for size in [columns, pixels.len() / columns] {
        header.extend_from_slice(&(size as u32).to_be_bytes());
    }
    let colour = if palette.is_some() { BY_PALETTE } else { GREY };
    header.extend_from_slice(&[8, colour, 0, 0, 0]);

    let mut bytes = SIGNATURE.to_vec();
    chunk(&mut bytes, b"IHDR", &header);
    if let Some(palette) = palette {
        chunk(&mut bytes, b"PLTE", palette.as_flattened());
    }
    chunk(&mut bytes, b"IDAT", &stored(&rows(columns, pixels)));
    chunk(&mut bytes, b"IEND", &[]);
    bytes
}

/// The rows, each after the number of its filter: 0, none.
fn rows(columns: usize, pixels: &[u8]) -> Vec<u8> {
    let mut bytes = Vec::with_capacity(pixels.len() + pixels.len() / columns);
    for row in pixels.chunks(columns) {
        bytes.push(0);
        bytes.extend_from_slice(row);
    }
    bytes
}

fn chunk(bytes: &mut Vec<u8>, name: &[u8; 4], content: &[u8]) {
    bytes.extend_from_slice(&(content.len() as u32).to_be_bytes());
    bytes.extend_from_slice(name);
    bytes.extend_from_slice(content);
    let sum = crc(crc(u32::MAX, name), content) ^ u32::MAX;
    bytes.extend_from_slice(&sum.to_be_bytes());
}

/// The bytes as a zlib stream.
fn stored(content: &[u8]) -> Vec<u8> {
    let mut bytes = vec![0x78, 0x01];
    let mut blocks = content.chunks(BLOCK).peekable();
    while let Some(block) = blocks.next() {
        let size = block.len() as u16;
        bytes.push(u8::from(blocks.peek().is_none()));
        bytes.extend_from_slice(&size.to_le_bytes());
        bytes.extend_from_slice(&(!size).to_le_bytes());
        bytes.extend_from_slice(block);
    }
    bytes.extend_from_slice(&adler(content).to_be_bytes());
    bytes
}

const fn crc_of_byte(byte: u32) -> u32 {
    let mut sum = byte;
    let mut bit = 0;
    while bit < 8 {
        sum = (sum >> 1) ^ (0xEDB8_8320 * (sum & 1));
        bit += 1;
    }
    sum
}

const CRC: [u32; 256] = {
    let mut table = [0; 256];
    let mut byte = 0;
    while byte < 256 {
        table[byte] = crc_of_byte(byte as u32);
        byte += 1;
    }
    table
};

/// CRC-32 goes on from `sum` over these bytes.
fn crc(sum: u32, bytes: &[u8]) -> u32 {
    bytes.iter().fold(sum, |sum, byte| {
        (sum >> 8) ^ CRC[(sum as u8 ^ byte) as usize]
    })
}

fn adler(bytes: &[u8]) -> u32 {
    let (low, high) = bytes.iter().fold((1, 0), |(low, high), byte| {
        let low = (low + u32::from(*byte)) % 65_521;
        (low, (high + low) % 65_521)
    });
    high << 16 | low
}
