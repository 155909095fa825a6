//! Binary PGM pictures of 8 bits a pixel.

/// The picture's bytes; `columns` divides their number.
pub fn encode(columns: usize, pixels: &[u8]) -> Vec<u8> {
    let rows = pixels.len() / columns;
    let mut bytes = format!("P5\n{columns} {rows}\n255\n").into_bytes();
    bytes.extend_from_slice(pixels);
    bytes
}

/// The pixels of a PGM; else what is wrong with it.
pub fn decode(bytes: &[u8]) -> Result<&[u8], &'static str> {
    let mut rest = bytes
        .strip_prefix(b"P5")
        .ok_or("it is no binary PGM (P5)")?;
    let mut numbers = [0; 3];
    for number in &mut numbers {
        (*number, rest) = next_number(rest).ok_or("its header is damaged")?;
    }
    let [columns, rows, largest] = numbers;
    if largest != 255 {
        return Err("its largest grey is not 255");
    }
    match rest.split_first() {
        Some((space, pixels)) if space.is_ascii_whitespace() => {
            if columns.checked_mul(rows) != Some(pixels.len()) {
                return Err("it has not as many bytes as its header says");
            }
            Ok(pixels)
        }
        _ => Err("its header is damaged"),
    }
}

/// The number after some blanks and comments, and the bytes after it.
fn next_number(bytes: &[u8]) -> Option<(usize, &[u8])> {
    let mut rest = bytes;
    loop {
        let trimmed = rest.trim_ascii_start();
        if trimmed.len() == rest.len() {
            return None;
        }
        if trimmed.first() != Some(&b'#') {
            return leading_number(trimmed);
        }
        let end = trimmed.iter().position(|byte| *byte == b'\n')?;
        rest = trimmed.get(end..)?;
    }
}

fn leading_number(bytes: &[u8]) -> Option<(usize, &[u8])> {
    let end = bytes.iter().position(|byte| !byte.is_ascii_digit())?;
    let (digits, rest) = bytes.split_at(end);
    let number = std::str::from_utf8(digits).ok()?.parse().ok()?;
    Some((number, rest))
}
