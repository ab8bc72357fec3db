//! Reads a PNG of four bits a pixel with a palette, and checks its checksums.

use super::inflate::inflate;

/// What a PNG holds.
pub struct Png {
    pub width: usize,
    pub height: usize,
    pub palette: Vec<[u8; 3]>,
    /// The number of each pixel in the palette.
    pub pixels: Vec<u8>,
}

pub fn read(bytes: &[u8]) -> Result<Png, String> {
    let chunks = chunks(bytes)?;
    let names: Vec<&[u8]> = chunks.iter().map(|(name, _)| *name).collect();
    if names != [b"IHDR", b"PLTE", b"IDAT", b"IEND"] {
        return Err(format!("the chunks are {names:?}"));
    }
    let header = chunks[0].1;
    if header.len() != 13 || header[8..] != [4, 3, 0, 0, 0] {
        return Err(format!("the header is {header:?}"));
    }
    let (width, height) = (number(&header[..4]), number(&header[4..8]));
    let palette = chunks[1]
        .1
        .chunks(3)
        .map(|entry| [entry[0], entry[1], entry[2]]);
    Ok(Png {
        width,
        height,
        palette: palette.collect(),
        pixels: pixels(&zlib(chunks[2].1)?, width, height)?,
    })
}

fn number(bytes: &[u8]) -> usize {
    bytes
        .iter()
        .fold(0, |number, byte| 256 * number + usize::from(*byte))
}

type Chunk<'a> = (&'a [u8], &'a [u8]);

fn chunks(bytes: &[u8]) -> Result<Vec<Chunk<'_>>, String> {
    let mut rest = bytes
        .strip_prefix(b"\x89PNG\r\n\x1a\n")
        .ok_or("there is no signature")?;
    let mut chunks = Vec::new();
    while !rest.is_empty() {
        let length = number(rest.get(..4).ok_or("a length is cut off")?);
        let named = rest.get(4..8 + length).ok_or("a chunk is cut off")?;
        let check = rest
            .get(8 + length..12 + length)
            .ok_or("a check is cut off")?;
        if number(check) != crc(named) as usize {
            return Err(format!("a chunk's check is {check:?}"));
        }
        chunks.push(named.split_at(4));
        rest = &rest[12 + length..];
    }
    Ok(chunks)
}

/// The CRC by division, highest power first: each byte turned around, and the result again.
fn crc(bytes: &[u8]) -> u32 {
    let mut remainder = 0xFFFF_FFFF_u32;
    for byte in bytes {
        remainder ^= u32::from(byte.reverse_bits()) << 24;
        for _ in 0..8 {
            let is_high = remainder >= 1 << 31;
            remainder <<= 1;
            if is_high {
                remainder ^= 0x04C1_1DB7;
            }
        }
    }
    (remainder ^ 0xFFFF_FFFF).reverse_bits()
}

fn zlib(bytes: &[u8]) -> Result<Vec<u8>, String> {
    let [method, flags, stream @ ..] = bytes else {
        return Err("there is no zlib header".to_string());
    };
    let is_right = (256 * u32::from(*method) + u32::from(*flags)) % 31 == 0;
    if method % 16 != 8 || method / 16 > 7 || flags / 32 % 2 == 1 || !is_right {
        return Err(format!("the zlib header is {method} {flags}"));
    }
    let (content, used) = inflate(stream)?;
    let check = stream.get(used..).ok_or("there is no check")?;
    if check.len() != 4 || number(check) != adler(&content) {
        return Err(format!("the check of the content is {check:?}"));
    }
    Ok(content)
}

fn adler(content: &[u8]) -> usize {
    let sum: usize = content.iter().map(|byte| usize::from(*byte)).sum();
    let weights = (1..=content.len()).rev();
    let weighed: usize = weights
        .zip(content)
        .map(|(weight, byte)| weight * usize::from(*byte))
        .sum();
    (content.len() + weighed) % 65_521 * 65_536 + (1 + sum) % 65_521
}

fn pixels(content: &[u8], width: usize, height: usize) -> Result<Vec<u8>, String> {
    let line_bytes = 1 + width.div_ceil(2);
    if content.len() != line_bytes * height {
        return Err(format!("the content has {} bytes", content.len()));
    }
    let mut pixels = Vec::new();
    for line in content.chunks(line_bytes) {
        if line[0] != 0 {
            return Err(format!("filter {}", line[0]));
        }
        let both = line[1..].iter().flat_map(|byte| [byte / 16, byte % 16]);
        pixels.extend(both.take(width));
    }
    Ok(pixels)
}
