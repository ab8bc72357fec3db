//! A picture as a PNG of four bits a pixel, with the eight colours as its palette.

mod bits;
mod checksum;
mod deflate;
mod matches;

use crate::colour::Colour;
use crate::raster::Raster;
use checksum::{adler32, crc32};
use deflate::deflate;

const SIGNATURE: [u8; 8] = [0x89, b'P', b'N', b'G', 0x0D, 0x0A, 0x1A, 0x0A];

/// The bytes of the PNG.
pub fn png(raster: &Raster) -> Vec<u8> {
    let mut bytes = SIGNATURE.to_vec();
    chunk(b"IHDR", &header(raster), &mut bytes);
    let palette = Colour::ALL.map(Colour::red_green_blue).concat();
    chunk(b"PLTE", &palette, &mut bytes);
    chunk(b"IDAT", &zlib(&lines(raster)), &mut bytes);
    chunk(b"IEND", &[], &mut bytes);
    bytes
}

/// Length, name, content and a checksum of the last two.
fn chunk(name: &[u8; 4], content: &[u8], bytes: &mut Vec<u8>) {
    bytes.extend((content.len() as u32).to_be_bytes());
    let start = bytes.len();
    bytes.extend(name);
    bytes.extend(content);
    bytes.extend(crc32(&bytes[start..]).to_be_bytes());
}

/// Width and height; 4 bits a pixel, colour type 3 (by palette), the only compression and filtering
/// that there are, no interlace.
fn header(raster: &Raster) -> Vec<u8> {
    let mut header = Vec::new();
    header.extend((raster.width as u32).to_be_bytes());
    header.extend((raster.height as u32).to_be_bytes());
    header.extend([4, 3, 0, 0, 0]);
    header
}

/// Each line is a byte 0, no filter, and then two pixels a byte, the left one in the high four bits.
fn lines(raster: &Raster) -> Vec<u8> {
    let mut bytes = Vec::new();
    for line in raster.pixels.chunks(raster.width) {
        bytes.push(0);
        let numbers: Vec<u8> = line.iter().map(|colour| colour.number()).collect();
        bytes.extend(numbers.chunks(2).map(pair));
    }
    bytes
}

fn pair(pixels: &[u8]) -> u8 {
    pixels[0] << 4 | pixels.get(1).unwrap_or(&0)
}

/// A zlib stream: deflate with a window of 32,768 bytes, then the checksum of what is compressed.
fn zlib(content: &[u8]) -> Vec<u8> {
    let mut bytes = vec![0x78, 0x01];
    bytes.extend(deflate(content));
    bytes.extend(adler32(content).to_be_bytes());
    bytes
}
