//! Bits gathered into bytes, as deflate has them.

/// Bytes are filled from their lowest bit up.
#[derive(Default)]
pub struct Bits {
    bytes: Vec<u8>,
    /// The bits of the last byte that are in use; 0 is a whole byte.
    used: u32,
}

impl Bits {
    /// A number of some bits, its lowest first.
    pub fn number(&mut self, number: u32, bits: u32) {
        for bit in 0..bits {
            self.bit(number >> bit & 1);
        }
    }

    /// A Huffman code of some bits, its highest first.
    pub fn code(&mut self, code: u32, bits: u32) {
        for bit in (0..bits).rev() {
            self.bit(code >> bit & 1);
        }
    }

    fn bit(&mut self, bit: u32) {
        if self.used == 0 {
            self.bytes.push(0);
        }
        if let Some(last) = self.bytes.last_mut() {
            *last |= (bit as u8) << self.used;
        }
        self.used = (self.used + 1) % 8;
    }

    pub fn bytes(self) -> Vec<u8> {
        self.bytes
    }
}
