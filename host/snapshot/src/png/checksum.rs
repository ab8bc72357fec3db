//! The two checksums of a PNG: CRC-32 for chunks, Adler-32 for the zlib stream.

/// CRC-32 with the polynomial EDB88320, lowest bit first.
pub fn crc32(bytes: &[u8]) -> u32 {
    let mut crc = u32::MAX;
    for byte in bytes {
        crc ^= u32::from(*byte);
        for _ in 0..8 {
            let taken = 0xEDB8_8320 * (crc & 1);
            crc = crc >> 1 ^ taken;
        }
    }
    !crc
}

/// The sum of the bytes from 1 on, and the sum of those sums, both modulo 65,521.
pub fn adler32(bytes: &[u8]) -> u32 {
    const MODULUS: u32 = 65_521;
    let (mut sum, mut sums) = (1, 0);
    for byte in bytes {
        sum = (sum + u32::from(*byte)) % MODULUS;
        sums = (sums + sum) % MODULUS;
    }
    sums << 16 | sum
}
