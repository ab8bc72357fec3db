//! A register access, and recorded ones: pairs of bytes, an address and a value.

/// A write of a value to the register at an address.
#[derive(Clone, Copy, Debug, PartialEq, Eq)]
pub struct Access {
    pub address: u8,
    pub value: u8,
}

/// The accesses that were recorded. An odd last byte is ignored.
pub fn of_bytes(bytes: &[u8]) -> Vec<Access> {
    let access = |pair: &[u8]| Access {
        address: pair[0],
        value: pair[1],
    };
    bytes.chunks_exact(2).map(access).collect()
}

/// The bytes that record accesses.
pub fn to_bytes(accesses: &[Access]) -> Vec<u8> {
    let pair = |access: &Access| [access.address, access.value];
    accesses.iter().flat_map(pair).collect()
}
