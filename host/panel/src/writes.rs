//! Inputs for `panel`: random writes as pairs of bytes.

use second::bench::Bench;
use second::random::Random;
use second::sequence::Sequence;
use second::Operation;

/// So many bytes of the writes of a sequence. An odd length cuts the last pair.
pub fn planned_writes(seed: u64, length: usize) -> Vec<u8> {
    let mut sequence = Sequence::new(seed);
    let mut bench = Bench::power_up();
    let mut bytes = Vec::new();
    while bytes.len() < length {
        // Plans are made for the state that the writes alone have left.
        let operation = sequence.operation(&bench.processor, &bench.memory);
        if let Operation::Write { address, value } = operation {
            bench.write(address, value);
            bytes.extend([address, value]);
        }
    }
    bytes.truncate(length);
    bytes
}

/// So many bytes, any at all.
pub fn any_writes(seed: u64, length: usize) -> Vec<u8> {
    Random::new(seed).bytes(length)
}

/// Any bytes as both pointers and as R1, and an execution of any command, or of one that uses a
/// pointer: the last write may then get every number that a write can.
pub fn any_execution(seed: u64) -> Vec<u8> {
    let mut random = Random::new(seed);
    let mut bytes = Vec::new();
    for address in 0x24..0x28 {
        bytes.extend([address, random.byte()]);
    }
    let any = random.byte();
    bytes.extend([0x20, random.choice(&[any, 0x00, 0x01, 0x30, 0x34, 0x50])]);
    bytes.extend([0x29, random.byte()]);
    bytes
}
