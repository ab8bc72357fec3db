//! What a step must leave, worked out from the bits of the command and of the registers.

use second::address::place;
use second::bench::Bench;

pub const MOVES: [u8; 12] = [
    0xD5, 0xD6, 0xD9, 0xDA, 0xE5, 0xE6, 0xE9, 0xEA, 0xF5, 0xF6, 0xF9, 0xFA,
];

/// A pointer by its bytes: Y and Z2 in the first, X, Z1 and Z0 in the second, and a Z3.
#[derive(Clone, Copy)]
struct At {
    x: u8,
    y: u8,
    z: u8,
}

fn at(down: u8, across: u8, z3: u8) -> At {
    let z1_and_z0 = [0, 2, 1, 3][usize::from(across >> 6)];
    At {
        x: across & 0x3F,
        y: down & 0x1F,
        z: 8 * z3 + 4 * (down >> 5 & 1) + z1_and_z0,
    }
}

/// The place of byte 0, 1 or 2 of a position.
fn place_of(at: At, byte: u8) -> usize {
    let z = at.z / 4 * 4 + (at.z + byte) % 4;
    place(usize::from(at.x), usize::from(at.y), usize::from(z))
}

/// The bench after a step of an EF9345 whose pointers a move has been begun with, but for the marks.
pub fn expected_step(before: &Bench) -> Bench {
    let mut after = before.clone();
    let [command, _, _, _, r4, r5, r6, r7] = before.processor.registers;
    if !before.processor.busy {
        return after;
    }
    if !MOVES.contains(&command) {
        after.processor.busy = false;
        return after;
    }
    let (main, auxiliary) = (at(r6, r7, r6 >> 7), at(r4, r5, r6 >> 6 & 1));
    let (source, destination) = match command & 0x0C {
        0x04 => (main, auxiliary),
        _ => (auxiliary, main),
    };
    for byte in 0..(command >> 4) - 0x0C {
        let value = after.memory[place_of(source, byte)];
        after.memory[place_of(destination, byte)] = value;
        after.processor.registers[1] = value;
    }
    let next = |across: u8| {
        if across & 0x3F == 39 {
            across & 0xC0
        } else {
            across + 1
        }
    };
    after.processor.registers[5] = next(r5);
    after.processor.registers[7] = next(r7);
    if command & 0x03 == 0x01 {
        after.processor.busy = main.x != 39 && auxiliary.x != 39;
    } else if main.x == 39 {
        let y = match main.y {
            0 => 0,
            31 => 8,
            y => y + 1,
        };
        after.processor.registers[6] = r6 & 0xE0 | y;
    }
    after
}
