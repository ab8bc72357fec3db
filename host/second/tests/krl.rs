//! KRL: which bytes and which half of one it stores and reads, its increment, and codes that come
//! back as they were stored.

mod legal;

use legal::{legal_pointer, random_bench};
use second::address::place;
use second::bench::Bench;
use second::pointer::Pointer;
use second::random::Random;
use second::Part;

/// The place of the attributes, with the block written out for each block of the pointer.
fn attributes_place(pointer: Pointer) -> usize {
    let z = [2, 2, 0, 0, 6, 6, 4, 4, 10, 10, 8, 8, 14, 14, 12, 12][pointer.z];
    place(pointer.x, pointer.y, z)
}

fn point_at(bench: &mut Bench, pointer: Pointer) -> (u8, u8) {
    let (down, across) = pointer.main_registers(Part::Ef9345);
    bench.write(0x26, down);
    bench.write(0x27, across);
    (down, across)
}

/// A write at a pointer: C, and R3 as it stands.
fn write_code(bench: &mut Bench, pointer: Pointer, c: u8, r3: u8) {
    point_at(bench, pointer);
    bench.write(0x23, r3);
    bench.write(0x20, 0x50);
    assert_eq!(bench.write(0x29, c).number, 0);
}

/// R1 and R3 after a read at a pointer.
fn read_code(bench: &mut Bench, pointer: Pointer) -> (u8, u8) {
    point_at(bench, pointer);
    assert_eq!(bench.write(0x28, 0x58).number, 0);
    (bench.processor.registers[1], bench.processor.registers[3])
}

#[test]
fn a_write_stores_c_and_one_nibble_and_nothing_else() {
    let mut random = Random::new(50);
    let mut bench = random_bench(&mut random);
    for _ in 0..4_000 {
        let pointer = legal_pointer(&mut random);
        let (c, r3) = (random.byte(), random.byte());
        let mut expected = bench.memory.clone();
        expected[pointer.place()] = c;
        let attributes = &mut expected[attributes_place(pointer)];
        *attributes = match pointer.z % 2 {
            0 => (r3 & 0xF0) | (*attributes & 0x0F),
            _ => (*attributes & 0xF0) | (r3 & 0x0F),
        };
        bench.write(0x22, 0x77);
        write_code(&mut bench, pointer, c, r3);
        assert_eq!(bench.memory, expected);
        let (down, across) = pointer.main_registers(Part::Ef9345);
        let registers = [0x50, c, 0x77, r3, 0, 0, down, across];
        assert_eq!(bench.processor.registers, registers);
    }
}

#[test]
fn a_read_gives_c_and_the_nibble_in_both_halves() {
    let mut random = Random::new(51);
    let mut bench = random_bench(&mut random);
    let memory = bench.memory.clone();
    for _ in 0..4_000 {
        let pointer = legal_pointer(&mut random);
        let attributes = memory[attributes_place(pointer)];
        let nibble = match pointer.z % 2 {
            0 => attributes >> 4,
            _ => attributes & 0x0F,
        };
        bench.write(0x22, 0x77);
        let expected = (memory[pointer.place()], 0x11 * nibble);
        assert_eq!(read_code(&mut bench, pointer), expected);
        assert_eq!(bench.processor.registers[2], 0x77, "R2 stays");
        assert_eq!(bench.memory, memory);
    }
}

#[test]
fn a_code_comes_back_and_its_neighbour_is_untouched() {
    let mut random = Random::new(52);
    let mut bench = random_bench(&mut random);
    for _ in 0..4_000 {
        let pointer = legal_pointer(&mut random);
        let neighbour = Pointer {
            z: pointer.z ^ 1,
            ..pointer
        };
        let (c, r3) = (random.byte(), 0x11 * (random.byte() % 16));
        let beside = read_code(&mut bench, neighbour);
        write_code(&mut bench, pointer, c, r3);
        assert_eq!(read_code(&mut bench, pointer), (c, r3));
        assert_eq!(read_code(&mut bench, neighbour), beside);
    }
}

#[test]
fn every_code_comes_back() {
    let mut bench = Bench::power_up();
    for z in [4, 5] {
        let pointer = Pointer { x: 17, y: 20, z };
        for code in 0..4096u16 {
            let (c, nibble) = ((code >> 4) as u8, (code % 16) as u8);
            write_code(&mut bench, pointer, c, 0x11 * nibble);
            assert_eq!(read_code(&mut bench, pointer), (c, 0x11 * nibble));
        }
    }
}

/// The codes of a row, each another than its neighbours.
fn row_of_codes() -> Vec<(u8, u8)> {
    (0..80u8)
        .map(|position| (0x41 ^ (3 * position), 0x11 * (7 * (position % 16) % 16)))
        .collect()
}

#[test]
fn a_whole_row_by_increments() {
    // Z1 and Z3 are set, and bit 6 of R6, which is the auxiliary pointer's.
    for first in [0, 10] {
        let mut random = Random::new(53);
        let mut bench = random_bench(&mut random);
        let before = bench.memory.clone();
        let start = Pointer {
            x: 0,
            y: 31,
            z: first,
        };
        let (down, across) = point_at(&mut bench, start);
        bench.write(0x26, down | 0x40);
        for (command, read) in [(0x51, false), (0x59, true)] {
            bench.write(0x20, command);
            for (position, (c, r3)) in row_of_codes().into_iter().enumerate() {
                let (x, odd) = (position as u8 / 2, position as u8 % 2);
                let pointed = [down | 0x40, across + x + 0x80 * odd];
                assert_eq!(bench.processor.registers[6..8], pointed);
                if read {
                    bench.read(0x2F);
                    assert_eq!(bench.processor.registers[1], c);
                    assert_eq!(bench.processor.registers[3], r3);
                } else {
                    bench.write(0x23, r3);
                    bench.write(0x29, c);
                }
                // LXm after the last position alone.
                let status = if position == 79 { 0x60 } else { 0x00 };
                assert_eq!(bench.read(0x20).value, status, "position {position}");
            }
            assert_eq!(bench.processor.registers[6..8], [down | 0x40, across]);
        }
        let codes = row_of_codes();
        let mut expected = before;
        for x in 0..40 {
            let (even, odd) = (codes[2 * x], codes[2 * x + 1]);
            let block = |z: usize| place(x, 31, z);
            expected[block(first)] = even.0;
            expected[block(first + 1)] = odd.0;
            let third = if first == 0 { 2 } else { 8 };
            expected[block(third)] = (even.1 & 0xF0) | (odd.1 & 0x0F);
        }
        assert_eq!(bench.memory, expected);
    }
}

#[test]
fn without_increment_the_pointer_stays() {
    for command in [0x50, 0x58] {
        for across in [0x27, 0xA7, 0x67, 0xE7] {
            let mut bench = Bench::power_up();
            bench.processor.lx_main = true;
            bench.processor.lx_auxiliary = true;
            bench.write(0x27, across);
            assert_eq!(bench.write(0x28, command).number, 0);
            assert_eq!(bench.processor.registers[7], across);
            assert_eq!(bench.processor.status(), 0x00);
        }
    }
}

#[test]
fn the_increment_leaves_the_auxiliary_pointer() {
    for command in [0x51, 0x59] {
        let mut bench = Bench::power_up();
        bench.write(0x24, 0xD9);
        bench.write(0x25, 39);
        bench.write(0x27, 0xC0 + 39);
        bench.write(0x28, command);
        assert_eq!(bench.processor.registers[4..8], [0xD9, 39, 0, 0x40]);
        assert_eq!(bench.processor.status(), 0x60);
    }
}

#[test]
fn it_is_accepted_in_either_mode() {
    let mut random = Random::new(54);
    let bench = random_bench(&mut random);
    let mut after = Vec::new();
    for tgs in [0x00, 0xC0, 0x40, 0xE0] {
        let mut bench = bench.clone();
        bench.indirect(1, tgs);
        for position in 0..80 {
            let pointer = Pointer {
                x: position / 2,
                y: 8,
                z: position % 2,
            };
            write_code(&mut bench, pointer, 0x3C, 0x5A);
        }
        after.push(bench.memory);
    }
    assert!(after.iter().all(|memory| *memory == after[0]));
    assert_ne!(after[0], bench.memory);
}

#[test]
fn an_illegal_pointer_is_refused_and_nothing_is_done() {
    for command in [0x50, 0x51, 0x58, 0x59] {
        for (down, across) in [(8, 40), (8, 0x80 + 63), (1, 0), (7, 0x80), (0x27, 3)] {
            let mut bench = random_bench(&mut Random::new(55));
            bench.processor.lx_main = true;
            for (address, value) in [(0x26, down), (0x27, across), (0x23, 0x5A)] {
                bench.write(address, value);
            }
            bench.write(0x20, command);
            let before = bench.clone();
            assert_eq!(bench.read(0x29).number, 4);
            assert_eq!(bench, before);
        }
    }
}

#[test]
fn a_read_that_executes_returns_the_register_from_before() {
    let mut bench = Bench::power_up();
    bench.memory[256] = 0xAB;
    bench.memory[2048 + 256] = 0x4D;
    bench.write(0x26, 0x08);
    bench.write(0x23, 0x12);
    bench.write(0x20, 0x58);
    assert_eq!(bench.read(0x2B).value, 0x12);
    assert_eq!(bench.read(0x23).value, 0x44);
    assert_eq!(bench.read(0x21).value, 0xAB);
    // A pointer that is written is the one used: the odd position.
    bench.write(0x2F, 0x80);
    assert_eq!(bench.read(0x23).value, 0xDD);
}
