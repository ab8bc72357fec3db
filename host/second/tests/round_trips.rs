//! Round trips: codes by KRF and bytes by OCT come back as they were stored, and nothing else
//! moves.

mod legal;

use legal::{legal_pointer, random_bench};
use second::bench::Bench;
use second::pointer::Pointer;
use second::random::Random;
use second::Part;

/// The place of byte 0, 1 or 2 of a code, worked out here by the district's four blocks.
fn code_place(pointer: Pointer, byte: usize) -> usize {
    let district = pointer.z - pointer.z % 4;
    let blocks = [district, district + 1, district + 2, district + 3];
    let z = blocks[(pointer.z % 4 + byte) % 4];
    Pointer { z, ..pointer }.place()
}

#[test]
fn krf_stores_three_bytes_and_reads_them_back() {
    let mut random = Random::new(1);
    let mut bench = random_bench(&mut random);
    for _ in 0..4_000 {
        let pointer = legal_pointer(&mut random);
        let code = [random.byte(), random.byte(), random.byte()];
        let (down, across) = pointer.main_registers(Part::Ef9345);
        let mut expected = bench.memory.clone();
        for byte in 0..3 {
            expected[code_place(pointer, byte)] = code[byte];
        }

        for (address, value) in [
            (0x26, down),
            (0x27, across),
            (0x22, code[1]),
            (0x23, code[2]),
        ] {
            assert_eq!(bench.write(address, value).number, 0);
        }
        bench.write(0x20, 0x00);
        assert_eq!(bench.write(0x29, code[0]).number, 0);
        assert_eq!(bench.memory, expected);

        for address in [0x21, 0x22, 0x23] {
            bench.write(address, !code[0]);
        }
        assert_eq!(bench.write(0x28, 0x08).number, 0);
        assert_eq!(bench.processor.registers[1..4], code);
        assert_eq!(bench.memory, expected);
        assert_eq!(bench.processor.registers[6..8], [down, across]);
    }
}

#[test]
fn krf_takes_the_third_byte_from_its_own_district() {
    for (z, blocks) in [
        (0, [0, 1, 2]),
        (1, [1, 2, 3]),
        (6, [6, 7, 4]),
        (15, [15, 12, 13]),
    ] {
        let mut bench = Bench::power_up();
        for block in 0..16 {
            bench.memory[1024 * block] = block as u8;
        }
        let (down, across) = Pointer { x: 0, y: 0, z }.main_registers(Part::Ef9345);
        bench.write(0x26, down);
        bench.write(0x27, across);
        bench.write(0x28, 0x08);
        assert_eq!(bench.processor.registers[1..4], blocks);
    }
}

#[test]
fn a_row_by_krf_with_increment() {
    let mut bench = Bench::power_up();
    bench.write(0x26, 0x1F);
    bench.write(0x20, 0x01);
    bench.write(0x22, 0xB0);
    bench.write(0x23, 0xA0);
    for x in 0..40u8 {
        assert_eq!(bench.processor.registers[7], x);
        assert_eq!(bench.write(0x29, x + 1).number, 0);
        let status = if x == 39 { 0x60 } else { 0x00 };
        assert_eq!(bench.read(0x20).value, status);
    }
    assert_eq!(bench.processor.registers[7], 0);
    bench.write(0x20, 0x09);
    for x in 0..40u8 {
        bench.read(0x2F);
        assert_eq!(bench.processor.registers[1..4], [x + 1, 0xB0, 0xA0]);
    }
    assert_eq!(bench.processor.status(), 0x60);
}

/// Writes one byte by OCT through a pointer and reads it back through the same one.
fn oct_round_trip(bench: &mut Bench, pointer: Pointer, auxiliary: bool, value: u8) {
    let added = if auxiliary { 4 } else { 0 };
    if auxiliary {
        let (down, across, z3) = pointer.auxiliary_registers(Part::Ef9345);
        bench.write(0x24, down);
        bench.write(0x25, across);
        bench.write(0x26, if z3 == Some(true) { 0x41 } else { 0x01 });
        // X and Y of the main pointer are not legal here and do not matter.
        bench.write(0x27, 0x3F);
    } else {
        let (down, across) = pointer.main_registers(Part::Ef9345);
        bench.write(0x26, down);
        bench.write(0x27, across);
        bench.write(0x24, 0x01);
        bench.write(0x25, 0x3F);
    }
    let mut expected = bench.memory.clone();
    expected[pointer.place()] = value;
    bench.write(0x20, 0x30 + added);
    assert_eq!(bench.write(0x29, value).number, 0);
    assert_eq!(bench.memory, expected);
    bench.write(0x21, !value);
    assert_eq!(bench.write(0x28, 0x38 + added).number, 0);
    assert_eq!(bench.read(0x21).value, value);
    assert_eq!(bench.memory, expected);
}

#[test]
fn oct_through_both_pointers() {
    let mut random = Random::new(2);
    let mut bench = random_bench(&mut random);
    for _ in 0..2_000 {
        for auxiliary in [false, true] {
            let pointer = legal_pointer(&mut random);
            let value = random.byte();
            oct_round_trip(&mut bench, pointer, auxiliary, value);
        }
    }
}

#[test]
fn no_command_reaches_the_unused_bytes() {
    let mut random = Random::new(3);
    let mut bench = random_bench(&mut random);
    let before = bench.memory.clone();
    for command in [0x00, 0x30, 0x34] {
        bench.write(0x20, command);
        for register in 0..=255u8 {
            for down in [0x00, 0x08, 0x09, 0x1F, 0x20, 0xC8] {
                bench.write(0x24, down);
                bench.write(0x26, down);
                bench.write(0x25, register);
                bench.write(0x27, register);
                bench.write(0x29, 0xEE);
            }
        }
    }
    assert_ne!(bench.memory, before);
    for block in 0..16 {
        let unused = 1024 * block + 40..1024 * block + 64;
        assert_eq!(bench.memory[unused.clone()], before[unused]);
    }
}
