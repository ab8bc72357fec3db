//! Accepted accesses: power-up, status, what comes first, increments and the LX bits.

use second::bench::Bench;
use second::processor::Processor;

#[test]
fn power_up() {
    let processor = Processor::power_up();
    assert_eq!(processor.registers, [0x91, 0, 0, 0, 0, 0, 0, 0]);
    let indirect = [
        processor.tgs,
        processor.mat,
        processor.pat,
        processor.dor,
        processor.ror,
    ];
    assert_eq!(indirect, [0; 5]);
    assert!(!processor.lx_main && !processor.lx_auxiliary && !processor.busy);
    assert_eq!(processor.phase, 0);
    assert_eq!(processor.marks, [true; 25]);
    assert_eq!(processor.status(), 0);
}

#[test]
fn status_bits() {
    let mut processor = Processor::power_up();
    for (lx_main, lx_auxiliary, status) in [
        (false, false, 0x00),
        (true, false, 0x60),
        (false, true, 0x50),
        (true, true, 0x70),
    ] {
        processor.lx_main = lx_main;
        processor.lx_auxiliary = lx_auxiliary;
        for (busy, status) in [(false, status), (true, 0x80 + status)] {
            processor.busy = busy;
            assert_eq!(processor.status(), status);
            assert_eq!(processor.read(&mut vec![0; 16_384], 0x20).value, status);
        }
    }
}

#[test]
fn registers_are_kept_and_read_back_without_execution() {
    let mut bench = Bench::power_up();
    for register in 0..8u8 {
        assert_eq!(bench.write(0x20 + register, 0xF0 + register).number, 0);
    }
    assert_eq!(
        bench.processor.registers,
        [0xF0, 0xF1, 0xF2, 0xF3, 0xF4, 0xF5, 0xF6, 0xF7]
    );
    for register in 1..8u8 {
        assert_eq!(bench.read(0x20 + register).value, 0xF0 + register);
    }
    assert_eq!(bench.read(0x20).value, 0x00, "R0 read is the status");
}

#[test]
fn a_status_read_that_executes_returns_the_status_from_before() {
    let mut bench = Bench::power_up();
    bench.write(0x26, 0x08);
    bench.write(0x27, 39);
    bench.write(0x28, 0x31);
    assert_eq!(bench.processor.status(), 0x60);
    let answer = bench.read(0x28);
    assert_eq!((answer.number, answer.value), (0, 0x60));
    assert_eq!(bench.processor.status(), 0x00);
    assert_eq!(bench.processor.registers[7], 1, "the command ran again");
}

#[test]
fn a_read_that_executes_returns_the_register_from_before() {
    let mut bench = Bench::power_up();
    bench.memory[256] = 0xAB;
    bench.write(0x26, 0x08);
    bench.write(0x21, 0x12);
    bench.write(0x20, 0x38);
    assert_eq!(bench.read(0x29).value, 0x12);
    assert_eq!(bench.read(0x21).value, 0xAB);
}

#[test]
fn a_written_register_is_used_by_the_command_at_once() {
    let mut bench = Bench::power_up();
    bench.memory[256 + 5] = 0xC1;
    bench.memory[1024 + 256 + 5] = 0xB1;
    bench.memory[2048 + 256 + 5] = 0xA1;
    bench.write(0x26, 0x08);
    bench.write(0x20, 0x08);
    assert_eq!(bench.write(0x2F, 5).number, 0);
    assert_eq!(bench.processor.registers[1..4], [0xC1, 0xB1, 0xA1]);
    // A read form overwrites the R1 that was written just before.
    bench.write(0x29, 0x77);
    assert_eq!(bench.processor.registers[1], 0xC1);
}

#[test]
fn indirect_registers_go_both_ways() {
    let mut bench = Bench::power_up();
    for (r, value) in [(1, 0x15), (2, 0x2A), (3, 0x3C), (4, 0x4D), (7, 0x7E)] {
        assert_eq!(bench.indirect(r, value).number, 0);
    }
    let processor = &bench.processor;
    assert_eq!(
        [
            processor.tgs,
            processor.mat,
            processor.pat,
            processor.dor,
            processor.ror
        ],
        [0x15, 0x2A, 0x3C, 0x4D, 0x7E]
    );
    for (r, value) in [(1, 0x15), (2, 0x2A), (3, 0x3C), (4, 0x4D), (7, 0x7E)] {
        bench.write(0x21, 0xFF);
        assert_eq!(bench.write(0x28, 0x88 + r).number, 0);
        assert_eq!(bench.read(0x21).value, value);
    }
    assert_eq!(
        bench.memory,
        vec![0; 16_384],
        "IND does not touch the memory"
    );
}

#[test]
fn increments_keep_the_block_bits_and_set_their_own_lx() {
    for command in [0x01, 0x09, 0x31, 0x39] {
        let mut bench = Bench::power_up();
        bench.write(0x26, 0xFF);
        bench.write(0x27, 0xC0 + 38);
        bench.write(0x28, command);
        assert_eq!(bench.processor.registers[6..8], [0xFF, 0xC0 + 39]);
        assert_eq!(bench.processor.status(), 0x00);
        bench.read(0x2E);
        assert_eq!(bench.processor.registers[6..8], [0xFF, 0xC0]);
        assert_eq!(bench.processor.status(), 0x60);
        assert_eq!(bench.processor.registers[5], 0);
    }
    for command in [0x35, 0x3D] {
        let mut bench = Bench::power_up();
        bench.write(0x24, 0xD9);
        bench.write(0x25, 0x40 + 39);
        bench.write(0x28, command);
        assert_eq!(bench.processor.registers[4..8], [0xD9, 0x40, 0, 0]);
        assert_eq!(bench.processor.status(), 0x50);
    }
}

#[test]
fn without_increment_x_stays() {
    for command in [0x00, 0x08, 0x30, 0x34, 0x38, 0x3C] {
        let mut bench = Bench::power_up();
        bench.write(0x27, 39);
        bench.write(0x25, 39);
        assert_eq!(bench.write(0x28, command).number, 0);
        assert_eq!(bench.processor.registers[7], 39);
        assert_eq!(bench.processor.registers[5], 39);
        assert_eq!(bench.processor.status(), 0x00);
    }
}

#[test]
fn krf_krl_oct_and_moves_clear_both_lx_bits_and_the_others_leave_them() {
    for (command, cleared) in [
        (0xD5, true),
        (0xD6, true),
        (0xD9, true),
        (0xDA, true),
        (0xE5, true),
        (0xE6, true),
        (0xE9, true),
        (0xEA, true),
        (0xF5, true),
        (0xF6, true),
        (0xF9, true),
        (0xFA, true),
        (0xD0, false),
        (0xFF, false),
        (0x00, true),
        (0x01, true),
        (0x08, true),
        (0x50, true),
        (0x51, true),
        (0x58, true),
        (0x59, true),
        (0x30, true),
        (0x34, true),
        (0x3D, true),
        (0x90, false),
        (0x91, false),
        (0x82, false),
        (0x8A, false),
        (0x05, false),
        (0x52, false),
    ] {
        let mut bench = Bench::power_up();
        bench.processor.lx_main = true;
        bench.processor.lx_auxiliary = true;
        bench.write(0x28, command);
        // Bit 7 is that of a move that runs.
        let left = if cleared { 0 } else { 0x70 };
        assert_eq!(bench.processor.status() % 0x80, left);
    }
}

#[test]
fn writing_r6_moves_the_auxiliary_pointer_to_another_block() {
    let mut bench = Bench::power_up();
    bench.write(0x24, 0x20 + 8);
    bench.write(0x25, 0x80);
    bench.write(0x20, 0x34);
    bench.write(0x29, 0x11);
    bench.write(0x26, 0x40);
    bench.write(0x29, 0x22);
    // Z2 and Z0 are block 5; R6 bit 6 makes it block 13. R6 bit 7 is the main pointer's alone.
    bench.write(0x26, 0x80);
    bench.write(0x29, 0x33);
    assert_eq!(bench.memory[5 * 1024 + 256], 0x33);
    assert_eq!(bench.memory[13 * 1024 + 256], 0x22);
    assert_eq!(bench.memory.iter().filter(|byte| **byte != 0).count(), 2);
}

#[test]
fn nop_changes_nothing() {
    for command in [0x90, 0x91] {
        let mut bench = Bench::power_up();
        bench.write(0x20, command);
        bench.processor.lx_auxiliary = true;
        let before = bench.clone();
        assert_eq!(bench.read(0x2B).number, 0);
        assert_eq!(bench, before);
    }
}
