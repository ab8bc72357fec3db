//! Register accesses: indirect registers by way of R1, and no write of what a register holds already.

use binturamis::{Panel, ROM_BYTES};
use snapshot::access::Access;
use snapshot::panel::play;
use snapshot::registers::{y_of, Indirect, Registers};

fn written(write: impl Fn(&mut Registers)) -> Vec<(u8, u8)> {
    let mut registers = Registers::new();
    write(&mut registers);
    let pair = |access: Access| (access.address, access.value);
    registers.accesses().into_iter().map(pair).collect()
}

#[test]
fn indirect_registers_go_through_r1() {
    let accesses = written(|registers| {
        registers.nop();
        registers.indirect(Indirect::Ror, 0x08);
        registers.indirect(Indirect::Pat, 0x4F);
    });
    let wanted = [
        (0x28, 0x91),
        (0x21, 0x08),
        (0x28, 0x87),
        (0x21, 0x4F),
        (0x28, 0x83),
    ];
    assert_eq!(accesses, wanted);
}

#[test]
fn every_indirect_register_gets_its_value() {
    let mut registers = Registers::new();
    registers.indirect(Indirect::Tgs, 1);
    registers.indirect(Indirect::Mat, 2);
    registers.indirect(Indirect::Pat, 3);
    registers.indirect(Indirect::Dor, 4);
    registers.indirect(Indirect::Ror, 7);
    let mut panel = Panel::new([0; ROM_BYTES]);
    let played = play(&mut panel, &registers.accesses());
    assert_eq!(played.refused, 0, "{:?}", played.first);
    let state = panel.state();
    assert_eq!(
        (state.tgs, state.mat, state.pat, state.dor, state.ror),
        (1, 2, 3, 4, 7)
    );
}

#[test]
fn a_register_that_has_the_value_is_not_written_again() {
    let accesses = written(|registers| {
        // At power-up it has 0, but that is not relied on.
        registers.set(2, 0x00);
        registers.set(2, 0x00);
        registers.set(2, 0x5A);
        registers.set(3, 0x5A);
        registers.set(2, 0x5A);
        // What a command has left counts, and a write that executes is always made.
        registers.changed(2, 0x5B);
        registers.set(2, 0x5B);
        registers.execute(2, 0x5B);
        registers.set(2, 0x5B);
    });
    let wanted = [(0x22, 0x00), (0x22, 0x5A), (0x23, 0x5A), (0x2A, 0x5B)];
    assert_eq!(accesses, wanted);
}

#[test]
fn a_register_that_is_not_known_is_written_again() {
    let accesses = written(|registers| {
        registers.set(1, 0x5A);
        registers.forget(1);
        registers.set(1, 0x5A);
    });
    assert_eq!(accesses, [(0x21, 0x5A); 2]);
}

#[test]
fn what_a_register_holds_is_known() {
    let mut registers = Registers::new();
    assert_eq!(registers.held(7), 0);
    registers.set(7, 0x27);
    assert_eq!(registers.held(7), 0x27);
    registers.changed(7, 0x00);
    assert_eq!(registers.held(7), 0x00);
}

#[test]
fn rows_begin_at_y_8_below_the_service_row() {
    assert_eq!([0, 1, 2, 24].map(y_of), [0, 8, 9, 31]);
}
