//! KRL, the command of 80 columns, through the registers: what it stores and reads, which nibble it
//! leaves, and where its increment goes.

use binturamis::{Panel, Refusal, ROM_BYTES};

/// X 5 and Y 9 in block 0, and so much further on in each block after it.
const PLACE: usize = 32 * 9 + 5;

const LXM: u8 = 0x60;

fn panel() -> Panel {
    Panel::new([0; ROM_BYTES])
}

/// The main pointer to X, Y and block Z: R6 has Z3, Z2 and Y, R7 has Z0, Z1 and X.
fn point(panel: &mut Panel, x: u8, y: u8, z: u8) -> Result<(), Refusal> {
    let bit = |number: u8| z >> number & 1;
    panel.write(0x26, bit(3) << 7 | bit(2) << 5 | y)?;
    panel.write(0x27, bit(0) << 7 | bit(1) << 6 | x)
}

/// The command, with C in R1 and the attributes in R3.
fn krl(panel: &mut Panel, command: u8, c: u8, r3: u8) -> Result<(), Refusal> {
    panel.write(0x21, c)?;
    panel.write(0x23, r3)?;
    panel.write(0x28, command)
}

/// The bytes that are not zero, with their places.
fn stored(panel: &Panel) -> Vec<(usize, u8)> {
    let bytes = panel.memory().iter().copied().enumerate();
    bytes.filter(|(_, byte)| *byte != 0).collect()
}

#[test]
fn an_even_cell_has_its_nibble_in_the_high_half_and_an_odd_one_in_the_low() -> Result<(), Refusal> {
    let mut panel = panel();
    point(&mut panel, 5, 9, 0)?;
    krl(&mut panel, 0x50, 0x41, 0xA7)?;
    assert_eq!(stored(&panel), [(PLACE, 0x41), (PLACE + 2048, 0xA0)]);
    point(&mut panel, 5, 9, 1)?;
    krl(&mut panel, 0x50, 0x42, 0xC5)?;
    let both = [(PLACE, 0x41), (PLACE + 1024, 0x42), (PLACE + 2048, 0xA5)];
    assert_eq!(stored(&panel), both);
    point(&mut panel, 5, 9, 0)?;
    krl(&mut panel, 0x50, 0x41, 0x3F)?;
    assert_eq!(panel.memory()[PLACE + 2048], 0x35, "the other nibble stays");
    Ok(())
}

#[test]
fn the_attributes_stay_inside_the_district_of_the_pointer() -> Result<(), Refusal> {
    // The block of C, and that of the attributes.
    for (z, attributes) in [(0, 2), (1, 2), (2, 0), (3, 0), (6, 4), (13, 14), (15, 12)] {
        let mut panel = panel();
        point(&mut panel, 5, 9, z)?;
        krl(&mut panel, 0x50, 0x77, 0xEE)?;
        let nibble = if z % 2 == 0 { 0xE0 } else { 0x0E };
        let mut wanted = [
            (PLACE + 1024 * usize::from(z), 0x77),
            (PLACE + 1024 * attributes, nibble),
        ];
        wanted.sort();
        assert_eq!(stored(&panel), wanted, "block {z}");
    }
    Ok(())
}

#[test]
fn what_was_written_is_read_with_the_nibble_in_both_halves() -> Result<(), Refusal> {
    let mut panel = panel();
    for (z, c, r3) in [(0, 0x41, 0x90), (1, 0x42, 0x06)] {
        point(&mut panel, 39, 31, z)?;
        krl(&mut panel, 0x50, c, r3)?;
    }
    let memory = panel.memory().to_vec();
    panel.write(0x22, 0x5A)?;
    for (z, c, r3) in [(0, 0x41, 0x99), (1, 0x42, 0x66)] {
        point(&mut panel, 39, 31, z)?;
        krl(&mut panel, 0x58, 0x00, 0x00)?;
        let state = panel.state();
        assert_eq!((state.r1, state.r2, state.r3), (c, 0x5A, r3));
    }
    assert!(panel.memory() == memory, "a read stores nothing");
    Ok(())
}

#[test]
fn the_increment_goes_from_even_to_odd_and_on_to_the_next_column() -> Result<(), Refusal> {
    for command in [0x51, 0x59] {
        let mut panel = panel();
        point(&mut panel, 38, 8, 12)?;
        for (r7, status) in [(0xA6, 0), (0x27, 0), (0xA7, 0), (0x00, LXM), (0x80, 0)] {
            krl(&mut panel, command, 0x20, 0x00)?;
            let state = panel.state();
            assert_eq!((state.r7, state.status), (r7, status), "{command:02X}");
            assert_eq!(state.r6, 0xA8, "Y and the district stay");
        }
    }
    Ok(())
}

#[test]
fn without_increment_the_pointer_stays_and_both_lx_are_cleared() -> Result<(), Refusal> {
    for command in [0x50, 0x58] {
        let mut panel = panel();
        // KRF with increment from X 39 sets LXm.
        point(&mut panel, 39, 8, 0)?;
        panel.write(0x28, 0x01)?;
        assert_eq!(panel.state().status, LXM);
        point(&mut panel, 39, 8, 1)?;
        krl(&mut panel, command, 0x41, 0x00)?;
        assert_eq!((panel.state().r7, panel.state().status), (0xA7, 0));
    }
    Ok(())
}

#[test]
fn eighty_written_with_increment_fill_the_row() -> Result<(), Refusal> {
    let mut panel = panel();
    panel.write(0x20, 0x51)?;
    panel.write(0x26, 0)?;
    panel.write(0x27, 0)?;
    for position in 0..80 {
        panel.write(0x23, 0x11 * (position % 16))?;
        panel.write(0x29, position)?;
    }
    for x in 0..40 {
        let (even, odd) = (2 * x, 2 * x + 1);
        let bytes = [0, 1024, 2048].map(|block| panel.memory()[block + usize::from(x)]);
        assert_eq!(
            bytes,
            [even, odd, 16 * (even % 16) + odd % 16],
            "column {x}"
        );
    }
    Ok(())
}

#[test]
fn a_pointer_that_is_not_legal_is_refused_by_4() -> Result<(), Refusal> {
    for command in [0x50, 0x51, 0x58, 0x59] {
        for (x, y) in [(40, 8), (63, 0), (0, 1), (39, 7)] {
            let mut panel = panel();
            point(&mut panel, x, y, 1)?;
            let refused = krl(&mut panel, command, 0x41, 0xFF);
            assert_eq!(refused, Err(Refusal::BadPointer), "{command:02X}: {x}, {y}");
            assert_eq!(stored(&panel), []);
            assert_eq!(panel.state().r7, 0x80 | x);
        }
    }
    Ok(())
}

/// Its neighbours are no commands.
#[test]
fn other_bytes_from_50_to_5f_are_refused_by_3() {
    for command in 0x50..=0x5F {
        let answered = panel().write(0x28, command);
        let is_listed = [0x50, 0x51, 0x58, 0x59].contains(&command);
        let wanted = if is_listed {
            Ok(())
        } else {
            Err(Refusal::NotListed)
        };
        assert_eq!(answered, wanted, "{command:02X}");
    }
}
