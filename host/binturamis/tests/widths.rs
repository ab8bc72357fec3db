//! The two widths: a panel lends the picture that the mode asks for and hands back the one that was
//! drawn last, its rows have the length of their width, and the kept picture is a fresh one through
//! every change of the mode.

use binturamis::{Panel, Processor, Refusal, Width, COLUMNS, COLUMNS_80, ROM_BYTES, ROWS, TGS_80};
use second::random::Random;

/// The numbers r of the indirect registers.
const TGS: u8 = 1;
const MAT: u8 = 2;
const PAT: u8 = 3;
const DOR: u8 = 4;
const ROR: u8 = 7;

/// IND: a value to an indirect register, by way of R1.
fn indirect(panel: &mut Panel, r: u8, value: u8) -> Result<(), Refusal> {
    panel.write(0x21, value)?;
    panel.write(0x28, 0x80 + r)
}

/// A ROM in which every character is a pattern of its own.
fn rom() -> [u8; ROM_BYTES] {
    let mut rom = [0; ROM_BYTES];
    rom.copy_from_slice(&Random::new(1).bytes(ROM_BYTES));
    rom
}

/// A panel with colours and an origin, of which nothing is drawn yet.
fn panel(width: Width) -> Result<Panel, Refusal> {
    let mut panel = Panel::new(rom());
    indirect(&mut panel, TGS, tgs(width))?;
    indirect(&mut panel, MAT, 0x04)?;
    indirect(&mut panel, PAT, 0x40)?;
    indirect(&mut panel, DOR, 0x37)?;
    indirect(&mut panel, ROR, 0x08)?;
    Ok(panel)
}

fn tgs(width: Width) -> u8 {
    match width {
        Width::Forty => 0,
        Width::Eighty => TGS_80,
    }
}

#[test]
fn the_lengths_go_with_the_columns() {
    for width in Width::ALL {
        assert_eq!(width.row_bytes(), 10 * width.line_bytes());
        assert_eq!(width.picture_bytes(), ROWS * width.row_bytes());
    }
    assert_eq!(Width::ALL.map(Width::columns), [COLUMNS, COLUMNS_80]);
    assert_eq!(Width::ALL.map(Width::picture_bytes), [40_000, 60_000]);
    // Cells of eight pixels and of six, two pixels a byte.
    let pixels = Width::ALL.map(|width| 2 * width.line_bytes() / width.columns());
    assert_eq!(pixels, [8, 6]);
}

#[test]
fn both_bits_of_tgs_ask_for_80_columns() {
    for tgs in 0..=255 {
        let wanted = if tgs >= 0xC0 {
            Width::Eighty
        } else {
            Width::Forty
        };
        assert_eq!(Width::of_tgs(tgs), wanted, "{tgs:02X}");
    }
}

#[test]
fn the_picture_takes_the_width_of_the_mode_with_an_accepted_draw() -> Result<(), Refusal> {
    let mut panel = panel(Width::Forty)?;
    let mut before = Width::Forty;
    for width in [Width::Forty, Width::Eighty, Width::Eighty, Width::Forty] {
        indirect(&mut panel, TGS, tgs(width))?;
        assert_eq!(panel.state().width(), width);
        assert_eq!(panel.width(), before, "nothing is drawn yet");
        assert_eq!(panel.picture().len(), before.picture_bytes());

        let redrawn = panel.draw()?;
        assert_eq!((redrawn.width(), panel.width()), (width, width));
        assert_eq!(panel.picture().len(), width.picture_bytes());
        before = width;
    }
    Ok(())
}

#[test]
fn a_change_of_the_mode_redraws_every_row() -> Result<(), Refusal> {
    let mut panel = panel(Width::Forty)?;
    panel.draw()?;
    for width in [Width::Eighty, Width::Forty, Width::Eighty] {
        indirect(&mut panel, TGS, tgs(width))?;
        assert_eq!(panel.draw()?.count(), 25);
        assert_eq!(panel.draw()?.count(), 0);
    }
    Ok(())
}

#[test]
fn a_refused_draw_leaves_the_picture_and_its_width() -> Result<(), Refusal> {
    for (width, other) in Width::ALL.into_iter().zip(Width::ALL.into_iter().rev()) {
        let mut panel = panel(width)?;
        panel.draw()?;
        let picture = panel.picture().to_vec();
        for (r, value, refusal) in [
            (TGS, 0x40, Refusal::NotBuilt),
            (TGS, 0x80, Refusal::NotBuilt),
            (TGS, tgs(other) | 0x20, Refusal::NotBuilt),
            (ROR, 0x07, Refusal::NotBuilt),
            (TGS, tgs(other), Refusal::LowOrigin),
            (PAT, 0x80, Refusal::NotBuilt),
        ] {
            indirect(&mut panel, r, value)?;
            assert_eq!(panel.draw(), Err(refusal), "{r} {value:02X}");
            assert_eq!(panel.width(), width);
            assert!(panel.picture() == picture);
        }
    }
    Ok(())
}

/// A character at a position by KRL, with both nibbles of R3 its attributes. The page begins at Y 8
/// in block 0.
fn put(panel: &mut Panel, row: usize, position: usize, c: u8, nibble: u8) -> Result<(), Refusal> {
    let y = if row == 0 { 0 } else { row + 7 };
    let x = position / 2 + 0x80 * (position % 2);
    panel.write(0x26, y as u8)?;
    panel.write(0x27, x as u8)?;
    panel.write(0x23, 0x11 * nibble)?;
    panel.write(0x20, 0x50)?;
    panel.write(0x29, c)
}

#[test]
fn redrawn_rows_have_the_length_of_the_width() -> Result<(), Refusal> {
    for width in Width::ALL {
        let mut panel = panel(width)?;
        let redrawn = panel.draw()?;
        let rows: Vec<&[u8]> = redrawn
            .rows_of(panel.picture())
            .map(|(_, row)| row)
            .collect();
        assert_eq!(rows.len(), ROWS);
        assert!(rows.iter().all(|row| row.len() == width.row_bytes()));
        assert!(rows.concat() == panel.picture());
    }
    Ok(())
}

#[test]
fn a_cell_redraws_its_row_alone() -> Result<(), Refusal> {
    let mut panel = panel(Width::Eighty)?;
    panel.draw()?;
    for (row, position) in [(0, 0), (1, 79), (12, 40), (24, 41)] {
        let before = panel.picture().to_vec();
        put(&mut panel, row, position, 0xFF, 0x0E)?;
        let redrawn = panel.draw()?;
        assert!(redrawn.rows().eq([row]));
        let pushed: Vec<(usize, &[u8])> = redrawn.rows_of(panel.picture()).collect();
        assert_eq!(pushed, [(row, panel.row(row))]);
        // All ten windows are set: the cell is white, and nothing else has changed.
        let mut wanted = before;
        for line in 0..10 {
            let at = 2_400 * row + 240 * line + 3 * position;
            wanted[at..at + 3].fill(0x77);
        }
        assert!(panel.picture() == wanted, "row {row}, position {position}");
    }
    Ok(())
}

#[test]
#[should_panic(expected = "a picture of 40000 bytes, not 60000")]
fn rows_are_not_cut_from_a_picture_of_the_other_width() {
    let mut panel = panel(Width::Eighty).expect("right accesses");
    let redrawn = panel.draw().expect("a right page");
    let _ = redrawn.rows_of(&[0; 40_000]).count();
}

/// Six pixels of a line, leftmost first.
fn pixels(panel: &Panel, row: usize, line: usize, position: usize) -> [u8; 6] {
    let bytes = &panel.row(row)[240 * line + 3 * position..][..3];
    std::array::from_fn(|pixel| bytes[pixel / 2] >> (4 * (pixel % 2)) & 15)
}

#[test]
fn a_character_shows_bits_0_to_5_in_the_colours_of_dor_and_mat() -> Result<(), Refusal> {
    let mut panel = panel(Width::Eighty)?;
    let slices = rom()[10 * 0x41..][..10].to_vec();
    // Plain, D, underlined, flashing, negative, negative and flashing.
    for (position, nibble) in (0..).zip([0x0, 0x1, 0x2, 0x4, 0x8, 0xC]) {
        put(&mut panel, 3, position, 0x41, nibble)?;
    }
    let (white, yellow, blue) = (7, 3, 4);
    for phase in [0, 1] {
        panel.turn(phase)?;
        panel.draw()?;
        for (line, slice) in slices.iter().enumerate() {
            let bits: [bool; 6] = std::array::from_fn(|bit| slice >> bit & 1 == 1);
            let plain = bits.map(|bit| if bit { white } else { blue });
            let negative = bits.map(|bit| if bit { blue } else { white });
            let shown = |position| pixels(&panel, 3, line, position);
            assert_eq!(shown(0), plain);
            assert_eq!(shown(1), bits.map(|bit| if bit { yellow } else { blue }));
            assert_eq!(shown(2), if line == 9 { [white; 6] } else { plain });
            assert_eq!(shown(3), if phase == 1 { [blue; 6] } else { plain });
            assert_eq!(shown(4), negative);
            assert_eq!(shown(5), if phase == 0 { [white; 6] } else { negative });
        }
    }
    Ok(())
}

#[test]
fn a_mosaic_has_ten_windows_and_d() -> Result<(), Refusal> {
    let mut panel = panel(Width::Eighty)?;
    for window in 0..10 {
        // C0 to C6, and then bits 1 to 3 of the attributes.
        let bits: u16 = 1 << window;
        let (c, nibble) = ((bits & 0x7F) as u8, (bits >> 7) as u8);
        put(&mut panel, 24, 2 * window, 0x80 | c, nibble << 1)?;
        put(&mut panel, 24, 2 * window + 1, 0x80 | c, nibble << 1 | 1)?;
    }
    panel.draw()?;
    for window in 0..10 {
        for line in 0..10 {
            for (d, colour) in [7, 3].into_iter().enumerate() {
                let in_line = line / 2 == window / 2;
                let wanted = std::array::from_fn(|pixel| {
                    let is_set = in_line && pixel / 3 == window % 2;
                    if is_set {
                        colour
                    } else {
                        4
                    }
                });
                assert_eq!(pixels(&panel, 24, line, 2 * window + d), wanted);
            }
        }
    }
    Ok(())
}

#[test]
fn mat_redraws_every_row_in_80_columns_and_none_in_40() -> Result<(), Refusal> {
    for (width, count) in [(Width::Forty, 0), (Width::Eighty, 25)] {
        let mut panel = panel(width)?;
        panel.draw()?;
        for mat in [0x05, 0x85, 0x80] {
            indirect(&mut panel, MAT, mat)?;
            assert_eq!(panel.draw()?.count(), count);
            indirect(&mut panel, MAT, mat)?;
            assert_eq!(panel.draw()?.count(), 0, "it has not changed");
        }
    }
    Ok(())
}

/// The picture that a draw gives from nothing: TGS written to another value and back marks every
/// row.
fn fresh(panel: &Panel) -> Result<Vec<u8>, Refusal> {
    let mut processor: Processor = panel.processor().clone();
    let mut memory = panel.memory().to_vec();
    let tgs = processor.state().tgs;
    for value in [tgs ^ 1, tgs] {
        binturamis::write(&mut processor, &mut memory, 0x21, value)?;
        binturamis::write(&mut processor, &mut memory, 0x28, 0x81)?;
    }
    let mut picture = vec![0xEE; processor.state().width().picture_bytes()];
    let redrawn = binturamis::draw(&mut processor, &memory, panel.rom(), &mut picture)?;
    assert_eq!(redrawn.count(), 25);
    Ok(picture)
}

/// A cell by KRF or KRL anywhere on the page, the phase, an indirect register, or the mode.
fn change(panel: &mut Panel, random: &mut Random) -> Result<(), Refusal> {
    let y = random.choice(&[0, 8, 9, 20, 31]);
    let x = random.below(40) as u8 | random.choice(&[0x00, 0x80]);
    match random.below(40) {
        0 => {
            let width = random.choice(&Width::ALL);
            indirect(panel, TGS, tgs(width) + random.byte() % 32)
        }
        1 => indirect(panel, MAT, random.byte()),
        2 => indirect(panel, PAT, random.byte() % 128),
        3 => indirect(panel, DOR, random.byte()),
        4 => indirect(panel, ROR, 8 + random.byte() % 24),
        5 => panel.turn(random.byte() % 2),
        _ => {
            panel.write(0x20, random.choice(&[0x00, 0x01, 0x50, 0x51]))?;
            panel.write(0x26, y)?;
            panel.write(0x27, x)?;
            panel.write(0x22, random.byte())?;
            panel.write(0x23, random.byte())?;
            panel.write(0x29, random.byte())
        }
    }
}

#[test]
fn the_kept_picture_is_a_fresh_one_in_both_widths() -> Result<(), Refusal> {
    let mut random = Random::new(2);
    let mut panel = panel(Width::Forty)?;
    // The draws of each width that redrew some rows and not all, and the changes of the width.
    let (mut partial, mut turns) = ([0, 0], 0);
    for _ in 0..600 {
        for _ in 0..1 + random.below(4) {
            change(&mut panel, &mut random)?;
        }
        let before = panel.width();
        let redrawn = panel.draw()?;
        turns += usize::from(panel.width() != before);
        partial[panel.width() as usize] += usize::from((1..25).contains(&redrawn.count()));
        assert!(panel.picture() == fresh(&panel)?);
    }
    assert!(turns > 10, "{turns}");
    assert!(partial.iter().all(|count| *count > 50), "{partial:?}");
    Ok(())
}
