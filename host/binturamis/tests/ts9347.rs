//! A TS9347: its pointers, its commands, its sets, where its page lies, and what a draw is refused for.

use binturamis::{
    Board, Panel, Processor, Refusal, Width, BLOCK_BYTES, PICTURE_BYTES, PICTURE_BYTES_80,
    ROM_BYTES, ROWS, TS9347_MEMORY_BYTES, TS9347_ROM_BYTES,
};

/// The numbers r of the indirect registers.
const TGS: u8 = 1;
const MAT: u8 = 2;
const PAT: u8 = 3;
const DOR: u8 = 4;
const ROR: u8 = 7;

/// X 5 and Y 9 in block 0, and so much further on in each block after it.
const PLACE: usize = 32 * 9 + 5;

/// Every slice of each set is the same: that of G10, of GOE and of G0.
const SETS: [u8; 3] = [0x0F, 0x3C, 0x55];

fn panel() -> Result<Panel, Refusal> {
    let rom: Vec<u8> = SETS.into_iter().flat_map(|slice| [slice; 1_280]).collect();
    Panel::with_board(Board::ThirtyTwo, &rom)
}

/// IND: a value to an indirect register, by way of R1.
fn indirect(panel: &mut Panel, r: u8, value: u8) -> Result<(), Refusal> {
    panel.write(0x21, value)?;
    panel.write(0x28, 0x80 + r)
}

/// The two registers of either pointer: Z4, Z3, Z2 and Y; Z0, Z1 and X.
fn registers(x: u8, y: u8, z: u8) -> [u8; 2] {
    let bit = |number: u8| z >> number & 1;
    [
        bit(4) << 7 | bit(3) << 6 | bit(2) << 5 | y,
        bit(0) << 7 | bit(1) << 6 | x,
    ]
}

/// The main pointer to X, Y and block Z.
fn point(panel: &mut Panel, x: u8, y: u8, z: u8) -> Result<(), Refusal> {
    let [down, across] = registers(x, y, z);
    panel.write(0x26, down)?;
    panel.write(0x27, across)
}

/// The bytes that are not zero, with their places.
fn stored(panel: &Panel) -> Vec<(usize, u8)> {
    let bytes = panel.memory().iter().copied().enumerate();
    bytes.filter(|(_, byte)| *byte != 0).collect()
}

fn place(z: u8) -> usize {
    BLOCK_BYTES * usize::from(z) + PLACE
}

#[test]
fn the_main_pointer_reaches_every_block() -> Result<(), Refusal> {
    for z in 0..32 {
        let mut panel = panel()?;
        point(&mut panel, 5, 9, z)?;
        panel.write(0x20, 0x30)?; // OCT
        panel.write(0x29, 0x41)?;
        assert_eq!(stored(&panel), [(place(z), 0x41)], "block {z}");
    }
    Ok(())
}

/// All its bits are in R4 and R5: what the main pointer holds does not count.
#[test]
fn the_auxiliary_pointer_reaches_every_block_by_itself() -> Result<(), Refusal> {
    for (main, z) in [0x00, 0x40, 0xFF]
        .into_iter()
        .flat_map(|main| (0..32).map(move |z| (main, z)))
    {
        let mut panel = panel()?;
        let [down, across] = registers(5, 9, z);
        panel.write(0x24, down)?;
        panel.write(0x25, across)?;
        panel.write(0x26, main)?;
        panel.write(0x20, 0x34)?; // OCT at the auxiliary pointer
        panel.write(0x29, 0x41)?;
        assert_eq!(stored(&panel), [(place(z), 0x41)], "{main:02X}, block {z}");
    }
    Ok(())
}

#[test]
fn a_cell_stays_inside_the_district_of_its_pointer() -> Result<(), Refusal> {
    for z in 0..32 {
        let mut panel = panel()?;
        point(&mut panel, 5, 9, z)?;
        panel.write(0x20, 0x00)?; // KRF
        panel.write(0x22, 0x02)?;
        panel.write(0x23, 0x03)?;
        panel.write(0x29, 0x01)?;
        let block = |further: u8| place(z / 4 * 4 + (z + further) % 4);
        let mut wanted = [(block(0), 0x01), (block(1), 0x02), (block(2), 0x03)];
        wanted.sort_unstable();
        assert_eq!(stored(&panel), wanted, "block {z}");
    }
    Ok(())
}

/// Whether NOP, IND, KRF and OCT have a form with this byte.
fn is_listed(command: u8) -> bool {
    match command {
        0x00 | 0x01 | 0x08 | 0x09 => true,
        0x30..=0x3F => command & 0x02 == 0,
        0x80..=0x8F => matches!(command % 8, 1..=4 | 7),
        0x90 | 0x91 => true,
        _ => false,
    }
}

/// The four forms of KRL, and the moves: with one of two bits for the source, and one of two for the stop.
fn is_of_ef9345_alone(command: u8) -> bool {
    match command {
        0x50 | 0x51 | 0x58 | 0x59 => true,
        0xD0..=0xFF => matches!(command % 16, 0x5 | 0x6 | 0x9 | 0xA),
        _ => false,
    }
}

#[test]
fn every_other_command_is_refused_by_3_krl_and_moves_too() -> Result<(), Refusal> {
    let (mut listed, mut besides) = (0, 0);
    for command in 0..=255 {
        let mut panel = panel()?;
        let wanted = match is_listed(command) {
            true => Ok(()),
            false => Err(Refusal::NotListed),
        };
        assert_eq!(panel.write(0x28, command), wanted, "{command:02X}");
        listed += usize::from(wanted.is_ok());
        let of_ef9345 = Panel::new([0; ROM_BYTES]).write(0x28, command);
        let has_besides = is_of_ef9345_alone(command);
        besides += usize::from(has_besides);
        assert_eq!(
            of_ef9345.is_ok(),
            wanted.is_ok() || has_besides,
            "{command:02X}"
        );
    }
    assert_eq!((listed, besides), (4 + 8 + 10 + 2, 4 + 12));
    Ok(())
}

#[test]
fn a_pointer_is_refused_by_4_and_never_by_11() -> Result<(), Refusal> {
    for z in 0..32 {
        let mut panel = panel()?;
        for command in [0x00, 0x01, 0x08, 0x09, 0x30, 0x31, 0x38, 0x39] {
            for (x, y, wanted) in [
                (0, 31, Ok(())),
                (39, 8, Ok(())),
                (40, 8, Err(Refusal::BadPointer)),
                (0, 1, Err(Refusal::BadPointer)),
                (0, 7, Err(Refusal::BadPointer)),
            ] {
                point(&mut panel, x, y, z)?;
                assert_eq!(panel.write(0x28, command), wanted, "block {z}");
            }
        }
    }
    Ok(())
}

/// A page that begins in a block: DOR 7 is Z4, and ROR has Z3, Z2, Z1 above the origin.
fn begin_page(panel: &mut Panel, z: u8, dor: u8) -> Result<(), Refusal> {
    indirect(panel, DOR, (z / 16) << 7 | dor)?;
    indirect(panel, ROR, (z / 2 % 8) << 5 | 8)
}

/// A cell of a page that begins in block Z, white on black where nothing else is said.
fn put(panel: &mut Panel, z: u8, (x, y): (u8, u8), [c, b, a]: [u8; 3]) -> Result<(), Refusal> {
    point(panel, x, y, z)?;
    panel.write(0x22, b)?;
    panel.write(0x23, a)?;
    panel.write(0x20, 0x00)?;
    panel.write(0x29, c)
}

/// A line of a cell of the picture as a slice, where white is foreground.
fn shown(panel: &Panel, row: usize, line: usize, column: usize) -> u8 {
    let bytes = &panel.row(row)[160 * line + 4 * column..][..4];
    let pixel = |at: usize| bytes[at / 2] >> (4 * (at % 2)) & 1;
    (0..8).map(|at| pixel(at) << at).sum()
}

#[test]
fn a_page_is_drawn_from_any_even_block() -> Result<(), Refusal> {
    for z in (0..32).step_by(2) {
        let mut panel = panel()?;
        begin_page(&mut panel, z, 0)?;
        put(&mut panel, z, (5, 9), [0x00, 0x00, 0x70])?;
        assert_eq!(panel.draw()?.count(), 25);
        let lines: [u8; 10] = std::array::from_fn(|line| shown(&panel, 2, line, 5));
        assert_eq!(lines, [SETS[2]; 10], "block {z}");
        let white = panel.picture().iter().filter(|pair| **pair != 0);
        assert_eq!(white.count(), 40, "and nothing else");
    }
    Ok(())
}

#[test]
fn b_names_the_set_of_the_rom() -> Result<(), Refusal> {
    let [g10, goe, g0] = SETS;
    let mut panel = panel()?;
    begin_page(&mut panel, 0, 0)?;
    // B7 is clear, and B6 is not looked at. The last line shows the underline, which G0 alone has.
    let sets = [
        (0x00, g0, g0),
        (0x10, g0, 0xFF),
        (0x20, g10, g10),
        (0x30, goe, goe),
    ];
    for (column, (b, _, _)) in (0..).zip(sets) {
        put(&mut panel, 0, (column, 9), [0x81, b, 0x70])?;
        put(&mut panel, 0, (column, 10), [0x81, 0x40 | b, 0x70])?;
    }
    panel.draw()?;
    for (column, (b, first, last)) in sets.into_iter().enumerate() {
        for row in [2, 3] {
            let lines = [shown(&panel, row, 0, column), shown(&panel, row, 9, column)];
            assert_eq!(lines, [first, last], "{b:02X} in row {row}");
        }
    }
    Ok(())
}

/// The slices of a character are the number of their block.
fn put_slices(panel: &mut Panel, character: u8, z: u8) -> Result<(), Refusal> {
    panel.write(0x20, 0x30)?;
    for slice in 0..10 {
        point(panel, 4 * slice + character % 4, character / 4, z)?;
        panel.write(0x29, z)?;
    }
    Ok(())
}

/// The user sets with DOR D5: G'0 in block 5, G'10 and G'11 in 10 and 11, Q0 to Q7 in 8 to 15. The page is
/// in block 16, since DOR 7 is its Z4 too.
#[test]
fn user_sets_are_where_dor_has_them() -> Result<(), Refusal> {
    let mut panel = panel()?;
    begin_page(&mut panel, 16, 0x55)?;
    for z in 0..16 {
        put_slices(&mut panel, 0x4B, z)?;
    }
    let of_q = (0..8).map(|q| (0xC0 | q << 3, 8 + q));
    let sets: Vec<(u8, u8)> = [(0x80, 5), (0xA0, 10), (0xB0, 11)]
        .into_iter()
        .chain(of_q)
        .collect();
    for (column, (b, _)) in (0..).zip(&sets) {
        put(&mut panel, 16, (column, 9), [0x4B, *b, 0x70])?;
    }
    panel.draw()?;
    for (column, (b, z)) in sets.iter().enumerate() {
        let lines: [u8; 10] = std::array::from_fn(|line| shown(&panel, 2, line, column));
        assert_eq!(lines, [*z; 10], "{b:02X}");
    }
    Ok(())
}

/// Of Q, B3 is part of the number; the other sets show each pixel twice with it.
#[test]
fn a_cell_of_q_is_double_in_height_and_never_in_width() -> Result<(), Refusal> {
    let mut panel = panel()?;
    begin_page(&mut panel, 4, 0)?;
    for slice in 0..10 {
        for z in [0, 1] {
            point(&mut panel, 4 * slice, 8, z)?;
            panel.write(0x20, 0x30)?;
            panel.write(0x29, 0x0A + slice)?;
        }
    }
    // Q1 and G'0, both with B3 and B1, in two rows and two columns each.
    for (column, b) in [(0, 0xCA), (1, 0xCA), (2, 0x8A), (3, 0x8A)] {
        for y in [9, 10] {
            put(&mut panel, 4, (column, y), [0x20, b, 0x70])?;
        }
    }
    panel.draw()?;
    for line in 0..20 {
        let at = |column| shown(&panel, 2 + line / 10, line % 10, column);
        // A semigraphic cell of twenty lines shows each slice twice.
        assert_eq!([at(0), at(1)], [0x0A + line as u8 / 2; 2], "line {line}");
    }
    // Slice 0 of G'0 is 0A hex: bits 1 and 3, each two pixels wide in the left half.
    assert_eq!([shown(&panel, 2, 0, 2), shown(&panel, 2, 0, 3)], [0xCC, 0]);
    Ok(())
}

#[test]
fn every_cell_can_flash_and_be_concealed() -> Result<(), Refusal> {
    for b in [0x00, 0x20, 0x30, 0x80, 0xA0, 0xC0, 0xF8] {
        let mut panel = panel()?;
        begin_page(&mut panel, 16, 0)?;
        indirect(&mut panel, PAT, 0x48)?;
        put(&mut panel, 16, (0, 9), [0x20, b, 0x78])?;
        panel.draw()?;
        panel.turn(1)?;
        assert!(panel.draw()?.rows().eq([2]), "{b:02X}");
        assert_eq!(shown(&panel, 2, 0, 0), 0);
        put(&mut panel, 16, (0, 9), [0x20, b | 0x04, 0xF0])?;
        panel.draw()?;
        assert_eq!(shown(&panel, 2, 0, 0), 0xFF, "concealed and negative");
    }
    Ok(())
}

#[test]
fn a_change_of_mat_marks_nothing() -> Result<(), Refusal> {
    for tgs in [0x00, 0xC0] {
        let mut panel = panel()?;
        begin_page(&mut panel, 0, 0)?;
        panel.draw()?;
        indirect(&mut panel, TGS, tgs)?;
        let marks = panel.state().marks;
        indirect(&mut panel, MAT, 0x77)?;
        assert_eq!(panel.state().marks, marks);
        assert_eq!(marks, [tgs != 0; ROWS]);
    }
    Ok(())
}

/// What a draw is lent, with each value of TGS and ROR, and the refusal.
#[test]
fn a_draw_is_refused_by_5_then_7_then_6_then_8() -> Result<(), Refusal> {
    let (rom, picture) = (TS9347_ROM_BYTES, PICTURE_BYTES);
    for (rom, picture, tgs, ror, refusal) in [
        (ROM_BYTES, 0, 0xC0, 0, Refusal::WrongRom),
        (rom - 1, 0, 0xC0, 0, Refusal::WrongRom),
        (rom + 1, 0, 0xC0, 0, Refusal::WrongRom),
        (rom, 0, 0x20, 0, Refusal::NotBuilt),
        (rom, 0, 0x40, 0, Refusal::NotBuilt),
        (rom, 0, 0x80, 0, Refusal::NotBuilt),
        (rom, picture, 0xC0, 8, Refusal::NotBuilt),
        (rom, PICTURE_BYTES_80, 0xC0, 8, Refusal::NotBuilt),
        (rom, PICTURE_BYTES_80, 0x1F, 0, Refusal::WrongPicture),
        (rom, picture - 1, 0x1F, 0, Refusal::WrongPicture),
        (rom, picture, 0x1F, 0xE7, Refusal::LowOrigin),
    ] {
        let mut processor = Processor::power_up_board(Board::ThirtyTwo);
        let mut memory = vec![0; TS9347_MEMORY_BYTES];
        for (address, value) in [(0x21, tgs), (0x28, 0x81), (0x21, ror), (0x28, 0x87)] {
            binturamis::write(&mut processor, &mut memory, address, value)?;
        }
        let (rom, mut picture) = (vec![0; rom], vec![0x33; picture]);
        let before = (processor.clone(), picture.clone());
        let drawn = binturamis::draw(&mut processor, &memory, &rom, &mut picture);
        assert_eq!(drawn, Err(refusal), "{tgs:02X} {ror:02X}");
        assert!((processor, picture) == before);
    }
    Ok(())
}

#[test]
fn its_page_has_40_columns_whatever_tgs_says() -> Result<(), Refusal> {
    let mut panel = panel()?;
    begin_page(&mut panel, 0, 0)?;
    indirect(&mut panel, TGS, 0xC0)?;
    assert_eq!(panel.state().width(), Width::Forty);
    assert_eq!(panel.draw(), Err(Refusal::NotBuilt));
    indirect(&mut panel, TGS, 0x1F)?;
    assert_eq!(panel.draw()?.count(), 25);
    assert_eq!(panel.picture().len(), PICTURE_BYTES);
    Ok(())
}
