//! The boards: power-up by number and by name, the memory that each is lent, what is refused for a block
//! that is not fitted, and what is drawn of one.

use binturamis::{
    Board, Panel, Part, Processor, Refusal, BLOCK_BYTES, MEMORY_BYTES, PICTURE_BYTES, ROM_BYTES,
    TS9347_MEMORY_BYTES, TS9347_ROM_BYTES,
};

#[test]
fn a_board_is_known_by_its_part_and_its_blocks() {
    let of_part = |part| (0..=255).filter_map(move |blocks| Board::new(part, blocks).ok());
    let boards: Vec<Board> = Part::ALL.into_iter().flat_map(of_part).collect();
    assert_eq!(boards, Board::ALL);
    assert_eq!(Board::ALL.map(Board::blocks), [2, 8, 16, 32]);
    let (ef9345, ts9347) = (Part::Ef9345, Part::Ts9347);
    let parts = Board::ALL.map(Board::part);
    assert_eq!(parts, [ef9345, ef9345, ef9345, ts9347]);
    assert_eq!(
        Board::ALL.map(Board::memory_bytes),
        [2_048, 8_192, MEMORY_BYTES, TS9347_MEMORY_BYTES]
    );
    assert_eq!(
        Board::ALL.map(Board::rom_bytes),
        [ROM_BYTES, ROM_BYTES, ROM_BYTES, TS9347_ROM_BYTES]
    );
    assert_eq!(Board::new(ef9345, 0), Err(Refusal::WrongBoard));
    assert_eq!(Board::new(ef9345, 32), Err(Refusal::WrongBoard));
    assert_eq!(Board::new(ts9347, 16), Err(Refusal::WrongBoard));
}

#[test]
fn a_part_is_known_by_its_number() {
    assert_eq!(Part::ALL.map(Part::number), [0, 1]);
    for number in 0..=255 {
        let wanted = match number {
            0 => Ok(Part::Ef9345),
            1 => Ok(Part::Ts9347),
            _ => Err(Refusal::UnknownPart),
        };
        assert_eq!(Part::from_number(number), wanted);
    }
}

/// A processor of a board that has gone some way from power-up.
fn used(board: Board) -> Processor {
    let mut processor = Processor::power_up_board(board);
    let mut memory = vec![0; board.memory_bytes()];
    for (address, value) in [(0x21, 0x08), (0x28, 0x87), (0x26, 0x1F)] {
        binturamis::write(&mut processor, &mut memory, address, value).expect("it is accepted");
    }
    processor
}

/// The board that the two numbers name: 14, an unknown part, is given before 12.
fn named(part: u8, blocks: u8) -> Result<Board, Refusal> {
    Board::new(Part::from_number(part)?, blocks)
}

/// Each processor has been of another board before, or of the same.
#[test]
fn power_up_is_of_the_board_or_an_ef9345_with_16_blocks_after_14_and_12() {
    let every_number = (0..=255).flat_map(|blocks| [0, 1, 2].map(|part| (part, blocks)));
    let every_part = (0..=255).flat_map(|part| [0, 16, 32].map(|blocks| (part, blocks)));
    let before = Board::ALL.map(used);
    for (at, (part, blocks)) in every_number.chain(every_part).enumerate() {
        let mut processor = before[at % before.len()].clone();
        let answer = binturamis::power_up(&mut processor, part, blocks);
        let board = named(part, blocks);
        assert_eq!(answer, board.map(|_| ()), "part {part}, {blocks} blocks");
        let board = board.unwrap_or(Board::Sixteen);
        assert_eq!(processor, Processor::power_up_board(board));
        let state = processor.state();
        assert_eq!(named(state.part, state.blocks), Ok(board));
    }
    assert_eq!(
        Processor::power_up(),
        Processor::power_up_board(Board::Sixteen)
    );
}

#[test]
fn the_states_of_the_boards_differ_in_part_and_blocks_alone() {
    let full = Processor::power_up().state();
    for board in Board::ALL {
        let mut state = Processor::power_up_board(board).state();
        assert_eq!(state.blocks, board.blocks());
        assert_eq!(state.part, board.part().number());
        (state.part, state.blocks) = (full.part, full.blocks);
        assert_eq!(state, full);
    }
}

#[test]
fn the_memory_is_as_long_as_the_boards() {
    let mut picture = [0x33; PICTURE_BYTES];
    for board in Board::ALL {
        let rom = vec![0; board.rom_bytes()];
        let right = board.memory_bytes();
        let others = Board::ALL.map(Board::memory_bytes);
        for length in others.into_iter().chain([0, right - 1, right + 1]) {
            let mut processor = Processor::power_up_board(board);
            let mut memory = vec![0; length];
            let wanted = match length {
                length if length == right => Ok(()),
                _ => Err(Refusal::WrongMemory),
            };
            let written = binturamis::write(&mut processor, &mut memory, 0x22, 0);
            assert_eq!(written, wanted, "{length} bytes on {board:?}");
            let read = binturamis::read(&mut processor, &mut memory, 0x22);
            assert_eq!(read.map(|_| ()).map_err(Refusal::from), wanted);
            assert_eq!(binturamis::turn(&mut processor, &memory, 0), wanted);
            let drawn = binturamis::draw(&mut processor, &memory, &rom, &mut picture);
            // The origin is low, which comes after the memory.
            assert_eq!(drawn, Err(wanted.err().unwrap_or(Refusal::LowOrigin)));
            assert_eq!(processor, Processor::power_up_board(board));
        }
    }
}

/// Points the main pointer of an EF9345 to X 0 and Y 8 in a block.
fn point(panel: &mut Panel, z: u8) -> Result<(), Refusal> {
    panel.write(0x26, 0x80 * (z / 8) + 0x20 * (z / 4 % 2) + 8)?;
    panel.write(0x27, 0x40 * (z / 2 % 2) + 0x80 * (z % 2))
}

/// The blocks in which a command is accepted.
fn accepted(board: Board, command: u8) -> Result<Vec<u8>, Refusal> {
    let mut panel = Panel::with_board(board, &[0; ROM_BYTES])?;
    let mut blocks = Vec::new();
    for z in 0..16 {
        point(&mut panel, z)?;
        let before = panel.clone();
        match panel.write(0x28, command) {
            Ok(()) => blocks.push(z),
            refused => {
                assert_eq!(refused, Err(Refusal::NotFitted));
                assert_eq!(panel.state().command, command, "the access has happened");
                panel.write(0x20, before.state().command)?;
                assert!(panel == before, "and nothing else");
            }
        }
    }
    Ok(blocks)
}

#[test]
fn a_command_is_refused_by_11_for_any_of_its_bytes() -> Result<(), Refusal> {
    for (command, of_two) in [
        (0x00, vec![]),
        (0x08, vec![]),
        (0x30, vec![0, 1]),
        (0x38, vec![0, 1]),
        (0x50, vec![]),
        (0x58, vec![]),
    ] {
        assert_eq!(accepted(Board::Two, command)?, of_two, "{command:02X}");
        assert!(accepted(Board::Eight, command)?.into_iter().eq(0..8));
        assert!(accepted(Board::Sixteen, command)?.into_iter().eq(0..16));
    }
    Ok(())
}

#[test]
fn a_panel_has_the_rom_of_its_part() -> Result<(), Refusal> {
    for board in Board::ALL {
        let lengths = [0, 1, board.rom_bytes() - 1, board.rom_bytes() + 1];
        let others = [ROM_BYTES, TS9347_ROM_BYTES, ROM_BYTES + TS9347_ROM_BYTES];
        for length in lengths.into_iter().chain(others) {
            let panel = Panel::with_board(board, &vec![0x5A; length]);
            if length == board.rom_bytes() {
                assert_eq!(panel?.rom(), vec![0x5A; length]);
            } else {
                assert_eq!(panel, Err(Refusal::WrongRom), "{length} on {board:?}");
            }
        }
    }
    Ok(())
}

#[test]
fn a_read_refused_by_11_has_the_value_read() -> Result<(), Refusal> {
    let mut panel = Panel::with_board(Board::Two, &[0; ROM_BYTES])?;
    point(&mut panel, 2)?;
    panel.write(0x20, 0x38)?;
    panel.write(0x23, 0x5A)?;
    let refused = panel.read(0x2B).expect_err("it is refused");
    assert_eq!(refused.refusal(), Refusal::NotFitted);
    assert_eq!(refused.value(), Some(0x5A));
    Ok(())
}

/// On the board of 2 blocks a page of 80 columns at block 0 is plain text: its attributes are 0.
#[test]
fn a_page_whose_attributes_are_not_fitted_is_plain_text() -> Result<(), Refusal> {
    let mut rom = [0; ROM_BYTES];
    rom[10 * 0x41..][..10].fill(0b10_1101);
    let mut panel = Panel::with_board(Board::Two, &rom)?;
    for (value, command) in [(0xC0, 0x81), (0x04, 0x82), (0x07, 0x84), (0x08, 0x87)] {
        panel.write(0x21, value)?;
        panel.write(0x28, command)?;
    }
    for z in [0, 1] {
        point(&mut panel, z)?;
        panel.write(0x21, 0x41)?;
        panel.write(0x28, 0x30)?;
    }
    assert_eq!(panel.draw()?.count(), 25);
    // White on blue, the lowest bit on the left.
    for line in 0..10 {
        let bytes = &panel.row(1)[240 * line..];
        assert_eq!(bytes[..7], [0x47, 0x77, 0x74, 0x47, 0x77, 0x74, 0x44]);
    }
    let stored = panel.memory().iter().filter(|byte| **byte != 0);
    assert_eq!(stored.count(), 2);
    assert_eq!(
        (panel.memory()[256], panel.memory()[BLOCK_BYTES + 256]),
        (0x41, 0x41)
    );
    Ok(())
}
