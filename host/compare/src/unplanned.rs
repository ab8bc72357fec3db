//! Operations that no plan of a sequence makes: any bytes, lengths that are refused, commands, pointers,
//! pages and boards that are.

use second::random::Random;
use second::sequence::MOVES;
use second::{Board, Mode, Operation, Part};

use crate::asked::Asked;
use crate::lengths::Lengths;
use crate::page::any_ror;

/// KRL's four forms.
const KRL: [u8; 4] = [0x50, 0x51, 0x58, 0x59];

/// The commands that use a pointer, but for the moves, which use both.
const POINTING: [u8; 16] = [
    0x00, 0x01, 0x08, 0x09, 0x30, 0x31, 0x34, 0x35, 0x38, 0x39, 0x3C, 0x3D, 0x50, 0x51, 0x58, 0x59,
];

/// A few operations, to a board. Sequences keep commands, pointers and pages legal for the most part, so
/// that refusals 3, 4, 7 and 8 are rare in them, and they power nothing up.
pub fn unplanned(random: &mut Random, board: Board) -> Vec<Asked> {
    match random.below(60) {
        0..=3 => any_command(random),
        4..=9 => any_pointer(random),
        10..=14 => other_page(random),
        15..=18 => any_position(random),
        19 => other_board(random, board),
        20 | 21 => no_board(random, board),
        22 => vec![other_picture(random, board)],
        23..=25 => any_move(random, board),
        26..=28 => refused_move(random),
        _ => vec![any_operation(random, board)],
    }
}

/// Any operation, lent buffers of any lengths.
fn any_operation(random: &mut Random, board: Board) -> Asked {
    let operation = match random.below(17) {
        0..=3 => Operation::Write {
            address: address(random),
            value: random.byte(),
        },
        4..=7 => Operation::Read {
            address: address(random),
        },
        8..=11 => Operation::Turn {
            phase: phase(random),
        },
        12 => Operation::Step,
        _ => Operation::Draw,
    };
    Asked::with(operation, Lengths::any(random, board))
}

/// Power-up of any board, a few operations to it, and the board that it was.
fn other_board(random: &mut Random, board: Board) -> Vec<Asked> {
    let other = random.choice(&Board::ALL);
    between_boards(random, other.numbers(), other, board)
}

/// A draw into a picture of any length, with the right memory and ROM.
fn other_picture(random: &mut Random, board: Board) -> Asked {
    Asked::with(Operation::Draw, Lengths::any_picture(random, board))
}

/// Power-up of a board that there is not, once for its blocks and once for its part, each with a few
/// operations to that of 16 blocks, and the board that it was.
fn no_board(random: &mut Random, board: Board) -> Vec<Asked> {
    let mut asked = Vec::new();
    for numbers in [wrong_blocks(random), unknown_part(random)] {
        asked.extend(between_boards(random, numbers, Board::SIXTEEN, board));
    }
    asked
}

/// A part, with a number of blocks that only the other one has, or neither.
fn wrong_blocks(random: &mut Random) -> (u8, u8) {
    let part = random.byte() % 2;
    let near = random.choice(&[0, 1, 3, 4, 7, 9, 15, 17, 31, 33, 64]);
    let other = match part {
        0 => 32,
        _ => random.choice(&[2, 8, 16]),
    };
    let far = random.byte();
    let wrong = match Board::named(part, far) {
        Ok(_) => near,
        Err(_) => random.choice(&[near, other, far]),
    };
    (part, wrong)
}

/// A part that there is not, with a number of blocks that one of the others has, or any.
fn unknown_part(random: &mut Random) -> (u8, u8) {
    let far = random.byte();
    let part = match far {
        0 | 1 => 2,
        _ => random.choice(&[2, 3, 255, far]),
    };
    let blocks = random.byte();
    (part, random.choice(&[2, 8, 16, 32, blocks]))
}

/// Power-up by two numbers, which is to give a board, and at the end power-up of another with a page that
/// can be drawn. Now and then TGS names no mode before the first.
fn between_boards(
    random: &mut Random,
    (part, blocks): (u8, u8),
    given: Board,
    board: Board,
) -> Vec<Asked> {
    let mut asked = Vec::new();
    if random.one_in(4) {
        asked.extend([write(0x21, 0x40), write(0x28, 0x81)]);
    }
    asked.push(Asked::right(Operation::PowerUp { part, blocks }));
    if random.one_in(2) {
        asked.extend(page(random, given));
        asked.push(any_operation(random, given));
    }
    asked.push(Asked::power_up(board));
    asked.extend(page(random, board));
    asked
}

/// A page that can be drawn, in any mode of the part, most often with a block that is fitted.
fn page(random: &mut Random, board: Board) -> Vec<Asked> {
    let mode = random.choice(Mode::all_of(board.part));
    let ror = any_ror(random, board);
    let mut asked = vec![
        write(0x21, mode.tgs()),
        write(0x28, 0x81),
        write(0x21, ror),
        write(0x28, 0x87),
    ];
    // DOR 7 is a bit of the first block there.
    if board.part == Part::Ts9347 {
        asked.extend([write(0x21, random.byte()), write(0x28, 0x84)]);
    }
    asked
}

/// Any byte, or an address of the processor.
fn address(random: &mut Random) -> u8 {
    let byte = random.byte();
    random.choice(&[byte, 0x20 + byte % 16])
}

/// Any byte, or a phase.
fn phase(random: &mut Random) -> u8 {
    let byte = random.byte();
    random.choice(&[byte, byte % 2])
}

/// Any byte as the command, executed by an access to any register.
fn any_command(random: &mut Random) -> Vec<Asked> {
    let command = random.byte();
    vec![write(0x20, command), executing(random)]
}

/// Any bytes as both pointers, and a command that uses one of them.
fn any_pointer(random: &mut Random) -> Vec<Asked> {
    let mut asked: Vec<Asked> = (0x24..0x28)
        .map(|address| write(address, random.byte()))
        .collect();
    asked.push(write(0x20, random.choice(&POINTING)));
    asked.push(executing(random));
    asked
}

/// A move whose pointers are in blocks 0 and 1, so that it begins on every board that has moves, and then
/// steps and accesses while it runs; now and then where TGS names no mode, and then a page again. Most often
/// it is ended.
fn any_move(random: &mut Random, board: Board) -> Vec<Asked> {
    let mut asked = Vec::new();
    let in_no_mode = random.one_in(3);
    if in_no_mode {
        asked.extend([write(0x21, 0x40), write(0x28, 0x81)]);
        asked.push(any_operation(random, board));
    }
    for (down, across) in [(0x24, 0x25), (0x26, 0x27)] {
        let y = random.choice(&[0, 8, 20, 31]);
        let x = random.choice(&[0, 1, 12, 36, 38, 39]);
        let z0 = random.choice(&[0x00, 0x00, 0x80]);
        asked.extend([write(down, y), write(across, z0 + x)]);
    }
    let (high, low) = (
        random.choice(&[0xD0, 0xD0, 0xE0, 0xF0]),
        random.choice(&[0x05, 0x06, 0x09, 0x0A]),
    );
    asked.push(write(0x28, high + low));
    for _ in 0..1 + random.below(8) {
        asked.push(while_busy(random, board));
    }
    if in_no_mode {
        let tgs = random.choice(Mode::all_of(board.part)).tgs();
        asked.extend([abort(random), write(0x21, tgs), write(0x28, 0x81)]);
    } else if !random.one_in(6) {
        asked.push(abort(random));
    }
    asked
}

/// A step, or an access that a move which runs refuses, or one that it does not.
fn while_busy(random: &mut Random, board: Board) -> Asked {
    let (byte, nop) = (random.byte(), random.choice(&[0x90, 0x91]));
    match random.below(14) {
        0..=4 => Asked::right(Operation::Step),
        5 | 6 => Asked::with(Operation::Step, Lengths::any(random, board)),
        7 => Asked::right(Operation::Read {
            address: 0x20 + byte % 16,
        }),
        8 => Asked::right(Operation::Read { address: 0x20 }),
        9 => Asked::right(Operation::Read { address: 0x28 }),
        10 => write(0x20, nop),
        11 => write(0x21 + byte % 7, random.byte()),
        12 => write(0x28 + byte % 8, random.byte()),
        _ => write(0x20 + byte % 16, nop),
    }
}

/// A move with a pointer that is illegal, or in a block that a smaller board does not have, and a step of
/// what may have begun all the same.
fn refused_move(random: &mut Random) -> Vec<Asked> {
    let mut registers = [0x08, 0x00, 0x08, 0x00];
    match random.below(6) {
        0 => registers[1] = 40 + random.byte() % 24,
        1 => registers[3] = 40 + random.byte() % 24,
        2 => registers[random.choice(&[0, 2])] = 1 + random.byte() % 7,
        // Blocks 8 and 12 of either pointer, and any of both.
        3 => registers[2] |= random.choice(&[0x80, 0x40, 0xC0]),
        4 => registers[2] |= 0x20 + random.choice(&[0x80, 0xC0]),
        _ => {
            registers[0] |= random.byte() & 0xE0;
            registers[2] |= 0x80 | random.byte() & 0xE0;
        }
    }
    let mut asked: Vec<Asked> = (0x24..)
        .zip(registers)
        .map(|(address, value)| write(address, value))
        .collect();
    asked.push(write(0x20, random.choice(&MOVES)));
    asked.push(executing(random));
    asked.extend([Asked::right(Operation::Step), abort(random)]);
    asked
}

/// The end of a move that runs: a NOP at an upper address.
pub fn abort(random: &mut Random) -> Asked {
    write(0x28, random.choice(&[0x90, 0x91]))
}

/// KRL at a position of any row and block, one time in three the last of a row.
fn any_position(random: &mut Random) -> Vec<Asked> {
    let (x, block) = (random.byte() % 40, random.byte());
    let position = random.choice(&[x, 0x80 | x, 0x80 | 39]);
    let y = random.choice(&[0, 8 + block % 24]);
    vec![
        write(0x26, block & 0xE0 | y),
        write(0x27, block & 0x40 | position),
        write(0x20, random.choice(&KRL)),
        executing(random),
    ]
}

/// Any byte in TGS, PAT or ROR, and a draw.
fn other_page(random: &mut Random) -> Vec<Asked> {
    let command = random.choice(&[0x81, 0x83, 0x87]);
    vec![
        write(0x21, random.byte()),
        write(0x28, command),
        Asked::right(Operation::Draw),
    ]
}

/// A read that executes, or a write that does and leaves the command as it is.
fn executing(random: &mut Random) -> Asked {
    let register = random.byte() % 8;
    if register == 0 || random.one_in(2) {
        Asked::right(Operation::Read {
            address: 0x28 + register,
        })
    } else {
        write(0x28 + register, random.byte())
    }
}

fn write(address: u8, value: u8) -> Asked {
    Asked::right(Operation::Write { address, value })
}
