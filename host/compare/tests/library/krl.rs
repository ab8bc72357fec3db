//! KRL at pointers of every kind, legal and not, in both modes: the library answers and leaves what the
//! second program does.

use compare::asked::Asked;
use compare::lengths::Lengths;
use compare::pair::Pair;
use second::pointer::Pointer;
use second::random::Random;
use second::{Mode, Operation, Part};

const COMMANDS: [u8; 4] = [0x50, 0x51, 0x58, 0x59];

/// At the edges of the two parts of a row, and beyond the last column.
const XS: [usize; 9] = [0, 1, 31, 32, 38, 39, 40, 41, 63];
/// The service row, the rows that there are not, and the first and the last of the others.
const YS: [usize; 6] = [0, 1, 7, 8, 20, 31];

fn pointers() -> Vec<Pointer> {
    let mut pointers = Vec::new();
    for z in 0..16 {
        for y in YS {
            pointers.extend(XS.map(|x| Pointer { x, y, z }));
        }
    }
    pointers
}

/// The writes that point the main pointer and fill the registers, and the one that executes.
fn writes(pointer: Pointer, command: u8, random: &mut Random) -> [(u8, u8); 6] {
    let (down, across) = pointer.main_registers(Part::Ef9345);
    [
        (0x21, random.byte()),
        (0x22, random.byte()),
        (0x23, random.byte()),
        (0x26, down | random.choice(&[0x00, 0x40])),
        (0x27, across),
        (0x28, command),
    ]
}

/// How often the commands were accepted, and refused by 4.
fn compare(mode: Mode) -> [usize; 2] {
    let mut random = Random::new(5);
    let memory = random.bytes(Lengths::WHOLE.memory);
    let rom = random.bytes(Lengths::WHOLE.rom);
    let mut pair = Pair::begin(5, memory, rom);
    let write = |pair: &mut Pair, address, value| {
        let operation = Operation::Write { address, value };
        pair.apply(Asked::right(operation)).number
    };
    for (address, value) in [(0x21, mode.tgs()), (0x28, 0x81), (0x21, 0x28), (0x28, 0x87)] {
        write(&mut pair, address, value);
    }
    let mut numbers = [0; 2];
    for pointer in pointers() {
        for command in COMMANDS {
            let mut last = 0;
            for (address, value) in writes(pointer, command, &mut random) {
                last = write(&mut pair, address, value);
            }
            assert!([0, 4].contains(&last), "{pointer:?} got {last}");
            numbers[usize::from(last == 4)] += 1;
        }
        // The rows that its stores have marked.
        pair.apply(Asked::right(Operation::Draw));
    }
    numbers
}

#[test]
fn it_is_the_second_programs_at_every_kind_of_pointer() {
    // Six of the nine Xs and four of the six Ys are legal.
    let accepted = 4 * 16 * 6 * 4;
    let all = 4 * 16 * 9 * 6;
    for mode in [Mode::Forty, Mode::Eighty] {
        assert_eq!(compare(mode), [accepted, all - accepted]);
    }
}
