//! Each planted slip is seen by random sequences, and the right rules never are.

mod expected;
mod stepped;

use expected::expected_marks;
use second::address::place;
use second::bench::Bench;
use second::operation::Operation;
use second::pointer::{Pointer, Which};
use second::processor::Answer;
use second::random::Random;
use second::rules::PageRules;
use second::rules::Rules;
use second::sequence::Sequence;
use second::{Board, Part, Slip};
use stepped::expected_step;

const SEEDS: u64 = 40;
const OPERATIONS: usize = 4_000;

/// One operation of a sequence, with the bench before and after it.
struct Step<'a> {
    before: &'a Bench,
    operation: Operation,
    answer: Answer,
    after: &'a Bench,
}

/// Something that the right rules never show.
type Wrong = fn(&Step) -> bool;

/// A kept picture that differs from the fresh one.
fn stale(step: &Step) -> bool {
    let Bench {
        processor,
        memory,
        rom,
        picture,
    } = step.after;
    let is_drawn = step.operation == Operation::Draw && step.answer.number == 0;
    is_drawn && processor.fresh(memory, rom) != *picture
}

/// Other marks than those of the lists: also too many, which no picture shows.
fn wrongly_marked(step: &Step) -> bool {
    let is_refused_draw = step.operation == Operation::Draw && step.answer.number != 0;
    let expected = expected_marks(step.before, step.operation, step.after);
    !is_refused_draw && step.after.processor.marks != expected
}

/// Another code than was written at the position of KRL, or any change at the other position of the
/// same X.
fn wrongly_packed(step: &Step) -> bool {
    let registers = &step.after.processor.registers;
    let executed = matches!(step.operation, Operation::Write { address: 0x29, .. });
    let is_krl = [0x50, 0x51].contains(&registers[0]);
    if !executed || step.answer.number != 0 || !is_krl {
        return false;
    }
    // The pointer from before the increment; the write was of R1.
    let pointer = Pointer::of(Part::Ef9345, &step.before.processor.registers, Which::Main);
    let twelve_bits = |bench: &Bench, odd: bool| {
        let even = pointer.z - pointer.z % 2;
        let c = bench.memory[place(pointer.x, pointer.y, even + usize::from(odd))];
        let third = even / 4 * 4 + (even + 2) % 4;
        let attributes = bench.memory[place(pointer.x, pointer.y, third)];
        (
            c,
            if odd {
                attributes % 16
            } else {
                attributes / 16
            },
        )
    };
    let odd = pointer.z % 2 == 1;
    let written = twelve_bits(step.after, odd);
    let half = if odd {
        registers[3] % 16
    } else {
        registers[3] / 16
    };
    written != (registers[1], half)
        || twelve_bits(step.after, !odd) != twelve_bits(step.before, !odd)
}

/// Another byte than R1, on the TS9347, at the place that the pointer of OCT names: "R7 bits 5..0 are X,
/// bit 7 is Z0 and bit 6 is Z1", and "bits 7..5 beside Y being Z4..Z2", in R4 and R5 as in R6 and R7.
fn wrongly_placed(step: &Step) -> bool {
    let is_later = step.after.processor.board.part == Part::Ts9347;
    let executed = matches!(step.operation, Operation::Write { address: 0x29, .. });
    if !is_later || !executed || step.answer.number != 0 {
        return false;
    }
    // The registers from before the increment; the write was of R1.
    let [command, _, _, _, r4, r5, r6, r7] = step.before.processor.registers;
    let (down, across) = match command {
        0x30 | 0x31 => (r6, r7),
        0x34 | 0x35 => (r4, r5),
        _ => return false,
    };
    let z = 4 * usize::from(down / 32) + [0, 2, 1, 3][usize::from(across / 64)];
    let at = place(usize::from(across % 64), usize::from(down % 32), z);
    step.after.memory[at] != step.after.processor.registers[1]
}

/// Another memory, another register or another busy after a step than its bytes and its pointers say.
fn wrongly_moved(step: &Step) -> bool {
    if step.operation != Operation::Step {
        return false;
    }
    let mut expected = expected_step(step.before);
    expected.processor.marks = step.after.processor.marks;
    *step.after != expected
}

/// An access that was not refused while a move ran, and is neither a status read at 20 nor a NOP at 28.
fn wrongly_accepted(step: &Step) -> bool {
    let is_refused = match step.operation {
        Operation::Read { address } => (0x21..=0x2F).contains(&address),
        Operation::Write { address, value } => {
            let is_nop = address == 0x28 && [0x90, 0x91].contains(&value);
            (0x20..=0x2F).contains(&address) && !is_nop
        }
        _ => false,
    };
    step.before.processor.busy && is_refused && step.answer.number != 10
}

/// The number of operations until something wrong is seen, if it ever is.
fn caught<R: Rules>(rules: &R, wrong: Wrong, board: Board, seed: u64) -> Option<usize> {
    let mut sequence = Sequence::new(seed);
    let mut bench = Bench::power_up_board(board);
    bench.memory = sequence.memory(board.blocks);
    bench.rom = Random::new(seed).bytes(board.part.rom());
    for count in 1..=OPERATIONS {
        let operation = sequence.operation(&bench.processor, &bench.memory);
        let before = bench.clone();
        let answer = bench.apply_with(rules, operation);
        let step = Step {
            before: &before,
            operation,
            answer,
            after: &bench,
        };
        if wrong(&step) {
            return Some(count);
        }
    }
    None
}

fn is_caught_on(board: Board, slip: Slip, wrong: Wrong) {
    let caught = |seed| caught(&slip, wrong, board, seed).map(|count| (seed, count));
    let found = (0..SEEDS).find_map(caught);
    let (seed, count) = found.unwrap_or_else(|| panic!("{slip:?} was not caught"));
    println!("{slip:?}: {board:?}, seed {seed}, operation {count}");
}

fn is_caught(slip: Slip, wrong: Wrong) {
    is_caught_on(Board::SIXTEEN, slip, wrong);
}

#[test]
fn a_forgotten_user_slice_is_caught() {
    is_caught(Slip::UserSliceForgotten, stale);
}

#[test]
fn a_forgotten_row_above_is_caught() {
    is_caught(Slip::RowAboveForgotten, stale);
}

#[test]
fn a_chain_that_stops_after_one_row_is_caught() {
    is_caught(Slip::ChainStopsAfterOneRow, stale);
}

#[test]
fn a_forgotten_phase_is_caught() {
    is_caught(Slip::PhaseForgotten, stale);
}

#[test]
fn a_forgotten_dor_is_caught() {
    is_caught(Slip::DorForgotten, stale);
}

#[test]
fn a_forgotten_quadrichrome_slice_is_caught() {
    is_caught(Slip::QuadrichromeSliceForgotten, stale);
}

#[test]
fn a_third_block_from_the_next_district_is_caught() {
    is_caught(Slip::ThirdBlockFromNextDistrict, stale);
}

#[test]
fn a_forgotten_mat_is_caught() {
    is_caught(Slip::MatForgotten, stale);
}

#[test]
fn a_mat_that_marks_40_columns_is_caught() {
    is_caught(Slip::MatMarksForty, wrongly_marked);
}

#[test]
fn a_forgotten_mode_change_is_caught() {
    is_caught(Slip::ModeForgotten, stale);
}

#[test]
fn a_flash_forgotten_in_80_columns_is_caught() {
    is_caught(Slip::FlashForgottenInEighty, stale);
}

#[test]
fn mosaics_that_flash_are_caught() {
    is_caught(Slip::MosaicsFlash, wrongly_marked);
}

#[test]
fn lists_of_40_columns_in_80_are_caught() {
    is_caught(Slip::EightyReadsAsForty, wrongly_marked);
}

#[test]
fn a_whole_byte_of_attributes_stored_is_caught() {
    is_caught(Slip::WholeAttributesStored, wrongly_packed);
}

#[test]
fn a_nibble_from_the_other_half_is_caught() {
    is_caught(Slip::NibbleFromOtherHalf, wrongly_packed);
}

#[test]
fn mirrors_of_what_is_not_fitted_are_caught() {
    for board in [Board::TWO, Board::EIGHT] {
        is_caught_on(board, Slip::NotFittedMirrored, wrongly_marked);
    }
}

#[test]
fn a_page_forgotten_since_a_block_of_it_is_not_fitted_is_caught() {
    is_caught_on(Board::TWO, Slip::PartlyFittedForgotten, stale);
}

#[test]
fn a_forgotten_z4_is_caught() {
    is_caught_on(Board::TS9347, Slip::Z4Forgotten, wrongly_placed);
}

#[test]
fn an_auxiliary_z3_in_r6_is_caught() {
    is_caught_on(Board::TS9347, Slip::AuxiliaryZ3InR6, wrongly_placed);
}

#[test]
fn quadrichrome_cells_of_the_sets_q_are_caught() {
    is_caught_on(Board::TS9347, Slip::QuadrichromeQ, stale);
}

#[test]
fn double_width_cells_of_the_sets_q_are_caught() {
    is_caught_on(Board::TS9347, Slip::DoubleWidthQ, stale);
}

#[test]
fn alphanumeric_cells_of_goe_are_caught() {
    is_caught_on(Board::TS9347, Slip::AlphanumericGoe, stale);
}

#[test]
fn a_page_without_dor_7_is_caught() {
    is_caught_on(Board::TS9347, Slip::Dor7Forgotten, stale);
    is_caught_on(Board::TS9347, Slip::Dor7Forgotten, wrongly_marked);
}

#[test]
fn a_rom_in_the_order_of_the_other_part_is_caught() {
    is_caught_on(Board::TS9347, Slip::RomInOldOrder, stale);
}

#[test]
fn unmarked_stores_of_a_step_are_caught() {
    is_caught(Slip::StepUnmarked, stale);
    is_caught(Slip::StepUnmarked, wrongly_marked);
}

#[test]
fn a_move_that_leaves_its_district_is_caught() {
    is_caught(Slip::MoveLeavesDistrict, wrongly_moved);
}

#[test]
fn a_position_that_is_read_first_is_caught() {
    is_caught(Slip::PositionReadFirst, wrongly_moved);
}

#[test]
fn an_auxiliary_y_that_goes_on_is_caught() {
    is_caught(Slip::AuxiliaryGoesDown, wrongly_moved);
}

#[test]
fn a_move_that_leaves_the_service_row_is_caught() {
    is_caught(Slip::ServiceRowLeft, wrongly_moved);
}

#[test]
fn a_move_that_enters_the_service_row_is_caught() {
    is_caught(Slip::ServiceRowEntered, wrongly_moved);
}

#[test]
fn a_stop_at_the_source_alone_is_caught() {
    is_caught(Slip::StopAtSourceAlone, wrongly_moved);
}

#[test]
fn an_access_accepted_while_busy_is_caught() {
    is_caught(Slip::BusyForgotten, wrongly_accepted);
}

#[test]
fn the_planted_slips_differ() {
    for (at, slip) in Slip::PLANTED.iter().enumerate() {
        assert_ne!(*slip, Slip::None);
        assert!(!Slip::PLANTED[..at].contains(slip));
    }
}

#[test]
fn the_right_rules_are_not_caught() {
    let wrong: Wrong = |step| {
        stale(step)
            || wrongly_packed(step)
            || wrongly_placed(step)
            || wrongly_moved(step)
            || wrongly_accepted(step)
    };
    for board in Board::ALL {
        for seed in 0..4 {
            assert_eq!(caught(&PageRules, wrong, board, seed), None);
            assert_eq!(caught(&Slip::None, wrong, board, seed), None);
        }
    }
    // That their marks are those of the lists is seen over more sequences where pictures are kept.
}
