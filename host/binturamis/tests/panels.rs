//! Panels among themselves: rows pushed one by one give the whole picture, panels do not see each
//! other, a panel goes from one thread to another, and what is lent counts, whoever wrote it.

use std::collections::BTreeSet;
use std::thread;

use binturamis::{Panel, Processor, Refusal, MEMORY_BYTES, ROM_BYTES, ROWS};
use second::bench::Bench;
use second::random::Random;
use second::rules::PageRules;
use second::sequence::Sequence;
use second::Operation;

fn rom(seed: u64) -> [u8; ROM_BYTES] {
    let mut rom = [0; ROM_BYTES];
    rom.copy_from_slice(&Random::new(seed).bytes(ROM_BYTES));
    rom
}

/// Operations of a seed, aimed at the state that the second program has after each.
fn operations(seed: u64, count: usize) -> Vec<Operation> {
    let mut sequence = Sequence::new(seed);
    let mut bench = Bench::power_up();
    let mut operations = Vec::new();
    while operations.len() < count {
        let operation = sequence.operation(&bench.processor, &bench.memory);
        bench.apply_with(&PageRules, operation);
        operations.push(operation);
    }
    operations
}

/// What an operation answers, in words. A sequence has refused ones among the others.
fn apply(panel: &mut Panel, operation: Operation) -> String {
    match operation {
        Operation::PowerUp { .. } => panic!("a panel is powered up when it is made"),
        Operation::Write { address, value } => format!("{:?}", panel.write(address, value)),
        Operation::Read { address } => format!("{:?}", panel.read(address)),
        Operation::Step => format!("{:?}", panel.step()),
        Operation::Turn { phase } => format!("{:?}", panel.turn(phase)),
        Operation::Draw => format!("{:?}", panel.draw()),
    }
}

/// The panel of a seed and its answers, with nothing else going on.
fn run_alone(seed: u64, operations: &[Operation]) -> (Panel, Vec<String>) {
    let mut panel = Panel::new(rom(seed));
    let answers = operations
        .iter()
        .map(|operation| apply(&mut panel, *operation))
        .collect();
    (panel, answers)
}

#[test]
fn redrawn_rows_pushed_to_a_screen_give_the_picture() {
    let mut panel = Panel::new(rom(1));
    let mut screen: Vec<Vec<u8>> = (0..ROWS).map(|row| panel.row(row).to_vec()).collect();
    let (mut partial, mut pushed) = (0, 0);
    for operation in operations(1, 4_000) {
        if operation != Operation::Draw {
            apply(&mut panel, operation);
        } else if let Ok(redrawn) = panel.draw() {
            for (row, bytes) in redrawn.rows_of(panel.picture()) {
                screen[row] = bytes.to_vec();
                pushed += 1;
            }
            partial += usize::from((1..25).contains(&redrawn.count()));
            assert!(screen.concat() == panel.picture());
        }
    }
    assert!(partial > 50 && pushed > 500, "{partial}, {pushed}");
}

#[test]
fn rows_by_number_are_the_picture() {
    let mut panel = Panel::new(rom(2));
    for operation in operations(2, 2_000) {
        apply(&mut panel, operation);
    }
    let rows: Vec<&[u8]> = (0..ROWS).map(|row| panel.row(row)).collect();
    assert!(rows.concat() == panel.picture());
    let different: BTreeSet<&[u8]> = rows.into_iter().collect();
    assert!(different.len() > 10, "{} different rows", different.len());
}

#[test]
#[should_panic(expected = "row 25, where the last is 24")]
fn there_is_no_row_25() {
    Panel::new(rom(0)).row(25);
}

#[test]
fn two_panels_by_turns_do_not_see_each_other() {
    let (left, right) = (operations(3, 1_500), operations(4, 1_500));
    let (mut a, mut b) = (Panel::new(rom(3)), Panel::new(rom(4)));
    let (mut a_answers, mut b_answers) = (Vec::new(), Vec::new());
    for (for_a, for_b) in left.iter().zip(&right) {
        a_answers.push(apply(&mut a, *for_a));
        b_answers.push(apply(&mut b, *for_b));
    }
    assert!((a, a_answers) == run_alone(3, &left));
    assert!((b, b_answers) == run_alone(4, &right));
}

#[test]
fn a_panel_goes_from_thread_to_thread() {
    let all = operations(5, 1_500);
    let mut panel = Panel::new(rom(5));
    let mut answers = Vec::new();
    for part in all.chunks(300) {
        let part = part.to_vec();
        let elsewhere = thread::spawn(move || {
            let mut panel = panel;
            let answers: Vec<String> = part.iter().map(|one| apply(&mut panel, *one)).collect();
            (panel, answers)
        });
        let (back, answered) = elsewhere.join().expect("the thread ends well");
        panel = back;
        answers.extend(answered);
    }
    assert!((panel, answers) == run_alone(5, &all));
}

#[test]
fn panels_on_threads_of_their_own_run_at_the_same_time() {
    let threads: Vec<_> = (6..10)
        .map(|seed| thread::spawn(move || run_alone(seed, &operations(seed, 500))))
        .collect();
    for (seed, thread) in (6..10).zip(threads) {
        let at_once = thread.join().expect("the thread ends well");
        assert!(at_once == run_alone(seed, &operations(seed, 500)));
    }
}

/// OCT's read form at X 0, Y 0 and block 0.
fn first_byte(processor: &mut Processor, memory: &mut [u8]) -> Result<u8, Refusal> {
    binturamis::write(processor, memory, 0x28, 0x38)?;
    Ok(binturamis::read(processor, memory, 0x21)?)
}

#[test]
fn bytes_that_the_host_has_written_itself_are_read() -> Result<(), Refusal> {
    let mut processor = Processor::power_up();
    let mut memory = vec![0; MEMORY_BYTES + 1];
    for value in [0x5A, 0xA5, 0xA5, 0x00] {
        memory[0] = value;
        let right = &mut memory[..MEMORY_BYTES];
        assert_eq!(first_byte(&mut processor, right)?, value);
        // The same bytes one further on, and a shorter slice in between.
        let longer = binturamis::write(&mut processor, &mut memory, 0x21, 0);
        assert_eq!(longer, Err(Refusal::WrongMemory));
        let shorter = binturamis::write(&mut processor, &mut memory[..7], 0x21, 0);
        assert_eq!(shorter, Err(Refusal::WrongMemory));
        memory[1] = value ^ 0xFF;
        let shifted = &mut memory[1..];
        assert_eq!(first_byte(&mut processor, shifted)?, value ^ 0xFF);
    }
    Ok(())
}
