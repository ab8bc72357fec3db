//! The library where it cannot be linked: each call is carried out by the program `bridge` under an
//! emulator, in a child process of the thread's own. What goes over the pipes is told in
//! `host/bridge/bridge.c`.
//!
//! Without the child there is no answer of the library's to hand back, so a child that cannot be
//! started, or that ends, is a panic.

mod child;
mod known;

use std::cell::RefCell;

use crate::operation::Processor;
use crate::size::STATE_BYTES;
use child::{Call, Child};

thread_local! {
    /// None before the first call, and after one that failed: then it is not known what the child
    /// has.
    static CHILD: RefCell<Option<Child>> = const { RefCell::new(None) };
}

pub fn power_up(processor: &mut Processor) {
    let done = with_child(|child| child.ask(Call::PowerUp, [0, 0], processor, []));
    *processor = done.processor;
}

pub fn power_up_board(processor: &mut Processor, part: u8, blocks: u8) -> u32 {
    let done = with_child(|child| child.ask(Call::PowerUpBoard, [part, blocks], processor, []));
    *processor = done.processor;
    done.answered
}

pub fn write(processor: &mut Processor, memory: &mut [u8], address: u8, value: u8) -> u32 {
    access(Call::Write, [address, value], processor, memory)
}

pub fn read(processor: &mut Processor, memory: &mut [u8], address: u8) -> u32 {
    access(Call::Read, [address, 0], processor, memory)
}

pub fn step(processor: &mut Processor, memory: &mut [u8]) -> u32 {
    access(Call::Step, [0, 0], processor, memory)
}

pub fn turn(processor: &mut Processor, memory: &[u8], phase: u8) -> u32 {
    let done = with_child(|child| child.ask(Call::Turn, [phase, 0], processor, [memory]));
    *processor = done.processor;
    let [of_memory] = done.changes;
    of_memory.assert_none("memory");
    done.answered
}

pub fn draw(processor: &mut Processor, memory: &[u8], rom: &[u8], picture: &mut [u8]) -> u32 {
    let lent = [memory, rom, &*picture];
    let done = with_child(|child| child.ask(Call::Draw, [0, 0], processor, lent));
    *processor = done.processor;
    let [of_memory, of_rom, of_picture] = done.changes;
    of_memory.assert_none("memory");
    of_rom.assert_none("ROM");
    of_picture.make(picture);
    done.answered
}

pub fn state(processor: &Processor) -> [u8; STATE_BYTES] {
    with_child(|child| child.state(processor))
}

/// A call that may store: what it has changed of the memory is made here too.
fn access(call: Call, operands: [u8; 2], processor: &mut Processor, memory: &mut [u8]) -> u32 {
    let done = with_child(|child| child.ask(call, operands, processor, [&*memory]));
    *processor = done.processor;
    let [of_memory] = done.changes;
    of_memory.make(memory);
    done.answered
}

/// The child is put back only if it has answered.
fn with_child<T>(asked: impl FnOnce(&mut Child) -> Result<T, String>) -> T {
    CHILD.with(|kept| {
        let mut kept = kept.borrow_mut();
        let mut child = match kept.take() {
            Some(child) => child,
            None => Child::start().unwrap_or_else(|error| panic!("{error}")),
        };
        let answer = asked(&mut child).unwrap_or_else(|error| panic!("{error}"));
        *kept = Some(child);
        answer
    })
}
