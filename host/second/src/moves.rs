//! The step of a move: "A move runs one character position a step".

use crate::address::place;
use crate::command::{Command, Move};
use crate::pointer::{Pointer, Which};
use crate::processor::{Answer, Processor};
use crate::rules::{PageRules, Rules};

impl Processor {
    pub fn step(&mut self, memory: &mut [u8]) -> Answer {
        self.step_with(&PageRules, memory)
    }

    /// A step under given rules. "Refusals: 1 for a step", "also while nothing runs"; "A step while
    /// nothing runs answers 0 and changes nothing".
    pub fn step_with<R: Rules>(&mut self, rules: &R, memory: &mut [u8]) -> Answer {
        if memory.len() != self.memory_length() {
            return Answer::refusal(1);
        }
        if self.busy {
            match self.running(rules) {
                Some(run) => self.one_position(rules, memory, run),
                None => self.busy = false,
            }
        }
        Answer {
            number: 0,
            value: 0,
        }
    }

    /// The move that runs while busy. "States that no run reaches (busy with a command that is no move, or
    /// with a pointer that is illegal or not fitted)" have none.
    fn running<R: Rules>(&self, rules: &R) -> Option<Move> {
        let command = Command::listed(self.board.part, self.registers[0])?;
        let Command::Move(run) = command else {
            return None;
        };
        match self.pointer_refusal(rules, command) {
            Some(_) => None,
            None => Some(run),
        }
    }

    /// One character position: "1, 2 or 3 bytes, one after another through R1, from the source's X, Y in
    /// blocks Z, Z+1, Z+2 to the destination's, each counted modulo 4 inside its district". Then both
    /// pointers go on.
    fn one_position<R: Rules>(&mut self, rules: &R, memory: &mut [u8], run: Move) {
        let part = self.board.part;
        let source = rules.pointer(part, &self.registers, run.source);
        let destination = rules.pointer(part, &self.registers, run.destination());
        let place_of = |pointer: Pointer, byte: usize| {
            place(pointer.x, pointer.y, rules.moved_block(pointer.z, byte))
        };
        let before: Vec<u8> = (0..run.bytes)
            .map(|byte| memory[place_of(source, byte)])
            .collect();
        for byte in 0..run.bytes {
            let (from, to) = (place_of(source, byte), place_of(destination, byte));
            self.registers[1] = rules.moved_byte(before[byte], memory[from]);
            self.store_marking(memory, to, self.registers[1], |page, row| {
                rules.step_marks(page, row, to)
            });
        }
        self.go_on(rules, Which::Main, run.stop);
        self.go_on(rules, Which::Auxiliary, run.stop);
        if run.stop && rules.ends(source.x, destination.x) {
            self.busy = false;
        }
    }

    /// A pointer's "X goes on, 39 to 0", and no LX bit is set. "With a stop: Y stays"; "Without: when the
    /// main pointer's X passes 39 its Y goes on [..]; the auxiliary pointer's Y always stays". The other
    /// bits of both registers are the blocks'.
    fn go_on<R: Rules>(&mut self, rules: &R, which: Which, stop: bool) {
        let (down, across) = match which {
            Which::Main => (6, 7),
            Which::Auxiliary => (4, 5),
        };
        if self.registers[across] % 64 != 39 {
            self.registers[across] += 1;
            return;
        }
        self.registers[across] -= 39;
        if !stop && rules.goes_down(which) {
            let y = self.registers[down] % 32;
            self.registers[down] = self.registers[down] - y + rules.next_y(y);
        }
    }
}

/// "Where a move goes on past X 39 to another row, Y goes from 31 to 8 and Y 0 stays 0."
pub fn next_y(y: u8) -> u8 {
    match y {
        0 => 0,
        31 => 8,
        _ => y + 1,
    }
}
