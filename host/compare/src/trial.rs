//! Trials: random sequences of operations from power-up, done by the library and by the second
//! program.

use std::collections::VecDeque;

use second::cell::Cell;
use second::picture::View;
use second::random::Random;
use second::sequence::Sequence;
use second::{Board, Mode, Operation, Part, Processor, ROWS};

use crate::asked::Asked;
use crate::lengths::Lengths;
use crate::pair::Pair;
use crate::position::Position;
use crate::report::Report;
use crate::short::short_palette;
use crate::types::{type_of, TYPES};
use crate::unplanned::{abort, unplanned};

/// The operations of one trial.
pub const OPERATIONS: u64 = 500;

/// The trial of a seed on a board. It may be another one for a few operations.
pub struct Trial {
    board: Board,
    sequence: Sequence,
    random: Random,
    pair: Pair,
    /// What is left of the unplanned operations.
    unplanned: VecDeque<Asked>,
    /// The mode of the last accepted draw.
    drawn: Option<Mode>,
    /// The places to which the move that runs has moved a byte.
    moved: Vec<usize>,
}

/// An operation that both did, with the same outcome.
pub struct Step {
    pub asked: Asked,
    /// The second program's processor before it.
    pub before: Processor,
    pub report: Report,
    /// Whether a byte of the memory is another than before.
    pub stored: bool,
    /// What a step has moved, if one did.
    pub position: Option<Position>,
    /// Whether a byte of it was read where an earlier byte of it had been stored.
    pub sees_itself: bool,
    /// Whether a byte of it was read where an earlier step of the same move had stored one.
    pub sees_earlier: bool,
    /// Whether it is a draw of every row, for which the library was lent another picture than the
    /// one that was kept.
    pub other_picture: bool,
    /// Whether it is the first draw of a page in this mode after one in the other.
    pub other_mode: bool,
    /// The cells of a palette of 0, 1, 2 and 3 colours that a draw has redrawn with a rank missing.
    pub short: [usize; 4],
    /// The cells of each type of the TS9347 that a draw has redrawn, and of those double height.
    pub types: [[usize; 2]; TYPES.len()],
}

impl Trial {
    pub fn new(seed: u64, board: Board) -> Trial {
        let mut sequence = Sequence::new(seed);
        let mut random = Random::new(!seed);
        let mut memory = sequence.memory(board.blocks);
        memory.extend(random.bytes(Lengths::WHOLE.memory - memory.len()));
        let rom = random.bytes(Lengths::WHOLE.rom);
        Trial {
            board,
            sequence,
            random,
            pair: Pair::begin_board(seed, board, memory, rom),
            unplanned: VecDeque::new(),
            drawn: None,
            moved: Vec::new(),
        }
    }

    pub fn step(&mut self) -> Step {
        let asked = self.asked();
        let other_picture = self.draws_every_row(asked) && self.random.one_in(2);
        if other_picture {
            self.lend_other_picture(asked);
        }
        let memory = self.pair.second.memory.clone();
        let before = self.pair.second.processor.clone();
        let report = self.pair.apply(asked);
        let bytes = self.pair.library.processor.bytes();
        assert_eq!(*bytes, report.packed(), "{asked:?}: the bytes");
        let is_drawn = asked.operation == Operation::Draw && report.number == 0;
        let is_step = asked.operation == Operation::Step && report.number == 0;
        let position = Position::next(&before).filter(|_| is_step);
        Step {
            asked,
            stored: self.pair.second.memory != memory,
            position,
            sees_itself: position.is_some_and(|position| position.sees_itself(&memory)),
            sees_earlier: self.sees_earlier(position),
            other_picture,
            other_mode: is_drawn && self.has_turned(before.mode()),
            short: self.short(before.marks, is_drawn),
            types: self.types(before.marks, is_drawn),
            before,
            report,
        }
    }

    /// Whether a step reads what an earlier one of the move has stored. A move that ends is forgotten.
    fn sees_earlier(&mut self, position: Option<Position>) -> bool {
        let sources = position.map_or(vec![], Position::sources);
        let sees = sources.iter().any(|place| self.moved.contains(place));
        self.moved
            .extend(position.map_or(vec![], Position::destinations));
        if !self.pair.second.processor.busy {
            self.moved.clear();
        }
        sees
    }

    /// What the second program draws from.
    fn view(&self) -> View<'_> {
        let second = &self.pair.second;
        let memory = &second.memory[..second.processor.memory_length()];
        second.processor.view(memory, &second.rom)
    }

    /// The cells of some rows that were drawn, of a page of 40 columns.
    fn cells(&self, rows: [bool; ROWS], is_drawn: bool) -> Vec<Cell> {
        let page = self.view().page;
        let is_shown = is_drawn && page.mode == Mode::Forty;
        let marked = (0..ROWS).filter(|row| is_shown && rows[*row]);
        marked
            .flat_map(|row| page.cells(row).collect::<Vec<Cell>>())
            .collect()
    }

    /// The cells of short palettes among them.
    fn short(&self, rows: [bool; ROWS], is_drawn: bool) -> [usize; 4] {
        let view = self.view();
        let mut counts = [0; 4];
        let cells = self.cells(rows, is_drawn).into_iter();
        for colours in cells.filter_map(|cell| short_palette(&view, cell)) {
            counts[colours] += 1;
        }
        counts
    }

    /// Those of each type, if they are the TS9347's.
    fn types(&self, rows: [bool; ROWS], is_drawn: bool) -> [[usize; 2]; TYPES.len()] {
        let mut counts = [[0; 2]; TYPES.len()];
        let cells = self.cells(rows, is_drawn).into_iter();
        for cell in cells.filter(|cell| cell.part == Part::Ts9347) {
            let [all, double_height] = &mut counts[type_of(cell)];
            *all += 1;
            *double_height += usize::from(cell.is_double_height());
        }
        counts
    }

    /// Whether a page drawn in a mode follows one that was drawn in the other.
    fn has_turned(&mut self, mode: Option<Mode>) -> bool {
        let last = self.drawn;
        self.drawn = mode;
        last.is_some() && last != mode
    }

    /// An accepted draw with every row marked.
    fn draws_every_row(&self, asked: Asked) -> bool {
        asked.operation == Operation::Draw
            && self.pair.second.processor.marks == [true; ROWS]
            && self.pair.second.clone().apply(asked).number == 0
    }

    /// Any bytes in place of the library's picture, of which a draw of every row leaves none.
    fn lend_other_picture(&mut self, asked: Asked) {
        let second = &self.pair.second.processor;
        let length = asked.lengths(second.mode(), second.board).picture;
        let other = self.random.bytes(length);
        self.pair.library.picture[..length].copy_from_slice(&other);
    }

    /// Most often the sequence's next operation with the right lengths. Unplanned ones come before
    /// it and not in its place, so that plans are still carried out. While a move runs most of them begin
    /// with its end, since it would refuse them.
    fn asked(&mut self) -> Asked {
        if self.unplanned.is_empty() && self.random.one_in(8) {
            if self.pair.second.processor.busy && !self.random.one_in(4) {
                self.unplanned.push_back(abort(&mut self.random));
            }
            self.unplanned
                .extend(unplanned(&mut self.random, self.board));
        }
        if let Some(asked) = self.unplanned.pop_front() {
            return asked;
        }
        let second = &self.pair.second;
        let memory = &second.memory[..second.processor.memory_length()];
        Asked::right(self.sequence.operation(&second.processor, memory))
    }
}
