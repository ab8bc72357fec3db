//! Random pages: the memory, the registers, the phase and the marks of a seed, in either mode and on each
//! board.

use second::picture::View;
use second::random::Random;
use second::{Board, Mode, Processor, ROWS};

use crate::amount::at_least;
use crate::codes::CODES;
use crate::filling::{Shown, FILLINGS};

pub struct Page {
    pub seed: u64,
    /// How the memory was filled, to be told.
    pub filling: String,
    pub mode: Mode,
    pub board: Board,
    pub tgs: u8,
    pub mat: u8,
    pub pat: u8,
    pub dor: u8,
    pub ror: u8,
    pub phase: u8,
    pub marks: [bool; ROWS],
    pub memory: Vec<u8>,
    pub rom: Vec<u8>,
    /// What the picture holds before the draw.
    pub picture: Vec<u8>,
}

impl Page {
    /// The page of a seed with every row marked, over a picture of any bytes, on the board of 16 blocks.
    pub fn fresh(mode: Mode, seed: u64) -> Page {
        Page::fresh_on(Board::SIXTEEN, mode, seed)
    }

    /// The same on a board.
    pub fn fresh_on(board: Board, mode: Mode, seed: u64) -> Page {
        let mut random = Random::new(seed);
        let ror = any_ror(&mut random, board);
        let pat = random.byte() % 0x80;
        let (filling, dor, memory) = filled(mode, seed, &mut random, ror, board);
        Page {
            seed,
            filling,
            mode,
            board,
            tgs: mode.tgs() + random.byte() % 0x20,
            mat: random.byte(),
            pat,
            dor,
            ror,
            phase: random.byte() % 2,
            marks: [true; ROWS],
            memory,
            rom: random.bytes(board.part.rom()),
            picture: random.bytes(mode.picture()),
        }
    }

    /// The same page with some rows marked: from none of them to all.
    pub fn partly_marked(mode: Mode, seed: u64) -> Page {
        Page::partly_marked_on(Board::SIXTEEN, mode, seed)
    }

    /// The same on a board.
    pub fn partly_marked_on(board: Board, mode: Mode, seed: u64) -> Page {
        let mut random = Random::new(!seed);
        let in_twelve = random.choice(&[0, 1, 3, 6, 9, 11, 12]);
        Page {
            marks: [(); ROWS].map(|()| random.below(12) < in_twelve),
            ..Page::fresh_on(board, mode, seed)
        }
    }

    pub fn marked_rows(&self) -> impl Iterator<Item = usize> + '_ {
        (0..ROWS).filter(|row| self.marks[*row])
    }

    /// What the second program draws it from.
    pub fn view(&self) -> View<'_> {
        self.second().view(&self.memory, &self.rom)
    }

    /// The picture that the second program draws of it, every row.
    pub fn fresh_picture(&self) -> Vec<u8> {
        self.second().fresh(&self.memory, &self.rom)
    }

    /// The second program's processor in the state of the page.
    pub fn second(&self) -> Processor {
        Processor {
            tgs: self.tgs,
            mat: self.mat,
            pat: self.pat,
            dor: self.dor,
            ror: self.ror,
            phase: self.phase,
            marks: self.marks,
            board: self.board,
            ..Processor::power_up()
        }
    }
}

/// A value for ROR whose page can be drawn. On a smaller board most pages have a block that is fitted.
pub fn any_ror(random: &mut Random, board: Board) -> u8 {
    let any = random.byte() % 8;
    let page = match (board.blocks, any) {
        (2, 0..=5) => any % 2,
        (8, 0..=5) => any % 4,
        _ => any,
    };
    32 * page + 8 + random.byte() % 24
}

/// The name of a filling, a value for DOR and a memory. Each filling has its turn.
fn filled(
    mode: Mode,
    seed: u64,
    random: &mut Random,
    ror: u8,
    board: Board,
) -> (String, u8, Vec<u8>) {
    let turn = |fillings: usize| (seed % fillings as u64) as usize;
    match mode {
        Mode::Forty => {
            let filling = FILLINGS[turn(FILLINGS.len())];
            let dor = filling.dor(random, board.part, ror);
            let memory = filling.memory(random, Shown { board, ror, dor });
            (format!("{filling:?}"), dor, memory)
        }
        Mode::Eighty => {
            let codes = CODES[turn(CODES.len())];
            let dor = random.byte();
            let memory = codes.memory(random, Shown { board, ror, dor });
            (format!("{codes:?}"), dor, memory)
        }
    }
}

/// How many pages to compare: the number in `BINTURAMIS_PAGES` where it is larger.
pub fn pages(least: u64) -> u64 {
    at_least("BINTURAMIS_PAGES", least)
}
