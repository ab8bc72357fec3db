//! A random page drawn by the library, through calls that a controller makes.

use binturamis::{Processor, Redrawn, Refusal};
use compare::page::Page;

/// IND writes to these, by way of R1.
const TGS: u8 = 0x81;
const MAT: u8 = 0x82;
const PAT: u8 = 0x83;
const DOR: u8 = 0x84;
const ROR: u8 = 0x87;

/// Where the marks stand among the bytes of a processor.
const MARKS: usize = 19;

/// A processor from power-up of the page's board that shows the page, every row of it marked. The page's
/// memory is lent.
pub fn shown(page: &mut Page) -> Result<Processor, Refusal> {
    let mut processor = Processor::power_up();
    let (part, blocks) = page.board.numbers();
    binturamis::power_up(&mut processor, part, blocks)?;
    for (command, value) in [
        (TGS, page.tgs),
        (MAT, page.mat),
        (PAT, page.pat),
        (DOR, page.dor),
        (ROR, page.ror),
    ] {
        binturamis::write(&mut processor, &mut page.memory, 0x21, value)?;
        binturamis::write(&mut processor, &mut page.memory, 0x28, command)?;
    }
    binturamis::turn(&mut processor, &page.memory, page.phase)?;
    Ok(processor)
}

/// The same processor with other marks: `byte` gives the one that stands for a row's.
pub fn marked(processor: &Processor, byte: impl Fn(usize) -> u8) -> Processor {
    let mut bytes = *processor.bytes();
    for (row, mark) in bytes[MARKS..MARKS + binturamis::ROWS]
        .iter_mut()
        .enumerate()
    {
        *mark = byte(row);
    }
    Processor::of_bytes(bytes)
}

/// The draw, over the picture that the page has before it. It tells the rows that were marked and
/// leaves none so.
pub fn draw(mut processor: Processor, page: &Page) -> Result<(Redrawn, Vec<u8>), Refusal> {
    let seed = page.seed;
    assert_eq!(processor.state().marks, page.marks, "seed {seed}");
    let mut picture = page.picture.clone();
    let redrawn = binturamis::draw(&mut processor, &page.memory, &page.rom, &mut picture)?;
    for (row, mark) in page.marks.into_iter().enumerate() {
        assert_eq!(redrawn.has(row), mark, "row {row} of seed {seed}");
    }
    let left = processor.state().marks;
    assert_eq!(left, [false; binturamis::ROWS], "the marks of seed {seed}");
    Ok((redrawn, picture))
}

/// The picture before, with the second program's rows where a row is marked.
pub fn wanted(page: &Page) -> Vec<u8> {
    let (fresh, length) = (page.fresh_picture(), page.mode.row());
    let mut wanted = page.picture.clone();
    for row in page.marked_rows() {
        let bytes = length * row..length * (row + 1);
        wanted[bytes.clone()].copy_from_slice(&fresh[bytes]);
    }
    wanted
}
