//! Each refusal, met through the functions over borrowed slices and through a panel: its number,
//! its words, and what is left after it.

use std::error::Error;

use binturamis::{
    Panel, Processor, Refusal, RefusedRead, Width, MEMORY_BYTES, PICTURE_BYTES, ROM_BYTES, ROWS,
};

#[test]
fn the_numbers_are_1_to_12_and_14() {
    let numbers = Refusal::ALL.map(Refusal::number);
    assert_eq!(numbers, [1, 2, 3, 4, 5, 6, 7, 8, 9, 10, 11, 12, 14]);
    for number in 0..=255 {
        let found = Refusal::of_number(number).map(Refusal::number);
        assert_eq!(found, numbers.contains(&number).then_some(number));
    }
}

#[test]
fn the_words_are_the_rules() {
    let said = Refusal::ALL.map(|refusal| refusal.to_string());
    let wanted = [
        "refusal 1: private memory is not 1,024 bytes for each block of the board",
        "refusal 2: the address's high four bits are not 2",
        "refusal 3: a command to execute is not listed",
        "refusal 4: the command's pointer, or either one of a move, has X above 39 or Y from 1 to 7",
        "refusal 5: ROM is not 6,400 bytes, or 3,840 of a TS9347",
        "refusal 6: picture is not 40,000 bytes, or 60,000 in 80 columns",
        "refusal 7: TGS bit 7 or 6 set without the other, or TGS bit 5 or PAT bit 7 set; \
         of a TS9347, TGS bits 7 and 6 both set too",
        "refusal 8: origin YOR below 8",
        "refusal 9: phase is not 0 or 1",
        "refusal 10: a move runs, and the access is neither a status read at address 20 nor a NOP \
         written to address 28",
        "refusal 11: a byte of the command lies in a block that is not fitted",
        "refusal 12: the number of blocks is not 2, 8 or 16 of an EF9345, or 32 of a TS9347",
        "refusal 14: the part is not 0, an EF9345, or 1, a TS9347",
    ];
    assert_eq!(said, wanted);
}

/// A processor and buffers of which the memory, the ROM and the picture have the lengths given.
struct Lent {
    processor: Processor,
    memory: Vec<u8>,
    rom: Vec<u8>,
    picture: Vec<u8>,
}

impl Lent {
    fn of(memory: usize, rom: usize, picture: usize) -> Lent {
        Lent {
            processor: Processor::power_up(),
            memory: vec![0x11; memory],
            rom: vec![0x22; rom],
            picture: vec![0x33; picture],
        }
    }

    /// IND: a value to an indirect register, by way of R1.
    fn indirect(&mut self, r: u8, value: u8) -> Result<(), Refusal> {
        let (processor, memory) = (&mut self.processor, &mut self.memory);
        binturamis::write(processor, memory, 0x21, value)?;
        binturamis::write(processor, memory, 0x28, 0x80 + r)
    }

    /// The refusal of a draw, after which nothing has changed.
    fn draw_refusal(&mut self) -> Option<Refusal> {
        let before = (self.processor.clone(), self.picture.clone());
        let drawn = binturamis::draw(
            &mut self.processor,
            &self.memory,
            &self.rom,
            &mut self.picture,
        );
        let refusal = drawn.err()?;
        assert_eq!((self.processor.clone(), self.picture.clone()), before);
        Some(refusal)
    }
}

/// Lengths next to a right one, and far from it.
fn wrong(right: usize) -> [usize; 5] {
    [0, 1, right - 1, right + 1, 3 * right]
}

#[test]
fn a_memory_of_another_length_is_refused_by_1() {
    for length in wrong(MEMORY_BYTES) {
        let mut lent = Lent::of(length, ROM_BYTES, PICTURE_BYTES);
        let (processor, memory) = (&mut lent.processor, &mut lent.memory);
        // The address and the phase are bad too: 1 comes first.
        let written = binturamis::write(processor, memory, 0x00, 0x5A);
        assert_eq!(written, Err(Refusal::WrongMemory));
        let read = binturamis::read(processor, memory, 0x00).expect_err("it is refused");
        assert_eq!((read.refusal(), read.value()), (Refusal::WrongMemory, None));
        let stepped = binturamis::step(processor, memory);
        assert_eq!(stepped, Err(Refusal::WrongMemory));
        let turned = binturamis::turn(processor, memory, 2);
        assert_eq!(turned, Err(Refusal::WrongMemory));
        assert_eq!(*processor, Processor::power_up());
        assert_eq!(*memory, vec![0x11; length]);
        assert_eq!(lent.draw_refusal(), Some(Refusal::WrongMemory));
    }
}

/// The numbers r of the indirect registers.
const TGS: u8 = 1;
const PAT: u8 = 3;
const ROR: u8 = 7;

/// TGS with its bits 7 and 6 for a width and any others.
fn tgs(width: Width, others: u8) -> u8 {
    match width {
        Width::Forty => others,
        Width::Eighty => 0xC0 | others,
    }
}

#[test]
fn a_draw_is_refused_by_5_before_all_that_follows() -> Result<(), Refusal> {
    for length in wrong(ROM_BYTES) {
        let mut lent = Lent::of(MEMORY_BYTES, length, 0);
        lent.indirect(TGS, 0x40)?;
        assert_eq!(lent.draw_refusal(), Some(Refusal::WrongRom));
    }
    Ok(())
}

/// The origin is low too: of a page that can be shown the picture comes next, and the origin last.
#[test]
fn a_draw_is_refused_by_7_then_6_then_8() -> Result<(), Refusal> {
    for width in Width::ALL {
        let right = width.picture_bytes();
        for length in wrong(right).into_iter().chain([right]) {
            let mut lent = Lent::of(MEMORY_BYTES, ROM_BYTES, length);
            let by_length = match length {
                length if length == right => Refusal::LowOrigin,
                _ => Refusal::WrongPicture,
            };
            for (r, value, refusal) in [
                (TGS, 0x40, Refusal::NotBuilt),
                (TGS, 0x80, Refusal::NotBuilt),
                (TGS, 0xBF, Refusal::NotBuilt),
                (TGS, tgs(width, 0x20), Refusal::NotBuilt),
                (TGS, tgs(width, 0x1F), by_length),
                (PAT, 0x80, Refusal::NotBuilt),
                (PAT, 0x7F, by_length),
                (ROR, 0xE7, by_length),
            ] {
                lent.indirect(r, value)?;
                let refused = lent.draw_refusal();
                assert_eq!(refused, Some(refusal), "{length}: {r} {value:02X}");
            }
            lent.indirect(ROR, 0xE8)?;
            let refused = lent.draw_refusal();
            assert_eq!(refused.is_some(), length != right, "{refused:?}");
            let is_drawn = lent.picture != vec![0x33; length];
            assert_eq!(is_drawn, length == right, "{length}");
        }
    }
    Ok(())
}

#[test]
fn the_picture_of_the_other_width_is_refused_by_6() -> Result<(), Refusal> {
    for (width, other) in Width::ALL.into_iter().zip(Width::ALL.into_iter().rev()) {
        let mut lent = Lent::of(MEMORY_BYTES, ROM_BYTES, other.picture_bytes());
        lent.indirect(TGS, tgs(width, 0))?;
        lent.indirect(ROR, 8)?;
        assert_eq!(lent.draw_refusal(), Some(Refusal::WrongPicture));
        lent.indirect(TGS, tgs(other, 0))?;
        assert_eq!(lent.draw_refusal(), None);
    }
    Ok(())
}

#[test]
fn a_panel_refuses_by_2_3_4_7_8_9_and_10() -> Result<(), Refusal> {
    let mut panel = Panel::new([0; ROM_BYTES]);
    assert_eq!(panel.draw(), Err(Refusal::LowOrigin));
    assert_eq!(panel.turn(2), Err(Refusal::WrongPhase));
    assert_eq!(panel.write(0x31, 0), Err(Refusal::WrongAddress));
    assert_eq!(panel, Panel::new([0; ROM_BYTES]));

    assert_eq!(panel.write(0x28, 0x05), Err(Refusal::NotListed));
    assert_eq!(panel.state().command, 0x05, "the access has happened");
    panel.write(0x20, 0x00)?;
    assert_eq!(panel.write(0x2E, 0x01), Err(Refusal::BadPointer));
    assert_eq!(panel.state().r6, 0x01, "the access has happened");

    panel.write(0x21, 0x80)?;
    panel.write(0x28, 0x83)?;
    assert_eq!(panel.draw(), Err(Refusal::NotBuilt));
    assert_eq!(panel.state().marks, [true; ROWS]);

    panel.write(0x26, 0x08)?;
    panel.write(0x28, 0xF5)?; // MVT with a stop
    let busy = panel.clone();
    assert_eq!(panel.write(0x21, 0x41), Err(Refusal::Busy));
    let refused = panel.read(0x21).expect_err("it is refused");
    assert_eq!((refused.refusal(), refused.value()), (Refusal::Busy, None));
    assert_eq!(refused.to_string(), Refusal::Busy.to_string());
    assert_eq!(panel, busy);
    Ok(())
}

/// A refused read by way of `?`.
fn read_by_refusal(panel: &mut Panel, address: u8) -> Result<u8, Refusal> {
    Ok(panel.read(address)?)
}

#[test]
fn a_refused_read_has_the_value_read() -> Result<(), Box<dyn Error>> {
    let mut panel = Panel::new([0; ROM_BYTES]);
    panel.write(0x27, 0xE8)?; // X 40
    for (command, refusal) in [(0x05, Refusal::NotListed), (0x08, Refusal::BadPointer)] {
        panel.write(0x20, command)?;
        let refused: RefusedRead = panel.read(0x2F).expect_err("it is refused");
        assert_eq!(refused.refusal(), refusal);
        assert_eq!(refused.value(), Some(0xE8));
        assert_eq!(
            refused.to_string(),
            format!("{refusal}; the value read is E8 hex")
        );
        let source = refused.source().map(ToString::to_string);
        assert_eq!(source, Some(refusal.to_string()));
        assert_eq!(read_by_refusal(&mut panel, 0x2F), Err(refusal));
    }
    let refused = panel.read(0x37).expect_err("it is refused");
    assert_eq!(refused.to_string(), Refusal::WrongAddress.to_string());
    assert_eq!(refused.value(), None);
    assert_eq!(panel.read(0x27), Ok(0xE8));
    Ok(())
}
