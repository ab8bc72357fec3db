//! The demonstration ROM of the TS9347: three sets in its order, each character as it was drawn for the
//! EF9345, and blanks everywhere else.

use std::collections::BTreeSet;

use rom::ts9347::{demonstration, place, Placed, Set, ACCENTED, ROM_BYTES};
use rom::SLICES;

fn rom() -> [u8; ROM_BYTES] {
    demonstration().expect("the texts are right").0
}

/// The ten slices that the ROM has.
fn slices(set: Set, code: u8) -> [u8; SLICES] {
    let place = place(set, code);
    rom()[place..place + SLICES].try_into().expect("ten slices")
}

/// The ten slices that the demonstration ROM of the EF9345 has.
fn of_ef9345(set: rom::Set, code: u8) -> [u8; SLICES] {
    let (rom, _) = rom::demonstration().expect("the texts are right");
    let place = rom::place(set, code);
    rom[place..place + SLICES].try_into().expect("ten slices")
}

fn of(set: Set) -> Vec<Placed> {
    let (_, mut characters) = demonstration().expect("the texts are right");
    characters.retain(|character| character.set == set);
    characters
}

#[test]
fn the_sets_are_in_the_order_g10_goe_g0() {
    assert_eq!(place(Set::G10, 0), 0);
    assert_eq!(place(Set::G10, 0x7F), 1_270);
    assert_eq!(place(Set::Goe, 0), 1_280);
    assert_eq!(place(Set::G0, 0x41), 2_560 + 650);
    assert_eq!(place(Set::G0, 0x7F) + SLICES, ROM_BYTES);
    assert_eq!(Set::ALL.map(|set| place(set, 0)), [0, 1_280, 2_560]);
}

#[test]
fn a_known_letter_has_its_bytes() {
    let letter = [0x00, 0x1E, 0x33, 0x33, 0x3F, 0x33, 0x33, 0x33, 0x00, 0x00];
    assert_eq!(rom()[2_560 + 650..][..SLICES], letter);
}

#[test]
fn g10_has_the_mosaics_of_the_ef9345() {
    for code in 0..0x80 {
        assert_eq!(slices(Set::G10, code), of_ef9345(rom::Set::G10, code));
    }
    assert_eq!(slices(Set::G10, 0x7F), [0xFF; SLICES]);
}

/// The part has 32 characters there.
#[test]
fn goe_has_the_lines_in_its_32_places_and_no_more() {
    for code in 0..0x20 {
        assert_eq!(slices(Set::Goe, code), of_ef9345(rom::Set::G11, code));
    }
    for code in 0x20..0x80 {
        assert_eq!(slices(Set::Goe, code), [0; SLICES], "code {code:02X}");
    }
    assert_eq!(of(Set::Goe).len(), 30);
}

#[test]
fn g0_has_letters_figures_and_signs_at_their_ascii_places() {
    for code in 0x20..0x80 {
        let is_there = !matches!(code, 0x5E..=0x60 | 0x7B..=0x7F);
        let wanted = match is_there {
            true => of_ef9345(rom::Set::G0, code),
            false => [0; SLICES],
        };
        assert_eq!(slices(Set::G0, code), wanted, "code {code:02X}");
        assert_eq!(wanted == [0; SLICES], code == 0x20 || !is_there);
    }
}

#[test]
fn g0_has_some_letters_with_accents_below_the_space() {
    let mut letters = Vec::new();
    for character in of(Set::G0) {
        if character.code < 0x20 {
            letters.push((character.code, character.drawn.name));
        }
    }
    letters.sort();
    let wanted = ACCENTED.map(|(code, letter)| (code, letter.to_string()));
    assert_eq!(letters, wanted);
    assert_eq!(slices(Set::G0, 0x07), of_ef9345(rom::Set::G20, 0x6F), "ö");
    assert_eq!(slices(Set::G0, 0x15), of_ef9345(rom::Set::G21, 0x43), "ç");
}

#[test]
fn no_two_characters_have_one_place_and_what_is_not_drawn_is_blank() {
    let (rom, characters) = demonstration().expect("the texts are right");
    let places: BTreeSet<usize> = characters
        .iter()
        .map(|character| place(character.set, character.code))
        .collect();
    assert_eq!(places.len(), characters.len());
    assert_eq!(places.len(), 128 + 30 + 88 + 5);
    for at in (0..ROM_BYTES).step_by(SLICES) {
        if !places.contains(&at) {
            assert_eq!(rom[at..at + SLICES], [0; SLICES], "at {at}");
        }
    }
}
