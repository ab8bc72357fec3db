//! The demonstration ROM: what is drawn is there, under the name that its heading gives, and no two
//! letters can be mistaken for each other.

use std::collections::{BTreeMap, BTreeSet};
use std::fs;
use std::path::Path;

use rom::{demonstration, place, Character, Set, SLICES, TEXTS};

fn characters() -> Vec<Character> {
    demonstration().expect("the texts are right").1
}

/// The ten slices that the ROM has.
fn slices(set: Set, code: u8) -> [u8; SLICES] {
    let (rom, _) = demonstration().expect("the texts are right");
    let place = place(set, code);
    rom[place..place + SLICES].try_into().expect("ten slices")
}

fn of(set: Set) -> Vec<Character> {
    let mut characters = characters();
    characters.retain(|character| character.set == set);
    characters
}

#[test]
fn every_text_of_the_folder_is_built_in() {
    let folder = Path::new(env!("CARGO_MANIFEST_DIR")).join("../../roms");
    let mut there = BTreeSet::new();
    for entry in fs::read_dir(folder).expect("the folder can be read") {
        let name = entry.expect("an entry").file_name();
        let name = name.to_string_lossy().to_string();
        if name.ends_with(".txt") {
            there.insert(format!("roms/{name}"));
        }
    }
    let built: BTreeSet<String> = TEXTS.iter().map(|(file, _)| file.to_string()).collect();
    assert_eq!(built, there);
}

#[test]
fn a_known_letter_has_its_bytes() {
    let letter = [0x00, 0x1E, 0x33, 0x33, 0x3F, 0x33, 0x33, 0x33, 0x00, 0x00];
    assert_eq!(slices(Set::G0, 0x41), letter);
    let small = [0x00, 0x00, 0x00, 0x3E, 0x33, 0x33, 0x3E, 0x30, 0x1E, 0x00];
    assert_eq!(slices(Set::G0, 0x67), small);
}

#[test]
fn the_whole_of_printable_ascii_is_drawn_and_not_blank() {
    for code in 0x21..=0x7E {
        assert_ne!(slices(Set::G0, code), [0; SLICES], "code {code:02X}");
    }
    assert_eq!(slices(Set::G0, 0x20), [0; SLICES]);
}

#[test]
fn headings_of_g0_name_the_character_of_the_code() {
    let mut codes = Vec::new();
    for character in of(Set::G0) {
        let name = match character.code {
            0x20 => "space".to_string(),
            code => char::from(code).to_string(),
        };
        assert_eq!(
            character.name, name,
            "{}:{}",
            character.file, character.line
        );
        codes.push(character.code);
    }
    codes.sort_unstable();
    assert_eq!(codes, (0x20..=0x7E).collect::<Vec<u8>>());
}

#[test]
fn no_two_characters_of_an_alphanumeric_set_are_alike() {
    for set in [Set::G0, Set::G20, Set::G21] {
        let mut seen: BTreeMap<[u8; SLICES], String> = BTreeMap::new();
        for character in of(set) {
            if let Some(other) = seen.insert(character.slices, character.name.clone()) {
                panic!("{} and {other} look alike", character.name);
            }
        }
    }
}

#[test]
fn no_letter_reaches_the_line_of_the_underline() {
    for character in characters() {
        if !matches!(character.set, Set::G10 | Set::G11) {
            assert_eq!(character.slices[9], 0, "{}", character.name);
        }
    }
}

/// Which letter an accented one is made of, by the five low bits of its code.
fn base(code: u8) -> char {
    char::from(0x60 + code % 32)
}

#[test]
fn accented_letters_are_their_letter_with_something_added() {
    let mut counted = 0;
    for set in [Set::G20, Set::G21] {
        for character in of(set) {
            let plain = slices(Set::G0, 0x60 + character.code % 32);
            assert!(base(character.code).is_ascii_lowercase());
            assert_ne!(character.slices, plain, "{}", character.name);
            assert_ne!(character.slices, [0; SLICES], "{}", character.name);
            // Whatever the accent, lines 4 to 7 are the plain letter's.
            assert_eq!(character.slices[4..8], plain[4..8], "{}", character.name);
            counted += 1;
        }
    }
    assert_eq!(counted, 56);
}

/// The letters drawn for each accent, in the order of the codes: four accents a set, 32 codes each.
#[test]
fn accented_letters_are_the_ones_listed() {
    let listed = [
        (Set::G20, 0, "á ć é í ĺ ń ó ŕ ś ú ẃ ý ź"),
        (Set::G20, 1, "à è ì ò ù ẁ ỳ"),
        (Set::G20, 2, "â ĉ ê ĝ î ĵ ô ŝ û ŵ ŷ"),
        (Set::G20, 3, "ä ë ï ö ü ẅ ÿ"),
        (Set::G21, 0, "ã ĩ ñ õ ũ"),
        (Set::G21, 1, "å ů"),
        (Set::G21, 2, "ç ş ţ"),
        (Set::G21, 3, "č ď ě ň ř š ť ž"),
    ];
    for (set, accent, letters) in listed {
        let mut drawn = of(set);
        drawn.retain(|character| character.code / 32 == accent);
        drawn.sort_by_key(|character| character.code);
        let names: Vec<String> = drawn.into_iter().map(|character| character.name).collect();
        assert_eq!(names.join(" "), letters);
    }
}

#[test]
fn what_is_not_drawn_is_blank() {
    let (rom, characters) = demonstration().expect("the texts are right");
    let drawn: BTreeSet<usize> = characters
        .iter()
        .map(|character| place(character.set, character.code))
        .collect();
    for at in (0..rom.len()).step_by(SLICES) {
        if !drawn.contains(&at) {
            assert_eq!(rom[at..at + SLICES], [0; SLICES], "at {at}");
        }
    }
    assert_eq!(drawn.len(), 95 + 128 + 30 + 56);
}
