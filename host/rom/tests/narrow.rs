//! The narrow ROM: letters that stand apart in cells six pixels wide, and the other sets as they were.

use std::collections::{BTreeMap, BTreeSet};
use std::fs;
use std::path::Path;

use rom::{demonstration, narrow, place, Character, Set, NARROW_TEXTS, SLICES};

/// The characters of G0.
fn letters() -> Vec<Character> {
    let (_, mut characters) = narrow().expect("the texts are right");
    characters.retain(|character| character.set == Set::G0);
    characters
}

#[test]
fn every_text_of_the_folder_is_built_in() {
    let folder = Path::new(env!("CARGO_MANIFEST_DIR")).join("../../roms/narrow");
    let entries = fs::read_dir(folder).expect("the folder can be read");
    let names = entries.map(|entry| entry.expect("an entry").file_name());
    let there: BTreeSet<String> = names
        .map(|name| format!("roms/narrow/{}", name.to_string_lossy()))
        .collect();
    let built: BTreeSet<String> = NARROW_TEXTS
        .iter()
        .map(|(file, _)| file.to_string())
        .collect();
    assert_eq!(built, there);
}

#[test]
fn a_known_letter_has_its_bytes() {
    let (rom, _) = narrow().expect("the texts are right");
    let place = place(Set::G0, 0x41);
    let letter = [0x00, 0x0E, 0x11, 0x11, 0x1F, 0x11, 0x11, 0x11, 0x00, 0x00];
    assert_eq!(rom[place..place + SLICES], letter);
}

#[test]
fn printable_ascii_is_drawn_and_named() {
    let mut codes = Vec::new();
    for letter in letters() {
        let name = match letter.code {
            0x20 => "space".to_string(),
            code => char::from(code).to_string(),
        };
        assert_eq!(letter.name, name, "{}:{}", letter.file, letter.line);
        let is_blank = letter.slices == [0; SLICES];
        assert_eq!(is_blank, letter.code == 0x20, "{name}");
        codes.push(letter.code);
    }
    codes.sort_unstable();
    assert_eq!(codes, (0x20..=0x7E).collect::<Vec<u8>>());
}

/// Five of the six pixels, so that one is left between letters side by side.
#[test]
fn no_letter_is_wider_than_five_pixels() {
    for letter in letters() {
        let widest = letter.slices.into_iter().max().unwrap_or(0);
        assert!(widest < 1 << 5, "{}", letter.name);
    }
}

#[test]
fn no_letter_reaches_the_line_of_the_underline() {
    for letter in letters() {
        assert_eq!(letter.slices[9], 0, "{}", letter.name);
    }
}

#[test]
fn no_two_letters_are_alike() {
    let mut seen: BTreeMap<[u8; SLICES], String> = BTreeMap::new();
    for letter in letters() {
        if let Some(other) = seen.insert(letter.slices, letter.name.clone()) {
            panic!("{} and {other} look alike", letter.name);
        }
    }
}

#[test]
fn the_other_sets_are_those_of_the_demonstration_rom() {
    let (rom, _) = narrow().expect("the texts are right");
    let (wide, _) = demonstration().expect("the texts are right");
    let others = place(Set::G10, 0);
    assert_eq!(rom[others..], wide[others..]);
    assert_ne!(rom[..others], wide[..others]);
}
