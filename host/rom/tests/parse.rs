//! Reading drawn characters: what a right text gives, and which fault a wrong one gets at which
//! line.

use rom::{build, parse, place, Fault, Set, What, ROM_BYTES};

/// A character of ten lines that are alike.
fn drawn(heading: &str, marks: &str) -> String {
    format!("{heading}\n{}", format!("{marks}\n").repeat(10))
}

fn fault(text: &str) -> Fault {
    parse("some.txt", text).expect_err("the text is wrong")
}

fn assert_fault(text: &str, line: usize, what: What) {
    let wanted = Fault {
        file: "some.txt".to_string(),
        line,
        what,
    };
    assert_eq!(fault(text), wanted);
}

#[test]
fn the_leftmost_mark_is_bit_0() {
    let characters = parse("some.txt", &drawn("G0 41 A", "#..#....")).expect("a right text");
    assert_eq!(characters.len(), 1);
    assert_eq!(characters[0].slices, [0x09; 10]);
    assert_eq!(characters[0].set, Set::G0);
    assert_eq!(characters[0].code, 0x41);
    assert_eq!(characters[0].name, "A");
    assert_eq!(characters[0].line, 1);
}

#[test]
fn comments_and_empty_lines_stand_between_characters() {
    let first = drawn("G10 7f all of it", "########");
    let second = drawn("G21 00 # ;", "........");
    let text = format!("; a comment\n\n{first}\n; another\n{second}\n\n");
    let characters = parse("some.txt", &text).expect("a right text");
    let named: Vec<(Set, u8, &str, usize)> = characters
        .iter()
        .map(|it| (it.set, it.code, it.name.as_str(), it.line))
        .collect();
    assert_eq!(
        named,
        [
            (Set::G10, 0x7F, "all of it", 3),
            (Set::G21, 0x00, "# ;", 16)
        ]
    );
}

#[test]
fn lines_may_end_as_on_other_systems() {
    let text = drawn("G0 41 A", "##......").replace('\n', "\r\n");
    let characters = parse("some.txt", &text).expect("a right text");
    assert_eq!(characters[0].slices, [0x03; 10]);
}

#[test]
fn an_empty_text_draws_nothing() {
    assert_eq!(parse("some.txt", ""), Ok(Vec::new()));
    assert_eq!(build(&[]), Ok([0; ROM_BYTES]));
}

#[test]
fn a_wrong_width_is_told() {
    let text = "G0 41 A\n........\n.......\n";
    assert_fault(text, 3, What::WrongWidth(7));
    assert_fault("G0 41 A\n.........\n", 2, What::WrongWidth(9));
    // Each is one mark, however many bytes it has.
    assert_fault("G0 41 A\néééééééé\n", 2, What::UnknownMark('é'));
}

#[test]
fn an_unknown_mark_is_told() {
    assert_fault("G0 41 A\n...x....\n", 2, What::UnknownMark('x'));
    assert_fault("G0 41 A\n....... \n", 2, What::UnknownMark(' '));
}

#[test]
fn too_few_lines_are_told() {
    let nine = "........\n".repeat(9);
    assert_fault(&format!("G0 41 A\n{nine}"), 10, What::TooFewLines(9));
    let next = drawn("G0 42 B", "........");
    assert_fault(&format!("G0 41 A\n{nine}{next}"), 10, What::TooFewLines(9));
    assert_fault(
        &format!("G0 41 A\n{nine}\n{next}"),
        10,
        What::TooFewLines(9),
    );
    assert_fault("G0 41 A", 1, What::TooFewLines(0));
}

#[test]
fn too_many_lines_are_told() {
    let text = format!("{}........\n", drawn("G0 41 A", "........"));
    assert_fault(&text, 12, What::TooManyLines);
}

#[test]
fn an_unknown_set_is_told() {
    let text = drawn("G1 41 A", "........");
    assert_fault(&text, 1, What::UnknownSet("G1".to_string()));
}

#[test]
fn a_code_out_of_range_is_told() {
    for code in ["80", "FF", "4", "041", "+4", "4G", ""] {
        let text = drawn(&format!("G0 {code} A"), "........");
        assert_fault(&text, 1, What::CodeOutOfRange(code.to_string()));
    }
}

#[test]
fn a_heading_that_is_none_is_told() {
    assert_fault("\nsomething\n", 2, What::NoHeading);
    assert_fault("G0 41\n", 1, What::NoName);
    assert_fault("G0 41 \n", 1, What::NoName);
}

#[test]
fn the_same_character_twice_is_told_with_both_places() {
    let mut characters = parse("one.txt", &drawn("G20 41 a", "........")).expect("a right text");
    let again = format!("\n{}", drawn("G20 41 b", "#......."));
    characters.extend(parse("two.txt", &again).expect("a right text"));
    let fault = build(&characters).expect_err("drawn twice");
    assert_eq!((fault.file.as_str(), fault.line), ("two.txt", 2));
    assert_eq!(fault.what, What::DrawnTwice("one.txt".to_string(), 1));
}

#[test]
fn one_code_in_two_sets_is_no_fault() {
    let text = format!(
        "{}{}",
        drawn("G0 41 A", "#......."),
        drawn("G10 41 B", ".#......")
    );
    let rom = build(&parse("some.txt", &text).expect("a right text")).expect("a right ROM");
    assert_eq!(rom[place(Set::G0, 0x41)], 1);
    assert_eq!(rom[place(Set::G10, 0x41)], 2);
    assert_eq!(rom.iter().filter(|slice| **slice != 0).count(), 20);
}

#[test]
fn places_are_those_of_the_rules() {
    assert_eq!(place(Set::G0, 0), 0);
    assert_eq!(place(Set::G0, 0x41), 650);
    assert_eq!(place(Set::G10, 0), 1280);
    assert_eq!(place(Set::G11, 1), 2570);
    assert_eq!(place(Set::G20, 0), 3840);
    assert_eq!(place(Set::G21, 0x7F), 6390);
}

#[test]
fn a_fault_is_told_in_words() {
    for (text, told) in [
        ("G0 41 A\n.......\n", "2: 7 marks, where a line has 8"),
        ("G0 41 A\n...x....\n", "2: `x` is no mark: `#` and `.` are"),
        ("G0 41 A\n........\n", "2: ends after 1 lines of 10"),
        ("........\n", "1: marks after the 10 lines of a character"),
        ("G3 41 A\n", "1: `G3` is no set: G0, G10, G11, G20, G21 are"),
        ("G0 80 A\n", "1: `80` is no code: 00 to 7F are"),
        ("G0 41\n", "1: the heading does not name what is shown"),
        (
            "A\n",
            "1: no heading: it is set, code and name, as in `G0 41 A`",
        ),
    ] {
        assert_eq!(fault(text).to_string(), format!("some.txt:{told}"));
    }
    let twice = drawn("G0 41 A", "........").repeat(2);
    let characters = parse("some.txt", &twice).expect("right characters");
    let fault = build(&characters).expect_err("drawn twice");
    assert_eq!(
        fault.to_string(),
        "some.txt:12: drawn already, at some.txt:1"
    );
}
