//! The program `panel`: its two lines for the page's input and for odd, empty and refused ones.

use second::panel;

const EXAMPLE: [u8; 28] = [
    0x21, 0x08, 0x28, 0x87, 0x21, 0x03, 0x28, 0x84, 0x26, 0x00, 0x27, 0xC0, 0x20, 0x30, 0x29, 0x52,
    0x20, 0x00, 0x26, 0x08, 0x27, 0x00, 0x22, 0x80, 0x23, 0x70, 0x29, 0x00,
];

fn example_and(more: &[u8]) -> Vec<u8> {
    let mut input = EXAMPLE.to_vec();
    input.extend(more);
    input
}

#[test]
fn the_example_of_the_page() {
    assert_eq!(panel(&EXAMPLE), "0 0 25\n70 00 07 07 00 00 00 00\n");
}

#[test]
fn empty_input() {
    assert_eq!(panel(&[]), "0 8 0\n00 00 00 00 00 00 00 00\n");
}

#[test]
fn an_odd_last_byte_is_ignored() {
    assert_eq!(panel(&[0x20]), "0 8 0\n00 00 00 00 00 00 00 00\n");
    assert_eq!(
        panel(&example_and(&[0x29])),
        "0 0 25\n70 00 07 07 00 00 00 00\n"
    );
}

#[test]
fn the_number_of_the_last_write_alone_is_printed() {
    // An address of another device, a command that is not listed, and a pointer with Y = 1.
    let page = "0 25\n70 00 07 07 00 00 00 00\n";
    assert_eq!(panel(&example_and(&[0x3F, 0x00])), format!("2 {page}"));
    assert_eq!(panel(&example_and(&[0x28, 0x05])), format!("3 {page}"));
    let moved = [0x26, 0x01, 0x29, 0x00];
    assert_eq!(panel(&example_and(&moved)), format!("4 {page}"));
    let refused_then_accepted = [0x3F, 0x00, 0x21, 0x00];
    assert_eq!(
        panel(&example_and(&refused_then_accepted)),
        format!("0 {page}")
    );
}

#[test]
fn a_page_of_another_format_is_not_drawn() {
    let tgs = [0x21, 0x80, 0x28, 0x81];
    assert_eq!(
        panel(&example_and(&tgs)),
        "0 7 0\n00 00 00 00 00 00 00 00\n"
    );
}

#[test]
fn a_page_of_80_columns_gets_6_since_the_picture_has_the_length_of_40() {
    let tgs = [0x21, 0xC0, 0x28, 0x81];
    assert_eq!(panel(&tgs), "0 6 0\n00 00 00 00 00 00 00 00\n");
    assert_eq!(
        panel(&example_and(&tgs)),
        "0 6 0\n00 00 00 00 00 00 00 00\n"
    );
}
