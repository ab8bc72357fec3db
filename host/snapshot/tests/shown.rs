//! Pictures as text: small known ones literally, and that nothing is lost where nothing need be.

mod pages;
mod reading;

use binturamis::Panel;
use snapshot::colour::Colour;
use snapshot::colour::Colour::{Black, Blue, Cyan, Green, Red, White, Yellow};
use snapshot::raster::Raster;
use snapshot::shown::blocks::{coloured, plain, Grain};
use snapshot::shown::fit::Fit;
use snapshot::shown::reduced::reduced;
use snapshot::shown::shown;
use snapshot::shown::two_tone::two_tone;

/// A raster of letters, its cells eight pixels wide: `.` black, `r` red and so on.
fn raster(lines: &[&str]) -> Raster {
    let colour = |letter| match letter {
        '.' => Black,
        'r' => Red,
        'g' => Green,
        'y' => Yellow,
        'b' => Blue,
        'c' => Cyan,
        'w' => White,
        _ => panic!("no letter of a colour: {letter}"),
    };
    Raster {
        width: lines[0].len(),
        height: lines.len(),
        cell_width: 8,
        pixels: lines.concat().chars().map(colour).collect(),
    }
}

#[test]
fn half_blocks_have_the_upper_pixel_as_foreground() {
    let text = coloured(&raster(&["rww", "gwb"]), Grain::Half);
    let wanted = "\x1b[38;5;196m\x1b[48;5;46m▀\x1b[48;5;231m \x1b[38;5;231m\x1b[48;5;21m▀\x1b[0m\n";
    assert_eq!(text, wanted);
}

#[test]
fn quarter_blocks_have_the_upper_left_pixel_as_foreground() {
    let text = coloured(&raster(&["ryyy", "yrry"]), Grain::Quarter);
    let red_on_yellow = "\x1b[38;5;196m\x1b[48;5;226m▚";
    let yellow_on_red = "\x1b[38;5;226m\x1b[48;5;196m▜";
    assert_eq!(text, format!("{red_on_yellow}{yellow_on_red}\x1b[0m\n"));
}

#[test]
fn an_odd_edge_is_filled_with_black() {
    let text = coloured(&raster(&["r"]), Grain::Quarter);
    assert_eq!(text, "\x1b[38;5;196m\x1b[48;5;16m▘\x1b[0m\n");
    assert_eq!(plain(&raster(&["r"]), Grain::Half), "▀\n");
}

#[test]
fn plain_text_has_no_escape_codes() {
    let picture = raster(&["w.w.", "ww..", "....", "w..w", "...."]);
    assert_eq!(plain(&picture, Grain::Half), "█▄▀\n▄  ▄\n\n");
    assert_eq!(plain(&picture, Grain::Quarter), "▙▘\n▖▗\n\n");
}

#[test]
fn all_sixteen_quarter_blocks_are_read_back() {
    let line = |bit: u32| -> String {
        let shown = |block: u32, bit: u32| if block >> bit & 1 == 1 { 'w' } else { 'b' };
        (0..16)
            .flat_map(|block| [shown(block, bit), shown(block, bit + 1)])
            .collect()
    };
    let picture = raster(&[&line(0), &line(2)]);
    assert_read_back(&picture);
}

/// Where every pixel is shown, what is read back from the text is the picture.
fn assert_read_back(picture: &Raster) {
    let lines = reading::text::quarters(&coloured(picture, Grain::Quarter));
    let pixels: Vec<u8> = picture
        .pixels
        .iter()
        .map(|colour| colour.number())
        .collect();
    assert_eq!(lines.concat(), pixels);
}

#[test]
fn quarter_blocks_lose_nothing_of_the_demonstration_pages() {
    for raster in &pages::rasters() {
        assert_read_back(raster);
    }
}

/// A page of any bytes as cells and as slices, with these values in TGS, MAT and DOR.
fn page_of_any_bytes(tgs: u8, mat: u8, dor: u8) -> Raster {
    let mut number = 7_u64;
    let mut byte = || {
        number = number
            .wrapping_mul(6_364_136_223_846_793_005)
            .wrapping_add(1);
        (number >> 56) as u8
    };
    let rom = std::array::from_fn(|_| byte());
    let mut panel = Panel::new(rom);
    let mut write = |address, value| panel.write(address, value).expect("accepted");
    for (r, value) in [(1, tgs), (2, mat), (4, dor), (7, 0x08)] {
        write(0x21, value);
        write(0x28, 0x80 + r);
    }
    write(0x20, 0x01);
    for y in [0].into_iter().chain(8..32) {
        write(0x26, y);
        write(0x27, 0);
        for _ in 0..40 {
            write(0x22, byte());
            write(0x23, byte());
            write(0x29, byte());
        }
    }
    panel.draw().expect("a right page");
    Raster::of_panel(&panel)
}

/// Two by two pixels of any page have no more than two colours.
#[test]
fn quarter_blocks_lose_nothing_of_any_page() {
    assert_read_back(&page_of_any_bytes(0x00, 0x00, 0x00));
    assert_read_back(&page_of_any_bytes(0xC0, 0x04, 0x31));
}

#[test]
fn a_terminal_gets_the_finest_that_fits() {
    let fit_of = |width, terminal: usize| {
        let fit = Fit::of(width, terminal);
        assert!(fit.columns(width) <= terminal.max(1));
        (fit.grain, fit.across, fit.down())
    };
    let fit = |terminal| fit_of(320, terminal);
    assert_eq!(fit(400), (Grain::Half, 1, 1));
    assert_eq!(fit(320), (Grain::Half, 1, 1));
    assert_eq!(fit(319), (Grain::Quarter, 1, 1));
    assert_eq!(fit(160), (Grain::Quarter, 1, 1));
    assert_eq!(fit(159), (Grain::Quarter, 2, 1));
    assert_eq!(fit(80), (Grain::Quarter, 2, 1));
    assert_eq!(fit(79), (Grain::Quarter, 3, 1));
    assert_eq!(fit(40), (Grain::Quarter, 4, 2));
    assert_eq!(fit(1), (Grain::Quarter, 160, 80));
    assert_eq!(fit(0), (Grain::Quarter, 160, 80));
    assert_eq!(fit_of(480, 240), (Grain::Quarter, 1, 1));
    assert_eq!(fit_of(480, 160), (Grain::Quarter, 2, 1));
    assert_eq!(fit_of(480, 80), (Grain::Quarter, 3, 1));
}

#[test]
fn a_stroke_that_takes_half_of_a_part_is_kept() {
    // A cell of 8 by 10, white strokes one pixel wide on blue.
    let mut lines = vec!["bwbbbwwb"; 10];
    lines[5] = "wwwwwwww";
    let picture = reduced(&raster(&lines), 2, 2);
    assert_eq!((picture.width, picture.height), (4, 5));
    for line in [0, 1, 3, 4] {
        let shown = [0, 1, 2, 3].map(|column| picture.at(column, line));
        assert_eq!(shown, [White, Blue, White, White]);
    }
    assert_eq!([0, 1, 2, 3].map(|column| picture.at(column, 2)), [White; 4]);
}

/// The ground is asked of the cell that a pixel is in: here the red stroke of the first cell is on
/// white, and the white one of the second on red.
#[test]
fn cells_of_80_columns_are_six_pixels_wide() {
    let mut picture = raster(&["wwwrwwrrrwrr"; 10]);
    picture.cell_width = 6;
    let shown = |raster: &Raster| -> Vec<Colour> { (0..6).map(|at| raster.at(at, 0)).collect() };
    let by_six = shown(&reduced(&picture, 2, 1));
    assert_eq!(by_six, [White, Red, White, Red, White, Red]);
    picture.cell_width = 12;
    assert_ne!(shown(&reduced(&picture, 2, 1)), by_six);
}

#[test]
fn a_dot_smaller_than_that_is_not_kept() {
    let mut lines = vec!["bbbbbbbb"; 10];
    lines[4] = "wbbbbbbb";
    assert_eq!(reduced(&raster(&lines), 2, 2).at(0, 2), Blue);
    assert_eq!(reduced(&raster(&lines), 2, 1).at(0, 4), White);
}

#[test]
fn reduction_by_one_changes_nothing() {
    for picture in pages::rasters() {
        assert_eq!(reduced(&picture, 1, 1), picture);
    }
}

#[test]
fn reduction_cuts_at_the_edges() {
    let picture = reduced(&raster(&["rrg", "rrg", "ccc"]), 2, 2);
    let wanted = Raster {
        cell_width: 4,
        ..raster(&["rg", "cc"])
    };
    assert_eq!(picture, wanted);
}

fn two_tones(line: &str) -> String {
    let picture = two_tone(&raster(&[line]));
    let letter = |colour: &Colour| if *colour == White { 'w' } else { '.' };
    picture.pixels.iter().map(letter).collect()
}

#[test]
fn the_darkest_colour_of_a_cell_is_its_ground() {
    assert_eq!(two_tones("bwbbwbbb"), ".w..w...");
    assert_eq!(two_tones("y.yy.yyy"), "w.ww.www");
    assert_eq!(two_tones("rrbbgg.."), "wwwwww..");
}

#[test]
fn a_cell_of_one_colour_is_ground_where_another_cell_of_the_row_has_that_ground() {
    // A word on red, a space on red, and a filled bar.
    assert_eq!(
        two_tones("rwrrwrrrrrrrrrrrgggggggg"),
        ".w..w...........wwwwwwww"
    );
    // A red bar with a black end.
    assert_eq!(
        two_tones("rrrrrrrrrrrr............"),
        "wwwwwwwwwwww............"
    );
}

#[test]
fn the_line_says_how_to_see_the_whole() {
    let picture = Raster::drawn((320, 250), 8, |_, _| Black);
    let note = |width| shown(&picture, Some(width), false).1;
    assert_eq!(
        note(320),
        "320 by 250 pixels, every one shown, in 320 columns."
    );
    assert_eq!(
        note(200),
        "320 by 250 pixels, every one shown, in 160 columns."
    );
    assert_eq!(
        note(80),
        "320 by 250 pixels, 2 across shown as one, in 80 columns: 160 columns show every one, as does --png."
    );
}

#[test]
fn every_pixel_is_shown_where_the_terminal_is_not_known() {
    let notes = pages::rasters().map(|raster| shown(&raster, None, false).1);
    let wanted = [
        "320 by 250 pixels, every one shown, in 160 columns.",
        "480 by 250 pixels, every one shown, in 240 columns.",
        "320 by 250 pixels, every one shown, in 160 columns.",
        "320 by 250 pixels, every one shown, in 160 columns.",
    ];
    assert_eq!(notes, wanted);
}

#[test]
fn text_is_no_wider_than_the_terminal() {
    for picture in &pages::rasters() {
        for width in [480, 320, 240, 160, 120, 80, 40] {
            let (text, _) = shown(picture, Some(width), false);
            let widest = text.lines().map(|line| line.chars().count()).max();
            assert!(widest <= Some(width), "{widest:?} in {width}");
            let down = Fit::of(picture.width, width).down();
            assert_eq!(text.lines().count(), picture.height.div_ceil(2 * down));
        }
    }
}
