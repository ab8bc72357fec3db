//! How flashing cells follow PAT 6 and the phase, in either mode.

use second::bench::Bench;

/// Without PAT 6 no cell flashes; with it, a cell is hidden in the phase that differs from its
/// negative bit. Row 1 must start with two flashing cells with colour 1 on 4: a plain one, which is
/// `shown`, and a negative one, which is `inverted`. `all_lines_are` tells whether all lines of the
/// cell at a row and a column or position have the pixels.
pub fn follows_the_phase<const WIDTH: usize>(
    bench: &mut Bench,
    shown: [u8; WIDTH],
    inverted: [u8; WIDTH],
    all_lines_are: fn(&Bench, usize, usize, [u8; WIDTH]) -> bool,
) {
    for phase in [0, 1] {
        bench.indirect(3, 0x3F);
        bench.turn(phase);
        bench.draw();
        assert!(all_lines_are(bench, 1, 0, shown));
        assert!(all_lines_are(bench, 1, 1, inverted));
        bench.indirect(3, 0x40);
        bench.draw();
        let expected = if phase == 0 { shown } else { [4; WIDTH] };
        assert!(all_lines_are(bench, 1, 0, expected));
        let expected = if phase == 0 { [1; WIDTH] } else { inverted };
        assert!(all_lines_are(bench, 1, 1, expected));
    }
}
