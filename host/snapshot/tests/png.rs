//! The PNG, read back by code of its own, has the picture's pixels and the eight colours.

mod pages;
mod reading;

use reading::png::read;
use snapshot::colour::Colour;
use snapshot::png::png;
use snapshot::raster::Raster;

const PALETTE: [[u8; 3]; 8] = [
    [0, 0, 0],
    [255, 0, 0],
    [0, 255, 0],
    [255, 255, 0],
    [0, 0, 255],
    [255, 0, 255],
    [0, 255, 255],
    [255, 255, 255],
];

fn assert_read_back(raster: &Raster) {
    let png = read(&png(raster)).expect("a right PNG");
    assert_eq!((png.width, png.height), (raster.width, raster.height));
    assert_eq!(png.palette, PALETTE);
    let pixels: Vec<u8> = raster.pixels.iter().map(|colour| colour.number()).collect();
    assert_eq!(png.pixels, pixels);
}

/// Numbers that look random: the high bits of a multiplied counter.
struct Numbers(u64);

impl Numbers {
    fn below(&mut self, limit: usize) -> usize {
        self.0 = self
            .0
            .wrapping_mul(6_364_136_223_846_793_005)
            .wrapping_add(1);
        (self.0 >> 33) as usize % limit
    }
}

/// Noise of some of the colours, in which some pixels repeat the one to the left or above: from hardly
/// any to nearly all.
fn random(numbers: &mut Numbers, width: usize, height: usize) -> Raster {
    let colours = 1 + numbers.below(8);
    let repeats = numbers.below(40);
    let mut pixels: Vec<Colour> = Vec::new();
    for at in 0..width * height {
        let back = [1, width][numbers.below(2)];
        let colour = if numbers.below(40) < repeats && at >= back {
            pixels[at - back]
        } else {
            Colour::ALL[numbers.below(colours)]
        };
        pixels.push(colour);
    }
    Raster {
        width,
        height,
        cell_width: 8,
        pixels,
    }
}

#[test]
fn the_demonstration_pages_are_read_back_and_small() {
    for (raster, width) in pages::rasters().iter().zip([320, 480]) {
        assert_eq!((raster.width, raster.height), (width, 250));
        assert_read_back(raster);
        // Packed, the pictures have 40,000 bytes and 60,000.
        assert!(png(raster).len() < 6_000, "{} bytes", png(raster).len());
    }
}

#[test]
fn pictures_of_one_colour_are_read_back_and_tiny() {
    for colour in Colour::ALL {
        for (width, cell_width) in [(320, 8), (480, 6)] {
            let raster = Raster::drawn((width, 250), cell_width, |_, _| colour);
            assert_read_back(&raster);
            assert!(png(&raster).len() < 1_000, "{} bytes", png(&raster).len());
        }
    }
}

#[test]
fn random_pictures_are_read_back() {
    let mut numbers = Numbers(1);
    for _ in 0..200 {
        let (width, height) = (1 + numbers.below(90), 1 + numbers.below(60));
        assert_read_back(&random(&mut numbers, width, height));
    }
}

#[test]
fn random_pictures_of_full_size_are_read_back() {
    let mut numbers = Numbers(2);
    for _ in 0..8 {
        assert_read_back(&random(&mut numbers, 320, 250));
        assert_read_back(&random(&mut numbers, 480, 250));
    }
}

/// Far copies: the same noise again after less than the window of deflate, which is 32,768 bytes, after
/// exactly that, and after more. A line of 254 pixels has 128 bytes.
#[test]
fn noise_that_comes_again_is_read_back() {
    for (width, height) in [(320, 100), (254, 255), (254, 256), (254, 257), (320, 230)] {
        let noise = random(&mut Numbers(3), width, height);
        let pixels = [&noise.pixels[..], &noise.pixels[..]].concat();
        assert_read_back(&Raster {
            width,
            height: 2 * height,
            cell_width: 8,
            pixels,
        });
    }
}

/// The reader is worth something only if it sees what is wrong.
#[test]
fn a_damaged_png_is_not_read() {
    let mut numbers = Numbers(4);
    let whole = png(&random(&mut numbers, 20, 20));
    assert!(read(&whole).is_ok());
    for at in 0..whole.len() {
        let mut damaged = whole.clone();
        damaged[at] ^= 0x10;
        assert!(read(&damaged).is_err(), "byte {at} is not checked");
    }
}

#[test]
fn the_checks_are_the_known_ones() {
    let bytes = png(&Raster::drawn((1, 1), 1, |_, _| Colour::White));
    // The last chunk is the same in every PNG.
    let end = [0, 0, 0, 0, b'I', b'E', b'N', b'D', 0xAE, 0x42, 0x60, 0x82];
    assert_eq!(bytes[bytes.len() - 12..], end);
}
