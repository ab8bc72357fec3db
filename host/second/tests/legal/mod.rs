//! Pointers and benches drawn at random, for trials of stores at legal places.

use second::bench::Bench;
use second::pointer::Pointer;
use second::random::Random;

/// A pointer in any block and any column, at a Y that is legal.
pub fn legal_pointer(random: &mut Random) -> Pointer {
    let y = random.below(25);
    Pointer {
        x: random.below(40),
        y: if y == 0 { 0 } else { 7 + y },
        z: random.below(16),
    }
}

/// A bench as at power-up, but with memory of any bytes.
pub fn random_bench(random: &mut Random) -> Bench {
    let mut bench = Bench::power_up();
    bench.memory = random.bytes(16_384);
    bench
}
