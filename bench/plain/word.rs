//! Random words by PCG XSH RR 64/32, and the seeds of children.

const MULTIPLIER: u64 = 6364136223846793005;

struct Generator {
    state: u64,
    increment: u64,
}

impl Generator {
    fn new(seed: u64, stream: u64) -> Generator {
        let increment = stream << 1 | 1;
        let mut generator = Generator { state: seed.wrapping_add(increment), increment };
        generator.advance();
        generator
    }

    fn advance(&mut self) {
        self.state = self.state.wrapping_mul(MULTIPLIER).wrapping_add(self.increment);
    }

    fn next(&mut self) -> u32 {
        let state = self.state;
        self.advance();
        ((((state >> 18) ^ state) >> 27) as u32).rotate_right((state >> 59) as u32)
    }
}

/// Word number n, from 0, of a shape with this seed.
pub fn shape_word(seed: u64, n: usize) -> u64 {
    let mut generator = Generator::new(seed, 0);
    for _ in 0..n {
        generator.advance();
    }
    generator.next() as u64
}

pub fn child_seed(seed: u64, index: usize) -> u64 {
    let mut generator = Generator::new(seed, index as u64 + 1);
    let low = generator.next() as u64;
    low | (generator.next() as u64) << 32
}
