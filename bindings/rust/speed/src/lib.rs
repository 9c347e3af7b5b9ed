//! What both programs share: numbers that look random, and the words of the command line.

/// Numbers that look random, and are the same in each run (xorshift).
pub struct Random(u64);

impl Random {
    pub fn new(seed: u64) -> Self {
        Random(seed.wrapping_mul(0x9e37_79b9_7f4a_7c15) | 1)
    }

    /// A number below `bound`, which isn't 0.
    pub fn below(&mut self, bound: usize) -> usize {
        self.0 ^= self.0 << 13;
        self.0 ^= self.0 >> 7;
        self.0 ^= self.0 << 17;
        ((self.0 >> 11) % bound as u64) as usize
    }

    /// Whether something happens that happens once in `times`.
    pub fn once_in(&mut self, times: usize) -> bool {
        self.below(times) == 0
    }

    /// One of the items, of which there is at least one.
    pub fn of<T: Copy>(&mut self, items: &[T]) -> T {
        items[self.below(items.len())]
    }

    /// A constant as programs have them: small, a power of two, a run of ones, or any number.
    pub fn constant(&mut self) -> u64 {
        match self.below(8) {
            0..=2 => self.below(4) as u64,
            3 => self.below(5000) as u64,
            4 => 1 << self.below(64),
            5 => (1_u64 << self.below(64)).wrapping_sub(1),
            6 => (self.below(300) as u64).wrapping_neg(),
            _ => (self.below(usize::MAX) as u64).rotate_left(17),
        }
    }
}

/// What the command line asks for: `PROGRAM [--show] [CALLS]`.
pub struct Wanted {
    /// How many calls are made: 100,000 if nothing else is said.
    pub calls: usize,
    /// Whether the outcome of each call is printed.
    pub show: bool,
}

impl Wanted {
    pub fn of_command_line() -> Self {
        let mut wanted = Wanted {
            calls: 100_000,
            show: false,
        };
        for word in std::env::args().skip(1) {
            match word.parse() {
                Ok(calls) => wanted.calls = calls,
                Err(_) if word == "--show" => wanted.show = true,
                Err(_) => {
                    eprintln!("usage: backend|mid-end [--show] [CALLS]");
                    std::process::exit(2);
                }
            }
        }
        wanted
    }
}
