//! A repeatable source of numbers: the same seed gives the same run on every machine.

/// Splitmix64.
#[derive(Clone, Debug)]
pub struct Dice {
    state: u64,
}

impl Dice {
    pub fn new(seed: u64) -> Dice {
        Dice { state: seed }
    }

    /// The dice of one round of a run; rounds can be run apart and in any order.
    pub fn of_round(seed: u64, round: u64) -> Dice {
        let mut dice = Dice::new(seed ^ round.wrapping_mul(0xD1B5_4A32_D192_ED03));
        dice.word();
        dice
    }

    pub fn word(&mut self) -> u64 {
        self.state = self.state.wrapping_add(0x9E37_79B9_7F4A_7C15);
        let mut word = self.state;
        word = (word ^ (word >> 30)).wrapping_mul(0xBF58_476D_1CE4_E5B9);
        word = (word ^ (word >> 27)).wrapping_mul(0x94D0_49BB_1331_11EB);
        word ^ (word >> 31)
    }

    pub fn byte(&mut self) -> u8 {
        self.word() as u8
    }

    /// 0 up to but not including `sides`.
    pub fn below(&mut self, sides: u64) -> u64 {
        self.word() % sides
    }

    /// An index into something of this length.
    pub fn index(&mut self, length: usize) -> usize {
        self.below(length as u64) as usize
    }

    /// Both ends included.
    pub fn between(&mut self, low: i64, high: i64) -> i64 {
        low + self.below((high - low + 1) as u64) as i64
    }

    pub fn one_in(&mut self, sides: u64) -> bool {
        self.below(sides) == 0
    }

    pub fn pick<T: Copy>(&mut self, from: &[T]) -> T {
        from[self.index(from.len())]
    }

    pub fn sign(&mut self) -> i64 {
        self.pick(&[-1, 1])
    }

    pub fn shuffle<T>(&mut self, items: &mut [T]) {
        for end in (1..items.len()).rev() {
            items.swap(end, self.index(end + 1));
        }
    }
}
