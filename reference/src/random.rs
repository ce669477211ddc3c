//! A small generator of pseudo-random numbers (splitmix64), so that cases follow from a seed.

#[derive(Clone, Debug)]
pub struct Random(u64);

impl Random {
    pub const fn new(seed: u64) -> Self {
        Random(seed)
    }

    /// The generator of case `at` under a seed.
    pub fn of_case(seed: u64, at: u64) -> Self {
        let mut mixed = Random(seed);
        Random(mixed.draw().wrapping_add(at.wrapping_mul(0xD1B5_4A32_D192_ED03)))
    }

    pub fn draw(&mut self) -> u64 {
        self.0 = self.0.wrapping_add(0x9E37_79B9_7F4A_7C15);
        let mut mixed = self.0;
        mixed = (mixed ^ (mixed >> 30)).wrapping_mul(0xBF58_476D_1CE4_E5B9);
        mixed = (mixed ^ (mixed >> 27)).wrapping_mul(0x94D0_49BB_1331_11EB);
        mixed ^ (mixed >> 31)
    }

    /// A number under `bound`, which is not 0.
    pub fn below(&mut self, bound: usize) -> usize {
        (self.draw() % bound as u64) as usize
    }

    /// A number from `least` to `most`.
    pub fn between(&mut self, least: i32, most: i32) -> i32 {
        least + self.below((most - least + 1) as usize) as i32
    }

    /// True in `percent` of 100 cases.
    pub fn chance(&mut self, percent: usize) -> bool {
        self.below(100) < percent
    }

    pub fn pick<'s, T>(&mut self, from: &'s [T]) -> Option<&'s T> {
        if from.is_empty() {
            return None;
        }
        from.get(self.below(from.len()))
    }

    /// One of the choices, each with its weight; some weight is not 0.
    pub fn weighed<T: Copy>(&mut self, choices: &[(usize, T)]) -> T {
        let mut rest = self.below(choices.iter().map(|(weight, _)| weight).sum());
        for &(weight, choice) in choices {
            if rest < weight {
                return choice;
            }
            rest -= weight;
        }
        unreachable!("the weights are gone through")
    }

    /// A word: mostly small, now and then at the ends of the range.
    pub fn word(&mut self) -> i32 {
        match self.below(20) {
            0 => i32::MAX - self.between(0, 2),
            1 => i32::MIN + self.between(0, 2),
            2 => self.draw() as i32,
            3 => self.between(-70_000, 70_000),
            _ => self.between(-2, 4),
        }
    }
}
