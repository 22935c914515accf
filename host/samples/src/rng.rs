/// Steele, Lea and Flood's splitmix64: a fixed generator, so that the same questions come out every time.
pub struct Rng(u64);

impl Rng {
    pub fn new(seed: u64) -> Self {
        Rng(seed)
    }

    pub fn number(&mut self) -> u64 {
        self.0 = self.0.wrapping_add(0x9E37_79B9_7F4A_7C15);
        let mut mixed = self.0;
        mixed = (mixed ^ (mixed >> 30)).wrapping_mul(0xBF58_476D_1CE4_E5B9);
        mixed = (mixed ^ (mixed >> 27)).wrapping_mul(0x94D0_49BB_1331_11EB);
        mixed ^ (mixed >> 31)
    }

    /// A number below `bound`; it leans to small ones by a hair, which questions do not mind.
    pub fn below(&mut self, bound: u64) -> u64 {
        self.number() % bound
    }

    /// Half of a number: the upper one, as any half would do.
    pub fn word(&mut self) -> u32 {
        (self.number() >> 32) as u32
    }

    pub fn between(&mut self, low: f32, high: f32) -> f32 {
        low + (high - low) * ((self.word() >> 8) as f32 / 16777216.0)
    }

    pub fn one_of<T: Copy>(&mut self, choices: &[T]) -> T {
        choices[self.below(choices.len() as u64) as usize]
    }

    /// Fisher and Yates's shuffle.
    pub fn shuffle<T>(&mut self, list: &mut [T]) {
        for last in (1..list.len()).rev() {
            list.swap(last, self.below(last as u64 + 1) as usize);
        }
    }
}

#[cfg(test)]
mod tests {
    use super::*;

    #[test]
    fn gives_the_published_numbers() {
        let mut rng = Rng::new(1234567);
        let published = [6457827717110365317, 3203168211198807973, 9817491932198370423];
        assert_eq!([rng.number(), rng.number(), rng.number()], published);
    }

    #[test]
    fn repeats_itself_from_one_seed() {
        let (mut first, mut second) = (Rng::new(1), Rng::new(1));
        assert!((0..1000).all(|_| first.number() == second.number()));
        assert_ne!(Rng::new(1).number(), Rng::new(2).number());
    }

    #[test]
    fn a_shuffle_keeps_every_entry() {
        let mut list: Vec<u64> = (0..50).collect();
        Rng::new(3).shuffle(&mut list);
        assert!(list.windows(2).any(|pair| pair[0] > pair[1]));
        list.sort_unstable();
        assert!(list.into_iter().eq(0..50));
    }
}
