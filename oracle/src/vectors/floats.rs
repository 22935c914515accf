//! Patterns of f32 to ask with, and how an f32 is written.

use super::word;
use crate::rng::Rng;

pub const SIGN: u32 = 1 << 31;
pub const INFINITY: u32 = 0x7F80_0000;

/// Quiet NaNs have the highest digit set, signalling ones have not.
pub const QUIET: u32 = 1 << 22;

/// What no rule of the kernel or of a maximum has in mind: nothing, very little, very much, and no number.
pub const WILD: [f32; 12] = [
    0.0,
    -0.0,
    f32::MIN_POSITIVE,
    -f32::MIN_POSITIVE,
    1e-45,
    -1e-45,
    f32::MAX,
    f32::MIN,
    f32::INFINITY,
    f32::NEG_INFINITY,
    f32::NAN,
    1e20,
];

pub use samples::random::WIDTHS;

pub fn written(x: f32) -> u32 {
    samples::canonical(x.to_bits())
}

pub fn words(numbers: &[u32]) -> Vec<String> {
    numbers.iter().map(|number| word(*number)).collect()
}

pub fn patterns(numbers: &[f32]) -> Vec<u32> {
    numbers.iter().map(|x| x.to_bits()).collect()
}

/// A pattern and the `reach` patterns on either side of it, with both signs. What would lie below zero's pattern is a NaN's.
pub fn around(bits: u32, reach: u32) -> Vec<u32> {
    let near = (0..=2 * reach).map(|step| bits.wrapping_add(step).wrapping_sub(reach));
    near.flat_map(|near| [near, near ^ SIGN]).collect()
}

pub fn around_all(numbers: &[f32], reach: u32) -> Vec<u32> {
    numbers.iter().flat_map(|number| around(number.to_bits(), reach)).collect()
}

/// A number and those next to it, with its own sign.
pub fn near(number: f32, reach: u32) -> Vec<f32> {
    let bits = number.to_bits();
    (0..=2 * reach).map(|step| f32::from_bits((bits + step).wrapping_sub(reach))).collect()
}

/// Patterns of every kind, NaNs of several among them, two by two.
pub fn strange_pairs() -> impl Iterator<Item = [u32; 2]> {
    const PARTS: [u32; 11] = [
        0x0000_0000,
        0x8000_0000,
        0x3F80_0000,
        0xBFC0_0000,
        0x7F80_0000,
        0xFF80_0000,
        0x7FC0_0000,
        0xFFC1_2345,
        0x7F80_0001,
        0xFFFF_FFFF,
        0x7F7F_FFFF,
    ];
    PARTS.into_iter().flat_map(|x| PARTS.map(|y| [x, y]))
}

/// Every exponent with few, many and random digits and both signs (so both zeros, subnormals, the infinities and NaNs), more
/// patterns of NaNs, and random patterns.
pub fn everywhere(rng: &mut Rng) -> Vec<u32> {
    let mut found = nans(rng);
    for exponent in (0..256).map(|field| field << 23) {
        let digits = [0, 1, 0x3F_FFFF + rng.below(2) as u32, 0x7F_FFFF, rng.word() >> 9];
        found.extend(digits.iter().flat_map(|digits| [exponent | digits, SIGN | exponent | digits]));
    }
    found.extend((0..100).map(|_| rng.word()));
    found
}

pub fn nans(rng: &mut Rng) -> Vec<u32> {
    let mut digits = vec![1, 2, QUIET - 1, QUIET, QUIET + 1, QUIET + 2, 2 * QUIET - 1, QUIET / 2, QUIET + QUIET / 2];
    digits.extend((0..12).map(|_| rng.word() >> 9 | 1));
    digits.iter().flat_map(|digits| [INFINITY | digits, SIGN | INFINITY | digits]).collect()
}

pub fn between(low: f32, high: f32, rng: &mut Rng) -> f32 {
    rng.between(low, high)
}

/// Anything: an f32 of `WILD`, a random pattern, or an everyday number.
pub fn wild_or_not(rng: &mut Rng) -> f32 {
    match rng.below(4) {
        0 => WILD[rng.below(WILD.len() as u64) as usize],
        1 => f32::from_bits(rng.word()),
        _ => between(-2.0, 2.0, rng),
    }
}
