//! Questions about f32, and the answers of Rust itself (`round`, the casts, `sqrt`, `max`, `abs`, `signum`), of `kernel.rs` and of
//! `physics.rs`, in two dimensions.

use super::floats::{around, around_all, between, everywhere, nans, patterns, wild_or_not, words, written};
use super::floats::{INFINITY, QUIET, SIGN, WIDTHS, WILD};
use super::{Sheet, OF_THE_RUST};
use crate::rng::{Rng, SEED};
use sparkl2d::kernel::QuadraticKernel as Kernel;
use sparkl2d::utils::inv_exact;

/// The handed-over files that give the answers here.
const SOURCES: [&str; 2] = ["src_core/dynamics/solver/kernel.rs", "src/utils/physics.rs"];

/// The operations of one f32.
const OF_ONE: [char; 11] = ['r', 'c', 'q', 'i', 'a', 'g', 'b', 'd', 'e', 'k', 'v'];

/// The operations of a vector and a cell width, and those of two points and a cell width.
const OF_VECTOR: [char; 3] = ['p', 's', 'x'];
const OF_POINTS: [char; 2] = ['t', 'y'];

const LEGEND: [&str; 10] = [
    "Fields, between tabs: an f32's bits or a u32, in 8 hex digits. A NaN in an answer is 7FC00000, whichever it is.",
    "r round x = y; c to_u32 x = n (Rust's `x as u32`); w from_u32 n = y (Rust's `n as f32`); q root x = y",
    "i inv_exact e = y; m max a b = y; a abs x = y; g signum x = y",
    "  no max of two zeros or of a signalling NaN: Rust's answer to them changes with its version and the machine",
    "b bits b = b: the pattern through from_bits and to_bits",
    "d inv_d h = y; e eval_all x = three; k eval x = y; v eval_derivative x = y",
    "p precompute_weights dx dy h = six: x's three, then y's",
    "s stencil_with_dir dx dy h = y; t stencil ex ey px py h = y",
    "x stencil_gradient_with_dir dx dy h = two; y stencil_gradient ex ey px py h = two",
    "End of the header.",
];

pub fn make() -> Sheet {
    let mut sheet = Sheet::titled("Numeric", OF_THE_RUST, &SOURCES, &LEGEND);
    for (operation, question) in questions(&mut Rng::new(SEED)) {
        let answer = answers(operation, &question);
        sheet.row(&operation.to_string(), words(&question), words(&answer));
    }
    sheet
}

// Answers.

/// What Rust or the handed-over files answer to the question of this letter.
pub fn answers(operation: char, question: &[u32]) -> Vec<u32> {
    let numbers: Vec<f32> = question.iter().map(|bits| f32::from_bits(*bits)).collect();
    match (operation, &numbers[..]) {
        ('c', [x]) => vec![*x as u32],
        ('w', [_]) => vec![written(question[0] as f32)],
        (_, numbers) => float_answers(operation, numbers).into_iter().map(written).collect(),
    }
}

fn float_answers(operation: char, numbers: &[f32]) -> Vec<f32> {
    match (operation, numbers) {
        ('r', &[x]) => vec![x.round()],
        ('q', &[x]) => vec![x.sqrt()],
        ('i', &[e]) => vec![inv_exact(e)],
        ('m', &[a, b]) => vec![a.max(b)],
        ('a', &[x]) => vec![x.abs()],
        ('g', &[x]) => vec![x.signum()],
        ('b', &[x]) => vec![x],
        ('d', &[h]) => vec![Kernel::inv_d(h)],
        ('e', &[x]) => Kernel::eval_all(x).to_vec(),
        ('k', &[x]) => vec![Kernel::eval(x)],
        ('v', &[x]) => vec![Kernel::eval_derivative(x)],
        ('p', &[dx, dy, h]) => Kernel::precompute_weights([dx, dy].into(), h).concat(),
        ('s', &[dx, dy, h]) => vec![Kernel::stencil_with_dir([dx, dy].into(), h)],
        ('t', &[ex, ey, px, py, h]) => vec![Kernel::stencil([ex, ey].into(), [px, py].into(), h)],
        ('x', &[dx, dy, h]) => parts(Kernel::stencil_gradient_with_dir([dx, dy].into(), h)),
        ('y', &[ex, ey, px, py, h]) => parts(Kernel::stencil_gradient([ex, ey].into(), [px, py].into(), h)),
        _ => panic!("no operation {} of {} numbers", operation, numbers.len()),
    }
}

fn parts(vector: sparkl2d::math::Vector<f32>) -> Vec<f32> {
    vec![vector.x, vector.y]
}

// Questions.

type Question = (char, Vec<u32>);

fn questions(rng: &mut Rng) -> Vec<Question> {
    let mut asked = vec![];
    for operation in OF_ONE {
        let own = match operation {
            'r' => ties(rng),
            'c' => around_all(&[0.0, 1.0, 2.0, 16777216.0, 2147483648.0, 4294967296.0], 6),
            'q' => squares(rng),
            'e' | 'k' | 'v' => near_the_kernel(rng),
            _ => vec![],
        };
        asked.extend(everywhere(rng).into_iter().chain(own).map(|bits| (operation, vec![bits])));
    }
    asked.extend(whole_numbers(rng).into_iter().map(|number| ('w', vec![number])));
    asked.extend(pairs(rng).into_iter().filter(|pair| is_settled(*pair)).map(|(a, b)| ('m', vec![a, b])));
    asked.extend(stencils(rng));
    asked
}

/// Halves and whole numbers with their neighbours, up to where no f32 has a fraction.
fn ties(rng: &mut Rng) -> Vec<u32> {
    let mut doubled: Vec<u32> = (0..33).collect();
    doubled.extend((5..26).flat_map(|bit| (0..4).map(move |more| (1 << bit) - 1 + more)));
    for bits in 5..26 {
        doubled.extend((0..4).map(|_| rng.word() >> (32 - bits) | 1));
    }
    doubled.into_iter().flat_map(|doubled| around((doubled as f32 / 2.0).to_bits(), 1)).collect()
}

/// Around squares of whole numbers and halves, of numbers of 24 digits, and of the middles between two of those.
fn squares(rng: &mut Rng) -> Vec<u32> {
    let mut roots: Vec<f64> = (0..96).map(|doubled| f64::from(doubled) / 2.0).collect();
    roots.extend((0..80).map(|_| f64::from(rng.word() >> 20)));
    for scale in (-70..=60).step_by(5) {
        for _ in 0..5 {
            let digits = f64::from(rng.word() >> 8 | 1 << 23);
            roots.extend([digits, digits + 0.5].map(|digits| digits * 2f64.powi(scale - 23)));
        }
        roots.extend([0x80_0000, 0xFF_FFFF].map(|digits| (f64::from(digits) + 0.5) * 2f64.powi(scale - 23)));
    }
    let squares = roots.iter().map(|root| ((root * root) as f32).to_bits());
    squares.flat_map(|bits| around(bits, 1)).filter(|bits| *bits < INFINITY).collect()
}

/// Around the places where the kernel's rule changes, and between them.
fn near_the_kernel(rng: &mut Rng) -> Vec<u32> {
    let mut found = around_all(&[0.0, 0.5, 1.0, 1.5, 2.0], 6);
    found.extend((0..160).map(|_| between(-2.0, 2.0, rng).to_bits()));
    found
}

/// Around powers of two, and from 2^24 on around f32s and the middles between two of them, of even and of odd ones.
fn whole_numbers(rng: &mut Rng) -> Vec<u32> {
    let mut found: Vec<u32> = (0..32).flat_map(|bit| three(1 << bit)).collect();
    found.extend(three(u32::MAX));
    for bit in 24..32 {
        let half_a_step = 1 << (bit - 24);
        for _ in 0..12 {
            let doubled = rng.word() >> 7 | 1 << 24;
            found.extend([doubled, doubled | 1, doubled | 3].iter().flat_map(|doubled| three(doubled * half_a_step)));
        }
        found.extend([0x1FF_FFFC, 0x1FF_FFFD, 0x1FF_FFFE, 0x1FF_FFFF].iter().flat_map(|doubled| three(doubled * half_a_step)));
    }
    found.extend((0..32).flat_map(|bits| (0..16).map(move |_| bits)).map(|bits| rng.word() >> bits));
    found
}

fn three(number: u32) -> [u32; 3] {
    [number.wrapping_sub(1), number, number.wrapping_add(1)]
}

fn pairs(rng: &mut Rng) -> Vec<(u32, u32)> {
    let mut numbers: Vec<u32> = WILD.iter().map(|x| x.to_bits()).collect();
    numbers.extend([1.0f32, -1.0, 1.5, -2.5].map(f32::to_bits));
    numbers.extend(nans(rng).iter().step_by(5));
    let mut found: Vec<_> = numbers.iter().flat_map(|a| numbers.iter().map(move |b| (*a, *b))).collect();
    for a in everywhere(rng).into_iter().step_by(7) {
        found.extend([(a, a), (a, a ^ SIGN), (a, a.wrapping_add(1)), (a.wrapping_add(1), a), (a, rng.word()), (rng.word(), a)]);
    }
    found
}

/// Whether every Rust on every machine answers the pair's maximum alike: of a signalling NaN and a number x86-64 answers the
/// number, and aarch64 a NaN.
pub fn is_settled((a, b): (u32, u32)) -> bool {
    let is_zero = |bits: u32| bits & !SIGN == 0;
    let is_signalling = |bits: u32| f32::from_bits(bits).is_nan() && bits & QUIET == 0;
    !(is_zero(a) && is_zero(b) || is_signalling(a) || is_signalling(b))
}

fn stencils(rng: &mut Rng) -> Vec<Question> {
    let mut found = vec![];
    for h in WIDTHS {
        for _ in 0..30 {
            found.extend(of_vector(within_two_cells(h, rng), within_two_cells(h, rng), h));
            found.extend(of_points(node(h, rng), node(h, rng), h, rng));
        }
        for steps in -4..=4 {
            found.extend(of_vector(steps as f32 * (h / 2.0), within_two_cells(h, rng), h));
            found.extend(of_vector(within_two_cells(h, rng), steps as f32 * (h / 2.0), h));
        }
    }
    for _ in 0..400 {
        let [a, b, c, d, h] = [0; 5].map(|_| wild_or_not(rng));
        found.extend(of_vector(a, b, h));
        found.extend(OF_POINTS.map(|operation| (operation, patterns(&[a, b, c, d, h]))));
    }
    found
}

fn of_vector(dx: f32, dy: f32, h: f32) -> [Question; 3] {
    OF_VECTOR.map(|operation| (operation, patterns(&[dx, dy, h])))
}

/// A node, and a particle within two cells of it on each axis; the particle's own first node, as the stages find it, besides.
fn of_points(ex: f32, ey: f32, h: f32, rng: &mut Rng) -> Vec<Question> {
    let (px, py) = (ex + within_two_cells(h, rng), ey + within_two_cells(h, rng));
    let first = |x: f32| ((x / h).round() - 1.0) * h - x;
    let mut found = vec![('p', patterns(&[first(px), first(py), h]))];
    found.extend(OF_POINTS.map(|operation| (operation, patterns(&[ex, ey, px, py, h]))));
    found
}

/// A node's coordinate.
fn node(h: f32, rng: &mut Rng) -> f32 {
    let bits = 1 + rng.below(16);
    rng.below(1 << bits) as f32 * h
}

/// A distance of up to two cells.
fn within_two_cells(h: f32, rng: &mut Rng) -> f32 {
    between(-2.0, 2.0, rng) * h
}

#[cfg(test)]
mod tests {
    use super::*;
    use crate::vectors::format::{counts, rows};
    use crate::vectors::word;

    #[test]
    fn document_01s_values() {
        assert_eq!(Kernel::eval_all(1.0), [0.125, 0.75, 0.125]);
        assert_eq!(2.5f32.round(), 3.0);
        assert_eq!(2.25f32.sqrt(), 1.5);
    }

    #[test]
    fn the_derivative_ends_in_plus_zero() {
        assert_eq!(Kernel::eval_derivative(1.5).to_bits(), 0);
        assert_eq!(Kernel::eval_derivative(-1.5).to_bits(), 0);
        assert_eq!(Kernel::eval_derivative(f32::NAN).to_bits(), 0);
    }

    #[test]
    fn the_stand_ins_work_on_each_component_by_itself() {
        assert_eq!(answers('s', &patterns(&[0.25, -0.5, 0.5])), patterns(&[0.5 * 0.125]));
        assert_eq!(answers('t', &patterns(&[1.25, 2.0, 1.0, 2.5, 0.5])), patterns(&[0.5 * 0.125]));
        assert_eq!(answers('x', &patterns(&[-0.5, 0.5, 1.0])), patterns(&[-0.5, 0.5]));
    }

    /// The number of an operation's fields in a question and in an answer.
    fn sizes(operation: &str) -> (usize, usize) {
        match operation {
            "m" => (2, 1),
            "e" => (1, 3),
            "p" => (3, 6),
            "s" => (3, 1),
            "t" => (5, 1),
            "x" => (3, 2),
            "y" => (5, 2),
            _ => (1, 1),
        }
    }

    #[test]
    fn every_line_is_of_the_format_and_every_operation_is_asked() {
        let counts = counts(&make(), |question| {
            let (asks, says) = sizes(question[0]);
            let said = if question[0] == "c" { "W" } else { "F" };
            ("W".repeat(asks), said.repeat(says))
        });
        let asked: String = counts.keys().map(String::as_str).collect();
        assert_eq!(asked, "abcdegikmpqrstvwxy");
        assert!(counts.values().sum::<usize>() >= 20_000, "{:?}", counts);
    }

    #[test]
    fn document_01s_values_and_the_ends_of_rules_are_asked() {
        let sheet = make();
        let ends = [
            ('r', vec![0.49999997, 0.5, 1.5, 2.5, 8388607.5, 8388608.0, 16777216.0]),
            ('c', vec![-0.0, -1.0, 1.0, 16777216.0, 2147483648.0, 4294967296.0]),
            ('q', vec![2.25, 4.0, f32::MAX, f32::INFINITY, -0.0]),
            ('e', vec![1.0]),
            ('k', vec![0.5, 1.5, -1.5]),
            ('v', vec![0.0, -0.0, 0.5, 1.5, -1.5]),
        ];
        for (operation, number) in ends.iter().flat_map(|(operation, numbers)| numbers.iter().map(move |x| (operation, x))) {
            let line = format!("{}\t{}", operation, word(number.to_bits()));
            assert!(sheet.asked.contains(&line), "{} {}", operation, number);
        }
    }

    #[test]
    fn no_maximum_hangs_on_the_machine() {
        let sheet = make();
        for (pair, _) in rows(&sheet).filter(|(question, _)| question[0] == "m") {
            let [a, b] = [pair[1], pair[2]].map(|field| u32::from_str_radix(field, 16).unwrap());
            assert!(is_settled((a, b)), "{:?}", pair);
            assert!(a << 1 != 0 || b << 1 != 0, "{:?}", pair);
        }
    }
}
