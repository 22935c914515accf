//! Float rules and the kernel, for every float there is. Nothing here refuses anything. An answered NaN may have any NaN's pattern.
//!
//! Vectors and points are `[x, y]`.

use mangerknot_sys::{Point2, Vector2};

pub(crate) fn vector([x, y]: [f32; 2]) -> Vector2 {
    Vector2 { x, y }
}

pub(crate) fn point([x, y]: [f32; 2]) -> Point2 {
    Point2 { x, y }
}

/// The 32 bits of x; every NaN has the pattern 7FC00000.
pub fn to_bits(x: f32) -> u32 {
    archive!(mk_to_bits: x)
}

/// The float of these 32 bits.
pub fn from_bits(b: u32) -> f32 {
    archive!(mk_from_bits: b)
}

/// The nearest whole number, halves away from zero, with x's sign; infinities and NaN answer themselves.
///
/// ```
/// assert_eq!(mangerknot::floats::round(2.5), 3.0);
/// ```
pub fn round(x: f32) -> f32 {
    archive!(mk_round: x)
}

/// x without its fraction, to the nearest end of the range; 0 for a NaN.
pub fn to_u32(x: f32) -> u32 {
    archive!(mk_to_u32: x)
}

/// The float nearest to n, ties to even.
pub fn from_u32(n: u32) -> f32 {
    archive!(mk_from_u32: n)
}

/// The float nearest to the root of x; both zeros and the infinity answer themselves, a NaN and what is below zero a NaN.
///
/// ```
/// assert_eq!(mangerknot::floats::root(2.25), 1.5);
/// ```
pub fn root(x: f32) -> f32 {
    archive!(mk_root: x)
}

/// 1 / e, and 0 for a zero.
pub fn inv_exact(e: f32) -> f32 {
    archive!(mk_inv_exact: e)
}

/// The larger; the number if one side is a NaN; +0 of two zeros.
pub fn max(a: f32, b: f32) -> f32 {
    archive!(mk_max: a b)
}

/// x without its sign.
pub fn abs(x: f32) -> f32 {
    archive!(mk_abs: x)
}

/// 1 with x's sign, also of a zero; a NaN for a NaN.
pub fn signum(x: f32) -> f32 {
    archive!(mk_signum: x)
}

/// 4 / cell_width^2.
pub fn inv_d(cell_width: f32) -> f32 {
    archive!(mk_inv_d: cell_width)
}

/// The weights of the three nodes around a point that lies x beyond the first of them, in cells.
///
/// ```
/// assert_eq!(mangerknot::floats::eval_all(1.0), [0.125, 0.75, 0.125]);
/// ```
pub fn eval_all(x: f32) -> [f32; 3] {
    archive!(mk_eval_all: x).weights
}

/// The weight of a node at the distance x, in cells.
pub fn eval(x: f32) -> f32 {
    archive!(mk_eval: x)
}

/// The derivative of that weight.
pub fn eval_derivative(x: f32) -> f32 {
    archive!(mk_eval_derivative: x)
}

/// The weights of each axis, x and then y, for a particle whose first node lies at this vector from it.
pub fn precompute_weights2(ref_elt_pos_minus_particle_pos: [f32; 2], h: f32) -> [[f32; 3]; 2] {
    let weights = archive!(mk_precompute_weights2: (vector(ref_elt_pos_minus_particle_pos)) h);
    [weights.x, weights.y]
}

/// The weight of a node that lies at this vector from a particle.
pub fn stencil_with_dir2(elt_pos_minus_particle_pos: [f32; 2], h: f32) -> f32 {
    archive!(mk_stencil_with_dir2: (vector(elt_pos_minus_particle_pos)) h)
}

/// The weight of a node at a point for a particle at another.
pub fn stencil2(elt_pos: [f32; 2], particle_pos: [f32; 2], h: f32) -> f32 {
    archive!(mk_stencil2: (point(elt_pos)) (point(particle_pos)) h)
}

/// The gradient of the weight of a node that lies at this vector from a particle.
pub fn stencil_gradient_with_dir2(elt_pos_minus_particle_pos: [f32; 2], h: f32) -> [f32; 2] {
    let gradient = archive!(mk_stencil_gradient_with_dir2: (vector(elt_pos_minus_particle_pos)) h);
    [gradient.x, gradient.y]
}

/// The gradient of the weight of a node at a point for a particle at another.
pub fn stencil_gradient2(elt_pos: [f32; 2], particle_pos: [f32; 2], h: f32) -> [f32; 2] {
    let gradient = archive!(mk_stencil_gradient2: (point(elt_pos)) (point(particle_pos)) h);
    [gradient.x, gradient.y]
}
