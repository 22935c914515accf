//! Numeric through the archive: document 01's values, and Rust's own arithmetic on zeros, infinities, NaNs and the ends of the range.

mod pattern;

use mangerknot_sys::*;
use pattern::bits;

/// Zeros, smallest and largest numbers, halves and their neighbours, powers around the ends of the cast and of whole numbers,
/// infinities, NaNs quiet and signalling, each with both signs; and numbers spread over the range.
fn samples() -> Vec<f32> {
    let edges = [
        0x0000_0000,
        0x0000_0001,
        0x007f_ffff,
        0x0080_0000,
        0x3eff_ffff,
        0x3f00_0000,
        0x3f00_0001,
        0x3f7f_ffff,
        0x3f80_0000,
        0x3fc0_0000,
        0x3fbf_ffff,
        0x4010_0000,
        0x4020_0000,
        0x4060_0000,
        0x4aff_ffff,
        0x4b00_0000,
        0x4b7f_ffff,
        0x4f7f_ffff,
        0x4f80_0000,
        0x7f7f_ffff,
        0x7f80_0000,
        0x7f80_0001,
        0x7fc0_0000,
        0x7fff_ffff,
    ];
    let signed = edges.iter().flat_map(|edge| [*edge, *edge | 0x8000_0000]);
    let spread = (0..=u32::MAX).step_by(9_000_011);
    signed.chain(spread).map(f32::from_bits).collect()
}

fn same(port: f32, right: f32, of: &[f32]) {
    assert_eq!(bits(port), bits(right), "{} and not {}, of {:?} ({:08X})", port, right, of, of[0].to_bits());
}

fn each(port: unsafe extern "C" fn(f32) -> f32, right: fn(f32) -> f32) {
    samples().into_iter().for_each(|x| same(unsafe { port(x) }, right(x), &[x]));
}

#[test]
fn document_01s_values() {
    unsafe {
        assert_eq!(mk_eval_all(1.0), Weights { weights: [0.125, 0.75, 0.125] });
        assert_eq!(mk_round(2.5), 3.0);
        assert_eq!(mk_root(2.25), 1.5);
    }
}

#[test]
fn rounding_is_rusts() {
    each(mk_round, f32::round);
    unsafe {
        assert_eq!(mk_round(-0.4).to_bits(), 0x8000_0000);
        assert_eq!(mk_round(0.49999997).to_bits(), 0);
        assert_eq!(mk_round(-2.5), -3.0);
        assert!(mk_round(f32::NAN).is_nan());
    }
}

#[test]
fn the_cast_is_rusts() {
    for x in samples() {
        assert_eq!(unsafe { mk_to_u32(x) }, x as u32, "of {}", x);
    }
    unsafe {
        assert_eq!(mk_to_u32(f32::NAN), 0);
        assert_eq!(mk_to_u32(-1.0), 0);
        assert_eq!(mk_to_u32(f32::INFINITY), u32::MAX);
        assert_eq!(mk_to_u32(2.9), 2);
    }
}

#[test]
fn whole_numbers_are_rusts() {
    for n in (0..=u32::MAX).step_by(5_000_011).chain([1, 16_777_215, 16_777_217, 16_777_219, u32::MAX]) {
        assert_eq!(unsafe { mk_from_u32(n) }, n as f32, "of {}", n);
    }
}

#[test]
fn the_root_is_rusts() {
    each(mk_root, f32::sqrt);
    unsafe {
        assert_eq!(mk_root(-0.0).to_bits(), 0x8000_0000);
        assert_eq!(mk_root(f32::INFINITY), f32::INFINITY);
        assert!(mk_root(-1.0).is_nan());
    }
}

#[test]
fn bits_go_there_and_back() {
    for x in samples() {
        assert_eq!(unsafe { mk_to_bits(x) }, bits(x));
        same(unsafe { mk_from_bits(x.to_bits()) }, x, &[x]);
    }
}

#[test]
fn sizes_and_signs_are_rusts() {
    each(mk_abs, f32::abs);
    each(mk_signum, f32::signum);
    unsafe {
        assert_eq!(mk_signum(-0.0), -1.0);
        assert_eq!(mk_signum(0.0), 1.0);
        assert_eq!(mk_abs(-0.0).to_bits(), 0);
    }
}

#[test]
fn the_inverse_of_zero_is_zero() {
    each(mk_inv_exact, |e| if e == 0.0 { 0.0 } else { 1.0 / e });
    unsafe {
        assert_eq!(mk_inv_exact(-0.0).to_bits(), 0);
        assert_eq!(mk_inv_exact(4.0), 0.25);
    }
}

/// The maximum of document 01: Rust leaves open which of two zeros it answers.
#[test]
fn the_maximum_is_the_number_and_zero_without_sign() {
    let right = |a: f32, b: f32| if a == 0.0 && b == 0.0 { 0.0 } else { a.max(b) };
    for a in samples() {
        for b in samples().into_iter().step_by(7) {
            same(unsafe { mk_max(a, b) }, right(a, b), &[a, b]);
            same(unsafe { mk_max(b, a) }, right(b, a), &[b, a]);
        }
    }
    unsafe {
        assert_eq!(mk_max(-0.0, 0.0).to_bits(), 0);
        assert_eq!(mk_max(-0.0, -0.0).to_bits(), 0);
        assert_eq!(mk_max(f32::NAN, 1.0), 1.0);
        assert_eq!(mk_max(1.0, f32::NAN), 1.0);
        assert_eq!(mk_max(2.0, 1.0), 2.0);
    }
}

/// Document 01's kernel, in f32 and in its order.
fn eval_all(t: f32) -> [f32; 3] {
    [0.5 * ((1.5 - t) * (1.5 - t)), 0.75 - (t - 1.0) * (t - 1.0), 0.5 * ((t - 0.5) * (t - 0.5))]
}

fn eval(x: f32) -> f32 {
    let a = x.abs();
    match a {
        _ if a < 0.5 => 0.75 - a * a,
        _ if a < 1.5 => 0.5 * ((1.5 - a) * (1.5 - a)),
        _ => 0.0,
    }
}

fn eval_derivative(x: f32) -> f32 {
    let a = x.abs();
    match a {
        _ if a < 0.5 => -2.0 * x.signum() * a,
        _ if a < 1.5 => -x.signum() * (1.5 - a),
        _ => 0.0,
    }
}

/// Distances within the kernel's reach, its edges, and what is no distance.
fn distances() -> Vec<f32> {
    let near = (-200..=200).map(|k| k as f32 * 0.01);
    let edges = [-0.0, 0.49999997, 0.5, 1.4999999, 1.5, -0.5, -1.5, f32::INFINITY, f32::NEG_INFINITY, f32::NAN, 1e-45, f32::MAX];
    near.chain(edges).collect()
}

#[test]
fn the_kernel_is_document_01s() {
    for x in distances() {
        unsafe {
            let weights = mk_eval_all(x).weights;
            (0..3).for_each(|k| same(weights[k], eval_all(x)[k], &[x]));
            same(mk_eval(x), eval(x), &[x]);
            same(mk_eval_derivative(x), eval_derivative(x), &[x]);
            same(mk_inv_d(x), 4.0 / (x * x), &[x]);
        }
    }
    unsafe {
        assert_eq!(mk_eval(f32::NAN).to_bits(), 0);
        assert_eq!(mk_eval_derivative(0.25), -0.5);
        assert_eq!(mk_eval_derivative(-1.0), 0.5);
        assert_eq!(mk_inv_d(0.5), 16.0);
    }
}

#[test]
fn structs_cross_both_ways() {
    unsafe {
        let weights = mk_precompute_weights2(Vector2 { x: -1.0, y: -3.0 }, 2.0);
        assert_eq!(weights, Weights2 { x: eval_all(0.5), y: eval_all(1.5) });
        assert_eq!(mk_stencil_with_dir2(Vector2 { x: 0.5, y: -2.0 }, 2.0), eval(0.25) * eval(1.0));
        assert_eq!(mk_stencil2(Point2 { x: 3.5, y: 1.0 }, Point2 { x: 3.0, y: 3.0 }, 2.0), eval(0.25) * eval(1.0));
        let gradient = Vector2 { x: 0.5 * eval_derivative(-0.25) * eval(1.0), y: 0.5 * eval(-0.25) * eval_derivative(1.0) };
        assert_eq!(mk_stencil_gradient_with_dir2(Vector2 { x: 0.5, y: -2.0 }, 2.0), gradient);
        assert_eq!(mk_stencil_gradient2(Point2 { x: 3.5, y: 1.0 }, Point2 { x: 3.0, y: 3.0 }, 2.0), gradient);
        assert_ne!(gradient.x, gradient.y);
    }
}

/// Each field of a struct, with a number that is no number or beyond all.
#[test]
fn structs_carry_nans_and_infinities() {
    for x in distances() {
        for y in distances().into_iter().step_by(13) {
            let (u, v) = (-x / 0.1, -y / 0.1);
            unsafe {
                let weights = mk_precompute_weights2(Vector2 { x, y }, 0.1);
                (0..3).for_each(|k| same(weights.x[k], eval_all(u)[k], &[x, y]));
                (0..3).for_each(|k| same(weights.y[k], eval_all(v)[k], &[x, y]));
                same(mk_stencil_with_dir2(Vector2 { x, y }, 0.1), eval(u) * eval(v), &[x, y]);
                same(mk_stencil2(Point2 { x, y }, Point2 { x: 0.0, y: 0.0 }, 0.1), eval(u) * eval(v), &[x, y]);
                let inv_h = 1.0 / 0.1f32;
                let (s, t) = (-x * inv_h, -y * inv_h);
                for gradient in [
                    mk_stencil_gradient_with_dir2(Vector2 { x, y }, 0.1),
                    mk_stencil_gradient2(Point2 { x, y }, Point2 { x: 0.0, y: 0.0 }, 0.1),
                ] {
                    same(gradient.x, inv_h * eval_derivative(s) * eval(t), &[x, y]);
                    same(gradient.y, inv_h * eval(s) * eval_derivative(t), &[x, y]);
                }
            }
        }
    }
}
