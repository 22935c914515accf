//! The functions on numbers alone, against the archive's own: every argument goes where it has to.

use mangerknot::ids::{dim2, dim3, masked_add, region_of};
use mangerknot::mls_solver::{min_dt, step_lengths, substep, End, Step};
use mangerknot::{floats, sp_grid};
use mangerknot_sys::*;
use samples::lengths::{proposal, Step as AnyStep};
use samples::Rng;

const SEED: u64 = 0x5361_6665_2066_756e;

/// Compares what a safe function answers with what the archive's does.
macro_rules! same {
    ($($safe:expr => $raw:expr),* $(,)?) => {
        $(assert_eq!($safe, unsafe { $raw }, stringify!($safe));)*
    };
}

/// The bits of numbers, the same for every NaN.
fn bits<const N: usize>(numbers: [f32; N]) -> [u32; N] {
    numbers.map(|number| samples::canonical(number.to_bits()))
}

#[test]
fn ids() {
    let mut rng = Rng::new(SEED);
    for _ in 0..1000 {
        let (i, j, mask) = (rng.number(), rng.number(), rng.number());
        let [x, y, z] = [0; 3].map(|_| rng.word() >> rng.below(32));
        let (colour, number) = (rng.below(9), rng.below(70));
        let signed = |part: u32| part as i32;
        same!(
            masked_add(mask, i, j) => mk_masked_add(mask, i, j),
            region_of(i) => mk_region_of(i),
            dim2::pack(x, y) => mk_pack2(x, y),
            dim2::packi(signed(x), signed(y)) => mk_packi2(signed(x), signed(y)),
            dim2::unpack(i) => { let cell = mk_unpack2(i); [cell.x, cell.y] },
            dim2::packed_add(i, j) => mk_packed_add2(i, j),
            dim2::shift_cell_neg_one(i) => mk_shift_cell_neg_one2(i),
            dim2::shift_cell_neg_two(i) => mk_shift_cell_neg_two2(i),
            dim2::shift_cell_plus_five(i) => mk_shift_cell_plus_five2(i),
            dim2::number_in_region(i) => mk_number_in_region2(i),
            dim2::cell_of_region(i, number) => mk_cell_of_region2(i, number),
            dim2::is_in_region_with_color(i, colour) => mk_is_in_region_with_color2(i, colour) == 1,
            dim2::region_neighbors(i) => mk_region_neighbors2(i).ids,
            dim2::nbh_shifts() => mk_nbh_shifts2().ids,
            dim2::nbh_region_shifts() => mk_nbh_region_shifts2().ids,
            dim2::stencil_ids(i) => mk_stencil_ids2(i).ids,
            dim3::pack(x, y, z) => mk_pack3(x, y, z),
            dim3::packi(signed(x), signed(y), signed(z)) => mk_packi3(signed(x), signed(y), signed(z)),
            dim3::unpack(i) => { let cell = mk_unpack3(i); [cell.x, cell.y, cell.z] },
            dim3::packed_add(i, j) => mk_packed_add3(i, j),
            dim3::shift_cell_neg_one(i) => mk_shift_cell_neg_one3(i),
            dim3::shift_cell_neg_two(i) => mk_shift_cell_neg_two3(i),
            dim3::shift_cell_plus_five(i) => mk_shift_cell_plus_five3(i),
            dim3::number_in_region(i) => mk_number_in_region3(i),
            dim3::cell_of_region(i, number) => mk_cell_of_region3(i, number),
            dim3::is_in_region_with_color(i, colour) => mk_is_in_region_with_color3(i, colour) == 1,
            dim3::region_neighbors(i) => mk_region_neighbors3(i).ids,
            dim3::nbh_shifts() => mk_nbh_shifts3().ids,
            dim3::nbh_region_shifts() => mk_nbh_region_shifts3().ids,
            dim3::stencil_ids(i) => mk_stencil_ids3(i).ids,
        );
    }
}

/// Numbers of every kind, everyday ones among them so that kernels are not all 0.
fn any_number(rng: &mut Rng) -> f32 {
    let (everyday, pattern) = (rng.between(-2.5, 2.5), f32::from_bits(rng.word()));
    rng.one_of(&[everyday, everyday, pattern, f32::NAN, f32::INFINITY, 0.0, -0.0])
}

#[test]
fn numbers_and_cells() {
    let mut rng = Rng::new(!SEED);
    for _ in 0..3000 {
        let [a, b, c, d] = [0; 4].map(|_| any_number(&mut rng));
        let (word, id, h) = (rng.word(), rng.number(), rng.one_of(&[1.0, 0.5, 3.0, a]));
        let (away, here, there) = (Vector2 { x: a, y: b }, Point2 { x: a, y: b }, Point2 { x: c, y: d });
        same!(
            floats::to_bits(a) => mk_to_bits(a),
            bits([floats::from_bits(word)]) => bits([mk_from_bits(word)]),
            bits([floats::round(a)]) => bits([mk_round(a)]),
            floats::to_u32(a) => mk_to_u32(a),
            bits([floats::from_u32(word)]) => bits([mk_from_u32(word)]),
            bits([floats::root(a)]) => bits([mk_root(a)]),
            bits([floats::inv_exact(a)]) => bits([mk_inv_exact(a)]),
            bits([floats::max(a, b)]) => bits([mk_max(a, b)]),
            bits([floats::abs(a)]) => bits([mk_abs(a)]),
            bits([floats::signum(a)]) => bits([mk_signum(a)]),
            bits([floats::inv_d(a)]) => bits([mk_inv_d(a)]),
            bits(floats::eval_all(a)) => bits(mk_eval_all(a).weights),
            bits([floats::eval(a)]) => bits([mk_eval(a)]),
            bits([floats::eval_derivative(a)]) => bits([mk_eval_derivative(a)]),
            floats::precompute_weights2([a, b], h).map(bits) => {
                let weights = mk_precompute_weights2(away, h);
                [bits(weights.x), bits(weights.y)]
            },
            bits([floats::stencil_with_dir2([a, b], h)]) => bits([mk_stencil_with_dir2(away, h)]),
            bits([floats::stencil2([a, b], [c, d], h)]) => bits([mk_stencil2(here, there, h)]),
            bits(floats::stencil_gradient_with_dir2([a, b], h)) => {
                let gradient = mk_stencil_gradient_with_dir2(away, h);
                bits([gradient.x, gradient.y])
            },
            bits(floats::stencil_gradient2([a, b], [c, d], h)) => {
                let gradient = mk_stencil_gradient2(here, there, h);
                bits([gradient.x, gradient.y])
            },
            bits(sp_grid::cell_pos_closest_to_point2(h, [a, b])) => {
                let centre = mk_cell_pos_closest_to_point2(h, here);
                bits([centre.x, centre.y])
            },
            sp_grid::cell_at_point2(h, [a, b]) => mk_cell_at_point2(h, here),
            sp_grid::cell_associated_to_point2(h, [a, b]) => mk_cell_associated_to_point2(h, here),
            sp_grid::region_associated_to_point2(h, [a, b]) => mk_region_associated_to_point2(h, here),
            bits(sp_grid::cell_center2(h, id)) => {
                let centre = mk_cell_center2(h, id);
                bits([centre.x, centre.y])
            },
        );
    }
}

#[test]
fn places() {
    let ids: Vec<u64> = (0..100).map(|place| 4096 * place * place).collect();
    for place in 0..100 {
        assert_eq!(sp_grid::lookup(&ids, ids[place]), Some(place));
        assert_eq!(sp_grid::lookup(&ids, ids[place] + 1), None);
    }
    assert_eq!(sp_grid::lookup(&[], 0), None);
}

/// Random steps and their substeps; some are refused.
#[test]
fn lengths() {
    let mut rng = Rng::new(SEED);
    let mut ends = [0; 4];
    for _ in 0..2000 {
        let AnyStep { total, max_substep_dt, max_num_substeps, stop_after_one_substep, .. } = AnyStep::any(&mut rng);
        let (total, max_num_substeps) =
            (rng.one_of(&[total, total, f32::NAN]), rng.one_of(&[max_num_substeps, max_num_substeps, 0]));
        let raw = unsafe { mk_min_dt(total, max_num_substeps) };
        let least = min_dt(total, max_num_substeps).map(|least| bits([least]));
        assert_eq!(
            least.map_err(|refused| (refused.number, refused.index)),
            match raw.number {
                0 => Ok(bits([raw.length])),
                number => Err((number, raw.index)),
            }
        );
        let least = rng.one_of(&[raw.length, raw.length, f32::INFINITY]);
        let dts: Vec<f32> = (0..rng.below(5)).filter_map(|_| proposal(total.min(max_substep_dt), &mut rng)).collect();
        let step = Step { total, max_substep_dt, max_num_substeps, stop_after_one_substep: stop_after_one_substep == 1 };
        let (settings, count) = ((total, max_substep_dt, max_num_substeps, stop_after_one_substep), dts.len());
        let raw = unsafe { mk_step_lengths(settings.0, settings.1, settings.2, settings.3, count, dts.as_ptr(), count) };
        match step_lengths(&step, &dts) {
            Ok(lengths) => {
                let end = [End::Finished, End::OneDone, End::NoneLeft].iter().position(|end| *end == lengths.end);
                assert_eq!((0, lengths.count, end), (raw.number, raw.count, Some(raw.end as usize)));
                assert_eq!(bits([lengths.remaining]), bits([raw.remaining]));
                ends[raw.end as usize] += 1;
            }
            Err(refused) => {
                assert_eq!((refused.number, refused.index), (raw.number, raw.index));
                ends[3] += 1;
            }
        }
        let dt = dts.first().copied().unwrap_or(1.0);
        let raw = unsafe { mk_substep(total, least, max_substep_dt, dt) };
        let taken = substep(total, least, max_substep_dt, dt).map(|taken| bits([taken.length, taken.remaining]));
        assert_eq!(
            taken.map_err(|refused| (refused.number, refused.index)),
            match raw.number {
                0 => Ok(bits([raw.length, raw.remaining])),
                number => Err((number, raw.index)),
            }
        );
    }
    assert!(ends.iter().all(|count| *count > 50), "{:?}", ends);
}
