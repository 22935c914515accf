//! The functions of the archive that `rt lib` leaves in crates/boundary. `include/mangerknot.h` says what each answers.
//! The gate compares this file with their source (`.ci/header`).
#![no_std]

#[repr(C)]
#[derive(Clone, Copy, Debug, PartialEq)]
pub struct Cell2 {
    pub x: u32,
    pub y: u32,
}

#[repr(C)]
#[derive(Clone, Copy, Debug, PartialEq)]
pub struct Cell3 {
    pub x: u32,
    pub y: u32,
    pub z: u32,
}

#[repr(C)]
#[derive(Clone, Copy, Debug, PartialEq)]
pub struct Ids3 {
    pub ids: [u64; 3],
}

#[repr(C)]
#[derive(Clone, Copy, Debug, PartialEq)]
pub struct Ids7 {
    pub ids: [u64; 7],
}

#[repr(C)]
#[derive(Clone, Copy, Debug, PartialEq)]
pub struct Ids9 {
    pub ids: [u64; 9],
}

#[repr(C)]
#[derive(Clone, Copy, Debug, PartialEq)]
pub struct Ids27 {
    pub ids: [u64; 27],
}

#[repr(C)]
#[derive(Clone, Copy, Debug, PartialEq)]
pub struct Vector2 {
    pub x: f32,
    pub y: f32,
}

#[repr(C)]
#[derive(Clone, Copy, Debug, PartialEq)]
pub struct Point2 {
    pub x: f32,
    pub y: f32,
}

#[repr(C)]
#[derive(Clone, Copy, Debug, PartialEq)]
pub struct Weights {
    pub weights: [f32; 3],
}

#[repr(C)]
#[derive(Clone, Copy, Debug, PartialEq)]
pub struct Weights2 {
    pub x: [f32; 3],
    pub y: [f32; 3],
}

#[repr(C)]
#[derive(Clone, Copy, Debug, PartialEq)]
pub struct FoundPlace {
    pub found: u32,
    pub place: usize,
}

#[repr(C)]
#[derive(Clone, Copy, Debug, PartialEq)]
pub struct Refusal {
    pub number: u32,
    pub index: usize,
}

#[repr(C)]
#[derive(Clone, Copy, Debug, PartialEq)]
pub struct Lengths {
    pub number: u32,
    pub index: usize,
    pub count: usize,
    pub remaining: f32,
    pub end: u32,
}

#[repr(C)]
#[derive(Clone, Copy, Debug, PartialEq)]
pub struct Substep {
    pub number: u32,
    pub index: usize,
    pub length: f32,
    pub remaining: f32,
}

#[repr(C)]
#[derive(Clone, Copy, Debug, PartialEq)]
pub struct LeastLength {
    pub number: u32,
    pub index: usize,
    pub length: f32,
}

extern "C" {
    pub fn mk_masked_add(mask: u64, i: u64, j: u64) -> u64;
    pub fn mk_region_of(cell_id: u64) -> u64;
    pub fn mk_pack2(x: u32, y: u32) -> u64;
    pub fn mk_packi2(x: i32, y: i32) -> u64;
    pub fn mk_unpack2(xy: u64) -> Cell2;
    pub fn mk_packed_add2(i: u64, j: u64) -> u64;
    pub fn mk_shift_cell_neg_one2(cell_id: u64) -> u64;
    pub fn mk_shift_cell_neg_two2(cell_id: u64) -> u64;
    pub fn mk_shift_cell_plus_five2(cell_id: u64) -> u64;
    pub fn mk_number_in_region2(cell_id: u64) -> u64;
    pub fn mk_cell_of_region2(region_id: u64, number: u64) -> u64;
    pub fn mk_is_in_region_with_color2(region_id: u64, color: u64) -> u32;
    pub fn mk_region_neighbors2(region_id: u64) -> Ids3;
    pub fn mk_nbh_shifts2() -> Ids9;
    pub fn mk_nbh_region_shifts2() -> Ids3;
    pub fn mk_stencil_ids2(cell_id: u64) -> Ids9;
    pub fn mk_pack3(x: u32, y: u32, z: u32) -> u64;
    pub fn mk_packi3(x: i32, y: i32, z: i32) -> u64;
    pub fn mk_unpack3(xyz: u64) -> Cell3;
    pub fn mk_packed_add3(i: u64, j: u64) -> u64;
    pub fn mk_shift_cell_neg_one3(cell_id: u64) -> u64;
    pub fn mk_shift_cell_neg_two3(cell_id: u64) -> u64;
    pub fn mk_shift_cell_plus_five3(cell_id: u64) -> u64;
    pub fn mk_number_in_region3(cell_id: u64) -> u64;
    pub fn mk_cell_of_region3(region_id: u64, number: u64) -> u64;
    pub fn mk_is_in_region_with_color3(region_id: u64, color: u64) -> u32;
    pub fn mk_region_neighbors3(region_id: u64) -> Ids7;
    pub fn mk_nbh_shifts3() -> Ids27;
    pub fn mk_nbh_region_shifts3() -> Ids7;
    pub fn mk_stencil_ids3(cell_id: u64) -> Ids27;
    pub fn mk_to_bits(x: f32) -> u32;
    pub fn mk_from_bits(b: u32) -> f32;
    pub fn mk_round(x: f32) -> f32;
    pub fn mk_to_u32(x: f32) -> u32;
    pub fn mk_from_u32(n: u32) -> f32;
    pub fn mk_root(x: f32) -> f32;
    pub fn mk_inv_exact(e: f32) -> f32;
    pub fn mk_max(a: f32, b: f32) -> f32;
    pub fn mk_abs(x: f32) -> f32;
    pub fn mk_signum(x: f32) -> f32;
    pub fn mk_inv_d(cell_width: f32) -> f32;
    pub fn mk_eval_all(x: f32) -> Weights;
    pub fn mk_eval(x: f32) -> f32;
    pub fn mk_eval_derivative(x: f32) -> f32;
    pub fn mk_precompute_weights2(ref_elt_pos_minus_particle_pos: Vector2, h: f32) -> Weights2;
    pub fn mk_stencil_with_dir2(elt_pos_minus_particle_pos: Vector2, h: f32) -> f32;
    pub fn mk_stencil2(elt_pos: Point2, particle_pos: Point2, h: f32) -> f32;
    pub fn mk_stencil_gradient_with_dir2(elt_pos_minus_particle_pos: Vector2, h: f32) -> Vector2;
    pub fn mk_stencil_gradient2(elt_pos: Point2, particle_pos: Point2, h: f32) -> Vector2;
    pub fn mk_lookup(ids: *const u64, ids_len: usize, id: u64) -> FoundPlace;
    pub fn mk_cell_pos_closest_to_point2(cell_width: f32, pt: Point2) -> Point2;
    pub fn mk_cell_at_point2(cell_width: f32, pt: Point2) -> u64;
    pub fn mk_cell_associated_to_point2(cell_width: f32, pt: Point2) -> u64;
    pub fn mk_region_associated_to_point2(cell_width: f32, pt: Point2) -> u64;
    pub fn mk_cell_center2(cell_width: f32, cell_id: u64) -> Point2;
    pub fn mk_clear2(
        regions: usize,
        ids: *const u64,
        ids_len: usize,
        node_floats: *mut f32,
        node_floats_len: usize,
        node_words: *mut u32,
        node_words_len: usize,
    ) -> Refusal;
    pub fn mk_particle_to_grid_scatter2(
        cell_width: f32,
        dt: f32,
        gravity: Vector2,
        regions: usize,
        ids: *const u64,
        ids_len: usize,
        ranges: *const u64,
        ranges_len: usize,
        particles: usize,
        particle_floats: *const f32,
        particle_floats_len: usize,
        particle_words: *const u32,
        particle_words_len: usize,
        node_floats: *mut f32,
        node_floats_len: usize,
        node_words: *mut u32,
        node_words_len: usize,
    ) -> Refusal;
    pub fn mk_particle_to_grid_scatter_region2(
        place: usize,
        cell_width: f32,
        dt: f32,
        gravity: Vector2,
        regions: usize,
        ids: *const u64,
        ids_len: usize,
        ranges: *const u64,
        ranges_len: usize,
        particles: usize,
        particle_floats: *const f32,
        particle_floats_len: usize,
        particle_words: *const u32,
        particle_words_len: usize,
        node_floats: *mut f32,
        node_floats_len: usize,
        node_words: *mut u32,
        node_words_len: usize,
    ) -> Refusal;
    pub fn mk_scatter_in_order2(
        order: *const u64,
        order_len: usize,
        cell_width: f32,
        dt: f32,
        gravity: Vector2,
        regions: usize,
        ids: *const u64,
        ids_len: usize,
        ranges: *const u64,
        ranges_len: usize,
        particles: usize,
        particle_floats: *const f32,
        particle_floats_len: usize,
        particle_words: *const u32,
        particle_words_len: usize,
        node_floats: *mut f32,
        node_floats_len: usize,
        node_words: *mut u32,
        node_words_len: usize,
    ) -> Refusal;
    pub fn mk_grid_update2(
        cell_width: f32,
        dt: f32,
        boundary_handling: u32,
        simulation_dofs: u32,
        regions: usize,
        ids: *const u64,
        ids_len: usize,
        colliders: usize,
        collider_floats: *const f32,
        collider_floats_len: usize,
        projection_floats: *const f32,
        projection_floats_len: usize,
        projection_words: *const u32,
        projection_words_len: usize,
        node_floats: *mut f32,
        node_floats_len: usize,
        node_words: *mut u32,
        node_words_len: usize,
    ) -> Refusal;
    pub fn mk_clear_scatter_update2(
        cell_width: f32,
        dt: f32,
        gravity: Vector2,
        boundary_handling: u32,
        simulation_dofs: u32,
        regions: usize,
        ids: *const u64,
        ids_len: usize,
        ranges: *const u64,
        ranges_len: usize,
        particles: usize,
        particle_floats: *const f32,
        particle_floats_len: usize,
        particle_words: *const u32,
        particle_words_len: usize,
        colliders: usize,
        collider_floats: *const f32,
        collider_floats_len: usize,
        projection_floats: *const f32,
        projection_floats_len: usize,
        projection_words: *const u32,
        projection_words_len: usize,
        node_floats: *mut f32,
        node_floats_len: usize,
        node_words: *mut u32,
        node_words_len: usize,
    ) -> Refusal;
    pub fn mk_grid_to_particle_first_half2(
        cell_width: f32,
        dt: f32,
        modified_eigenerosion: u32,
        regions: usize,
        ids: *const u64,
        ids_len: usize,
        ranges: *const u64,
        ranges_len: usize,
        particles: usize,
        particle_floats: *mut f32,
        particle_floats_len: usize,
        particle_words: *mut u32,
        particle_words_len: usize,
        node_floats: *const f32,
        node_floats_len: usize,
        node_words: *const u32,
        node_words_len: usize,
    ) -> Refusal;
    pub fn mk_grid_to_particle_second_half2(
        particles: usize,
        particle_floats: *mut f32,
        particle_floats_len: usize,
        particle_words: *mut u32,
        particle_words_len: usize,
        given_floats: *const f32,
        given_floats_len: usize,
        given_words: *const u32,
        given_words_len: usize,
    ) -> Refusal;
    pub fn mk_recompute_fluids_volumes2(
        cell_width: f32,
        regions: usize,
        ids: *const u64,
        ids_len: usize,
        ranges: *const u64,
        ranges_len: usize,
        particles: usize,
        particle_floats: *mut f32,
        particle_floats_len: usize,
        particle_words: *mut u32,
        particle_words_len: usize,
        node_floats: *mut f32,
        node_floats_len: usize,
        node_words: *mut u32,
        node_words_len: usize,
    ) -> Refusal;
    pub fn mk_step_lengths(
        total: f32,
        max_substep_dt: f32,
        max_num_substeps: u32,
        stop_after_one_substep: u32,
        proposals: usize,
        dts: *const f32,
        dts_len: usize,
    ) -> Lengths;
    pub fn mk_substep(remaining_time: f32, min_dt: f32, max_substep_dt: f32, dt: f32) -> Substep;
    pub fn mk_min_dt(total: f32, max_num_substeps: u32) -> LeastLength;
    pub fn mk_bench(text: *const u8, text_len: usize, out: *mut u8, out_len: usize) -> usize;
}
