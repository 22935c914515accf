//! The calls of every stage that a call's lists can be lent to, on slices, and those of a step's lengths. Every test has those that it
//! needs.
#![allow(dead_code)]

use mangerknot_sys::*;
use samples::lengths::Step;
use samples::substeps::Stage;
use samples::Call;
use std::mem::take;

/// Which call it is: clear; the scatter of all regions, of the one at a place, or of all in an order of places; the update; clear, scatter
/// and update in one; a half of the gather; or the recomputation of fluids' volumes.
pub enum Which<'a> {
    Clear,
    All,
    Region(usize),
    Order(&'a [u64]),
    Update,
    Sequence,
    FirstHalf,
    SecondHalf,
    Fluids,
}

impl Which<'_> {
    /// The halves of a gather write particles, all others nodes, and the recomputation of fluids both.
    pub fn writes_particles(&self) -> bool {
        matches!(self, Which::FirstHalf | Which::SecondHalf | Which::Fluids)
    }

    pub fn writes_nodes(&self) -> bool {
        !matches!(self, Which::FirstHalf | Which::SecondHalf)
    }
}

impl From<Stage> for Which<'_> {
    fn from(stage: Stage) -> Self {
        match stage {
            Stage::Clear => Which::Clear,
            Stage::Fluids => Which::Fluids,
            Stage::Sequence => Which::Sequence,
            Stage::FirstHalf => Which::FirstHalf,
            Stage::SecondHalf => Which::SecondHalf,
        }
    }
}

/// What a call is lent; floats are lent by their bits, so that nothing on the way can change a NaN's.
pub struct Lists<'a> {
    pub ids: &'a [u64],
    pub ranges: &'a [u64],
    pub particle_floats: &'a mut [u32],
    pub particle_words: &'a mut [u32],
    pub collider_floats: &'a [u32],
    pub projection_floats: &'a [u32],
    pub projection_words: &'a [u32],
    pub given_floats: &'a [u32],
    pub given_words: &'a [u32],
    pub node_floats: &'a mut [u32],
    pub node_words: &'a mut [u32],
}

/// Passes these parts of a call and of its lists on, behind what stands in brackets: settings and counts as they are, of a list its
/// pointer and its length.
macro_rules! pass_on {
    ($call:ident $lists:ident $function:ident [$($done:expr),*]) => {
        unsafe { $function($($done),*) }
    };
    ($call:ident $lists:ident $function:ident [$($done:expr),*] width $($rest:tt)*) => {
        pass_on!($call $lists $function [$($done,)* $call.cell_width] $($rest)*)
    };
    ($call:ident $lists:ident $function:ident [$($done:expr),*] width_and_dt $($rest:tt)*) => {
        pass_on!($call $lists $function [$($done,)* $call.cell_width, $call.dt] $($rest)*)
    };
    ($call:ident $lists:ident $function:ident [$($done:expr),*] gravity $($rest:tt)*) => {
        pass_on!($call $lists $function [$($done,)* Vector2 { x: $call.gravity[0], y: $call.gravity[1] }] $($rest)*)
    };
    ($call:ident $lists:ident $function:ident [$($done:expr),*] codes $($rest:tt)*) => {
        pass_on!($call $lists $function [$($done,)* $call.boundary.handling, $call.boundary.locks] $($rest)*)
    };
    ($call:ident $lists:ident $function:ident [$($done:expr),*] regions $($rest:tt)*) => {
        pass_on!($call $lists $function [$($done,)* $call.regions as usize] (ids) $($rest)*)
    };
    ($call:ident $lists:ident $function:ident [$($done:expr),*] particles $($rest:tt)*) => {
        pass_on!($call $lists $function [$($done,)* $call.particles as usize] (particle_floats) (particle_words) $($rest)*)
    };
    ($call:ident $lists:ident $function:ident [$($done:expr),*] colliders $($rest:tt)*) => {
        pass_on!(
            $call $lists $function [$($done,)* $call.boundary.colliders as usize]
            (collider_floats) (projection_floats) (projection_words) $($rest)*
        )
    };
    ($call:ident $lists:ident $function:ident [$($done:expr),*] eigenerosion $($rest:tt)*) => {
        pass_on!($call $lists $function [$($done,)* $call.gather.eigenerosion] $($rest)*)
    };
    ($call:ident $lists:ident $function:ident [$($done:expr),*] written_particles $($rest:tt)*) => {
        pass_on!(
            $call $lists $function [$($done,)* $call.particles as usize] (mut particle_floats) (mut particle_words) $($rest)*
        )
    };
    ($call:ident $lists:ident $function:ident [$($done:expr),*] (mut $list:ident) $($rest:tt)*) => {
        pass_on!($call $lists $function [$($done,)* $lists.$list.as_mut_ptr().cast(), $lists.$list.len()] $($rest)*)
    };
    ($call:ident $lists:ident $function:ident [$($done:expr),*] ($list:ident) $($rest:tt)*) => {
        pass_on!($call $lists $function [$($done,)* $lists.$list.as_ptr().cast(), $lists.$list.len()] $($rest)*)
    };
}

/// The archive's answer; settings and counts are the call's, and the lists are these.
pub fn answer(which: &Which, call: &Call, lists: Lists) -> Refusal {
    macro_rules! scatter {
        ($function:ident [$($first:expr),*]) => {
            pass_on!(
                call lists $function [$($first),*]
                width_and_dt gravity regions (ranges) particles (mut node_floats) (mut node_words)
            )
        };
    }
    match *which {
        Which::Clear => pass_on!(call lists mk_clear2 [] regions (mut node_floats) (mut node_words)),
        Which::All => scatter!(mk_particle_to_grid_scatter2 []),
        Which::Region(place) => scatter!(mk_particle_to_grid_scatter_region2[place]),
        Which::Order(order) => scatter!(mk_scatter_in_order2 [order.as_ptr(), order.len()]),
        Which::Update => pass_on!(
            call lists mk_grid_update2 [] width_and_dt codes regions colliders (mut node_floats) (mut node_words)
        ),
        Which::Sequence => pass_on!(
            call lists mk_clear_scatter_update2 []
            width_and_dt gravity codes regions (ranges) particles colliders (mut node_floats) (mut node_words)
        ),
        Which::FirstHalf => pass_on!(
            call lists mk_grid_to_particle_first_half2 []
            width_and_dt eigenerosion regions (ranges) written_particles (node_floats) (node_words)
        ),
        Which::SecondHalf => pass_on!(
            call lists mk_grid_to_particle_second_half2 [] written_particles (given_floats) (given_words)
        ),
        Which::Fluids => pass_on!(
            call lists mk_recompute_fluids_volumes2 []
            width regions (ranges) written_particles (mut node_floats) (mut node_words)
        ),
    }
}

/// The archive's answer to a step, which is lent these proposals.
pub fn lengths(step: &Step, dts: &[u32]) -> Lengths {
    let Step { total, max_substep_dt, max_num_substeps, stop_after_one_substep, proposals, .. } = *step;
    let (proposals, dts_len) = (proposals as usize, dts.len());
    unsafe {
        mk_step_lengths(total, max_substep_dt, max_num_substeps, stop_after_one_substep, proposals, dts.as_ptr().cast(), dts_len)
    }
}

/// The archive's answer to a call, which is lent its own lists and has in them afterwards what was written.
pub fn answer_in_place(which: &Which, call: &mut Call) -> Refusal {
    let (mut particle_floats, mut particle_words) = (take(&mut call.particle_floats), take(&mut call.particle_words));
    let (mut node_floats, mut node_words) = (take(&mut call.node_floats), take(&mut call.node_words));
    let lists = Lists {
        ids: &call.ids,
        ranges: &call.ranges,
        particle_floats: &mut particle_floats,
        particle_words: &mut particle_words,
        collider_floats: &call.boundary.frictions,
        projection_floats: &call.boundary.points,
        projection_words: &call.boundary.insides,
        given_floats: &call.gather.given_floats,
        given_words: &call.gather.given_words,
        node_floats: &mut node_floats,
        node_words: &mut node_words,
    };
    let refusal = answer(which, call, lists);
    (call.particle_floats, call.particle_words) = (particle_floats, particle_words);
    (call.node_floats, call.node_words) = (node_floats, node_words);
    refusal
}
