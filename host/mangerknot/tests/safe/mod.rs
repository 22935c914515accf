//! The safe calls on a call's own lists, beside the raw ones of `archive`. Every test has of this what it needs.
#![allow(dead_code)]

use crate::archive::{answer_in_place, Which};
use mangerknot::fluids_volume::recompute_fluids_volumes2;
use mangerknot::grid_to_particle::{grid_to_particle_first_half2, grid_to_particle_second_half2};
use mangerknot::grid_update::{clear_scatter_update2, grid_update2};
use mangerknot::lists::{Colliders, Given, Nodes, NodesMut, Particles, ParticlesMut, Regions};
use mangerknot::particle_to_grid::{particle_to_grid_scatter2, particle_to_grid_scatter_region2, scatter_in_order2, Scatter};
use mangerknot::records::{PARTICLE_FLOATS, PARTICLE_WORDS};
use mangerknot::sp_grid::clear2;
use mangerknot::{Particle, Refused};
use samples::Call;

pub fn to_floats(bits: &[u32]) -> Vec<f32> {
    bits.iter().copied().map(f32::from_bits).collect()
}

pub fn to_bits(floats: &[f32]) -> Vec<u32> {
    floats.iter().map(|float| float.to_bits()).collect()
}

/// The call's particles as records.
pub fn particles(call: &Call) -> Vec<Particle> {
    let floats = to_floats(&call.particle_floats);
    let words = call.particle_words.chunks_exact(PARTICLE_WORDS);
    let records = floats.chunks_exact(PARTICLE_FLOATS).zip(words).map(|(floats, words)| {
        Particle::from_flat(floats.try_into().expect("26 floats"), words.try_into().expect("4 words")).expect("flags of 0 and 1")
    });
    records.collect()
}

/// The safe call's answer; the call's lists have afterwards what was written.
pub fn answer(which: &Which, call: &mut Call) -> Result<(), Refused> {
    let [mut particle_floats, mut node_floats] = [&call.particle_floats, &call.node_floats].map(|bits| to_floats(bits));
    let [frictions, points, given] =
        [&call.boundary.frictions, &call.boundary.points, &call.gather.given_floats].map(|bits| to_floats(bits));
    let regions = Regions { ids: &call.ids, ranges: &call.ranges };
    let colliders = Colliders {
        handling: call.boundary.handling,
        locks: call.boundary.locks,
        frictions: &frictions,
        points: &points,
        insides: &call.boundary.insides,
    };
    let read = particle_floats.clone();
    let scatter = Scatter {
        cell_width: call.cell_width,
        dt: call.dt,
        gravity: call.gravity,
        regions,
        particles: Particles { floats: &read, words: &call.particle_words },
    };
    let mut particle_words = call.particle_words.clone();
    let written = ParticlesMut { floats: &mut particle_floats, words: &mut particle_words };
    let nodes = NodesMut { floats: &mut node_floats, words: &mut call.node_words };
    let answer = match *which {
        Which::Clear => clear2(&call.ids, nodes),
        Which::All => particle_to_grid_scatter2(&scatter, nodes),
        Which::Region(place) => particle_to_grid_scatter_region2(place, &scatter, nodes),
        Which::Order(order) => scatter_in_order2(order, &scatter, nodes),
        Which::Update => grid_update2(call.cell_width, call.dt, &call.ids, colliders, nodes),
        Which::Sequence => clear_scatter_update2(&scatter, colliders, nodes),
        Which::FirstHalf => {
            let nodes = Nodes { floats: nodes.floats, words: nodes.words };
            grid_to_particle_first_half2(call.cell_width, call.dt, call.gather.eigenerosion, regions, written, nodes)
        }
        Which::SecondHalf => grid_to_particle_second_half2(written, Given { floats: &given, words: &call.gather.given_words }),
        Which::Fluids => recompute_fluids_volumes2(call.cell_width, regions, written, nodes),
    };
    call.particle_words = particle_words;
    [call.particle_floats, call.node_floats] = [&particle_floats, &node_floats].map(|floats| to_bits(floats));
    answer
}

/// The lists that a call may write.
pub fn written(call: &Call) -> [&[u32]; 4] {
    [&call.particle_floats, &call.particle_words, &call.node_floats, &call.node_words]
}

/// Asks both ways, with the counts that the lists have: number, index and every word have to be the same.
pub fn answer_as_raw(which: &Which, call: &Call) -> (Result<(), Refused>, Call) {
    let counted = Call { regions: call.ids.len() as u64, particles: (call.particle_words.len() / 4) as u64, ..call.clone() };
    let [mut safe, mut raw] = [counted.clone(), counted];
    raw.boundary.colliders = raw.boundary.frictions.len() as u64;
    safe.boundary.colliders = raw.boundary.colliders;
    let refusal = answer_in_place(which, &mut raw);
    let answer = answer(which, &mut safe);
    let (number, index) = answer.as_ref().err().map_or((0, 0), |refused| (refused.number, refused.index));
    assert_eq!((number, index), (refusal.number, refusal.index));
    assert!(written(&safe) == written(&raw), "number {}, and the lists are not the same", number);
    assert!(number == 0 || written(&safe) == written(call), "number {}, and a list has changed", number);
    (answer, safe)
}
