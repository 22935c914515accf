//! Document 01's recomputation of fluids' volumes once more, by hand and in plain Rust, or with one thing wrong about it.

use crate::vectors::hands::{each, shifts, weights, Body};
use samples::particle::*;
use samples::{plane, Call, Records, NODE_FLOATS};

/// The particles and the nodes after the call.
pub fn recomputed(call: &Call, wrong: &str) -> [Records; 2] {
    let masses = scattered(call, wrong);
    let particles = each(call, |_, body| {
        let is_taken = match wrong {
            "solids too" => true,
            "failed fluids not" => body.is(FLUID) && !body.is(FAILED),
            "static fluids not" => body.is(FLUID) && !body.is(STATIC),
            "kinematic fluids not" => body.is(FLUID) && !body.is(KINEMATIC),
            "solids instead" => !body.is(FLUID),
            _ => body.is(FLUID),
        };
        if is_taken {
            let f00 = volume_of(call, body, &masses, wrong);
            match wrong {
                "NaN not stored" if f00.is_nan() => {}
                "infinity not stored" if f00.is_infinite() => {}
                "F11 too" => body.set(DEFORMATION, &[f00, body.floats[DEFORMATION + 1], body.floats[DEFORMATION + 2], f00]),
                "F the identity" => body.set(DEFORMATION, &[f00, 0.0, 0.0, 1.0]),
                "F00 multiplied" => body.set(DEFORMATION, &[body.floats[DEFORMATION] * f00]),
                "volume stored too" => {
                    body.set(VOLUME, &[f00 * body.floats[VOLUME]]);
                    body.set(DEFORMATION, &[f00]);
                }
                _ => body.set(DEFORMATION, &[f00]),
            }
        }
    });
    [particles, nodes(call, &masses, wrong)]
}

fn weight_at(call: &Call, body: &Body, shift: [usize; 2], wrong: &str) -> f32 {
    let h = call.cell_width;
    let along = body.way(h).map(|way| weights(if wrong == "weights of the node" { way / h } else { -way / h }));
    let [x, y] = if wrong == "weights exchanged" { [shift[1], shift[0]] } else { shift };
    along[0][x] * along[1][y]
}

/// The nodes' masses after the scatter: colours first, then regions, then particles.
fn scattered(call: &Call, wrong: &str) -> Vec<f32> {
    let mut masses: Vec<f32> = call.node_floats.iter().step_by(NODE_FLOATS).map(|bits| f32::from_bits(*bits)).collect();
    if wrong == "nodes cleared first" {
        masses.fill(0.0);
    }
    let mut bodies = vec![];
    each(call, |_, body| bodies.push(Body { floats: body.floats.clone(), words: body.words.clone() }));
    let mut regions: Vec<(u64, &[u64])> = call.ids.iter().copied().zip(call.ranges.chunks(2)).collect();
    match wrong {
        "regions by their ids" => {}
        "colours backwards" => regions.sort_by_key(|(id, _)| 3 - plane::colour(*id)),
        _ => regions.sort_by_key(|(id, _)| plane::colour(*id)),
    }
    for (_, range) in regions {
        let mut particles: Vec<usize> = (range[0] as usize..(range[0] + range[1]) as usize).collect();
        if wrong == "particles backwards" {
            particles.reverse();
        }
        for body in particles.into_iter().map(|particle| &bodies[particle]) {
            if wrong == "fluids alone scattered" && !body.is(FLUID) || wrong == "failed not scattered" && body.is(FAILED) {
                continue;
            }
            for shift in shifts("") {
                let (node, w) = (body.node(shift, call), weight_at(call, body, shift, wrong));
                match wrong {
                    "mass without weights" => masses[node] += body.floats[MASS],
                    "nothing scattered" => {}
                    "mass set" => masses[node] = w * body.floats[MASS],
                    _ => masses[node] += w * body.floats[MASS],
                }
            }
        }
    }
    masses
}

/// F00 of a fluid over nodes of these masses.
fn volume_of(call: &Call, body: &Body, masses: &[f32], wrong: &str) -> f32 {
    let (h, mass, volume) = (call.cell_width, body.floats[MASS], body.floats[VOLUME]);
    let mut gathered = match wrong {
        "gathered from -0" => -0.0,
        "gathered from its own mass" => mass,
        _ => 0.0,
    };
    for shift in shifts(wrong) {
        let (node, w) = (body.node(shift, call), weight_at(call, body, shift, wrong));
        match wrong {
            "gathered without weights" => gathered += masses[node],
            "no mass gathered of a weight of 0" if w == 0.0 => {}
            _ => gathered += w * masses[node],
        }
    }
    match wrong {
        "density by the width" => mass / (gathered / h) / volume,
        "density by two quotients" => mass / (gathered / h / h) / volume,
        "density by an inverse" => mass / (gathered * (1.0 / (h * h))) / volume,
        "no density" => mass / gathered / volume,
        "volume by a product" => mass * (h * h) / gathered / volume,
        "initial volume first" => mass / volume / (gathered / (h * h)),
        "initial volume in the divisor" => mass / (gathered / (h * h) * volume),
        "initial volume not asked" => mass / (gathered / (h * h)),
        "density of the volume" => gathered / (h * h) / (mass / volume),
        "no density, no volume" if gathered == 0.0 => body.floats[DEFORMATION],
        "no initial volume, none at all" if volume == 0.0 => body.floats[DEFORMATION],
        "size of the volume" => (mass / (gathered / (h * h)) / volume).abs(),
        _ => mass / (gathered / (h * h)) / volume,
    }
}

fn nodes(call: &Call, masses: &[f32], wrong: &str) -> Records {
    let (mut floats, mut words) = (call.node_floats.clone(), call.node_words.clone());
    let hits = call.hits(None);
    for (node, (own, word)) in floats.chunks_exact_mut(NODE_FLOATS).zip(&mut words).enumerate() {
        match wrong {
            "masses kept" => own[0] = masses[node].to_bits(),
            "old masses put back" => {}
            "mass of those reached alone cleared" if !hits[node] => {}
            "mass of -0" => own[0] = 0x8000_0000,
            "momentum cleared too" => own[..3].fill(0),
            "all cleared" => {
                own.fill(0);
                *word = 0;
            }
            "flag switched off" => {
                own[0] = 0;
                *word = 0;
            }
            _ => own[0] = 0,
        }
    }
    (floats, words)
}

pub const WRONG: [&str; 48] = [
    "solids too",
    "failed fluids not",
    "static fluids not",
    "kinematic fluids not",
    "solids instead",
    "NaN not stored",
    "infinity not stored",
    "F11 too",
    "F the identity",
    "F00 multiplied",
    "volume stored too",
    "weights of the node",
    "weights exchanged",
    "nodes cleared first",
    "regions by their ids",
    "colours backwards",
    "particles backwards",
    "fluids alone scattered",
    "failed not scattered",
    "mass without weights",
    "nothing scattered",
    "mass set",
    "gathered from -0",
    "gathered from its own mass",
    "stencil backwards",
    "stencil by rows",
    "stencil by columns",
    "gathered without weights",
    "no mass gathered of a weight of 0",
    "density by the width",
    "density by two quotients",
    "density by an inverse",
    "no density",
    "volume by a product",
    "initial volume first",
    "initial volume in the divisor",
    "initial volume not asked",
    "density of the volume",
    "no density, no volume",
    "no initial volume, none at all",
    "size of the volume",
    "masses kept",
    "old masses put back",
    "mass of those reached alone cleared",
    "mass of -0",
    "momentum cleared too",
    "all cleared",
    "flag switched off",
];
