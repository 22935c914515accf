//! Document 01's gather once more, by hand and in plain Rust, or with one thing wrong about it.

use crate::vectors::hands::{each, shifts, weights, Body, Pair, Square};
use samples::particle::*;
use samples::{Call, Records, GIVEN_FLOATS, NODE_FLOATS};

fn dot(a: Pair, b: Pair) -> f32 {
    a[0] * b[0] + a[1] * b[1]
}

fn scaled(a: Square, factor: f32) -> Square {
    a.map(|row| row.map(|part| part * factor))
}

fn times(a: Square, b: Square) -> Square {
    a.map(|row| [dot(row, [b[0][0], b[1][0]]), dot(row, [b[0][1], b[1][1]])])
}

fn plus(a: Square, b: Square) -> Square {
    [0, 1].map(|row| [0, 1].map(|column| a[row][column] + b[row][column]))
}

fn transposed(a: Square) -> Square {
    [[a[0][0], a[1][0]], [a[0][1], a[1][1]]]
}

fn inverse(e: f32) -> f32 {
    if e == 0.0 {
        0.0
    } else {
        1.0 / e
    }
}

/// v, G, p and D of a particle.
struct Sums {
    v: Pair,
    g: Square,
    p: f32,
    d: f32,
}

fn sums(call: &Call, body: &Body, wrong: &str) -> Sums {
    let h = call.cell_width;
    let way = body.way(h);
    let inv = if wrong == "inv by two quotients" { 4.0 / h / h } else { 4.0 / (h * h) };
    let weights = way.map(|way| weights(if wrong == "weights of the node" { way / h } else { -way / h }));
    let zero = if wrong == "sums from -0" { -0.0 } else { 0.0 };
    let mut found = Sums { v: [zero; 2], g: [[zero; 2]; 2], p: zero, d: zero };
    if wrong == "v from the old v" {
        found.v = body.pair(VELOCITY);
    }
    if wrong == "G from the old G" {
        found.g = body.square(GRADIENT);
    }
    for shift in shifts(wrong) {
        let [x, y] = if wrong == "weights exchanged" { [shift[1], shift[0]] } else { shift };
        let w = weights[0][x] * weights[1][y];
        let dpt = match wrong {
            "dpt without the shift" => way,
            "dpt in cells" => [0, 1].map(|axis| way[axis] + shift[axis] as f32),
            _ => [0, 1].map(|axis| way[axis] + shift[axis] as f32 * h),
        };
        let node = &call.node_floats[body.node(shift, call) * NODE_FLOATS..][..NODE_FLOATS];
        let at = |place: usize| f32::from_bits(node[place]);
        let u = if wrong == "momentum for velocity" { [at(1), at(2)] } else { [at(3), at(4)] };
        let (momentum, mass) = (at(5), at(6));
        let in_gradient = match wrong {
            "kinematic velocity in G" if body.is(KINEMATIC) => body.pair(KINEMATIC_VELOCITY),
            _ => u,
        };
        let outer = match wrong {
            "G's weight last" => in_gradient.map(|u| dpt.map(|dpt| u * dpt * (w * inv))),
            "G's inv last" => in_gradient.map(|u| dpt.map(|dpt| w * u * dpt * inv)),
            "G's dpt before u" => in_gradient.map(|u| dpt.map(|dpt| w * inv * dpt * u)),
            "G without inv" => in_gradient.map(|u| dpt.map(|dpt| w * u * dpt)),
            _ => in_gradient.map(|u| dpt.map(|dpt| w * inv * u * dpt)),
        };
        let outer = if wrong == "G transposed" { transposed(outer) } else { outer };
        let psi = match wrong {
            "psi without its inverse" => w * momentum,
            "psi by a quotient" if mass != 0.0 => w * momentum / mass,
            "psi's weight last" => momentum * inverse(mass) * w,
            "psi's inverse first" => w * (momentum * inverse(mass)),
            "inverse of a zero is infinite" => w * momentum * (1.0 / mass),
            "psi without weights" => momentum * inverse(mass),
            _ => w * momentum * inverse(mass),
        };
        let spread = match wrong {
            "D in G's order" => dot(u.map(|u| w * inv * u), dpt),
            "D's weight last" => dot(u, dpt) * inv * w,
            "D's factors first" => dot(u, dpt) * (w * inv),
            "D without inv" => w * dot(u, dpt),
            _ => w * dot(u, dpt) * inv,
        };
        found.v = [0, 1].map(|axis| found.v[axis] + w * u[axis]);
        found.g = plus(found.g, outer);
        found.p += psi;
        found.d += spread;
    }
    found
}

/// The particles after the first half.
pub fn first_half(call: &Call, wrong: &str) -> Records {
    each(call, |_, body| {
        if wrong == "failed is not gathered" && body.is(FAILED) {
            return;
        }
        let Sums { v, g, p, d } = sums(call, body, wrong);
        let (h, dt, old_v) = (call.cell_width, call.dt, body.pair(VELOCITY));
        let f = body.square(DEFORMATION);
        crack(call, body, p, wrong);
        let kinematic = body.is(KINEMATIC).then(|| body.pair(KINEMATIC_VELOCITY));
        let v = match wrong {
            "kinematic velocity not taken" => v,
            "kinematic velocity added" => kinematic.map_or(v, |more| [v[0] + more[0], v[1] + more[1]]),
            "kinematic velocity of all" => body.pair(KINEMATIC_VELOCITY),
            _ => kinematic.unwrap_or(v),
        };
        let moved_by = match wrong {
            "moved by the old velocity" => old_v,
            "static is not moved" if body.is(STATIC) => [0.0; 2],
            "failed is not moved" if body.is(FAILED) => [0.0; 2],
            "moved in cells" => v.map(|part| part * h),
            _ => v,
        };
        let position = body.pair(POSITION);
        body.set(VELOCITY, &v);
        body.set(GRADIENT, &g.concat());
        body.set(POSITION, &[0, 1].map(|axis| position[axis] + moved_by[axis] * dt));
        if wrong == "static stands still at once" && body.is(STATIC) {
            body.set(VELOCITY, &[0.0; 2]);
            body.set(GRADIENT, &[0.0; 4]);
        }
        let is_fluid = match wrong {
            "solids as fluids" => true,
            "fluids as solids" => false,
            _ => body.is(FLUID),
        };
        if is_fluid {
            let factor = match wrong {
                "fluid by G's trace" => (g[0][0] + g[1][1]) * dt,
                "fluid by G00" => g[0][0] * dt,
                "fluid by dt and F first" => return body.set(DEFORMATION, &[f[0][0] + d * (dt * f[0][0])]),
                _ => d * dt,
            };
            match wrong {
                "fluid's F in all its parts" => body.set(DEFORMATION, &plus(f, scaled(f, factor)).concat()),
                "fluid's F11 too" => {
                    body.set(DEFORMATION, &[f[0][0] + factor * f[0][0], f[0][1], f[1][0], f[1][1] + factor * f[1][1]])
                }
                "fluid's F in one product" => body.set(DEFORMATION, &[(1.0 + factor) * f[0][0]]),
                _ => body.set(DEFORMATION, &[f[0][0] + factor * f[0][0]]),
            }
        } else {
            body.set(DEFORMATION, &deformed(f, g, dt, wrong).concat());
        }
    })
}

fn crack(call: &Call, body: &mut Body, p: f32, wrong: &str) {
    let (phase, factor, threshold) = (body.floats[PHASE], body.floats[CRACK_FACTOR], body.floats[CRACK_THRESHOLD]);
    let h = call.cell_width;
    let looked_at = match wrong {
        "eigenerosion always" => factor != 0.0 && phase > 0.0,
        "eigenerosion never" => false,
        "cracks of a factor of 0" => call.gather.eigenerosion == 1 && phase > 0.0,
        "cracks of a factor above 0" => call.gather.eigenerosion == 1 && phase > 0.0 && factor > 0.0,
        "cracks of any phase" => call.gather.eigenerosion == 1 && factor != 0.0,
        "cracks of a phase of 0" => call.gather.eigenerosion == 1 && factor != 0.0 && phase >= 0.0,
        "cracks of the failed not" => call.gather.eigenerosion == 1 && factor != 0.0 && phase > 0.0 && !body.is(FAILED),
        _ => call.gather.eigenerosion == 1 && factor != 0.0 && phase > 0.0,
    };
    let energy = match wrong {
        "energy's width last" => factor * p * h,
        "energy's factor last" => h * p * factor,
        "energy without the width" => factor * p,
        "energy of the particle's psi" => factor * h * body.floats[PSI],
        _ => factor * h * p,
    };
    let cracks = match wrong {
        "cracks at the threshold" => energy >= threshold,
        "cracks below the threshold" => energy < threshold,
        "cracks at no number" => energy.is_nan() || energy > threshold,
        _ => energy > threshold,
    };
    if looked_at && cracks {
        body.floats[PHASE] = if wrong == "cracked phase of -0" { -0.0 } else { 0.0 };
    }
}

fn deformed(f: Square, g: Square, dt: f32, wrong: &str) -> Square {
    match wrong {
        "F from the half updated F" => {
            let by = scaled(g, dt);
            let mut f = f;
            for (row, column) in [(0, 0), (0, 1), (1, 0), (1, 1)] {
                f[row][column] += by[row][0] * f[0][column] + by[row][1] * f[1][column];
            }
            f
        }
        "F times G" => plus(f, times(f, scaled(g, dt))),
        "F by G transposed" => plus(f, times(transposed(scaled(g, dt)), f)),
        "dt behind the product" => plus(f, scaled(times(g, f), dt)),
        "dt on F" => plus(f, times(g, scaled(f, dt))),
        "F by one plus G" => times(plus([[1.0, 0.0], [0.0, 1.0]], scaled(g, dt)), f),
        "F is not added to" => times(scaled(g, dt), f),
        "F by its diagonal" => {
            let more = times(scaled(g, dt), f);
            [[f[0][0] + more[0][0], f[0][1]], [f[1][0], f[1][1] + more[1][1]]]
        }
        _ => plus(f, times(scaled(g, dt), f)),
    }
}

/// The particles after the second half.
pub fn second_half(call: &Call, wrong: &str) -> Records {
    each(call, |place, body| {
        let given = &call.gather.given_floats[place * GIVEN_FLOATS..];
        let [density, energy] = [given[0], given[1]].map(f32::from_bits);
        let failure = call.gather.given_words[place] == 1;
        if body.is(STATIC) {
            if wrong != "v of a static is kept" {
                body.set(VELOCITY, &[0.0; 2]);
            }
            if wrong != "G of a static is kept" {
                body.set(GRADIENT, &[0.0; 4]);
            }
            if wrong == "F of a static is reset" {
                body.set(DEFORMATION, &[1.0, 0.0, 0.0, 1.0]);
            }
        }
        let f00 = body.floats[DEFORMATION];
        let no_density = match wrong {
            "density is not asked" => false,
            "density of -0 is some" => density.to_bits() == 0,
            "little density is none" => density.abs() < f32::MIN_POSITIVE,
            "density of 0 or less is none" => density <= 0.0,
            "density is asked of solids" => density == 0.0 && !body.is(FLUID),
            _ => density == 0.0,
        };
        let too_much = match wrong {
            "F00 of fluids too" => f00.abs() > 1.0e4,
            "F00 of 1.0e4 itself" => !body.is(FLUID) && f00.abs() >= 1.0e4,
            "F00 above 0" => !body.is(FLUID) && f00 > 1.0e4,
            "F00 and F11" => !body.is(FLUID) && f00.abs().max(body.floats[DEFORMATION + 3].abs()) > 1.0e4,
            "F00 is not asked" => false,
            _ => !body.is(FLUID) && f00.abs() > 1.0e4,
        };
        let failed_before = wrong != "failed is not asked" && body.is(FAILED);
        if no_density || failed_before || too_much {
            if wrong != "failed is not said" {
                body.words[FAILED] = 1;
            }
            match wrong {
                "F is kept" => {}
                "F of zeros" => body.set(DEFORMATION, &[0.0; 4]),
                "F00 alone" => body.set(DEFORMATION, &[1.0]),
                "F of a fluid is kept" if body.is(FLUID) => {}
                _ => body.set(DEFORMATION, &[1.0, 0.0, 0.0, 1.0]),
            }
            if wrong != "G of a failed is kept" {
                body.set(GRADIENT, &[0.0; 4]);
            }
            if wrong == "v of a failed is zero" {
                body.set(VELOCITY, &[0.0; 2]);
            }
            if wrong == "phase of a failed is zero" {
                body.floats[PHASE] = 0.0;
            }
        }
        let (old_psi, mass) = (body.floats[PSI], body.floats[MASS]);
        // Of two zeros, +0.
        let larger = |a: f32, b: f32| if a == 0.0 && b == 0.0 { 0.0 } else { a.max(b) };
        let psi = match wrong {
            "psi is the energy" => energy,
            "psi is the lesser" => old_psi.min(energy),
            "psi is the sum" => old_psi + energy,
            "psi is kept" => old_psi,
            "psi of a failed is kept" if body.is(FAILED) => old_psi,
            _ => larger(old_psi, energy),
        };
        body.floats[PSI] = psi;
        body.floats[PARAMETER1] = match wrong {
            "parameter1 of the old psi" => old_psi * mass,
            "parameter1 of the energy" => energy * mass,
            "parameter1 by the volume" => psi * body.floats[VOLUME],
            "parameter1 is kept" => body.floats[PARAMETER1],
            _ => psi * mass,
        };
        body.floats[PARAMETER2] = match wrong {
            "parameter2 is kept" => body.floats[PARAMETER2],
            "parameter2 is the volume" => body.floats[VOLUME],
            _ => mass,
        };
        let zeroes = match wrong {
            "given failure is not heard" => false,
            "given failure of phases above 0" => failure && body.floats[PHASE] > 0.0,
            "given failure of the failed alone" => failure && body.is(FAILED),
            _ => failure,
        };
        if zeroes {
            body.floats[PHASE] = if wrong == "phase of -0" { -0.0 } else { 0.0 };
        }
        if failure && wrong == "given failure fails" {
            body.words[FAILED] = 1;
        }
    })
}

pub const WRONG_FIRST: [&str; 68] = [
    "inv by two quotients",
    "weights of the node",
    "sums from -0",
    "v from the old v",
    "G from the old G",
    "stencil backwards",
    "stencil by rows",
    "stencil by columns",
    "weights exchanged",
    "dpt without the shift",
    "dpt in cells",
    "momentum for velocity",
    "kinematic velocity in G",
    "G's weight last",
    "G's inv last",
    "G's dpt before u",
    "G without inv",
    "G transposed",
    "psi without its inverse",
    "psi by a quotient",
    "psi's weight last",
    "psi's inverse first",
    "inverse of a zero is infinite",
    "psi without weights",
    "D in G's order",
    "D's weight last",
    "D's factors first",
    "D without inv",
    "failed is not gathered",
    "kinematic velocity not taken",
    "kinematic velocity added",
    "kinematic velocity of all",
    "moved by the old velocity",
    "static is not moved",
    "failed is not moved",
    "moved in cells",
    "static stands still at once",
    "solids as fluids",
    "fluids as solids",
    "fluid by G's trace",
    "fluid by G00",
    "fluid by dt and F first",
    "fluid's F in all its parts",
    "fluid's F11 too",
    "fluid's F in one product",
    "eigenerosion always",
    "eigenerosion never",
    "cracks of a factor of 0",
    "cracks of a factor above 0",
    "cracks of any phase",
    "cracks of a phase of 0",
    "cracks of the failed not",
    "energy's width last",
    "energy's factor last",
    "energy without the width",
    "energy of the particle's psi",
    "cracks at the threshold",
    "cracks below the threshold",
    "cracks at no number",
    "cracked phase of -0",
    "F from the half updated F",
    "F times G",
    "F by G transposed",
    "dt behind the product",
    "dt on F",
    "F by one plus G",
    "F is not added to",
    "F by its diagonal",
];

pub const WRONG_SECOND: [&str; 38] = [
    "v of a static is kept",
    "G of a static is kept",
    "F of a static is reset",
    "density is not asked",
    "density of -0 is some",
    "little density is none",
    "density of 0 or less is none",
    "density is asked of solids",
    "F00 of fluids too",
    "F00 of 1.0e4 itself",
    "F00 above 0",
    "F00 and F11",
    "F00 is not asked",
    "failed is not asked",
    "failed is not said",
    "F is kept",
    "F of zeros",
    "F00 alone",
    "F of a fluid is kept",
    "G of a failed is kept",
    "v of a failed is zero",
    "phase of a failed is zero",
    "psi is the energy",
    "psi is the lesser",
    "psi is the sum",
    "psi is kept",
    "psi of a failed is kept",
    "parameter1 of the old psi",
    "parameter1 of the energy",
    "parameter1 by the volume",
    "parameter1 is kept",
    "parameter2 is kept",
    "parameter2 is the volume",
    "given failure is not heard",
    "given failure of phases above 0",
    "given failure of the failed alone",
    "phase of -0",
    "given failure fails",
];
