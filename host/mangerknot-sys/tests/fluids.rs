//! The recomputation of fluids' volumes through the archive: the fluids vectors, whole substeps among them, document 01's rules by hand, and
//! every word of lent memory.

mod archive;
mod guarded;
mod lent;
mod replay;

use archive::Which;
use guarded::{ask, ask_for_both, done, replay_calls, stage, Both};
use mangerknot_sys::*;
use replay::decimal;
use samples::lines::folded;
use samples::particle::*;
use samples::random::Style;
use samples::{canonical, substeps, Call, Rng, NODE_FLOATS, PARTICLE_FLOATS, PARTICLE_WORDS, REGION_NODES};
use std::ptr;

const SEED: u64 = 0x466C_7569_6473_2121;

fn written(call: &Call, [(floats, words), (node_floats, node_words)]: &Both) -> Vec<String> {
    let particles = folded(&call.particles_answered((floats, words)));
    [particles, vec!["|".to_string()], folded(&call.masses_answered((node_floats, node_words)))].concat()
}

#[test]
fn fluids_vectors() {
    let letters = replay_calls("fluids", Call::from_fields, |letter, call, more| match (letter, more) {
        ("f", edits) => guarded::answer(&Which::Fluids, call, edits, written),
        ("w", [seed, count]) => {
            substeps::run(call, true, decimal(seed), decimal(count), |substep| substep.in_turn(stage)).join("\t")
        }
        _ => panic!("no such question: {} {:?}", letter, more),
    });
    assert_eq!(letters, "bfw");
}

/// A particle of mass 4 and initial volume 2, half way between the cells 1 and 2 of both axes, where h is 1: each of their four nodes
/// gets, and gives back, a fourth of the mass.
fn half_way(floats: &[(usize, f32)], flags: &[usize]) -> Call {
    let own = [(POSITION, 1.5), (POSITION + 1, 1.5), (MASS, 4.0), (VOLUME, 2.0), (DEFORMATION, 7.0)];
    Call::of_one(&[&own[..], floats].concat(), flags)
}

/// The call with this mass in every node.
fn over(call: Call, mass: f32) -> Call {
    let mut call = call;
    call.node_floats.iter_mut().step_by(NODE_FLOATS).for_each(|bits| *bits = mass.to_bits());
    call
}

fn f00(call: &Call) -> f32 {
    f32::from_bits(done(&Which::Fluids, call).0[DEFORMATION])
}

/// Document 01's rules: F00 is (m/(gathered/(h·h)))/V0, whatever that gives, of fluids alone and over what the nodes hold.
#[test]
fn volumes_by_hand() {
    let fluid = half_way(&[], &[FLUID]);
    assert_eq!(f00(&fluid), 2.0);
    assert_eq!(f00(&half_way(&[], &[])), 7.0);
    for flag in [FAILED, KINEMATIC, STATIC] {
        assert_eq!([f00(&half_way(&[], &[FLUID, flag])), f00(&half_way(&[], &[flag]))], [2.0, 7.0]);
    }
    assert_eq!(f00(&over(fluid.clone(), 1.0)), 1.0);
    assert_eq!(f00(&over(fluid.clone(), -2.0)), -2.0);
    // A width of two cells: the same place in its cell, and four times the volume.
    assert_eq!(f00(&Call { cell_width: 2.0, ..half_way(&[(POSITION, 3.0), (POSITION + 1, 3.0)], &[FLUID]) }), 8.0);
    assert_eq!(f00(&Call { dt: f32::NAN, gravity: [f32::INFINITY; 2], ..fluid.clone() }), 2.0);
    // Nothing at all, on either side.
    let of = |floats: &[(usize, f32)]| f00(&half_way(floats, &[FLUID]));
    assert!(of(&[(MASS, 0.0)]).is_nan() && of(&[(MASS, -0.0)]).is_nan());
    assert_eq!([of(&[(VOLUME, 0.0)]), of(&[(VOLUME, -0.0)])], [f32::INFINITY, f32::NEG_INFINITY]);
    assert_eq!([of(&[(MASS, 1e-45)]), of(&[(MASS, -1e-45)])], [f32::INFINITY, f32::NEG_INFINITY]);
    assert_eq!(f00(&over(half_way(&[(MASS, -1e-45)], &[FLUID]), -0.0)), f32::NEG_INFINITY);
    assert_eq!(f00(&over(half_way(&[(MASS, -0.0)], &[FLUID]), 1.0)).to_bits(), (-0f32).to_bits());
    // Half way a node has the weight 0, and that times infinity is none.
    assert_eq!(f00(&over(half_way(&[(POSITION, 1.25), (POSITION + 1, 1.25)], &[FLUID]), f32::INFINITY)), 0.0);
    assert!(f00(&over(fluid.clone(), f32::INFINITY)).is_nan() && f00(&over(fluid, f32::NAN)).is_nan());
}

/// A solid beside the fluid: its mass counts, and its F stays. And no mass is left in any listed node.
#[test]
fn solids_have_mass_and_keep_their_f() {
    let mut call = half_way(&[], &[FLUID]).edited(&["*2".parse().expect("a change")]);
    call.particle_words[PARTICLE_WORDS + FLUID] = 0;
    call.particle_floats[PARTICLE_FLOATS + MASS] = 12f32.to_bits();
    let (refusal, [(floats, words), (node_floats, node_words)]) = ask_for_both(&Which::Fluids, &over(call.clone(), 9.0));
    assert_eq!(refusal, Refusal { number: 0, index: 0 });
    assert_eq!((&words, node_words), (&call.particle_words, call.node_words.clone()));
    assert_eq!(f32::from_bits(floats[PARTICLE_FLOATS + DEFORMATION]), 7.0);
    assert_eq!(f32::from_bits(floats[DEFORMATION]), 4.0 / 13.0 / 2.0);
    assert_eq!(node_floats, vec![0; node_floats.len()]);
}

/// Of particles F00 of fluids, of nodes the mass: all else keeps every bit, over nodes of any pattern. Masses become +0 in every listed
/// node, whether a particle reaches it or not.
#[test]
fn what_is_not_named_keeps_every_bit() {
    let mut rng = Rng::new(SEED);
    let mut moved = 0;
    for sample in 0..3000 {
        let call = Style::over_old_nodes(&mut rng).sample(&mut rng);
        let (refusal, [(floats, words), (node_floats, node_words)]) = ask_for_both(&Which::Fluids, &call);
        assert_eq!(refusal, Refusal { number: 0, index: 0 });
        assert!(words == call.particle_words && node_words == call.node_words, "sample {}", sample);
        for (place, (before, after)) in call.particle_floats.iter().zip(&floats).enumerate() {
            let is_fluid = call.particle_words[place / PARTICLE_FLOATS * PARTICLE_WORDS + FLUID] == 1;
            let is_named = is_fluid && place % PARTICLE_FLOATS == DEFORMATION;
            assert!(before == after || is_named, "sample {}, float {}", sample, place);
            moved += usize::from(before != after);
        }
        for (place, (before, after)) in call.node_floats.iter().zip(&node_floats).enumerate() {
            let right = if place % NODE_FLOATS == 0 { &0 } else { before };
            assert_eq!(after, right, "sample {}, float {} of the nodes", sample, place);
        }
    }
    assert!(moved > 5000, "only {} floats moved", moved);
}

/// What the nodes weigh for a particle is what a scatter leaves there, colour by colour, and F00 is worked out of that with the archive's
/// own weights, cells and lookup.
#[test]
fn volumes_are_those_of_the_scattered_masses() {
    let mut rng = Rng::new(!SEED);
    let mut fluids = 0;
    for sample in 0..2000 {
        let style = Style { particles: 1 + rng.below(40) as usize, ..Style::any(&mut rng) };
        let call = style.sample(&mut rng);
        let (scattered, _) = done(&Which::All, &call);
        let (floats, _) = done(&Which::Fluids, &call);
        for (particle, own) in call.particle_floats.chunks_exact(PARTICLE_FLOATS).enumerate() {
            if call.particle_words[particle * PARTICLE_WORDS + FLUID] == 1 {
                let right = volume_over(&call, own, &scattered);
                let f00 = floats[particle * PARTICLE_FLOATS + DEFORMATION];
                assert_eq!(canonical(f00), canonical(right.to_bits()), "sample {}, particle {}", sample, particle);
                fluids += 1;
            }
        }
    }
    assert!(fluids > 5000, "only {} fluids", fluids);
}

/// F00 of a fluid over nodes of these floats.
fn volume_over(call: &Call, own: &[u32], nodes: &[u32]) -> f32 {
    let (h, [x, y]) = (call.cell_width, [own[0], own[1]].map(f32::from_bits));
    let along = |x: f32| ((x / h).round() - 1.0) * h - x;
    let (ids, weights) = unsafe {
        let first = mk_cell_associated_to_point2(h, Point2 { x, y });
        (mk_stencil_ids2(first).ids, mk_precompute_weights2(Vector2 { x: along(x), y: along(y) }, h))
    };
    let first = unsafe { mk_unpack2(ids[4]) };
    let mut gathered = 0.0;
    for id in ids {
        let (cell, number) = unsafe { (mk_unpack2(id), mk_number_in_region2(id)) };
        let place = unsafe { mk_lookup(call.ids.as_ptr(), call.ids.len(), mk_region_of(id)) }.place;
        let mass = f32::from_bits(nodes[(place * REGION_NODES + number as usize) * NODE_FLOATS]);
        let [x, y] = [cell.x - first.x, cell.y - first.y].map(|shift| shift as usize);
        gathered += weights.x[x] * weights.y[y] * mass;
    }
    let [mass, volume] = [MASS, VOLUME].map(|place| f32::from_bits(own[place]));
    mass / (gathered / (h * h)) / volume
}

/// A volume that is no number is stored, and refused when it comes back, by this call and by those behind it.
#[test]
fn what_is_no_number_is_stored_and_refused_as_input() {
    let call = half_way(&[(MASS, 0.0)], &[FLUID]).edited(&["*3".parse().expect("a change")]);
    let mut call = call.edited(&[format!("w{}=0", FLUID).parse().expect("a change")]);
    let (floats, _) = done(&Which::Fluids, &call);
    assert!(f32::from_bits(floats[DEFORMATION]) == 7.0 && f32::from_bits(floats[PARTICLE_FLOATS + DEFORMATION]).is_nan());
    call.particle_floats = floats;
    for which in [Which::Fluids, Which::All, Which::Sequence, Which::FirstHalf] {
        assert_eq!(ask(&which, &call).0, Refusal { number: 5, index: 1 });
    }
}

/// Nothing is behind a pointer with a count of 0, and NULL is as good as any.
#[test]
fn empty_lists_may_be_null() {
    let (none, floats, words): (*const u64, *mut f32, *mut u32) = (ptr::null(), ptr::null_mut(), ptr::null_mut());
    let answers = |width: f32, regions: usize, particles: usize| unsafe {
        mk_recompute_fluids_volumes2(width, regions, none, 0, none, 0, particles, floats, 0, words, 0, floats, 0, words, 0)
    };
    let refused = |number: u32| Refusal { number, index: 0 };
    assert_eq!([1.0, 1048576.0, 1.0 / 1048576.0].map(|width| answers(width, 0, 0)), [refused(0); 3]);
    assert_eq!([0.0, -1.0, 1048576.1, f32::NAN].map(|width| answers(width, 0, 0)), [refused(3); 4]);
    for (regions, particles) in [(1, 0), (0, 1), (1 << 60, 0), (0, 1 << 63), (usize::MAX, usize::MAX)] {
        assert_eq!(answers(f32::NAN, regions, particles), refused(1));
    }
}
