//! The two halves of gather through the archive: the gather vectors, whole substeps among them, document 01's rules by hand, and every
//! word of lent memory.

mod archive;
mod guarded;
mod lent;
mod replay;

use archive::Which;
use guarded::{ask, done, replay_calls, stage, Both};
use mangerknot_sys::*;
use replay::decimal;
use samples::lines::folded;
use samples::particle::*;
use samples::random::{gathered, Style};
use samples::{plane, substeps, Call, Gather, Rng, NODE_FLOATS, PARTICLE_FLOATS, PARTICLE_WORDS};
use std::ptr;

const SEED: u64 = 0x4761_7468_6572_2121;

fn written(call: &Call, [(floats, words), _]: &Both) -> Vec<String> {
    folded(&call.particles_answered((floats, words)))
}

#[test]
fn gather_vectors() {
    let letters = replay_calls("gather", Call::from_gather_fields, |letter, call, more| match (letter, more) {
        ("g", edits) => guarded::answer(&Which::FirstHalf, call, edits, written),
        ("s", edits) => guarded::answer(&Which::SecondHalf, call, edits, written),
        ("w", [seed, count]) => {
            substeps::run(call, false, decimal(seed), decimal(count), |substep| substep.in_turn(stage)).join("\t")
        }
        _ => panic!("no such question: {} {:?}", letter, more),
    });
    assert_eq!(letters, "bgsw");
}

/// A particle of mass 2 at (2, 2) with F = (1, 2; 3, 4), where h is 1 and dt a half. The nodes' velocities are those of a field that is
/// (1, 3) at the particle, and whose x part grows by 1 along x and y part falls by 2 along y. Psi is 1.5 at every node.
fn in_a_field() -> Call {
    let floats = [(POSITION, 2.0), (POSITION + 1, 2.0), (MASS, 2.0), (PHASE, 1.0), (CRACK_FACTOR, 2.0), (CRACK_THRESHOLD, 3.0)];
    let f: Vec<(usize, f32)> = (0..4).map(|place| (DEFORMATION + place, 1.0 + place as f32)).collect();
    let mut call = Call { dt: 0.5, ..Call::of_one(&[&floats[..], &f].concat(), &[]) };
    for (number, node) in call.node_floats.chunks_exact_mut(NODE_FLOATS).enumerate() {
        let [x, y] = plane::centre(plane::cell_of(0, number), 1.0);
        let parts = [7.0, 7.0, 7.0, 1.0 + (x - 2.0), 3.0 - 2.0 * (y - 2.0), 3.0, 2.0];
        node.iter_mut().zip(parts).for_each(|(part, float): (&mut u32, f32)| *part = float.to_bits());
    }
    call.gather = Gather { eigenerosion: 1, given_floats: [5f32, 0.0].map(f32::to_bits).to_vec(), given_words: vec![0] };
    call
}

/// The call with this in its particle's floats, and these of its flags on.
fn with(call: &Call, floats: &[(usize, f32)], flags: &[usize]) -> Call {
    let mut call = call.clone();
    floats.iter().for_each(|(place, float)| call.particle_floats[*place] = float.to_bits());
    flags.iter().for_each(|flag| call.particle_words[*flag] = 1);
    call
}

/// What stands in the particle after a call, from a place on.
fn after<const COUNT: usize>(which: &Which, call: &Call, place: usize) -> [f32; COUNT] {
    let (floats, _) = done(which, call);
    let mut found = [0.0; COUNT];
    found.iter_mut().zip(&floats[place..]).for_each(|(float, bits)| *float = f32::from_bits(*bits));
    found
}

/// Document 01's rules: what the sums are, who moves and how, what becomes of F, and when a phase is cleared.
#[test]
fn a_first_half_by_hand() {
    let first = Which::FirstHalf;
    let call = in_a_field();
    assert_eq!(after(&first, &call, POSITION), [2.5, 3.5, 1.0, 3.0, 1.0, 0.0, 0.0, -2.0]);
    assert_eq!(after(&first, &call, DEFORMATION), [1.5, 3.0, 0.0, 0.0]);
    let fluid = with(&call, &[], &[FLUID, STATIC]);
    assert_eq!(after(&first, &fluid, POSITION), [2.5, 3.5, 1.0, 3.0, 1.0, 0.0, 0.0, -2.0]);
    assert_eq!(after(&first, &fluid, DEFORMATION), [0.5, 2.0, 3.0, 4.0]);
    let kinematic = with(&call, &[(KINEMATIC_VELOCITY, -1.0), (KINEMATIC_VELOCITY + 1, 8.0)], &[KINEMATIC, FAILED]);
    assert_eq!(after(&first, &kinematic, POSITION), [1.5, 6.0, -1.0, 8.0, 1.0, 0.0, 0.0, -2.0]);
    let phase = |floats: &[(usize, f32)]| after::<1>(&first, &with(&call, floats, &[]), PHASE)[0].to_bits();
    let (one, little) = (1f32.to_bits(), 1e-45);
    assert_eq!(phase(&[]), one);
    assert_eq!(phase(&[(CRACK_THRESHOLD, 2.9999998)]), 0);
    assert_eq!(phase(&[(CRACK_THRESHOLD, 2.9999998), (PHASE, little)]), 0);
    assert_eq!(phase(&[(CRACK_THRESHOLD, -9.0), (CRACK_FACTOR, -0.0)]), one);
    assert_eq!(phase(&[(CRACK_THRESHOLD, -9.0), (CRACK_FACTOR, -1.0)]), 0);
    assert_eq!(phase(&[(CRACK_THRESHOLD, -9.0), (PHASE, -0.0)]), (-0f32).to_bits());
    assert_eq!(phase(&[(CRACK_THRESHOLD, -9.0), (PHASE, -1.0)]), (-1f32).to_bits());
    let off = Call { gather: Gather { eigenerosion: 0, ..call.gather.clone() }, ..with(&call, &[(CRACK_THRESHOLD, -9.0)], &[]) };
    assert_eq!(after(&first, &off, PHASE), [1.0]);
}

/// Document 01's rules: who fails and what that resets, what becomes of psi and the parameters, and what a given failure clears.
#[test]
fn a_second_half_by_hand() {
    let second = Which::SecondHalf;
    let moving: Vec<(usize, f32)> = (VELOCITY..GRADIENT + 4).map(|place| (place, 6.0)).collect();
    let call = with(&in_a_field(), &moving, &[]);
    let given = |density: f32, energy: f32, failed: u32, call: &Call| {
        let given_floats = [density, energy].map(f32::to_bits).to_vec();
        Call { gather: Gather { eigenerosion: 0, given_floats, given_words: vec![failed] }, ..call.clone() }
    };
    let moved = |call: &Call| after::<6>(&second, call, VELOCITY);
    let f = |call: &Call| (after::<4>(&second, call, DEFORMATION), done(&second, call).1[FAILED]);
    let (as_it_was, reset) = (([1.0, 2.0, 3.0, 4.0], 0), ([1.0, 0.0, 0.0, 1.0], 1));
    let (still, in_motion, without_g) = ([0.0; 6], [6.0; 6], [6.0, 6.0, 0.0, 0.0, 0.0, 0.0]);
    assert_eq!((f(&call), moved(&call)), (as_it_was, in_motion));
    let is_static = with(&call, &[], &[STATIC]);
    assert_eq!((f(&is_static), moved(&is_static)), (as_it_was, still));
    let failed = with(&call, &[], &[FAILED]);
    assert_eq!((f(&failed), moved(&failed)), (reset, without_g));
    for density in [0.0, -0.0] {
        let no_density = given(density, 0.0, 0, &with(&call, &[], &[FLUID]));
        assert_eq!((f(&no_density), moved(&no_density)), (reset, without_g));
    }
    assert_eq!(f(&given(-1e-45, 0.0, 0, &call)), as_it_was);
    for (f00, flags, right) in [(1.0e4, &[][..], 0), (-10000.001, &[], 1), (10000.001, &[], 1), (f32::MAX, &[FLUID], 0)] {
        let (matrix, failed) = f(&with(&call, &[(DEFORMATION, f00)], flags));
        assert_eq!((matrix[0], failed), if right == 1 { (1.0, 1) } else { (f00, 0) });
    }
    let psi = |psi: f32, energy: f32| {
        let call = given(1.0, energy, 0, &with(&call, &[(PSI, psi), (PARAMETER1, 9.0), (PARAMETER2, 9.0)], &[]));
        (after::<1>(&second, &call, PSI)[0], after::<2>(&second, &call, PARAMETER1))
    };
    assert_eq!(psi(3.0, 2.5), (3.0, [6.0, 2.0]));
    assert_eq!(psi(2.5, 3.0), (3.0, [6.0, 2.0]));
    assert_eq!(psi(-4.0, -5.0), (-4.0, [-8.0, 2.0]));
    for phase in [1.0, -1.0, -0.0f32] {
        let call = with(&call, &[(PHASE, phase)], &[]);
        let phases = [0, 1].map(|failed| after::<1>(&second, &given(1.0, 0.0, failed, &call), PHASE)[0].to_bits());
        assert_eq!(phases, [phase.to_bits(), 0]);
        assert_eq!(done(&second, &given(1.0, 0.0, 1, &call)).1, [0; 4]);
    }
}

/// Of two zeros, +0, whatever their signs: here Rust's own maximum is no judge.
#[test]
fn of_two_zeros_psi_is_plus_zero() {
    for (psi, energy) in [(0.0, 0.0), (0.0, -0.0), (-0.0, 0.0), (-0.0, -0.0)] {
        for (mass, parameter1) in [(2.0, 0.0f32), (-2.0, -0.0)] {
            let mut call = with(&in_a_field(), &[(PSI, psi), (MASS, mass)], &[]);
            call.gather.given_floats[1] = f32::to_bits(energy);
            let (floats, _) = done(&Which::SecondHalf, &call);
            assert_eq!([floats[PSI], floats[PARAMETER1]], [0, parameter1.to_bits()]);
        }
    }
}

/// What document 01 names of a particle in a half, by places in its floats: whether it may be another afterwards.
fn is_named(which: &Which, place: usize, before: &[u32], after: &[u32], failure: u32) -> bool {
    let stands = |flag: usize| before[flag] == 1;
    let failed = after[FAILED] == 1;
    match (which, place) {
        (Which::FirstHalf, POSITION..=7 | PHASE) => true,
        (Which::FirstHalf, DEFORMATION) => true,
        (Which::FirstHalf, 18..=20) => !stands(FLUID),
        (Which::SecondHalf, 2..=3) => stands(STATIC),
        (Which::SecondHalf, 4..=7) => stands(STATIC) || failed,
        (Which::SecondHalf, 17..=20) => failed,
        (Which::SecondHalf, PSI | PARAMETER1 | PARAMETER2) => true,
        (Which::SecondHalf, PHASE) => failure == 1,
        _ => false,
    }
}

/// Over nodes of any pattern, which keep every bit too.
#[test]
fn what_a_half_does_not_name_keeps_every_bit() {
    let mut rng = Rng::new(SEED);
    let mut moved = 0;
    for sample in 0..3000 {
        let call = gathered(Style::over_old_nodes(&mut rng).sample(&mut rng), &mut rng);
        for which in [Which::FirstHalf, Which::SecondHalf] {
            let (floats, words) = done(&which, &call);
            for particle in 0..call.particles as usize {
                let flags = |words: &[u32]| words[particle * PARTICLE_WORDS..][..PARTICLE_WORDS].to_vec();
                let (before, after) = (flags(&call.particle_words), flags(&words));
                let may_fail = matches!(which, Which::SecondHalf) && before[FAILED] == 0;
                assert!((before[FAILED] == after[FAILED] || may_fail) && before[1..] == after[1..], "sample {}", sample);
                for place in 0..PARTICLE_FLOATS {
                    let at = particle * PARTICLE_FLOATS + place;
                    let kept = call.particle_floats[at] == floats[at];
                    let named = is_named(&which, place, &before, &after, call.gather.given_words[particle]);
                    assert!(kept || named, "sample {}, particle {}, float {}", sample, particle, place);
                    moved += usize::from(!kept);
                }
            }
        }
    }
    assert!(moved > 100_000, "only {} floats moved", moved);
}

/// A first half that overflows is stored, and the second half refuses what was stored; so does the next first half.
#[test]
fn what_overflowed_is_stored_and_refused_as_input() {
    let call = with(&in_a_field(), &[(DEFORMATION, f32::MAX)], &[]).edited(&["*3".parse().expect("a change")]);
    let mut call = call.edited(&[format!("f{}=3F800000", DEFORMATION).parse().expect("a change")]);
    let (floats, words) = done(&Which::FirstHalf, &call);
    let f00 = |particle: usize| f32::from_bits(floats[particle * PARTICLE_FLOATS + DEFORMATION]);
    assert_eq!([f00(0), f00(1), f00(2)], [1.5, f32::INFINITY, f32::INFINITY]);
    (call.particle_floats, call.particle_words) = (floats, words);
    for which in [Which::FirstHalf, Which::SecondHalf] {
        assert_eq!(ask(&which, &call).0, Refusal { number: 5, index: 1 });
    }
    // What the host may do about it.
    (1..3).for_each(|particle| call.particle_floats[particle * PARTICLE_FLOATS + DEFORMATION] = 1f32.to_bits());
    done(&Which::SecondHalf, &call);
    call.gather.given_floats[4] = f32::NAN.to_bits();
    assert_eq!(ask(&Which::SecondHalf, &call).0, Refusal { number: 5, index: 2 });
    call.gather.given_floats[4] = 0;
    call.gather.given_floats[1] = f32::NEG_INFINITY.to_bits();
    assert_eq!(ask(&Which::SecondHalf, &call).0, Refusal { number: 5, index: 0 });
}

/// Nothing is behind a pointer with a count of 0, and NULL is as good as any.
#[test]
fn empty_lists_may_be_null() {
    let none: (*const u64, *const f32, *const u32) = (ptr::null(), ptr::null(), ptr::null());
    let written: (*mut f32, *mut u32) = (ptr::null_mut(), ptr::null_mut());
    let first = |regions: usize, particles: usize, eigenerosion: u32| unsafe {
        let (floats, words) = written;
        mk_grid_to_particle_first_half2(
            1.0,
            1.0,
            eigenerosion,
            regions,
            none.0,
            0,
            none.0,
            0,
            particles,
            floats,
            0,
            words,
            0,
            none.1,
            0,
            none.2,
            0,
        )
    };
    let second = |particles: usize| unsafe {
        mk_grid_to_particle_second_half2(particles, written.0, 0, written.1, 0, none.1, 0, none.2, 0)
    };
    let refused = |number: u32| Refusal { number, index: 0 };
    assert_eq!([0, 1, 2, u32::MAX].map(|flag| first(0, 0, flag)), [0, 0, 4, 4].map(refused));
    for (regions, particles) in [(1, 0), (0, 1), (1 << 60, 0), (0, 1 << 63), (usize::MAX, usize::MAX)] {
        assert_eq!(first(regions, particles, 0), refused(1));
    }
    assert_eq!([0, 1, 1 << 61, 1 << 63, usize::MAX].map(second), [0, 1, 1, 1, 1].map(refused));
}
