//! The three calls of scatter through the archive: the scatter vectors, random calls, and every word of lent memory.

mod archive;
mod guarded;
mod lent;
mod replay;

use archive::Which;
use guarded::{ask, done, replay_calls};
use mangerknot_sys::*;
use replay::decimal;
use samples::random::{order, Style};
use samples::{Call, Records, Rng, PARTICLE_FLOATS};
use std::ptr;

const SEED: u64 = 0x5363_6174_7465_7221;

fn hits(which: &Which, call: &Call) -> Vec<bool> {
    match which {
        Which::Region(place) => call.hits(Some(*place)),
        _ => call.hits(None),
    }
}

fn answer(which: &Which, call: &Call, edits: &[&str]) -> String {
    guarded::answer(which, call, edits, |call, [_, (floats, words)]| call.answered((floats, words), &hits(which, call)))
}

#[test]
fn scatter_vectors() {
    let letters = replay_calls("scatter", Call::from_fields, |letter, call, more| match (letter, more) {
        ("f", edits) => answer(&Which::All, call, edits),
        ("o", [place, edits @ ..]) => answer(&Which::Region(decimal(place)), call, edits),
        ("q", [count, rest @ ..]) => {
            let (order, edits) = rest.split_at(decimal(count));
            let order: Vec<u64> = order.iter().map(|place| decimal(place)).collect();
            answer(&Which::Order(&order), call, edits)
        }
        _ => panic!("no such question: {} {:?}", letter, more),
    });
    assert_eq!(letters, "bfoq");
}

/// All at once, in an order of regions, and region by region: the nodes are the same, and a node that no particle reaches keeps
/// every bit.
#[test]
fn any_order_within_colours_leaves_the_same_nodes() {
    let mut rng = Rng::new(SEED);
    for sample in 0..4000 {
        let call = Style::any(&mut rng).sample(&mut rng);
        let hits = call.hits(None);
        let written = |nodes: &Records| call.answered((&nodes.0, &nodes.1), &hits);
        let all = written(&done(&Which::All, &call));
        assert!(all.iter().zip(&hits).all(|(node, hit)| *hit != (*node == "=")), "sample {}", sample);
        let order = order(&call, &mut rng);
        assert_eq!(written(&done(&Which::Order(&order), &call)), all, "sample {}", sample);
        let mut one_by_one = call.clone();
        for place in order {
            (one_by_one.node_floats, one_by_one.node_words) = done(&Which::Region(place as usize), &one_by_one);
        }
        assert_eq!(written(&(one_by_one.node_floats, one_by_one.node_words)), all, "sample {}", sample);
    }
}

/// One region's call does not touch what its own particles do not reach.
#[test]
fn a_regions_call_takes_its_own_particles_alone() {
    let mut rng = Rng::new(!SEED);
    for sample in 0..1000 {
        let call = Style::any(&mut rng).sample(&mut rng);
        let place = rng.below(call.regions) as usize;
        let (floats, words) = done(&Which::Region(place), &call);
        let hits = call.hits(Some(place));
        let nodes = call.answered((&floats, &words), &hits);
        assert!(nodes.iter().zip(&hits).all(|(node, hit)| *hit != (*node == "=")), "sample {}", sample);
    }
}

/// Two particles whose masses each fit and whose sum does not: the node's mass is infinite, and so no particle may hold it.
#[test]
fn what_overflowed_is_stored_and_refused_as_input() {
    let mut rng = Rng::new(SEED);
    let mut call = Style::plain(1.0, [1, 1], [1, 1], 2).sample(&mut rng);
    for particle in 0..2 {
        call.particle_floats[particle * PARTICLE_FLOATS..][..2].copy_from_slice(&[2f32.to_bits(); 2]);
        call.particle_floats[particle * PARTICLE_FLOATS + 12] = f32::MAX.to_bits();
    }
    let (floats, _) = done(&Which::All, &call);
    let middle = floats[(4 * 2 + 2) * 7];
    assert_eq!(f32::from_bits(middle), f32::INFINITY);
    call.particle_floats[PARTICLE_FLOATS + 16] = middle;
    for which in [Which::All, Which::Region(0), Which::Order(&order(&call, &mut rng))] {
        assert_eq!(ask(&which, &call).0, Refusal { number: 5, index: 1 });
    }
}

/// Nothing is behind a pointer with a count of 0, and NULL is as good as any.
#[test]
fn empty_lists_may_be_null() {
    macro_rules! of_nothing {
        ($function:ident, $regions:expr, $particles:expr $(, $first:expr)*) => {
            unsafe {
                $function(
                    $($first,)*
                    1.0,
                    1.0,
                    Vector2 { x: 0.0, y: 0.0 },
                    $regions,
                    ptr::null(),
                    0,
                    ptr::null(),
                    0,
                    $particles,
                    ptr::null(),
                    0,
                    ptr::null(),
                    0,
                    ptr::null_mut(),
                    0,
                    ptr::null_mut(),
                    0,
                )
            }
        };
    }
    let answers = |regions: usize, particles: usize| {
        [
            of_nothing!(mk_particle_to_grid_scatter2, regions, particles),
            of_nothing!(mk_particle_to_grid_scatter_region2, regions, particles, 0),
            of_nothing!(mk_scatter_in_order2, regions, particles, ptr::null(), 0),
        ]
    };
    let (accepted, lengths) = (Refusal { number: 0, index: 0 }, Refusal { number: 1, index: 0 });
    assert_eq!(answers(0, 0), [accepted, Refusal { number: 4, index: 0 }, accepted]);
    for (regions, particles) in [(1, 0), (0, 1), (1 << 60, 0), (0, 1 << 63), (usize::MAX, usize::MAX)] {
        assert_eq!(answers(regions, particles), [lengths; 3]);
    }
}
