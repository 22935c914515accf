//! The update, and clear, scatter and update in one, through the archive: the update vectors, a table by hand, every word of lent
//! memory, and what demand 2 says of a node that no stencil reached.

mod archive;
mod guarded;
mod lent;
mod replay;

use archive::Which;
use guarded::{ask, done, replay_calls};
use mangerknot_sys::*;
use samples::lines::Edit;
use samples::random::{bounded, order, Old, Style};
use samples::{Call, Records, Rng, FRICTION, NODE_FLOATS, NONE, REGION_NODES, STICK, VELOCITY};
use std::collections::HashSet;
use std::ptr;

const SEED: u64 = 0x5570_6461_7465_2121;

fn written(call: &Call, nodes: &Records) -> Vec<String> {
    call.all_answered((&nodes.0, &nodes.1))
}

#[test]
fn update_vectors() {
    let letters = replay_calls("update", Call::from_bounded_fields, |letter, call, edits| match letter {
        "u" => guarded::answer(&Which::Update, call, edits, |call, [_, nodes]| written(call, nodes)),
        "a" => guarded::answer(&Which::Sequence, call, edits, |call, [_, nodes]| written(call, nodes)),
        _ => panic!("no such question: {}", letter),
    });
    assert_eq!(letters, "abu");
}

/// The node at the origin, of mass 1 and velocity (1, -1), above a floor: what is left of its velocity, and its flag.
fn above_a_floor(handling: u32, locks: u32, height: f32, inside: u32) -> ([f32; 2], u32) {
    let mut call = Call { dt: 0.5, ..Call::on(vec![0]) }.bounded(handling, &[0.25]);
    call.boundary.locks = locks;
    for (place, float) in [(0, 1.0f32), (VELOCITY, 1.0), (VELOCITY + 1, -1.0)] {
        call.node_floats[place] = float.to_bits();
    }
    call.boundary.points[1] = (-height).to_bits();
    call.boundary.insides[0] = inside;
    let (floats, words) = done(&Which::Update, &call);
    ([floats[VELOCITY], floats[VELOCITY + 1]].map(f32::from_bits), words[0])
}

/// Document 01's rules, by hand.
#[test]
fn a_floor_by_hand() {
    assert_eq!(above_a_floor(NONE, 0, 0.5, 1), ([1.0, -1.0], 1));
    assert_eq!(above_a_floor(NONE, 1, 0.5, 0), ([0.0, -1.0], 0));
    assert_eq!(above_a_floor(NONE, 3, 0.5, 0), ([0.0, 0.0], 0));
    assert_eq!(above_a_floor(STICK, 0, 0.5, 0), ([1.0, -1.0], 0));
    assert_eq!(above_a_floor(STICK, 0, 0.5, 1), ([0.0, 0.0], 1));
    for handling in [FRICTION, FRICTION + 1] {
        assert_eq!(above_a_floor(handling, 0, 0.5, 0), ([0.75, 0.0], 0));
        assert_eq!(above_a_floor(handling, 0, -0.5, 1), ([0.75, 0.0], 1));
        assert_eq!(above_a_floor(handling, 0, 1.25, 0), ([1.0, -0.5], 0));
        assert_eq!(above_a_floor(handling, 0, 1.5, 0), ([1.0, -1.0], 0));
        assert_eq!(above_a_floor(handling, 0, -0.5, 0), ([1.0, -1.0], 0));
        assert_eq!(above_a_floor(handling, 0, 0.0, 1), ([1.0, -1.0], 1));
        assert_eq!(above_a_floor(handling, 2, 0.5, 0), ([1.0, 0.0], 0));
    }
}

/// Nodes of any pattern: mass and psi keep every bit, momentum does unless its axis is locked, a flag that is on keeps its word.
#[test]
fn what_an_update_does_not_compute_keeps_every_bit() {
    let mut rng = Rng::new(SEED);
    let mut moved = 0;
    for sample in 0..2000 {
        let style = Style { old: rng.one_of(&[Old::Patterns, Old::Numbers]), ..Style::any(&mut rng) };
        let colliders = rng.one_of(&[0, 1, 2, 5]);
        let call = bounded(style.sample(&mut rng), colliders, &mut rng);
        let (floats, words) = done(&Which::Update, &call);
        for (place, (before, after)) in call.node_floats.iter().zip(&floats).enumerate() {
            let axis = match place % NODE_FLOATS {
                1 | 3 => 0,
                2 | 4 => 1,
                _ => 2,
            };
            let computes = place % NODE_FLOATS >= VELOCITY && axis < 2 && call.boundary.handling != NONE && colliders > 0;
            match axis < 2 && call.boundary.locks >> axis & 1 == 1 {
                true if !computes => assert_eq!(*after, 0, "sample {}", sample),
                false if !computes => assert_eq!(after, before, "sample {}", sample),
                _ => moved += u64::from(after != before),
            }
        }
        for (before, after) in call.node_words.iter().zip(&words) {
            assert!(before == after || (*before, *after) == (0, 1), "sample {}", sample);
        }
    }
    assert!(moved > 10_000, "only {} floats moved", moved);
}

fn clear(call: &Call) -> Records {
    let (mut floats, mut words) = (call.node_floats.clone(), call.node_words.clone());
    let refusal = unsafe {
        let (floats_at, words_at) = (floats.as_mut_ptr().cast(), words.as_mut_ptr());
        mk_clear2(call.ids.len(), call.ids.as_ptr(), call.ids.len(), floats_at, floats.len(), words_at, words.len())
    };
    assert_eq!(refusal, Refusal { number: 0, index: 0 });
    (floats, words)
}

/// One call leaves what the three leave one after the other.
#[test]
fn the_sequence_is_its_three_calls() {
    let mut rng = Rng::new(SEED);
    for sample in 0..2000 {
        let call = Style::any(&mut rng).sample(&mut rng);
        let colliders = rng.one_of(&[0, 1, 2, 5]);
        let call = bounded(call, colliders, &mut rng);
        let mut in_turn = call.clone();
        (in_turn.node_floats, in_turn.node_words) = clear(&in_turn);
        (in_turn.node_floats, in_turn.node_words) = done(&Which::All, &in_turn);
        let nodes = done(&Which::Update, &in_turn);
        assert_eq!(written(&call, &done(&Which::Sequence, &call)), written(&call, &nodes), "sample {}", sample);
    }
}

/// The ids of the cells that particles reach: those of one region, or of all.
fn reached(call: &Call, place: Option<usize>) -> Vec<u64> {
    let ranges = call.ranges.chunks_exact(2).enumerate().filter(|(region, _)| place.map_or(true, |place| place == *region));
    let particles = ranges.flat_map(|(_, range)| range[0]..range[0] + range[1]);
    let stencil = |particle: u64| unsafe {
        let [x, y] = call.position(particle as usize);
        mk_stencil_ids2(mk_cell_associated_to_point2(call.cell_width, Point2 { x, y })).ids
    };
    particles.flat_map(stencil).collect()
}

/// A change that every call, or an update alone, is refused for; mostly none.
fn any_fault(rng: &mut Rng) -> Vec<Edit> {
    let faults = ["h=0", "t=7F800000", "k#0", "b=4", "i0=1"];
    let place = rng.below(15) as usize;
    faults.get(place).map(|fault| fault.parse().expect("a change")).into_iter().collect()
}

/// Calls on one list of regions, with nothing written to nodes between them, and at last an update. Answers how many nodes some stencil
/// reached that have mass, and how many none reached; these have to be empty.
fn empty_until_reached(calls: &[Call], cleared: Records, rng: &mut Rng) -> (usize, usize) {
    let (mut nodes, mut touched) = (cleared, HashSet::new());
    for (turn, call) in calls.iter().enumerate() {
        let (order, place) = (order(call, rng), rng.below(call.regions) as usize);
        let kinds = [Which::All, Which::Region(place), Which::Order(&order), Which::Update, Which::Update, Which::Sequence];
        let which = if turn + 1 == calls.len() { &Which::Update } else { &kinds[rng.below(6) as usize] };
        let (node_floats, node_words) = nodes.clone();
        let (refusal, after) = ask(which, &Call { node_floats, node_words, ..call.clone() }.edited(&any_fault(rng)));
        if refusal.number != 0 {
            continue;
        }
        nodes = after;
        match which {
            Which::Update => {}
            Which::Region(place) => touched.extend(reached(call, Some(*place))),
            Which::Sequence => touched = reached(call, None).into_iter().collect(),
            _ => touched.extend(reached(call, None)),
        }
    }
    let mut found = (0, 0);
    for (place, node) in nodes.0.chunks_exact(NODE_FLOATS).enumerate() {
        let cell = unsafe { mk_cell_of_region2(calls[0].ids[place / REGION_NODES], (place % REGION_NODES) as u64) };
        if touched.contains(&cell) {
            found.0 += usize::from(f32::from_bits(node[0]) != 0.0);
        } else {
            found.1 += 1;
            assert_eq!(node[..VELOCITY + 2], [0; VELOCITY + 2], "a node that no stencil reached");
        }
    }
    found
}

/// Demand 2: on one list of regions, a node that no stencil reached after clearing has zero mass, momentum and velocity after the
/// update, whatever was called in between. What a stencil reaches is said by ids alone, and a node that was reached has mass.
#[test]
fn a_node_that_no_stencil_reached_reads_empty() {
    let mut rng = Rng::new(SEED);
    let (mut with_mass, mut empty) = (0, 0);
    for _ in 0..1500 {
        let count = 1 + rng.below(5) as usize;
        let style = Style { other_regions: 1, ..Style::any(&mut rng) };
        let calls: Vec<Call> = style.samples_on_one_list(count, &mut rng);
        let calls: Vec<Call> = calls.into_iter().map(|call| bounded(call, 2, &mut rng)).collect();
        let mut old = calls[0].clone();
        old.node_floats.iter_mut().for_each(|float| *float = rng.word());
        old.node_words.iter_mut().for_each(|word| *word = rng.word());
        let found = empty_until_reached(&calls, clear(&old), &mut rng);
        with_mass += found.0;
        empty += found.1;
    }
    assert!(with_mass > 5_000 && empty > 50_000, "{} and {}", with_mass, empty);
}

/// A velocity that overflows is stored, and what is stored is read unchecked; a number of that kind is refused in a collider.
#[test]
fn what_overflowed_is_stored_and_refused_as_input() {
    let mut call = Call::on(vec![0]).bounded(FRICTION, &[f32::MIN]);
    call.node_floats[VELOCITY..VELOCITY + 2].copy_from_slice(&[2f32, 1.0].map(f32::to_bits));
    call.boundary.points[0] = 0.5f32.to_bits();
    let (floats, words) = done(&Which::Update, &call);
    assert_eq!(f32::from_bits(floats[VELOCITY + 1]), f32::INFINITY);
    let mut next = Call { node_floats: floats, node_words: words, ..call };
    done(&Which::Update, &next);
    next.boundary.frictions[0] = next.node_floats[VELOCITY + 1];
    assert_eq!(ask(&Which::Update, &next).0, Refusal { number: 5, index: 0 });
    assert_eq!(ask(&Which::Sequence, &next).0, Refusal { number: 5, index: 0 });
}

/// Nothing is behind a pointer with a count of 0, and NULL is as good as any.
#[test]
fn empty_lists_may_be_null() {
    macro_rules! of_nothing {
        ($function:ident, $colliders:expr, $($first:expr),*) => {
            $function(
                $($first,)*
                $colliders,
                ptr::null(),
                0,
                ptr::null(),
                0,
                ptr::null(),
                0,
                ptr::null_mut(),
                0,
                ptr::null_mut(),
                0,
            )
        };
    }
    let gravity = Vector2 { x: 0.0, y: 0.0 };
    let none: (*const u64, *const f32, *const u32) = (ptr::null(), ptr::null(), ptr::null());
    let answers = |regions: usize, colliders: usize, code: u32| unsafe {
        let update = of_nothing!(mk_grid_update2, colliders, 1.0, 1.0, code, code, regions, none.0, 0);
        let sequence = of_nothing!(
            mk_clear_scatter_update2,
            colliders,
            1.0,
            1.0,
            gravity,
            code,
            code,
            regions,
            none.0,
            0,
            none.0,
            0,
            0,
            none.1,
            0,
            none.2,
            0
        );
        [update, sequence]
    };
    let refused = |number: u32| [Refusal { number, index: 0 }; 2];
    assert_eq!([0, 1, 2, 3].map(|code| answers(0, 0, code)), [refused(0); 4]);
    assert_eq!([4, 5, 256, u32::MAX].map(|code| answers(0, 0, code)), [refused(4); 4]);
    for (regions, colliders) in [(1, 0), (0, 1), (1 << 60, 0), (0, 1 << 63), (1 << 32, 1 << 32), (usize::MAX, usize::MAX)] {
        assert_eq!(answers(regions, colliders, 0), refused(1));
    }
}
