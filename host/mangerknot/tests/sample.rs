//! A sample against the archive's own calls, bit for bit; and what it refuses.

#[path = "../../mangerknot-sys/tests/archive/mod.rs"]
mod archive;
mod safe;

use archive::{answer_in_place, Which};
use mangerknot::{color2, Boundary, Handling, ModelAnswer, Node, Particle, Projection, Refused, Sample, Updated};
use safe::{particles, to_bits};
use samples::random::{order, Numbers, Style};
use samples::substeps::{run, Answer, Stage, Substep};
use samples::{plane, Call, Rng};

const SEED: u64 = 0x4120_7361_6d70_6c65;

/// What one stage of the archive's leaves.
fn raw(stage: Stage, call: &Call) -> Answer {
    let mut call = call.clone();
    let refusal = answer_in_place(&Which::from(stage), &mut call);
    match refusal.number {
        0 if stage.leaves_particles() => Ok((call.particle_floats, call.particle_words)),
        0 => Ok((call.node_floats, call.node_words)),
        number => Err((number, refusal.index)),
    }
}

fn particles_of(sample: &Sample) -> Answer {
    Ok((to_bits(sample.particle_lists().floats), sample.particle_lists().words.to_vec()))
}

fn nodes_of(sample: &Sample) -> Answer {
    Ok((to_bits(sample.node_lists().floats), sample.node_lists().words.to_vec()))
}

fn refusal(refused: Refused) -> (u32, usize) {
    (refused.number, refused.index)
}

/// The call's boundary for a sample that has its regions.
fn boundary(sample: &Sample, call: &Call) -> Boundary {
    let lent = &call.boundary;
    let mut points = lent.points.chunks_exact(2).map(|point| [point[0], point[1]].map(f32::from_bits));
    let mut insides = lent.insides.iter();
    let handling = [Handling::None, Handling::Stick, Handling::Friction, Handling::FrictionZUp][lent.handling as usize];
    let mut boundary = sample.boundary(handling, &safe::to_floats(&lent.frictions), |_, _| {
        let point = points.next().expect("a point for each");
        match insides.next() {
            Some(1) => Projection::Inside(point),
            _ => Projection::Outside(point),
        }
    });
    boundary.locked = [lent.locks & 1 == 1, lent.locks & 2 == 2];
    boundary
}

/// Clear, scatter and update in one of the ways that there are.
fn updated<'a>(sample: &'a mut Sample, call: &Call, way: u64, rng: &mut Rng) -> Result<Updated<'a>, Refused> {
    let boundary = boundary(sample, call);
    let order: Vec<usize> = order(call, rng).iter().map(|place| *place as usize).collect();
    match way {
        0 => sample.clear_scatter_update(call.dt, call.gravity, &boundary),
        1 => sample.clear()?.scatter(call.dt, call.gravity)?.update(&boundary),
        2 => sample.clear()?.scatter_in_order(&order, call.dt, call.gravity)?.update(&boundary),
        _ => {
            let mut stage = sample.clear()?.by_regions(call.dt, call.gravity);
            order.iter().try_for_each(|place| stage.scatter_region(*place))?;
            stage.finish()?.update(&boundary)
        }
    }
}

/// A substep through the sample: what each stage leaves, up to one that is refused.
fn through(sample: &mut Sample, substep: &Substep, way: u64, rng: &mut Rng) -> Vec<Answer> {
    let mut answers = vec![];
    if substep.recomputes {
        let cleared = sample.clear().expect("regions that are listed");
        answers.push(nodes_of(&cleared));
        answers.push(cleared.recompute_fluids_volumes().map_err(refusal).and_then(|sample| particles_of(sample)));
    }
    let left = gathered(sample, substep, way, rng, &mut answers);
    answers.push(left.map_err(refusal).and_then(|sample| particles_of(sample)));
    answers
}

fn gathered<'a>(
    sample: &'a mut Sample,
    substep: &Substep,
    way: u64,
    rng: &mut Rng,
    answers: &mut Vec<Answer>,
) -> Result<&'a mut Sample, Refused> {
    let gather = &substep.call.gather;
    let updated = updated(sample, &substep.call, way, rng)?;
    answers.push(nodes_of(&updated));
    let moved = updated.gather_first_half(gather.eigenerosion == 1)?;
    answers.push(particles_of(&moved));
    let moved = moved.rewrite_deformation_gradients(|place, particle| {
        match substep.rewritten[place].map(|bits| bits.map(f32::from_bits)) {
            Some([f00, f01, f10, f11]) => [[f00, f01], [f10, f11]],
            None => particle.deformation_gradient,
        }
    });
    let given = gather.given_floats.chunks_exact(2).zip(&gather.given_words).map(|(floats, word)| ModelAnswer {
        density: f32::from_bits(floats[0]),
        energy: f32::from_bits(floats[1]),
        failed: *word == 1,
    });
    moved.gather_second_half(&given.collect::<Vec<_>>())
}

/// One sample goes on from substep to substep, and sorts itself; each is held against the archive's calls on lists that were sorted by
/// other hands.
#[test]
fn substeps_in_a_row_are_the_archives() {
    let mut rng = Rng::new(SEED);
    let (mut done, mut refused) = (0, 0);
    for seed in 0..200 {
        let style = Style { other_regions: 0, ..Style::any(&mut rng) };
        let call = style.sample(&mut rng);
        let mut sample = Sample::new(call.cell_width, particles(&call)).expect("an accepted call");
        run(&call, seed % 3 == 0, seed, 5, |substep| {
            let answers = substep.in_turn(raw);
            sample.sort().expect("on the grid, and nothing overflowed");
            assert_eq!((sample.regions().ids, sample.regions().ranges), (&substep.call.ids[..], &substep.call.ranges[..]));
            let way = rng.below(4);
            let through = through(&mut sample, substep, way, &mut rng);
            assert!(through == answers, "seed {}, way {}", seed, way);
            let is_refused = answers.last().map_or(true, Result::is_err);
            *(if is_refused { &mut refused } else { &mut done }) += 1;
            answers
        });
    }
    assert!(done >= 400 && refused >= 50, "{} done, {} refused", done, refused);
}

/// Region by region, and in an order: the nodes are those of all at once.
#[test]
fn every_way_to_scatter_leaves_the_same_nodes() {
    let mut rng = Rng::new(SEED);
    for _ in 0..100 {
        let call = Style { other_regions: 0, ..Style::any(&mut rng) }.sample(&mut rng);
        let sample = Sample::new(call.cell_width, particles(&call)).expect("an accepted call");
        let nodes: Vec<Answer> =
            (0..4).map(|way| nodes_of(&updated(&mut sample.clone(), &call, way, &mut rng).expect("an accepted call"))).collect();
        assert!(nodes.iter().all(|left| *left == nodes[0]));
    }
}

/// Two regions of colour 0 and one of colour 1, with a particle each.
fn three() -> Sample {
    let at = |x: f32| Particle { position: [x, 1.0], mass: 1.0, ..Particle::default() };
    let sample = Sample::new(1.0, [at(1.0), at(5.0), at(9.0)]).expect("three particles");
    assert_eq!(sample.regions().ids.iter().map(|id| color2(*id)).collect::<Vec<_>>(), [0, 1, 0]);
    sample
}

/// What a wrong order is refused with is the same as for the order at once.
#[test]
fn regions_come_in_turn() {
    let mut sample = three();
    let wrong = [&[0, 1, 2][..], &[0, 0, 1], &[3, 0, 1], &[0, 2, 2], &[0, 2, 0], &[0, 2], &[]];
    for order in wrong {
        let mut stage = sample.clear().expect("listed").by_regions(0.1, [0.0; 2]);
        let one_by_one = order.iter().try_for_each(|place| stage.scatter_region(*place));
        let one_by_one = one_by_one.and_then(|()| stage.finish().map(drop)).unwrap_err();
        let at_once = sample.clear().expect("listed").scatter_in_order(order, 0.1, [0.0; 2]).map(drop).unwrap_err();
        assert_eq!(one_by_one, at_once);
    }
    let mut none = Sample::new(1.0, []).expect("no particle");
    for (dt, gravity) in [(0.0, [0.0; 2]), (1.0, [f32::NAN, 0.0])] {
        let one_by_one = none.clear().expect("listed").by_regions(dt, gravity).finish().map(drop).unwrap_err();
        assert_eq!(one_by_one, none.clear().expect("listed").scatter_in_order(&[], dt, gravity).map(drop).unwrap_err());
        let mut stage = sample.clear().expect("listed").by_regions(dt, gravity);
        let one = stage.scatter_region(7).unwrap_err();
        assert_eq!(one, sample.clear().expect("listed").scatter_in_order(&[7, 0, 1], dt, gravity).map(drop).unwrap_err());
    }
    let mut stage = sample.clear().expect("listed").by_regions(0.1, [0.0; 2]);
    stage.scatter_region(0).expect("the first");
    stage.scatter_region(0).expect_err("again");
    stage.scatter_region(2).expect("of the same colour");
    stage.scatter_region(1).expect("of the next colour");
    assert_eq!(stage.finish().expect("all of them").node_mass(), 3.0);
}

/// A stage that is refused leaves particles as they were and gives the sample back.
#[test]
fn what_is_refused_can_be_tried_again() {
    let mut sample = three();
    let before = particles_of(&sample);
    assert_eq!(sample.clear().and_then(|stage| stage.scatter(-1.0, [0.0; 2]).map(drop)).unwrap_err().number, 3);
    let narrow = Sample::new(1.0, []).expect("no particle").boundary(Handling::Stick, &[0.0], |_, _| panic!("no cell"));
    let update = |sample: &mut Sample, boundary: &Boundary| sample.clear()?.scatter(0.1, [0.0; 2])?.update(boundary).map(drop);
    assert_eq!(update(&mut sample, &narrow).unwrap_err().number, 1);
    let elsewhere = Particle { position: [1.0, 41.0], ..Particle::default() };
    let other = Sample::new(1.0, sample.particles().take(2).chain([elsewhere])).expect("as many regions, and others");
    let other = other.boundary(Handling::Stick, &[0.0], |_, point| Projection::Outside(point));
    let refused = update(&mut sample, &other).unwrap_err();
    assert_eq!(
        refused.to_string(),
        "the boundary's projections are for other regions or cells than are listed (number 1, index 0)"
    );
    let wider = Sample::new(
        2.0,
        sample.particles().map(|particle| Particle { position: particle.position.map(|x| 2.0 * x), ..particle }),
    );
    let wider = wider.expect("the same regions, of wider cells");
    assert_eq!(wider.regions().ids, sample.regions().ids);
    let wider = wider.boundary(Handling::Stick, &[0.0], |_, point| Projection::Outside(point));
    assert_eq!(update(&mut sample, &wider).unwrap_err(), refused);
    assert_eq!(sample.clear_scatter_update(0.1, [0.0; 2], &other).map(drop).unwrap_err(), refused);
    let bad_point = sample.boundary(Handling::Friction, &[0.0], |_, [x, _]| Projection::Outside([x, f32::NAN]));
    assert_eq!(update(&mut sample, &bad_point).unwrap_err().number, 5);
    assert_eq!(sample.clear_scatter_update(0.1, [0.0; 2], &bad_point).map(drop).unwrap_err().number, 5);
    assert!(before == particles_of(&sample));
    update(&mut sample, &Boundary::none()).expect("nothing to refuse");
}

#[test]
fn the_second_half_can_be_tried_again() {
    let mut sample = three();
    assert!(sample.moved().is_none());
    let good = ModelAnswer { density: 1.0, energy: 2.0, failed: false };
    let moved = sample.clear_scatter_update(0.1, [0.0, -1.0], &Boundary::none()).and_then(|stage| stage.gather_first_half(true));
    assert_eq!(moved.expect("moved").gather_second_half(&[good; 2]).unwrap_err().number, 1);
    let bad = [good, ModelAnswer { density: f32::NAN, ..good }, good];
    let refused = sample.moved().expect("half done").gather_second_half(&bad).unwrap_err();
    assert_eq!(refused.to_string(), "what is given of particle 1: its density is not finite (number 5, index 1)");
    sample.moved().expect("half done").gather_second_half(&[good; 3]).expect("given");
    assert!(sample.moved().is_none());
    assert!(sample.particles().all(|particle| particle.psi_pos == 2.0 && particle.parameter2 == 1.0));
    let moved = sample.clear_scatter_update(0.1, [0.0, -1.0], &Boundary::none()).and_then(|stage| stage.gather_first_half(true));
    drop(moved.expect("moved"));
    assert!(sample.moved().is_some());
    drop(sample.clear().expect("listed"));
    assert!(sample.moved().is_none());
}

/// What overflowed in a substep is stored, and refused when it comes back: by sort, which looks first, and else by the next stage.
#[test]
fn what_overflowed_is_refused_by_sort() {
    let mut sample = three();
    sample.rewrite(|place, particle| particle.mass = if place == 2 { 1e30 } else { 1.0 });
    let given = [ModelAnswer { density: 1.0, energy: 1e30, failed: false }; 3];
    let moved = sample.clear_scatter_update(0.1, [0.0; 2], &Boundary::none()).and_then(|stage| stage.gather_first_half(false));
    moved.and_then(|stage| stage.gather_second_half(&given)).map(drop).expect("stored as it is");
    let sentence = "particle 2's parameter1 is not finite (number 5, index 2)";
    assert_eq!(sample.sort().unwrap_err().to_string(), sentence);
    assert_eq!(sample.clear().expect("listed").scatter(0.1, [0.0; 2]).map(drop).unwrap_err().to_string(), sentence);
}

/// What a host rewrites is looked at by the next call.
#[test]
fn a_bad_rewrite_is_refused() {
    let rewritten = |rewrite: fn(&mut Particle)| {
        let mut sample = three();
        sample.rewrite(|place, particle| {
            if place == 1 {
                rewrite(particle)
            }
        });
        sample.clear().expect("listed").scatter(0.1, [0.0; 2]).map(drop).map_err(|refused| refused.to_string())
    };
    assert_eq!(rewritten(|particle| particle.stress = [[1.0, 2.0], [2.0, 1.0]]), Ok(()));
    let refused = |sentence: &str| Err(sentence.to_string());
    assert_eq!(
        rewritten(|particle| particle.stress[1][0] = f32::NAN),
        refused("particle 1's stress is not finite (number 5, index 1)")
    );
    assert_eq!(
        rewritten(|particle| particle.position[1] = -1.0),
        refused("particle 1 lies off the grid on y (number 8, index 1)")
    );
    assert_eq!(
        rewritten(|particle| particle.position[0] = 9.0),
        refused("particle 1's cell is of the region with id 16384, and it stands among those of region 1 (id 4096) (number 9, index 1)")
    );
    assert_eq!(
        rewritten(|particle| particle.position[1] = 3.0),
        refused("particle 1's stencil reaches the region with id 12288, which is not listed (number 10, index 1)")
    );
    let mut sample = three();
    sample.particle_floats_mut()[26 + 12] = f32::INFINITY;
    assert_eq!(sample.sort().unwrap_err().to_string(), "particle 1's mass is not finite (number 5, index 1)");
}

/// New and sort refuse what the archive refuses of the same list as one region, up to number 8, with the same index.
#[test]
fn what_a_sample_refuses_is_what_the_archive_refuses() {
    let mut rng = Rng::new(SEED);
    let mut seen = std::collections::BTreeMap::new();
    for _ in 0..2000 {
        let style = Style { other_regions: 0, numbers: Numbers::Everyday, ..Style::any(&mut rng) };
        let mut call = style.sample(&mut rng);
        for _ in 0..rng.below(3) {
            let place = rng.below(call.particle_floats.len() as u64) as usize;
            let edge = rng.one_of(&[0.49999997, 0.5, 65535.49, 65535.5, 65536.0, -1.0, 0.0]) * call.cell_width;
            let place = rng.one_of(&[place, place / 26 * 26, place / 26 * 26 + 1]);
            call.particle_floats[place] = rng.one_of(&[f32::NAN, f32::INFINITY, edge, edge, edge, edge]).to_bits();
        }
        call.cell_width = rng.one_of(&[call.cell_width, call.cell_width, call.cell_width, f32::NAN, 0.0, 2097152.0]);
        let made = Sample::new(call.cell_width, particles(&call)).map(drop).map_err(refusal);
        let mut listed = Call { ranges: vec![0, call.particles], regions: 1, dt: 1.0, gravity: [0.0; 2], ..call };
        listed.ids.truncate(1);
        listed.node_floats.truncate(16 * 7);
        listed.node_words.truncate(16);
        let refusal = answer_in_place(&Which::All, &mut listed);
        let right = if matches!(refusal.number, 0 | 9 | 10) { Ok(()) } else { Err((refusal.number, refusal.index)) };
        assert_eq!(made, right);
        *seen.entry(right.err().map_or(0, |(number, _)| number)).or_insert(0) += 1;
    }
    assert!([0, 3, 5, 8].iter().all(|number| seen.get(number).map_or(false, |count| *count > 50)), "{:?}", seen);
}

#[test]
fn limits() {
    let at = |x: f32| Particle { position: [x, 1.0], ..Particle::default() };
    let regions = |count: usize| Sample::new(1.0, (0..count).map(|place| at(4.0 * place as f32 + 1.0)));
    assert_eq!(regions(512).expect("so many").regions().ids.len(), 512);
    assert_eq!(regions(513).unwrap_err().to_string(), "there are 513 regions, and at most 512 are taken (number 2, index 0)");
    assert_eq!(Sample::new(1.0, vec![at(1.0); 65_536]).expect("so many").len(), 65_536);
    let refused = Sample::new(1.0, vec![at(-1.0); 65_537]).unwrap_err();
    assert_eq!(refused.to_string(), "there are 65537 particles, and at most 65536 are taken (number 2, index 0)");
    assert!(Sample::new(1.0, []).expect("none").is_empty());
}

/// Every particle is where it belongs, those of a region in the order that they had, and bit for bit what was given.
fn check_sorted(sample: &Sample, given: &[Particle], before: &[usize]) {
    let (regions, floats) = (sample.regions(), sample.particle_lists().floats);
    let rank = |origin: &usize| before.iter().position(|other| other == origin).expect("one of those given");
    let mut needed: Vec<u64> = vec![];
    for (id, range) in regions.ids.iter().zip(regions.ranges.chunks_exact(2)) {
        let places = range[0] as usize..(range[0] + range[1]) as usize;
        assert!(sample.origins()[places.clone()].windows(2).all(|pair| rank(&pair[0]) < rank(&pair[1])));
        for place in places {
            let origin = &given[sample.origins()[place]];
            let cell = plane::first_cell(origin.position, sample.cell_width()).expect("on the grid");
            assert_eq!(plane::region(cell), *id);
            assert_eq!(to_bits(&floats[26 * place..][..26]), to_bits(&origin.floats()));
            assert_eq!(sample.particle(place).map(|particle| particle.words()), Some(origin.words()));
            needed.extend(plane::regions(cell));
        }
    }
    needed.sort_unstable();
    needed.dedup();
    assert_eq!(regions.ids, needed);
    assert_eq!(regions.ranges.chunks_exact(2).map(|range| range[1]).sum::<u64>(), given.len() as u64);
}

#[test]
fn sorting_is_stable() {
    let mut rng = Rng::new(SEED);
    for _ in 0..300 {
        let call = Style { numbers: Numbers::Everyday, ..Style::any(&mut rng) }.sample(&mut rng);
        let mut given = particles(&call);
        rng.shuffle(&mut given);
        let mut sample = Sample::new(call.cell_width, given.clone()).expect("on the grid");
        check_sorted(&sample, &given, &(0..given.len()).collect::<Vec<_>>());
        let before = sample.origins().to_vec();
        sample.rewrite(|place, particle| {
            particle.position = given[rng.below(given.len() as u64) as usize].position;
            particle.fluid = place % 2 == 0;
        });
        let mut moved = given.clone();
        sample.particles().enumerate().for_each(|(place, particle)| moved[before[place]] = particle);
        sample.sort().expect("on the grid");
        check_sorted(&sample, &moved, &before);
    }
}

/// The recomputation leaves nodes without mass, so that a scatter wants them cleared: the sample that comes back can only do that.
#[test]
fn fluids_are_recomputed_on_cleared_nodes() {
    let fluid = Particle { position: [1.0, 1.0], mass: 64.0, volume0: 2.0, fluid: true, ..Particle::default() };
    let mut sample = Sample::new(1.0, [fluid]).expect("one particle");
    sample.clear().expect("listed").scatter(1.0, [0.0; 2]).map(drop).expect("accepted");
    assert_eq!(sample.node_mass(), 64.0);
    let sample = sample.clear().expect("listed").recompute_fluids_volumes().expect("accepted");
    assert_eq!((sample.node_mass(), sample.particle_mass()), (0.0, 64.0));
    let volume = sample.particle(0).expect("one particle").deformation_gradient[0][0];
    assert!((volume - 1.41828).abs() < 1e-5, "{}", volume);
    let scattered = sample.clear().expect("listed").scatter(1.0, [0.0; 2]).expect("accepted");
    assert_eq!(scattered.node([1, 1]).map(|node| node.mass), Some(36.0));
}

/// Readers of nodes: every cell of every region once, each found again by its coordinates.
#[test]
fn nodes_are_found_by_their_cells() {
    let mut sample = three();
    let stage = sample.clear().expect("listed").scatter(0.1, [0.0; 2]).expect("accepted");
    assert_eq!(stage.nodes().count(), 48);
    assert!(stage.nodes().all(|(cell, node)| stage.node(cell) == Some(node)));
    let hit: Vec<[u32; 2]> = stage.nodes().filter(|(_, node)| node.mass > 0.0).map(|(cell, _)| cell).collect();
    let mut stencils = [[0, 0], [4, 0], [8, 0]].into_iter().flat_map(plane::stencil);
    assert!(hit.len() == 27 && stencils.all(|cell| hit.contains(&cell)));
    assert_eq!([[0, 4], [12, 0], [1 << 28, 0], [u32::MAX; 2]].map(|cell| stage.node(cell)), [None; 4]);
    assert_eq!(stage.node([3, 3]), Some(Node::default()));
}

/// Records keep every bit of any pattern, NaNs among them.
#[test]
fn records_keep_every_bit() {
    let mut rng = Rng::new(SEED);
    for _ in 0..1000 {
        let floats = [0; 26].map(|_| f32::from_bits(rng.word() | rng.one_of(&[0, 0x7f80_0001])));
        let words = [0; 4].map(|_| rng.below(2) as u32);
        let particle = Particle::from_flat(&floats, &words).expect("flags of 0 and 1");
        assert_eq!((to_bits(&particle.floats()), particle.words()), (to_bits(&floats), words));
        let (node_floats, word) = ([0; 7].map(|_| f32::from_bits(rng.word() | rng.one_of(&[0, 0x7f80_0001]))), rng.word());
        let node = Node::from_flat(&node_floats, word);
        assert_eq!((to_bits(&node.floats()), node.boundary), (to_bits(&node_floats), word));
        let wrong = rng.below(4) as usize;
        let bad = [0, 1, 2, 3].map(|place| if place == wrong { 2 + rng.word() / 2 } else { 1 });
        assert_eq!(Particle::from_flat(&[0.0; 26], &bad), None);
    }
}

/// Every field stands at the place that the header says.
#[test]
fn fields_stand_where_the_header_says() {
    let mut floats = [0.0; 26];
    floats.iter_mut().enumerate().for_each(|(place, float)| *float = place as f32);
    let particle = Particle::from_flat(&floats, &[0, 1, 0, 1]).expect("flags of 0 and 1");
    assert_eq!((particle.position, particle.velocity), ([0.0, 1.0], [2.0, 3.0]));
    assert_eq!((particle.velocity_gradient, particle.stress), ([[4.0, 5.0], [6.0, 7.0]], [[8.0, 9.0], [10.0, 11.0]]));
    assert_eq!((particle.mass, particle.volume0, particle.phase), (12.0, 13.0, 14.0));
    assert_eq!((particle.crack_propagation_factor, particle.psi_pos), (15.0, 16.0));
    assert_eq!(particle.deformation_gradient, [[17.0, 18.0], [19.0, 20.0]]);
    assert_eq!((particle.crack_threshold, particle.parameter1, particle.parameter2), (21.0, 22.0, 23.0));
    assert_eq!(particle.kinematic_vel, [24.0, 25.0]);
    assert_eq!([particle.failed, particle.kinematic, particle.fluid, particle.is_static], [false, true, false, true]);
    let node = Node::from_flat(&[0.0, 1.0, 2.0, 3.0, 4.0, 5.0, 6.0], 1);
    assert_eq!((node.mass, node.momentum, node.velocity), (0.0, [1.0, 2.0], [3.0, 4.0]));
    assert_eq!((node.psi_momentum, node.psi_mass, node.boundary), (5.0, 6.0, 1));
}
