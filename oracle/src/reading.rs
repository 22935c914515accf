//! What the handed-over Rust has no function for, as documents 01 and 02 say it, and nothing that is taken from the port.

use samples::lengths::{Step, Taken, FINISHED, NONE_LEFT, ONE_DONE};
use samples::{plane, Boundary, Call, Gather};

/// Document 02, request 09: the lower part of a list has the floor of half of it, the upper part is kept if its first id is at
/// most the sought one, and of one entry or none nothing is left to halve.
pub fn lookup(ids: &[u64], sought: u64) -> Option<usize> {
    match ids {
        [] => None,
        [last] => (*last == sought).then_some(0),
        _ => {
            let (lower, upper) = ids.split_at(ids.len() / 2);
            if upper[0] <= sought {
                lookup(upper, sought).map(|place| lower.len() + place)
            } else {
                lookup(lower, sought)
            }
        }
    }
}

/// What a call is refused for: a number of document 01's table, and an index.
#[derive(Debug, PartialEq)]
pub struct Refusal {
    pub number: u32,
    pub index: usize,
}

/// Document 01, "Stages": a node holds mass, momentum, velocity and two psi numbers, and a flag; a region has 16 nodes.
pub const NODE_FLOATS: u64 = 1 + 2 + 2 + 2;
pub const NODE_WORDS: u64 = 1;
pub const REGION_NODES: u64 = 16;

pub const MOST_REGIONS: u64 = 512;

/// What the table says of a call of clear that is given a count, ids, and slices of nodes of these lengths: 1, 2, 6.
pub fn clear(regions: u64, ids: &[u64], floats: u64, words: u64) -> Option<Refusal> {
    let counts = |length: u64, each: u64| u128::from(length) == u128::from(regions) * u128::from(each);
    let all_count =
        counts(ids.len() as u64, 1) && counts(floats, REGION_NODES * NODE_FLOATS) && counts(words, REGION_NODES * NODE_WORDS);
    if !all_count {
        return Some(Refusal { number: 1, index: 0 });
    }
    if regions > MOST_REGIONS {
        return Some(Refusal { number: 2, index: 0 });
    }
    first_bad_region(ids).map(|index| Refusal { number: 6, index })
}

/// The first id with one of its low 12 bits set, or that is the later one of a pair that does not ascend.
fn first_bad_region(ids: &[u64]) -> Option<usize> {
    let low_bits = ids.iter().position(|id| id & 0xFFF != 0);
    let earlier_of_pair = ids.windows(2).position(|pair| pair[0] >= pair[1]);
    low_bits.into_iter().chain(earlier_of_pair.map(|earlier| earlier + 1)).min()
}

pub const PARTICLE_FLOATS: u64 = samples::PARTICLE_FLOATS as u64;
pub const PARTICLE_WORDS: u64 = samples::PARTICLE_WORDS as u64;

pub const MOST_PARTICLES: u64 = 65_536;

/// Which call of scatter it is: all regions, the one at a place, or all in an order of places.
pub enum Which<'a> {
    All,
    Region(u64),
    Order(&'a [u64]),
}

/// The index of a record that breaks a rule, with the rule's number.
fn refused(number: u32, index: Option<usize>) -> Option<Refusal> {
    index.map(|index| Refusal { number, index })
}

/// The index 0 where something does not hold that is no record's.
fn unless(holds: bool) -> Option<usize> {
    (!holds).then_some(0)
}

/// What the table says of a call of scatter: 1 to 10.
pub fn scatter(which: &Which, call: &Call) -> Option<Refusal> {
    refused(1, unless(scatter_counts(which, call)))
        .or_else(|| refused(2, unless(regions_and_particles_are_few(call))))
        .or_else(|| refused(3, unless(width_and_dt_are_good(call) && gravity_is_good(call))))
        .or_else(|| refused(4, bad_place(which, &call.ids)))
        .or_else(|| refused(4, first_record_with(&call.particle_words, PARTICLE_WORDS, is_no_flag)))
        .or_else(|| refused(5, first_record_with(&call.particle_floats, PARTICLE_FLOATS, is_not_finite)))
        .or_else(|| ids_ranges_and_positions(call))
}

/// 6 to 10.
fn ids_ranges_and_positions(call: &Call) -> Option<Refusal> {
    refused(6, first_bad_region(&call.ids))
        .or_else(|| refused(7, first_bad_range(call)))
        .or_else(|| refused(8, first_cells(call).position(|cell| cell.is_none())))
        .or_else(|| {
            refused(9, first_cells(call).zip(own_regions(call)).position(|(cell, own)| cell.map(plane::region) != Some(own)))
        })
        .or_else(|| refused(10, first_cells(call).position(|cell| !is_listed(cell, &call.ids))))
}

fn scatter_counts(which: &Which, call: &Call) -> bool {
    let lengths = [
        (call.ids.len(), call.regions, 1),
        (call.ranges.len(), call.regions, 2),
        (call.particle_floats.len(), call.particles, PARTICLE_FLOATS),
        (call.particle_words.len(), call.particles, PARTICLE_WORDS),
        (call.node_floats.len(), call.regions, REGION_NODES * NODE_FLOATS),
        (call.node_words.len(), call.regions, REGION_NODES * NODE_WORDS),
    ];
    let order_counts = match which {
        Which::Order(order) => order.len() as u64 == call.regions,
        _ => true,
    };
    order_counts && lengths.iter().all(|(length, count, each)| *length as u128 == u128::from(*count) * u128::from(*each))
}

fn regions_and_particles_are_few(call: &Call) -> bool {
    call.regions <= MOST_REGIONS && call.particles <= MOST_PARTICLES
}

fn width_is_good(call: &Call) -> bool {
    let range = 1.0 / 1048576.0..=1048576.0;
    range.contains(&call.cell_width)
}

fn width_and_dt_are_good(call: &Call) -> bool {
    width_is_good(call) && call.dt > 0.0 && call.dt.is_finite()
}

fn gravity_is_good(call: &Call) -> bool {
    call.gravity.iter().all(|part| part.is_finite())
}

fn is_no_flag(word: u32) -> bool {
    word > 1
}

fn is_not_finite(bits: u32) -> bool {
    !f32::from_bits(bits).is_finite()
}

/// A place that is no region's; of an order, the index of the first such entry, or that names a region again, or that goes back
/// to an earlier colour.
fn bad_place(which: &Which, ids: &[u64]) -> Option<usize> {
    let colour = |place: u64| plane::colour(ids[place as usize]);
    match which {
        Which::All => None,
        Which::Region(place) => (*place >= ids.len() as u64).then_some(0),
        Which::Order(order) => (0..order.len()).find(|index| {
            let (before, place) = (&order[..*index], order[*index]);
            place >= ids.len() as u64
                || before.contains(&place)
                || before.last().map_or(false, |before| colour(*before) > colour(place))
        }),
    }
}

/// The first record with such a word among its own.
fn first_record_with(words: &[u32], each: u64, is_bad: impl Fn(u32) -> bool) -> Option<usize> {
    words.iter().position(|word| is_bad(*word)).map(|place| place / each as usize)
}

/// The first region that does not start where those before it end, or that has more particles than are left; or, where
/// particles are left over, the number of regions.
fn first_bad_range(call: &Call) -> Option<usize> {
    let mut end = 0;
    for (place, range) in call.ranges.chunks(2).enumerate() {
        if range[0] != end || range[1] > call.particles - end {
            return Some(place);
        }
        end += range[1];
    }
    (end < call.particles).then_some(call.ids.len())
}

/// Of each particle, the first cell of its stencil, where r is in range.
fn first_cells(call: &Call) -> impl Iterator<Item = Option<[u32; 2]>> + '_ {
    (0..call.particles as usize).map(|particle| plane::first_cell(call.position(particle), call.cell_width))
}

/// Of each particle, the region whose range it is in.
fn own_regions(call: &Call) -> impl Iterator<Item = u64> + '_ {
    call.ids.iter().zip(call.ranges.chunks(2)).flat_map(|(id, range)| (0..range[1]).map(move |_| *id))
}

fn is_listed(cell: Option<[u32; 2]>, ids: &[u64]) -> bool {
    cell.map_or(false, |cell| plane::regions(cell).iter().all(|region| ids.contains(region)))
}

pub const MOST_COLLIDERS: u64 = 16;
pub const PROJECTION_FLOATS: u64 = samples::PROJECTION_FLOATS as u64;

/// The last code of boundary handling, and both axes locked.
const LAST_HANDLING: u32 = 3;
const ALL_LOCKS: u32 = 3;

/// What the table says of a call of update: 1 to 6.
pub fn update(call: &Call) -> Option<Refusal> {
    let Boundary { colliders, frictions, points, insides, .. } = &call.boundary;
    refused(1, unless(update_counts(call)))
        .or_else(|| refused(2, unless(call.regions <= MOST_REGIONS && *colliders <= MOST_COLLIDERS)))
        .or_else(|| refused(3, unless(width_and_dt_are_good(call))))
        .or_else(|| refused(4, unless(codes_are_good(&call.boundary))))
        .or_else(|| refused(4, first_record_with(insides, 1, is_no_flag)))
        .or_else(|| refused(5, first_record_with(frictions, 1, is_not_finite)))
        .or_else(|| refused(5, first_record_with(points, PROJECTION_FLOATS, is_not_finite)))
        .or_else(|| refused(6, first_bad_region(&call.ids)))
}

fn codes_are_good(boundary: &Boundary) -> bool {
    boundary.handling <= LAST_HANDLING && boundary.locks <= ALL_LOCKS
}

/// Projections count 16 for each region and collider. A product beyond 128 bits is no list's length.
fn update_counts(call: &Call) -> bool {
    let Boundary { colliders, frictions, points, insides, .. } = &call.boundary;
    let is = |length: usize, factors: &[u64]| {
        let product = factors.iter().try_fold(1u128, |product, factor| product.checked_mul(u128::from(*factor)));
        product == Some(length as u128)
    };
    is(call.ids.len(), &[call.regions])
        && is(frictions.len(), &[*colliders])
        && is(points.len(), &[PROJECTION_FLOATS, REGION_NODES, call.regions, *colliders])
        && is(insides.len(), &[REGION_NODES, call.regions, *colliders])
        && is(call.node_floats.len(), &[REGION_NODES * NODE_FLOATS, call.regions])
        && is(call.node_words.len(), &[REGION_NODES * NODE_WORDS, call.regions])
}

/// What the table says of clear, scatter and update in one call, which is given all that the three are: 1 to 10 in their order, and in
/// 4 and 5 its own settings, then particles, then colliders, then projections.
pub fn clear_scatter_update(call: &Call) -> Option<Refusal> {
    let Boundary { colliders, frictions, points, insides, .. } = &call.boundary;
    refused(1, unless(scatter_counts(&Which::All, call) && update_counts(call)))
        .or_else(|| refused(2, unless(regions_and_particles_are_few(call) && *colliders <= MOST_COLLIDERS)))
        .or_else(|| refused(3, unless(width_and_dt_are_good(call) && gravity_is_good(call))))
        .or_else(|| refused(4, unless(codes_are_good(&call.boundary))))
        .or_else(|| refused(4, first_record_with(&call.particle_words, PARTICLE_WORDS, is_no_flag)))
        .or_else(|| refused(4, first_record_with(insides, 1, is_no_flag)))
        .or_else(|| refused(5, first_record_with(&call.particle_floats, PARTICLE_FLOATS, is_not_finite)))
        .or_else(|| refused(5, first_record_with(frictions, 1, is_not_finite)))
        .or_else(|| refused(5, first_record_with(points, PROJECTION_FLOATS, is_not_finite)))
        .or_else(|| ids_ranges_and_positions(call))
}

/// Of each particle the second half is given a density and an energy, and whether it failed.
pub const GIVEN_FLOATS: u64 = 1 + 1;
pub const GIVEN_WORDS: u64 = 1;

/// What the table says of the first half of gather: 1 to 10, without gravity. It is given the lists that a scatter is, and its own
/// setting, ahead of records in 4, is a flag.
pub fn first_half(call: &Call) -> Option<Refusal> {
    refused(1, unless(scatter_counts(&Which::All, call)))
        .or_else(|| refused(2, unless(regions_and_particles_are_few(call))))
        .or_else(|| refused(3, unless(width_and_dt_are_good(call))))
        .or_else(|| refused(4, unless(!is_no_flag(call.gather.eigenerosion))))
        .or_else(|| refused(4, first_record_with(&call.particle_words, PARTICLE_WORDS, is_no_flag)))
        .or_else(|| refused(5, first_record_with(&call.particle_floats, PARTICLE_FLOATS, is_not_finite)))
        .or_else(|| ids_ranges_and_positions(call))
}

/// What the table says of the second half of gather, which is given particles and a list beside them: 1, 2, 4, 5, and in 4 and 5
/// particles first.
pub fn second_half(call: &Call) -> Option<Refusal> {
    let Gather { given_floats, given_words, .. } = &call.gather;
    refused(1, unless(second_half_counts(call)))
        .or_else(|| refused(2, unless(call.particles <= MOST_PARTICLES)))
        .or_else(|| refused(4, first_record_with(&call.particle_words, PARTICLE_WORDS, is_no_flag)))
        .or_else(|| refused(4, first_record_with(given_words, GIVEN_WORDS, is_no_flag)))
        .or_else(|| refused(5, first_record_with(&call.particle_floats, PARTICLE_FLOATS, is_not_finite)))
        .or_else(|| refused(5, first_record_with(given_floats, GIVEN_FLOATS, is_not_finite)))
}

fn second_half_counts(call: &Call) -> bool {
    let Gather { given_floats, given_words, .. } = &call.gather;
    let lists = [(&call.particle_floats, PARTICLE_FLOATS), (&call.particle_words, PARTICLE_WORDS)];
    let given = [(given_floats, GIVEN_FLOATS), (given_words, GIVEN_WORDS)];
    lists.iter().chain(&given).all(|(list, each)| list.len() as u128 == u128::from(call.particles) * u128::from(*each))
}

/// What the table says of a recomputation of fluids' volumes: 1 to 10, with h alone in 3. It is given the lists that a scatter is, and has
/// no setting of its own in 4.
pub fn fluids(call: &Call) -> Option<Refusal> {
    refused(1, unless(scatter_counts(&Which::All, call)))
        .or_else(|| refused(2, unless(regions_and_particles_are_few(call))))
        .or_else(|| refused(3, unless(width_is_good(call))))
        .or_else(|| refused(4, first_record_with(&call.particle_words, PARTICLE_WORDS, is_no_flag)))
        .or_else(|| refused(5, first_record_with(&call.particle_floats, PARTICLE_FLOATS, is_not_finite)))
        .or_else(|| ids_ranges_and_positions(call))
}

/// The length of a substep, and what remains after it.
#[derive(Debug, PartialEq)]
pub struct Substep {
    pub length: f32,
    pub remaining: f32,
}

/// The least length of a substep that more remains than: total/max_num_substeps, the count as an f32, ties to even.
pub fn least_length(total: f32, max_num_substeps: u32) -> f32 {
    total / max_num_substeps as f32
}

/// The least length that a call answers, or what it is refused for, as the table has it of lengths: 3 for a total that is not finite, which
/// may be 0 or less, and 4 for a max_num_substeps of 0.
pub fn min_dt(total: f32, max_num_substeps: u32) -> Result<f32, Refusal> {
    let refusal = refused(3, unless(total.is_finite())).or_else(|| refused(4, unless(max_num_substeps != 0)));
    refusal.map_or(Ok(least_length(total, max_num_substeps)), Err)
}

/// One substep of this proposal, or what it is refused for: 3, and 4 for a proposal that breaks its rule.
pub fn substep(remaining: f32, min: f32, max_substep_dt: f32, proposal: f32) -> Result<Substep, Refusal> {
    if ![remaining, min, max_substep_dt].iter().all(|number| number.is_finite()) {
        return Err(Refusal { number: 3, index: 0 });
    }
    let keeps_its_rule = proposal > 0.0 && proposal <= remaining && proposal <= max_substep_dt;
    if !keeps_its_rule {
        return Err(Refusal { number: 4, index: 0 });
    }
    let length = if proposal < min && remaining > min { min } else { proposal };
    Ok(Substep { length, remaining: remaining - length })
}

/// The lengths of a step, or what it is refused for: 1, 3, 4, and of 4 its own settings first, then proposals as they are taken. Before
/// each substep the ends are looked at: whether nothing remains, whether one was done and no more asked for, whether no proposal is left.
pub fn step_lengths(step: &Step) -> Result<Taken, Refusal> {
    let Step { total, max_substep_dt, max_num_substeps, stop_after_one_substep, proposals, dts } = step;
    let no_settings = refused(1, unless(dts.len() as u64 == *proposals))
        .or_else(|| refused(3, unless(total.is_finite() && max_substep_dt.is_finite())))
        .or_else(|| refused(4, unless(*max_num_substeps != 0 && !is_no_flag(*stop_after_one_substep))));
    if let Some(refusal) = no_settings {
        return Err(refusal);
    }
    let min = least_length(*total, *max_num_substeps);
    let mut remaining = *total;
    let mut dts = dts.iter().map(|dt| f32::from_bits(*dt));
    for count in 0.. {
        let ended = |end: u32| Ok(Taken { count, remaining, end });
        if !(remaining > 0.0) {
            return ended(FINISHED);
        }
        if *stop_after_one_substep == 1 && count == 1 {
            return ended(ONE_DONE);
        }
        match dts.next() {
            None => return ended(NONE_LEFT),
            Some(dt) => {
                let taken = substep(remaining, min, *max_substep_dt, dt);
                remaining = taken.map_err(|refusal| Refusal { index: count, ..refusal })?.remaining;
            }
        }
    }
    unreachable!("proposals end")
}

#[cfg(test)]
mod tests {
    use super::*;
    use crate::rng::{Rng, SEED};

    #[test]
    fn in_an_ascending_list_every_id_is_where_it_stands() {
        for length in 0..600 {
            let ids: Vec<u64> = (0..length).map(|place| 3 * place + 5).collect();
            for sought in 0..3 * length + 9 {
                assert_eq!(lookup(&ids, sought), ids.binary_search(&sought).ok());
            }
        }
    }

    #[test]
    fn halves_are_taken_as_the_rule_says() {
        assert_eq!(lookup(&[7, 7], 7), Some(1));
        assert_eq!(lookup(&[7, 7, 7], 7), Some(2));
        assert_eq!(lookup(&[9, 5], 9), None);
        assert_eq!(lookup(&[9, 5], 5), Some(1));
        assert_eq!(lookup(&[1, 9, 5], 9), None);
        assert_eq!(lookup(&[8, 9, 1], 8), Some(0));
        assert_eq!(lookup(&[8, 1, 9], 8), None);
    }

    #[test]
    fn what_is_found_in_any_list_stands_there() {
        let mut rng = Rng::new(SEED);
        for length in 0..200 {
            let ids: Vec<u64> = (0..length).map(|_| rng.below(length)).collect();
            let found = (0..length).filter_map(|sought| lookup(&ids, sought).map(|place| (sought, place)));
            assert!(found.into_iter().all(|(sought, place)| ids[place] == sought));
        }
    }

    fn refused(number: u32, index: usize) -> Option<Refusal> {
        super::refused(number, Some(index))
    }

    #[test]
    fn the_table_on_cases_of_each_kind() {
        assert_eq!(clear(0, &[], 0, 0), None);
        assert_eq!(clear(1, &[4096], 112, 16), None);
        assert_eq!(clear(1, &[4096], 111, 16), refused(1, 0));
        assert_eq!(clear(1, &[4096], 112, 17), refused(1, 0));
        assert_eq!(clear(2, &[4096], 224, 32), refused(1, 0));
        assert_eq!(clear(1 << 60, &[], 0, 0), refused(1, 0));
        assert_eq!(clear(2, &[4096, 4097], 224, 32), refused(6, 1));
        assert_eq!(clear(2, &[1, 0], 224, 32), refused(6, 0));
        assert_eq!(clear(3, &[0, 4096, 4096], 336, 48), refused(6, 2));
        assert_eq!(clear(3, &[4096, 0, 1], 336, 48), refused(6, 1));
    }

    #[test]
    fn a_count_over_its_limit_comes_after_lengths_and_before_ids() {
        let ids = vec![1; 513];
        assert_eq!(clear(513, &ids, 513 * 112, 513 * 16), refused(2, 0));
        assert_eq!(clear(513, &ids, 513 * 112, 512 * 16), refused(1, 0));
        assert_eq!(clear(512, &ids[..512], 512 * 112, 512 * 16), refused(6, 0));
    }

    /// Regions 0, 4096 and 8192 with one particle each, at their first nodes, which reach no other region.
    fn three() -> Call {
        let mut call = Call::on(vec![0, 4096, 8192]);
        call.ranges = vec![0, 1, 1, 1, 2, 1];
        call.particles = 3;
        call.particle_floats = vec![0; 78];
        call.particle_words = vec![0; 12];
        for (particle, position) in [[1f32, 1.0], [5.0, 1.0], [1.0, 5.0]].into_iter().enumerate() {
            call.particle_floats[26 * particle..26 * particle + 2].copy_from_slice(&position.map(f32::to_bits));
        }
        call
    }

    /// What the table says of the three with these changes.
    fn of(which: &Which, edits: &[&str]) -> Option<Refusal> {
        scatter(which, &three().edited(&edits.iter().map(|edit| edit.parse().unwrap()).collect::<Vec<_>>()))
    }

    #[test]
    fn nothing_is_said_of_good_calls() {
        for which in [Which::All, Which::Region(0), Which::Region(2), Which::Order(&[0, 1, 2])] {
            assert_eq!(of(&which, &[]), None);
        }
        assert_eq!(scatter(&Which::All, &Call::on(vec![])), None);
        assert_eq!(scatter(&Which::Order(&[]), &Call::on(vec![])), None);
        assert_eq!(scatter(&Which::Region(0), &Call::on(vec![])), refused(4, 0));
    }

    #[test]
    fn lengths_come_before_limits_and_limits_before_settings() {
        for edit in ["i#2", "s#5", "s#7", "f#77", "w#13", "m#335", "k#49", "r=2", "p=4", "r=18446744073709551615"] {
            assert_eq!(of(&Which::All, &[edit, "h=7FC00000"]), refused(1, 0), "{}", edit);
        }
        assert_eq!(of(&Which::All, &["p=9223372036854775808", "f#0", "w#0"]), refused(1, 0));
        assert_eq!(of(&Which::Order(&[0, 1]), &[]), refused(1, 0));
        assert_eq!(of(&Which::All, &["*65537", "h=7FC00000"]), refused(2, 0));
        assert_eq!(of(&Which::All, &["r=513", "i#513", "s#1026", "m#57456", "k#8208"]), refused(2, 0));
    }

    #[test]
    fn settings_have_their_ranges() {
        for edit in [
            "h=357FFFFF",
            "h=49800001",
            "h=7F800000",
            "h=BF800000",
            "t=0",
            "t=80000000",
            "t=7F800000",
            "x=FF800000",
            "y=7FC00000",
        ] {
            assert_eq!(of(&Which::Region(9), &[edit, "w0=2"]), refused(3, 0), "{}", edit);
        }
        assert_eq!(of(&Which::All, &["t=1"]), None);
        assert_eq!(of(&Which::All, &["h=35800000"]), refused(8, 0));
        assert_eq!(of(&Which::All, &["h=49800000"]), refused(8, 0));
    }

    #[test]
    fn a_calls_own_places_come_before_flags_and_flags_before_numbers() {
        assert_eq!(of(&Which::Region(3), &["w5=2"]), refused(4, 0));
        assert_eq!(of(&Which::Order(&[0, 1, 3]), &["w0=2"]), refused(4, 2));
        assert_eq!(of(&Which::Order(&[0, 1, 1]), &["w0=2"]), refused(4, 2));
        assert_eq!(of(&Which::Order(&[0, 2, 1]), &["w0=2"]), refused(4, 2));
        assert_eq!(of(&Which::Order(&[2, 0, 1]), &[]), refused(4, 1));
        assert_eq!(of(&Which::Order(&[2, 0, 1]), &["i2=0"]), refused(6, 2));
        assert_eq!(of(&Which::All, &["w11=2", "f0=7F800000"]), refused(4, 2));
        assert_eq!(of(&Which::All, &["f77=FFC00000", "f51=7F800000", "i0=1"]), refused(5, 1));
    }

    #[test]
    fn ids_come_before_ranges_and_ranges_before_particles() {
        assert_eq!(of(&Which::All, &["i1=0", "s0=1"]), refused(6, 1));
        assert_eq!(of(&Which::All, &["s2=2", "f0=0"]), refused(7, 1));
        assert_eq!(of(&Which::All, &["s3=FFFFFFFFFFFFFFFF", "f0=0"]), refused(7, 1));
        assert_eq!(of(&Which::All, &["s5=0", "f0=0"]), refused(7, 3));
        assert_eq!(of(&Which::All, &["s5=2", "f0=0"]), refused(7, 2));
        let mut empty = Call::on(vec![]);
        empty.particles = 1;
        empty.particle_floats = vec![0; 26];
        empty.particle_words = vec![0; 4];
        assert_eq!(scatter(&Which::All, &empty), refused(7, 0));
    }

    #[test]
    fn r_comes_before_the_region_and_that_before_its_neighbours() {
        assert_eq!(of(&Which::All, &["f53=0", "f0=40A00000"]), refused(8, 2));
        assert_eq!(of(&Which::All, &["f0=40A00000", "f26=40E00000"]), refused(9, 0));
        assert_eq!(of(&Which::All, &["f26=40E00000"]), refused(10, 1));
        assert_eq!(of(&Which::All, &["f0=40400000"]), None);
        assert_eq!(of(&Which::All, &["f1=40400000", "f0=40400000"]), refused(10, 0));
    }

    /// What the table says of an update of the three, with two colliders and these changes, and of the whole sequence.
    fn of_both(edits: &[&str]) -> [Option<Refusal>; 2] {
        let edits: Vec<_> = edits.iter().map(|edit| edit.parse().unwrap()).collect();
        let call = three().bounded(2, &[0.5, 1.0]).edited(&edits);
        [update(&call), clear_scatter_update(&call)]
    }

    #[test]
    fn updates_that_are_good() {
        for edits in [&[][..], &["b=3", "d=3"], &["b=0", "n0=FF7FFFFF"], &["m3=7FC00000", "k4=7"], &["q95=1", "j191=80000000"]] {
            assert_eq!(of_both(edits), [None, None], "{:?}", edits);
        }
        assert_eq!(of_both(&["x=7FC00000"]), [None, refused(3, 0)]);
        assert_eq!(update(&Call::on(vec![])), None);
        assert_eq!(update(&Call::on(vec![]).bounded(1, &[0.0; 16])), None);
        assert_eq!(update(&Call::on(vec![4096])), None);
    }

    #[test]
    fn of_an_update_lengths_come_first_and_then_limits() {
        for edit in ["i#2", "n#1", "n#3", "j#191", "j#193", "q#95", "m#335", "k#49", "r=2", "c=1", "c=3", "c=9223372036854775808"]
        {
            assert_eq!(update(&three().bounded(2, &[0.5, 1.0]).edited(&[edit.parse().unwrap()])), refused(1, 0), "{}", edit);
        }
        let beyond: Vec<_> = ["r=18446744073709551615", "c=18446744073709551615"].map(|edit| edit.parse().unwrap()).to_vec();
        assert_eq!(update(&three().bounded(2, &[0.5]).edited(&beyond)), refused(1, 0));
        assert_eq!(update(&three().bounded(2, &[0.5; 16])), None);
        assert_eq!(update(&three().bounded(9, &[f32::NAN; 17])), refused(2, 0));
        assert_eq!(update(&Call::on(vec![]).bounded(2, &[0.5; 17])), refused(2, 0));
        assert_eq!(update(&Call { dt: 0.0, ..Call::on(vec![7; 513]) }), refused(2, 0));
    }

    #[test]
    fn of_an_update_settings_come_before_flags_flags_before_numbers_and_these_before_ids() {
        assert_eq!(of_both(&["h=357FFFFF", "b=4"]), [refused(3, 0), refused(3, 0)]);
        assert_eq!(of_both(&["t=80000000", "d=4"]), [refused(3, 0), refused(3, 0)]);
        for edit in ["b=4", "d=4", "b=FFFFFFFF", "d=80000000"] {
            assert_eq!(of_both(&[edit, "q0=2", "i1=1"])[0], refused(4, 0), "{}", edit);
        }
        assert_eq!(of_both(&["q17=2", "n1=7F800000", "j0=7F800000"])[0], refused(4, 17));
        assert_eq!(of_both(&["n1=7F800000", "j0=7F800000", "i1=1"])[0], refused(5, 1));
        assert_eq!(of_both(&["j187=FFC00000", "j190=7F800000", "i1=1"])[0], refused(5, 93));
        assert_eq!(of_both(&["i2=1000"])[0], refused(6, 2));
    }

    #[test]
    fn of_the_sequence_numbers_come_in_their_order_whoever_they_belong_to() {
        let of = |edits: &[&str]| {
            let [_, sequence] = of_both(edits);
            sequence
        };
        assert_eq!(of(&["j#0", "i1=0"]), refused(1, 0));
        assert_eq!(of(&["f#1", "b=4"]), refused(1, 0));
        assert_eq!(of(&["y=7FC00000", "b=4"]), refused(3, 0));
        assert_eq!(of(&["d=4", "w5=2", "q2=2"]), refused(4, 0));
        assert_eq!(of(&["w5=2", "q2=2", "f0=7FC00000"]), refused(4, 1));
        assert_eq!(of(&["q2=2", "f0=7FC00000"]), refused(4, 2));
        assert_eq!(of(&["f60=7FC00000", "n0=7F800000", "j0=7F800000"]), refused(5, 2));
        assert_eq!(of(&["n1=7F800000", "j0=7F800000", "i1=0"]), refused(5, 1));
        assert_eq!(of(&["j7=7F800000", "i1=0", "s5=0"]), refused(5, 3));
        assert_eq!(of(&["i1=0", "s5=0"]), refused(6, 1));
        assert_eq!(of(&["s5=0", "f0=0"]), refused(7, 3));
        assert_eq!(of(&["f1=40400000", "f0=40400000"]), refused(10, 0));
    }

    /// What the table says of the halves of a gather of the three, with these changes.
    fn of_halves(edits: &[&str]) -> [Option<Refusal>; 2] {
        let gather = Gather { eigenerosion: 1, given_floats: vec![0; 6], given_words: vec![0; 3] };
        let edits: Vec<_> = edits.iter().map(|edit| edit.parse().unwrap()).collect();
        let call = Call { gather, ..three() }.edited(&edits);
        [first_half(&call), second_half(&call)]
    }

    #[test]
    fn gathers_that_are_good() {
        let nodes_of_any_pattern = ["m3=7FC00000", "m5=FF800000", "k4=7"];
        let largest = ["f16=FF7FFFFF", "g0=7F7FFFFF", "g5=80000000", "v2=1", "w11=1"];
        for edits in [&[][..], &["e=0"], &["x=7FC00000", "y=7F800000"], &nodes_of_any_pattern, &largest] {
            assert_eq!(of_halves(edits), [None, None], "{:?}", edits);
        }
        assert_eq!([first_half(&Call::on(vec![])), second_half(&Call::on(vec![]))], [None, None]);
        assert_eq!(first_half(&Call::on(vec![0, 4096])), None);
    }

    /// Each half looks at what it is given and at nothing else.
    #[test]
    fn a_half_does_not_look_at_the_others_lists() {
        for edits in [&["h=0", "t=0", "e=2", "i1=0", "s5=0", "f0=0"][..], &["r=2"], &["i#0", "s#0", "m#0", "k#0"], &["r=513"]] {
            let [first, second] = of_halves(edits);
            assert!(first.is_some() && second.is_none(), "{:?}", edits);
        }
        for edits in [&["g#0", "v#0"][..], &["g0=7FC00000", "v0=2"], &["g#7"], &["v#2"]] {
            let [first, second] = of_halves(edits);
            assert!(first.is_none() && second.is_some(), "{:?}", edits);
        }
    }

    #[test]
    fn of_a_gather_lengths_come_first_and_then_limits() {
        for edit in ["i#2", "s#5", "f#77", "w#13", "m#335", "k#49", "r=2", "p=4"] {
            assert_eq!(of_halves(&[edit, "h=7FC00000", "e=2"])[0], refused(1, 0), "{}", edit);
        }
        for edit in ["f#77", "f#79", "w#13", "g#5", "g#7", "v#2", "v#4", "p=2", "p=4", "p=9223372036854775811"] {
            assert_eq!(of_halves(&[edit, "w0=2", "v0=2"])[1], refused(1, 0), "{}", edit);
        }
        for none in
            [&["p=9223372036854775808", "f#0", "w#0", "g#0", "v#0"], &["p=4611686018427387904", "f#0", "w#0", "g#0", "v#0"]]
        {
            assert_eq!(of_halves(none), [refused(1, 0), refused(1, 0)]);
        }
        assert_eq!(of_halves(&["*65537", "h=7FC00000", "w0=2"]), [refused(2, 0), refused(2, 0)]);
        assert_eq!(of_halves(&["r=513", "i#513", "s#1026", "m#57456", "k#8208", "t=0"])[0], refused(2, 0));
        assert_eq!(of_halves(&["*65536", "w0=2"]), [refused(4, 0), refused(4, 0)]);
    }

    #[test]
    fn of_a_gather_flags_come_before_numbers_and_particles_before_what_is_given() {
        assert_eq!(of_halves(&["h=0", "e=2"])[0], refused(3, 0));
        assert_eq!(of_halves(&["t=80000000", "e=2"])[0], refused(3, 0));
        assert_eq!(of_halves(&["e=2", "w5=2"]), [refused(4, 0), refused(4, 1)]);
        assert_eq!(of_halves(&["e=80000001", "f0=7FC00000"]), [refused(4, 0), refused(5, 0)]);
        assert_eq!(of_halves(&["w11=2", "v0=2"]), [refused(4, 2), refused(4, 2)]);
        assert_eq!(of_halves(&["v1=2", "f0=7FC00000"]), [refused(5, 0), refused(4, 1)]);
        assert_eq!(of_halves(&["f77=7FC00000", "g0=7FC00000", "i1=0"]), [refused(5, 2), refused(5, 2)]);
        assert_eq!(of_halves(&["g3=FF800000", "g4=7FC00000"]), [None, refused(5, 1)]);
        assert_eq!(of_halves(&["g2=7F800001"]), [None, refused(5, 1)]);
    }

    #[test]
    fn of_a_first_half_ids_come_before_ranges_and_these_before_positions() {
        let of = |edits: &[&str]| {
            let [first, _] = of_halves(edits);
            first
        };
        assert_eq!(of(&["i1=0", "s0=1"]), refused(6, 1));
        assert_eq!(of(&["s5=0", "f0=0"]), refused(7, 3));
        assert_eq!(of(&["f53=0", "f0=40A00000"]), refused(8, 2));
        assert_eq!(of(&["f0=40A00000", "f26=40E00000"]), refused(9, 0));
        assert_eq!(of(&["f26=40E00000"]), refused(10, 1));
    }

    /// What the table says of a recomputation of the three, with these changes.
    fn of_fluids(edits: &[&str]) -> Option<Refusal> {
        fluids(&three().edited(&edits.iter().map(|edit| edit.parse().unwrap()).collect::<Vec<_>>()))
    }

    #[test]
    fn of_fluids_h_is_the_only_setting() {
        let unused = ["t=7FC00000", "x=7F800000", "y=FFC00000", "e=2", "b=9", "d=9", "c=7"];
        let largest = ["f12=FF7FFFFF", "f13=0", "w2=1", "m0=7FC00000", "m7=FF800000", "k4=7"];
        for edits in [&[][..], &unused, &largest, &["f0=40400000"]] {
            assert_eq!(of_fluids(edits), None, "{:?}", edits);
        }
        for edit in ["h=357FFFFF", "h=49800001", "h=7F800000", "h=FFC00000", "h=0", "h=BF800000"] {
            assert_eq!(of_fluids(&[edit, "w0=2"]), refused(3, 0), "{}", edit);
        }
        assert_eq!([fluids(&Call::on(vec![])), fluids(&Call::on(vec![0, 1 << 63]))], [None, None]);
    }

    #[test]
    fn of_fluids_numbers_come_in_their_order() {
        for edit in ["i#2", "s#5", "f#77", "w#13", "m#335", "k#49", "r=2", "p=4", "r=18446744073709551615"] {
            assert_eq!(of_fluids(&[edit, "h=0"]), refused(1, 0), "{}", edit);
        }
        assert_eq!(of_fluids(&["*65537", "h=0"]), refused(2, 0));
        assert_eq!(of_fluids(&["w11=2", "f0=7F800000"]), refused(4, 2));
        assert_eq!(of_fluids(&["f77=FFC00000", "f51=7F800000", "i0=1"]), refused(5, 1));
        assert_eq!(of_fluids(&["i1=0", "s0=1"]), refused(6, 1));
        assert_eq!(of_fluids(&["s5=0", "f0=0"]), refused(7, 3));
        assert_eq!(of_fluids(&["f53=0", "f0=40A00000"]), refused(8, 2));
        assert_eq!(of_fluids(&["f0=40A00000", "f26=40E00000"]), refused(9, 0));
        assert_eq!(of_fluids(&["f26=40E00000"]), refused(10, 1));
    }

    /// A step whose least length is a fourth, with these proposals.
    fn quarters(dts: &[f32]) -> Step {
        let settings =
            Step { total: 1.0, max_substep_dt: 0.5, max_num_substeps: 4, stop_after_one_substep: 0, proposals: 0, dts: vec![] };
        settings.with(dts)
    }

    #[test]
    fn lengths_by_hand() {
        let of = |dts: &[f32]| step_lengths(&quarters(dts)).map(|Taken { count, remaining, end }| (count, remaining, end));
        assert_eq!(of(&[]), Ok((0, 1.0, NONE_LEFT)));
        assert_eq!(of(&[0.5, 0.5]), Ok((2, 0.0, FINISHED)));
        assert_eq!(of(&[0.1, 0.3, 0.2]), Ok((3, 1.0 - 0.25 - 0.3 - 0.25, NONE_LEFT)));
        assert_eq!(of(&[0.25, 0.25, 0.25, 0.125, 0.125, f32::NAN]), Ok((5, 0.0, FINISHED)));
        let refused = |index: usize| Err(Refusal { number: 4, index });
        assert_eq!([of(&[0.50000006]), of(&[0.5, 0.0]), of(&[0.5, 0.375, 0.25])], [refused(0), refused(1), refused(2)]);
        let one = Step { stop_after_one_substep: 1, ..quarters(&[0.5, f32::NAN]) };
        assert_eq!(step_lengths(&one), Ok(Taken { count: 1, remaining: 0.5, end: ONE_DONE }));
        assert_eq!(step_lengths(&Step { total: 0.5, ..one }), Ok(Taken { count: 1, remaining: 0.0, end: FINISHED }));
        let negative = Step { total: -3.5, ..quarters(&[f32::NAN]) };
        assert_eq!(step_lengths(&negative), Ok(Taken { count: 0, remaining: -3.5, end: FINISHED }));
    }

    #[test]
    fn of_the_least_length_the_total_comes_first() {
        let refused = |number: u32| Err(Refusal { number, index: 0 });
        assert_eq!([min_dt(1.0, 4), min_dt(0.0, 4), min_dt(-1.0, 1), min_dt(f32::MAX, 1)], [0.25, 0.0, -1.0, f32::MAX].map(Ok));
        for total in [f32::NAN, f32::INFINITY, f32::NEG_INFINITY] {
            assert_eq!([min_dt(total, 4), min_dt(total, 0)], [refused(3), refused(3)]);
        }
        assert_eq!([0.0, 1.0, -1.0].map(|total| min_dt(total, 0)), [refused(4), refused(4), refused(4)]);
    }

    #[test]
    fn of_lengths_counts_come_before_numbers_and_these_before_settings_and_proposals() {
        let worst = Step {
            total: f32::NAN,
            max_substep_dt: f32::INFINITY,
            max_num_substeps: 0,
            stop_after_one_substep: 2,
            proposals: 7,
            ..quarters(&[0.5, f32::NAN])
        };
        let number = |step: &Step| step_lengths(step).err().map(|refusal| (refusal.number, refusal.index));
        let counted = Step { proposals: 2, ..worst.clone() };
        let total = Step { total: 1.0, ..counted.clone() };
        let finite = Step { max_substep_dt: -1.0, ..total.clone() };
        let some = Step { max_num_substeps: 1, ..finite.clone() };
        let flag = Step { stop_after_one_substep: 1, ..some.clone() };
        assert_eq!([&worst, &counted, &total].map(number), [Some((1, 0)), Some((3, 0)), Some((3, 0))]);
        assert_eq!([&finite, &some, &flag].map(number), [Some((4, 0)); 3]);
        let proposal = Step { max_substep_dt: 9.0, stop_after_one_substep: 0, ..flag.clone() };
        assert_eq!([&proposal, &Step { max_substep_dt: 9.0, ..flag }].map(number), [Some((4, 1)), None]);
    }

    #[test]
    fn regions_are_the_rusts() {
        let mut rng = Rng::new(SEED);
        for _ in 0..1000 {
            let cell = [0; 2].map(|_| rng.word() >> rng.below(32));
            let packed = sparkl2d::geometry::way_in::pack(cell);
            assert_eq!(plane::region(cell), packed & !0xFFF);
            assert_eq!(plane::number_in_region(cell) as u64, packed >> 6 & 15);
        }
    }
}
