//! Changes of good calls that each break a rule, or now and then none.

use super::floats::patterns;
use crate::rng::Rng;
use samples::lines::Edit;
use samples::{Call, GIVEN_FLOATS, PARTICLE_FLOATS, PARTICLE_WORDS, PROJECTION_FLOATS, REGION_FLOATS, REGION_NODES};

/// What a scatter can be refused for.
pub fn of_scatter(call: &Call) -> Vec<Vec<Edit>> {
    of_particles_and_nodes(call, "htxy")
}

/// What a recomputation of fluids' volumes can be refused for.
pub fn of_fluids(call: &Call) -> Vec<Vec<Edit>> {
    of_particles_and_nodes(call, "h")
}

/// What the first half of a gather can be refused for.
pub fn of_first_half(call: &Call) -> Vec<Vec<Edit>> {
    [of_particles_and_nodes(call, "ht"), wrong_codes("e")].concat()
}

/// What the second half of a gather can be refused for.
pub fn of_second_half(call: &Call) -> Vec<Vec<Edit>> {
    let lists = [
        ('f', call.particle_floats.len(), PARTICLE_FLOATS),
        ('w', call.particle_words.len(), PARTICLE_WORDS),
        ('g', call.gather.given_floats.len(), GIVEN_FLOATS),
        ('v', call.gather.given_words.len(), 1),
    ];
    let mut found = wrong_lengths(&lists);
    found.extend(wrong_counts(&[('p', call.particles)]));
    let none = lists.map(|(letter, ..)| Edit::Length(letter, 0));
    found.extend([61, 62, 63].map(|bit| [&[Edit::Count('p', 1 << bit)], &none[..]].concat()));
    found.extend(wrong_words('w', call.particle_words.len()));
    found.extend(wrong_words('v', call.gather.given_words.len()));
    found.extend(wrong_floats(call));
    found.extend(wrong_entries('g', 0..call.gather.given_floats.len()));
    found
}

/// What a call can be refused for that is given these settings, regions, particles and nodes.
fn of_particles_and_nodes(call: &Call, settings: &str) -> Vec<Vec<Edit>> {
    let lists = [
        ('i', call.ids.len(), 1),
        ('s', call.ranges.len(), 2),
        ('f', call.particle_floats.len(), PARTICLE_FLOATS),
        ('w', call.particle_words.len(), PARTICLE_WORDS),
        ('m', call.node_floats.len(), REGION_FLOATS),
        ('k', call.node_words.len(), REGION_NODES),
    ];
    let mut found = wrong_lengths(&lists);
    found.extend(wrong_counts(&[('r', call.regions), ('p', call.particles)]));
    found.extend([62, 63].map(|bit| vec![Edit::Count('p', 1 << bit), Edit::Length('f', 0), Edit::Length('w', 0)]));
    found.push(over_512());
    found.extend(wrong_settings(settings));
    found.extend(wrong_words('w', call.particle_words.len()));
    found.extend(wrong_floats(call));
    found.extend(wrong_ids(call));
    found.extend(wrong_ranges(call));
    found.extend(wrong_positions(call));
    found
}

/// What an update can be refused for.
pub fn of_update(call: &Call) -> Vec<Vec<Edit>> {
    let boundary = &call.boundary;
    let colliders = boundary.frictions.len();
    let lists = [
        ('i', call.ids.len(), 1),
        ('n', colliders, 1),
        ('j', boundary.points.len(), REGION_NODES * PROJECTION_FLOATS * colliders),
        ('q', boundary.insides.len(), REGION_NODES * colliders),
        ('m', call.node_floats.len(), REGION_FLOATS),
        ('k', call.node_words.len(), REGION_NODES),
    ];
    let mut found = wrong_lengths(&lists);
    found.extend(wrong_counts(&[('r', call.regions), ('c', boundary.colliders)]));
    found.extend(wrong_products());
    found.push([over_512(), projections(513, colliders)].concat());
    found.push(over_16(call.ids.len()));
    found.extend(wrong_settings("ht"));
    found.extend(wrong_codes("bd"));
    found.extend(wrong_words('q', boundary.insides.len()));
    found.extend(wrong_entries('n', 0..colliders));
    found.extend(wrong_entries('j', 0..boundary.points.len()));
    found.extend(wrong_ids(call));
    found.extend((0..12).map(|bit| vec![Edit::Entry('i', bit % call.ids.len(), call.ids[bit % call.ids.len()] | 1 << bit)]));
    found
}

/// Several faults at once. Entries come before lengths, so that each is still there when it is changed.
pub fn together(faults: &[Vec<Edit>], rng: &mut Rng) -> Vec<Edit> {
    let count = 2 + rng.below(3);
    let mut edits: Vec<Edit> = (0..count).flat_map(|_| faults[rng.below(faults.len() as u64) as usize].clone()).collect();
    edits.sort_by_key(|edit| matches!(edit, Edit::Length(..)));
    edits
}

/// One region more than may be, and lengths that match.
pub fn over_512() -> Vec<Edit> {
    let lengths = [('i', 513), ('s', 2 * 513), ('m', 513 * REGION_FLOATS), ('k', 513 * REGION_NODES)];
    let mut edits = vec![Edit::Count('r', 513)];
    edits.extend(lengths.map(|(letter, length)| Edit::Length(letter, length)));
    edits
}

/// One collider more than may be, and lengths that match.
pub fn over_16(regions: usize) -> Vec<Edit> {
    [vec![Edit::Count('c', 17), Edit::Length('n', 17)], projections(regions, 17)].concat()
}

/// The lengths of so many regions' and colliders' projections.
pub fn projections(regions: usize, colliders: usize) -> Vec<Edit> {
    let count = REGION_NODES * regions * colliders;
    vec![Edit::Length('j', PROJECTION_FLOATS * count), Edit::Length('q', count)]
}

/// Lists by their letters, with their lengths and what of each belongs to one record.
fn wrong_lengths(lists: &[(char, usize, usize)]) -> Vec<Vec<Edit>> {
    let lengths = |length: usize, each: usize| [length + 1, length - 1, length + each, length - each, 0, 2 * length];
    lists
        .iter()
        .flat_map(|(letter, length, each)| lengths(*length, *each).map(|other| vec![Edit::Length(*letter, other)]))
        .collect()
}

/// Counts that are off by one, and that are off by so much that their products with a record's size are right again in 64 bits
/// or in 32.
fn wrong_counts(counts: &[(char, u64)]) -> Vec<Vec<Edit>> {
    let others = |count: u64| {
        let wrapped = [32, 57, 58, 59, 60, 61, 62, 63].map(|bit| count + (1 << bit));
        [&[0, count - 1, count + 1, u64::MAX][..], &wrapped[..]].concat()
    };
    counts
        .iter()
        .flat_map(|(letter, count)| others(*count).into_iter().map(move |other| vec![Edit::Count(*letter, other)]))
        .collect()
}

/// Counts of regions and of colliders whose products with each other and with a record's size are 0 in 64 bits, or beyond 128.
fn wrong_products() -> Vec<Vec<Edit>> {
    let counts = [(1 << 60, 1), (1, 1 << 60), (1 << 59, 1), (1, 1 << 59), (1 << 32, 1 << 32), (1 << 63, 2), (2, 1 << 63)];
    let more =
        [(1 << 63, 1 << 63), (u64::MAX, u64::MAX), (1 << 62, 1 << 62), (1 << 63, 0), (0, 1 << 63), (0, 1 << 60), (1 << 60, 0)];
    let none = "inmkjq".chars().map(|letter| Edit::Length(letter, 0));
    let of = |(regions, colliders): (u64, u64)| vec![Edit::Count('r', regions), Edit::Count('c', colliders)];
    counts.into_iter().chain(more).flat_map(|counts| [of(counts), of(counts).into_iter().chain(none.clone()).collect()]).collect()
}

const NOT_FINITE: [u32; 5] = [0x7F80_0000, 0xFF80_0000, 0x7FC0_0000, 0x7F80_0001, 0xFFFF_FFFF];

/// What no setting of these may be; 0 and below are allowed to gravity, and what is just inside a range is no fault.
fn wrong_settings(letters: &str) -> Vec<Vec<Edit>> {
    let zeros_and_below = patterns(&[0.0, -0.0, -1e-45, -1.0, f32::MIN]);
    let widths = [0x3580_0000, 0x4980_0000].iter().flat_map(|end| [end - 1, *end, end + 1]);
    let widths = widths.chain(patterns(&[1e-45, f32::MIN_POSITIVE, f32::MAX]));
    let mut found: Vec<(char, u32)> = letters.chars().flat_map(|letter| NOT_FINITE.map(|bits| (letter, bits))).collect();
    found.extend(zeros_and_below.iter().flat_map(|bits| [('h', *bits), ('t', *bits)]));
    found.extend(widths.map(|bits| ('h', bits)));
    found.into_iter().map(|(letter, bits)| vec![Edit::Setting(letter, bits)]).collect()
}

/// Codes, locks and flags; of the first two, 0 to 3 are no fault, of the last, 0 and 1.
fn wrong_codes(letters: &str) -> Vec<Vec<Edit>> {
    let codes = [0, 1, 2, 3, 4, 5, 7, 8, 256, 1 << 16, 1 << 31, u32::MAX];
    codes.into_iter().flat_map(|code| letters.chars().map(move |letter| vec![Edit::Setting(letter, code)])).collect()
}

fn wrong_words(letter: char, count: usize) -> Vec<Vec<Edit>> {
    let values = [2, 3, 7, 1 << 31, u32::MAX, 256].into_iter().cycle();
    (0..count).zip(values).map(|(place, value)| vec![Edit::Entry(letter, place, u64::from(value))]).collect()
}

/// Every float of the first, the last and a middle particle.
fn wrong_floats(call: &Call) -> Vec<Vec<Edit>> {
    let last = call.particles as usize - 1;
    let places = [0, last / 2, last]
        .into_iter()
        .flat_map(|particle| (0..PARTICLE_FLOATS).map(move |place| particle * PARTICLE_FLOATS + place));
    wrong_entries('f', places)
}

fn wrong_entries(letter: char, places: impl Iterator<Item = usize>) -> Vec<Vec<Edit>> {
    places.zip(NOT_FINITE.into_iter().cycle()).map(|(place, value)| vec![Edit::Entry(letter, place, u64::from(value))]).collect()
}

/// Low bits, ids again and out of order, and regions that are listed in another's stead.
fn wrong_ids(call: &Call) -> Vec<Vec<Edit>> {
    let mut found = vec![];
    for (place, id) in call.ids.iter().enumerate() {
        let before = call.ids[place.saturating_sub(1)];
        let others = [id | 1 << (place % 12), before, before & !0xFFF ^ 0x1000, 0, !0xFFF, u64::MAX];
        found.extend(others.map(|other| vec![Edit::Entry('i', place, other)]));
        found.extend([1, 2, 3, 4].map(|more| vec![Edit::Entry('i', place, id + (more << 12))]));
    }
    found
}

fn wrong_ranges(call: &Call) -> Vec<Vec<Edit>> {
    let others = |entry: u64| [entry + 1, entry.wrapping_sub(1), u64::MAX, 1 << 63, 1 << 32];
    let entries = call.ranges.iter().enumerate();
    let mut found: Vec<Vec<Edit>> =
        entries.flat_map(|(place, entry)| others(*entry).map(|other| vec![Edit::Entry('s', place, other)])).collect();
    // A count that wraps where the next start is right again.
    found.extend((0..call.ids.len() - 1).map(|region| {
        let (start, count) = (2 * region, 2 * region + 1);
        vec![Edit::Entry('s', count, u64::MAX), Edit::Entry('s', start + 2, call.ranges[start].wrapping_sub(1))]
    }));
    found.push(vec![Edit::Count('p', call.particles + 1), more('f', call, 1), more('w', call, 1)]);
    found.push(vec![Edit::Count('p', call.particles - 1), more('f', call, -1), more('w', call, -1)]);
    found
}

/// The particles' floats or words for so many particles more or less.
fn more(letter: char, call: &Call, more: i64) -> Edit {
    let each = if letter == 'f' { PARTICLE_FLOATS } else { PARTICLE_WORDS };
    Edit::Length(letter, (call.particles as i64 + more) as usize * each)
}

/// Places off the grid, in other regions, and at each cell of a region, where stencils reach regions that are not listed.
fn wrong_positions(call: &Call) -> Vec<Vec<Edit>> {
    const OFF: [f32; 12] = [0.0, -0.0, -1.0, 0.25, 0.49999997, 65535.5, 65536.0, 4294967296.0, 1e20, -1e20, 1e-45, f32::MAX];
    let mut found = vec![];
    for particle in 0..call.particles as usize {
        let position = call.position(particle);
        let at = |axis: usize, x: f32| Edit::Entry('f', particle * PARTICLE_FLOATS + axis, u64::from(x.to_bits()));
        let off = OFF[particle % OFF.len()..].iter().chain(&OFF[..particle % OFF.len()]).take(5);
        found
            .extend(off.zip([0, 1].into_iter().cycle()).map(|(off, axis)| vec![at(axis, (off * call.cell_width).min(f32::MAX))]));
        for cells in [1.0, 2.0, 3.0, 4.0, -4.0] {
            let moved = position.map(|x| x + cells * call.cell_width);
            found.extend([vec![at(0, moved[0])], vec![at(1, moved[1])], vec![at(0, moved[0]), at(1, moved[1])]]);
        }
    }
    found
}
