//! Calls with something wrong about them, or only strange: changes that break a rule on purpose, several at once, and changes anywhere.

use super::shrink::{without_collider, without_particle, without_region};
use super::stages::{Asked, Kind};
use oracle::vectors::faults;
use samples::lines::{length, Edit};
use samples::{plane, Call, Rng, PARTICLE_FLOATS, PARTICLE_WORDS, WRITTEN_NAN};

/// How often a call is changed anew that is still the good one.
const TRIES: usize = 50;

/// Changes of a call that break rules, whoever is given what they change.
pub struct Faults(Vec<Vec<Edit>>);

impl Faults {
    /// Those of a call that has a region and a particle at the least; of colliders only where it has some.
    pub fn of(call: &Call) -> Faults {
        let mut found = [faults::of_first_half(call), faults::of_second_half(call), faults::of_scatter(call)].concat();
        if call.boundary.colliders > 0 {
            found.extend(faults::of_update(call));
        }
        Faults(found)
    }

    /// The call with some of them, or with changes anywhere, or with both: another call than it was.
    pub fn damaged(&self, good: &Asked, rng: &mut Rng) -> Asked {
        (0..TRIES).map(|_| self.changed(good, rng)).find(|asked| asked != good).expect("one of so many changes something")
    }

    /// The call with changes, some of which have what was there already.
    fn changed(&self, good: &Asked, rng: &mut Rng) -> Asked {
        let (mut asked, kind) = (good.clone(), good.kind);
        let (several, many) = (2 + rng.below(3), 2 + rng.below(4));
        let edits = match rng.below(8) {
            0 | 1 => self.one(kind, rng),
            2 => (0..several).flat_map(|_| self.one(kind, rng)).collect(),
            3 => [self.one(kind, rng), anywhere(&mut asked, 1, rng)].concat(),
            4 => anywhere(&mut asked, 1, rng),
            5 => anywhere(&mut asked, many, rng),
            other => {
                rearrange(&mut asked, rng);
                anywhere(&mut asked, other - 6, rng)
            }
        };
        asked.call = asked.call.edited(&in_order(edits));
        misplace(&mut asked, rng);
        asked
    }

    /// One that changes something of what such a call is given, and of that alone.
    fn one(&self, kind: Kind, rng: &mut Rng) -> Vec<Edit> {
        loop {
            let fault = &self.0[rng.below(self.0.len() as u64) as usize];
            let given: Vec<Edit> = fault.iter().filter(|edit| kind.given().contains(edit.letter())).cloned().collect();
            if !given.is_empty() {
                return given;
            }
        }
    }
}

/// Lengths come last, so that every entry is there when it is changed.
fn in_order(mut edits: Vec<Edit>) -> Vec<Edit> {
    edits.sort_by_key(|edit| matches!(edit, Edit::Length(..)));
    edits
}

/// Lists that match their counts, and yet not each other: a region less, particles exchanged or counted to the next region. Or without any
/// particle, region or collider, which is right again.
fn rearrange(asked: &mut Asked, rng: &mut Rng) {
    let (regions, particles) = (asked.call.ids.len(), asked.call.particle_words.len() / PARTICLE_WORDS);
    let colliders = asked.call.boundary.frictions.len();
    let what = rng.below(8);
    if what == 0 {
        (0..colliders).rev().for_each(|place| without_collider(asked, place));
    }
    if what < 2 {
        (0..particles).rev().for_each(|place| without_particle(asked, place));
        (0..regions).rev().filter(|_| what == 0).for_each(|place| without_region(asked, place));
    } else if what < 5 && regions > 0 {
        without_region(asked, rng.below(regions as u64) as usize);
    } else if what == 5 && particles > 0 {
        let [one, other] = [0; 2].map(|_| rng.below(particles as u64) as usize);
        let call = &mut asked.call;
        (0..PARTICLE_FLOATS)
            .for_each(|place| call.particle_floats.swap(one * PARTICLE_FLOATS + place, other * PARTICLE_FLOATS + place));
        (0..PARTICLE_WORDS)
            .for_each(|place| call.particle_words.swap(one * PARTICLE_WORDS + place, other * PARTICLE_WORDS + place));
    } else if regions > 1 {
        let ranges = &mut asked.call.ranges;
        let next = 2 * (1 + rng.below(regions as u64 - 1) as usize);
        if ranges[next + 1] > 0 {
            (ranges[next - 1], ranges[next], ranges[next + 1]) = (ranges[next - 1] + 1, ranges[next] + 1, ranges[next + 1] - 1);
        }
    }
}

/// A wrong place, or an order with something wrong about it, now and then.
fn misplace(asked: &mut Asked, rng: &mut Rng) {
    let regions = asked.call.ids.len() as u64;
    if rng.below(3) > 0 {
        return;
    }
    let wrong = rng.one_of(&[regions, regions + 1, u64::MAX, 1 << 32, 1 << 63, regions.wrapping_sub(1)]);
    match asked.kind {
        Kind::Region => asked.place = wrong,
        Kind::Order if !asked.order.is_empty() => {
            let [one, other] = [0; 2].map(|_| rng.below(asked.order.len() as u64) as usize);
            match rng.below(6) {
                0 => asked.order[one] = wrong,
                1 => asked.order[one] = asked.order[other],
                2 => asked.order.swap(one, other),
                3 => asked.order.push(wrong),
                4 => asked.order.truncate(one),
                _ => rng.shuffle(&mut asked.order),
            }
        }
        _ => {}
    }
}

/// So many changes of what such a call is given, each of anything.
fn anywhere(asked: &mut Asked, count: u64, rng: &mut Rng) -> Vec<Edit> {
    let letters: Vec<char> = asked.kind.given().chars().collect();
    (0..count).filter_map(|_| change(rng.one_of(&letters), &mut asked.call, rng)).collect()
}

/// A change of what has this letter; none of an entry of an empty list.
fn change(letter: char, call: &mut Call, rng: &mut Rng) -> Option<Edit> {
    Some(match letter {
        'h' => Edit::Setting(letter, strange_width(rng)),
        't' | 'x' | 'y' => Edit::Setting(letter, strange(rng)),
        'b' | 'd' | 'e' => Edit::Setting(letter, rng.one_of(&[0, 1, 2, 3, 4, 5, 1 << 31, u32::MAX])),
        'r' => Edit::Count(letter, strange_count(call.regions, rng)),
        'p' => Edit::Count(letter, strange_count(call.particles, rng)),
        'c' => Edit::Count(letter, strange_count(call.boundary.colliders, rng)),
        _ => return change_of_list(letter, call, rng),
    })
}

fn change_of_list(letter: char, call: &mut Call, rng: &mut Rng) -> Option<Edit> {
    let length = length(call, letter);
    if rng.below(8) == 0 {
        let more = 1 + rng.below(200) as usize;
        return Some(Edit::Length(letter, rng.one_of(&[length + 1, length + more, length.saturating_sub(more), length / 2, 0])));
    }
    let place = (length > 0).then(|| rng.below(length as u64) as usize)?;
    let (any, any_float) = (rng.word(), strange(rng));
    let entry = match letter {
        'i' => strange_id(call, place, rng),
        's' => strange_count(call.ranges[place], rng),
        'f' if rng.below(2) == 0 => return Some(strange_position(call, place / PARTICLE_FLOATS, rng)),
        'f' | 'n' | 'j' | 'g' => u64::from(any_float),
        'm' => u64::from(rng.one_of(&[any_float, any])),
        'k' => u64::from(rng.one_of(&[0, 1, 2, u32::MAX, any])),
        _ => rng.one_of(&[0, 1, 0, 1, 2, 1 << 31, u64::from(u32::MAX)]),
    };
    Some(Edit::Entry(letter, place, entry))
}

/// Zeros, the least and the largest, subnormals and everyday numbers of both signs; a third is not finite.
fn strange(rng: &mut Rng) -> u32 {
    let sign = rng.word() & 1 << 31;
    let finite = [0, 1, 0x007F_FFFF, 0x0080_0000, 0x3F80_0000, 0x7F7F_FFFF, rng.word() & 0x3FFF_FFFF, rng.word() % 0x7F80_0000];
    let other = [0x7F80_0000, 0x7FC0_0000, 0x7F80_0001, 0x7FFF_FFFF];
    sign | if rng.below(3) > 0 { rng.one_of(&finite) } else { rng.one_of(&other) }
}

/// About the ends of what a width may be, or anything.
fn strange_width(rng: &mut Rng) -> u32 {
    let end = rng.one_of(&[0x3580_0000, 0x4980_0000]) - 1 + rng.below(3) as u32;
    let any = strange(rng);
    rng.one_of(&[end, end, any, any & !(1 << 31)])
}

/// About a count, about powers of two that bring a product back, and any.
fn strange_count(count: u64, rng: &mut Rng) -> u64 {
    let beyond = count.wrapping_add(1 << rng.below(64));
    let near = rng.one_of(&[count.wrapping_add(1), count.wrapping_sub(1), 0, count]);
    rng.one_of(&[near, near, beyond, u64::MAX, u64::MAX - count, 1 << 63])
}

/// With low bits, as one before, out of order, the last there is, or any other region.
fn strange_id(call: &Call, place: usize, rng: &mut Rng) -> u64 {
    let (id, other) = (call.ids[place], call.ids[rng.below(call.ids.len() as u64) as usize]);
    let (low, any) = (id | 1 << rng.below(12), rng.number() & !0xFFF);
    let next = rng.one_of(&[id.wrapping_add(1 << 12), id.wrapping_sub(1 << 12)]);
    rng.one_of(&[low, other, other, next, next, id ^ 1 << 63, !0xFFF, u64::MAX, any])
}

/// A position at the middle or at the edge of a cell, or next to that: about where the particle is, or about an end of the grid.
fn strange_position(call: &Call, particle: usize, rng: &mut Rng) -> Edit {
    let axis = rng.below(2) as usize;
    let here = plane::nearest(call.position(particle), call.cell_width)[axis];
    let cell =
        rng.one_of(&[here, here + 1.0, here - 1.0, here + 2.0, here + 3.0, here - 4.0, 0.0, 1.0, 65534.0, 65535.0, 65536.0]);
    let place = (cell + rng.one_of(&[0.0, 0.5, -0.5])) * call.cell_width;
    let next = [place.to_bits(), place.to_bits().wrapping_add(1), place.to_bits().wrapping_sub(1)];
    Edit::Entry('f', particle * PARTICLE_FLOATS + axis, u64::from(rng.one_of(&next)))
}

/// Changes of one of the last records of a list each, with the letter of what a call has to be given to be refused for it: flags (4),
/// floats (5), and where particles have regions, a place off the grid (8) and in another region (9), and the last region, which
/// particles of a full call reach, in another place (10).
pub fn late_faults(call: &Call, rng: &mut Rng) -> Vec<(char, Edit)> {
    let mut late = |count: usize| count - 1 - rng.below(count as u64 / 8) as usize;
    let lists = [
        ('w', call.particle_words.len(), 2),
        ('q', call.boundary.insides.len(), 2),
        ('v', call.gather.given_words.len(), 2),
        ('f', call.particle_floats.len(), WRITTEN_NAN),
        ('j', call.boundary.points.len(), WRITTEN_NAN),
        ('g', call.gather.given_floats.len(), WRITTEN_NAN),
    ];
    let mut found = lists.map(|(letter, length, entry)| (letter, Edit::Entry(letter, late(length), u64::from(entry)))).to_vec();
    let particle = late(call.particles as usize);
    let (axis, last) = (rng.below(2) as usize, call.ids.len() - 1);
    for place in [0.25 * call.cell_width, call.position(particle)[axis] + 4.0 * call.cell_width] {
        found.push(('s', Edit::Entry('f', particle * PARTICLE_FLOATS + axis, u64::from(f32::to_bits(place)))));
    }
    found.push(('s', Edit::Entry('i', last, call.ids[last] + (4 << 12))));
    found
}

#[cfg(test)]
mod tests {
    use super::super::stages::KINDS;
    use super::*;
    use crate::time::full_call;
    use samples::random::{bounded, gathered, Style};
    use std::collections::{BTreeMap, BTreeSet};

    /// Each is another call than it was. Of every kind some are done, and every number of its own is answered; none that it cannot answer.
    #[test]
    fn damaged_calls_are_refused_for_everything() {
        let mut rng = Rng::new(6);
        let mut numbers: BTreeMap<&str, Vec<u32>> = BTreeMap::new();
        for _ in 0..60 {
            let call = Style::any(&mut rng).sample(&mut rng);
            let call = gathered(bounded(call, 2, &mut rng), &mut rng);
            let faults = Faults::of(&call);
            for kind in KINDS.iter().flat_map(|kind| [*kind; 25]) {
                let good = Asked::any(kind, &call, &mut rng);
                let asked = faults.damaged(&good, &mut rng);
                assert_ne!(asked, good);
                let number = asked.judged().refusal.0;
                numbers.entry(kind.name()).or_insert_with(|| vec![0; 11])[number as usize] += 1;
            }
        }
        for kind in KINDS {
            let answered = |number: &usize| numbers[kind.name()][*number] > 0;
            let found: Vec<usize> = (0..11).filter(|number| *number != 2 && answered(number)).collect();
            let own: &[usize] = match kind {
                Kind::Clear => &[0, 1, 6],
                Kind::Update => &[0, 1, 3, 4, 5, 6],
                Kind::SecondHalf => &[0, 1, 4, 5],
                _ => &[0, 1, 3, 4, 5, 6, 7, 8, 9, 10],
            };
            assert_eq!(found, own, "{}: {:?}", kind.name(), numbers[kind.name()]);
        }
    }

    /// What is rearranged is refused with 4 in an order, 9 or 10, or not at all; sometimes nothing is left.
    #[test]
    fn rearranged_calls_match_their_counts() {
        let (mut rng, mut numbers, mut nothing) = (Rng::new(7), [0; 11], 0);
        for place in 0..600 {
            let call = Style::plain(1.0, [3, 3], [6, 6], 12).sample(&mut rng);
            let mut asked = Asked::any(KINDS[1 + place % 3], &bounded(call, 1, &mut rng), &mut rng);
            rearrange(&mut asked, &mut rng);
            nothing += u32::from(
                asked.call
                    == Call {
                        cell_width: asked.call.cell_width,
                        dt: asked.call.dt,
                        gravity: asked.call.gravity,
                        ..Call::on(vec![])
                    },
            );
            numbers[asked.judged().refusal.0 as usize] += 1;
            let (_, edits) = asked.call.parted();
            assert!(edits.iter().all(|edit| "gv".contains(edit.letter())), "{:?}", edits);
        }
        let own = [0, 4, 7, 9, 10];
        assert!(
            (0..11).all(|number| own.contains(&number) == (numbers[number] > 0)) && nothing > 20,
            "{:?} {}",
            numbers,
            nothing
        );
    }

    /// Each is refused by all that are given it, with its own number, at a record of the last eighth.
    #[test]
    fn late_faults_are_refused_late() {
        let mut rng = Rng::new(9);
        let call = gathered(bounded(full_call(1_024, [4, 4]), 16, &mut rng), &mut rng);
        let projections = call.boundary.insides.len();
        let faults = late_faults(&call, &mut rng);
        for ((needed, edit), number) in faults.into_iter().zip([4, 4, 4, 5, 5, 5, 8, 9, 10]) {
            for kind in KINDS.into_iter().filter(|kind| kind.given().contains(needed)) {
                let good = Asked::any(kind, &call, &mut rng);
                let (found, index) = Asked { call: good.call.edited(&[edit.clone()]), ..good }.judged().refusal;
                let count = if "qj".contains(needed) { projections } else { 1_024 };
                assert!(found == number && index >= count / 8 * 7 && index < count, "{:?}: {} {}", kind, found, index);
            }
        }
    }

    #[test]
    fn entries_are_changed_before_lengths() {
        let edits = ["m#0", "m5=7", "b=00000004"].map(|edit| edit.parse().unwrap()).to_vec();
        assert_eq!(in_order(edits).iter().map(Edit::to_string).collect::<Vec<_>>(), ["m5=7", "b=00000004", "m#0"]);
    }

    /// What alone is given of a fault is taken of it, and one of which nothing is given is not taken.
    #[test]
    fn faults_are_of_what_is_given() {
        let edits = |fault: &str| fault.split(' ').map(|edit| edit.parse().unwrap()).collect();
        let (faults, mut rng) = (Faults(["m5=7", "b=4", "f0=7 m#0"].map(edits).to_vec()), Rng::new(8));
        let mut taken = |kind: Kind| (0..50).map(|_| faults.one(kind, &mut rng)[0].to_string()).collect::<BTreeSet<String>>();
        assert!(taken(Kind::Clear).into_iter().eq(["m#0", "m5=7"]));
        assert!(taken(Kind::SecondHalf).into_iter().eq(["f0=7"]));
    }
}
