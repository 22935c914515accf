//! A question that differs, made smaller for as long as it still does.

use super::leaves::Leaf;
use super::stages::{Asked, Kind};
use samples::lines::{entries, length, take_out, Edit};
use samples::{GIVEN_FLOATS, PARTICLE_FLOATS, PARTICLE_WORDS, PROJECTION_FLOATS, REGION_FLOATS, REGION_NODES};

/// How many words are looked at in all before it is left as it is; a small call is tried some hundred thousand times.
const MOST_WORDS: usize = 2_000_000_000;

/// The numbers of a question with no smaller ones that differ.
pub fn numbers(leaf: &Leaf, asked: Vec<u64>, differs: impl Fn(&[u64]) -> bool) -> Vec<u64> {
    let mut smallest = asked;
    while let Some(smaller) = leaf.smaller(&smallest).into_iter().find(|smaller| differs(smaller)) {
        smallest = smaller;
    }
    smallest
}

/// A call that differs, and what is left to try.
struct Shrinking<D> {
    smallest: Asked,
    differs: D,
    words: usize,
}

/// The call with fewer particles, regions and colliders, simple settings and zeros, as long as it differs.
pub fn call(asked: Asked, differs: impl Fn(&Asked) -> bool) -> Asked {
    let mut shrinking = Shrinking { smallest: asked, differs, words: MOST_WORDS };
    loop {
        let before = shrinking.smallest.clone();
        shrinking.remove();
        shrinking.simplify();
        if shrinking.smallest == before || shrinking.words == 0 {
            return shrinking.smallest;
        }
    }
}

impl<D: Fn(&Asked) -> bool> Shrinking<D> {
    /// Takes the change where the call is another and still differs.
    fn attempt(&mut self, change: impl FnOnce(&mut Asked)) -> bool {
        let mut smaller = self.smallest.clone();
        change(&mut smaller);
        let words = size(&mut smaller) + 1000;
        if smaller == self.smallest || self.words < words {
            return false;
        }
        self.words -= words;
        let is_taken = (self.differs)(&smaller);
        if is_taken {
            self.smallest = smaller;
        }
        is_taken
    }

    /// Halves, quarters and so on of the particles, then of regions and of colliders, the last first.
    fn remove(&mut self) {
        let removals: [(fn(&Asked) -> usize, fn(&mut Asked, usize)); 4] = [
            (|asked| asked.call.particle_words.len() / PARTICLE_WORDS, without_particle),
            (|asked| asked.call.ids.len(), without_region),
            (|asked| asked.call.boundary.frictions.len(), without_collider),
            (|asked| asked.order.len(), |asked, place| drop(asked.order.drain(place..=place))),
        ];
        for (count, without) in removals {
            let mut piece = count(&self.smallest);
            while piece > 0 {
                let mut end = count(&self.smallest);
                while end > 0 {
                    let begin = end.saturating_sub(piece);
                    self.attempt(|asked| (begin..end).rev().for_each(|place| without(asked, place)));
                    end = begin;
                }
                piece /= 2;
            }
        }
    }

    /// Simple settings, lists of zeros, then entries one by one; counts and lengths that match.
    fn simplify(&mut self) {
        let one = 1f32.to_bits();
        for letter in self.smallest.kind.given().chars() {
            match letter {
                'h' | 't' => drop(self.attempt_edit(Edit::Setting(letter, one))),
                'x' | 'y' | 'b' | 'd' | 'e' => drop(self.attempt_edit(Edit::Setting(letter, 0))),
                'r' | 'p' | 'c' => self.matching_count(letter),
                _ => self.simplify_list(letter),
            }
        }
        self.attempt(|asked| asked.place = 0);
    }

    fn attempt_edit(&mut self, edit: Edit) -> bool {
        self.attempt(|asked| asked.call = asked.call.edited(&[edit]))
    }

    fn matching_count(&mut self, letter: char) {
        let (base, _) = self.smallest.call.parted();
        let count = match letter {
            'r' => base.regions,
            'p' => base.particles,
            _ => base.boundary.colliders,
        };
        self.attempt_edit(Edit::Count(letter, count));
    }

    fn simplify_list(&mut self, letter: char) {
        let (mut base, _) = self.smallest.call.parted();
        self.attempt_edit(Edit::Length(letter, length(&mut base, letter)));
        let count = length(&mut self.smallest.call, letter);
        self.attempt(|asked| asked.call = asked.call.edited(&[Edit::Length(letter, 0), Edit::Length(letter, count)]));
        for (place, entry) in entries(&mut self.smallest.call.clone(), letter).into_iter().enumerate() {
            let simple = simpler(letter, entry);
            simple.into_iter().any(|entry| self.attempt_edit(Edit::Entry(letter, place, entry)));
        }
    }
}

/// Simpler entries, the simplest first: nothing, 1, a whole number, few digits.
fn simpler(letter: char, entry: u64) -> Vec<u64> {
    if !"fmnjg".contains(letter) {
        return [0, 1, 1 << 12].into_iter().filter(|simple| *simple < entry).collect();
    }
    let x = f32::from_bits(entry as u32);
    let simple = [0.0, 1.0, x.trunc(), f32::from_bits(x.to_bits() & 0xfff0_0000)].map(|simple| u64::from(simple.to_bits()));
    let weight = |entry: u64| (entry != 0, entry != u64::from(1f32.to_bits()), entry.count_ones());
    simple.into_iter().filter(|simple| weight(*simple) < weight(entry)).collect()
}

/// How many words a call has.
fn size(asked: &mut Asked) -> usize {
    "isfwmknjqgv".chars().map(|letter| length(&mut asked.call, letter)).sum()
}

/// Without a particle, with the ranges of the others; its place is a matter of the lists alone, which may not match.
pub fn without_particle(asked: &mut Asked, place: usize) {
    let call = &mut asked.call;
    for (letter, each) in [('f', PARTICLE_FLOATS), ('w', PARTICLE_WORDS), ('g', GIVEN_FLOATS), ('v', 1)] {
        take_out(call, letter, place * each, each);
    }
    call.particles = call.particles.saturating_sub(1);
    for range in call.ranges.chunks_exact_mut(2) {
        if range[0] > place as u64 {
            range[0] -= 1;
        } else if (place as u64) < range[0].saturating_add(range[1]) {
            range[1] -= 1;
        }
    }
}

/// Without a region and its nodes, and with no place of it.
pub fn without_region(asked: &mut Asked, place: usize) {
    let call = &mut asked.call;
    let projections = REGION_NODES * call.boundary.frictions.len();
    let lists = [
        ('i', 1),
        ('s', 2),
        ('m', REGION_FLOATS),
        ('k', REGION_NODES),
        ('j', PROJECTION_FLOATS * projections),
        ('q', projections),
    ];
    for (letter, each) in lists {
        take_out(call, letter, place * each, each);
    }
    call.regions = call.regions.saturating_sub(1);
    let place = place as u64;
    if asked.kind == Kind::Order {
        asked.order.retain(|other| *other != place);
    }
    for other in asked.order.iter_mut().chain([&mut asked.place]).filter(|other| **other > place) {
        *other -= 1;
    }
}

/// Without a collider and its projections.
pub fn without_collider(asked: &mut Asked, place: usize) {
    let call = &mut asked.call;
    let colliders = call.boundary.frictions.len();
    for cell in (0..call.boundary.insides.len() / colliders).rev() {
        take_out(call, 'j', (cell * colliders + place) * PROJECTION_FLOATS, PROJECTION_FLOATS);
        take_out(call, 'q', cell * colliders + place, 1);
    }
    take_out(call, 'n', place, 1);
    call.boundary.colliders = call.boundary.colliders.saturating_sub(1);
}

#[cfg(test)]
mod tests {
    use super::super::{leaves, stages::KINDS};
    use super::*;
    use samples::particle::MASS;
    use samples::random::{bounded, gathered, Style};
    use samples::Rng;

    fn sample(rng: &mut Rng) -> samples::Call {
        let style = Style::plain(0.3, [5, 3], [9, 9], 30);
        let call = style.sample(rng);
        gathered(bounded(call, 4, rng), rng)
    }

    /// What alone matters is left, and nothing else.
    #[test]
    fn a_call_is_left_with_what_differs() {
        let is_heavy = |bits: &u32| f32::from_bits(*bits) > 2.0;
        let masses = |asked: &Asked| {
            asked.call.particle_floats.iter().skip(MASS).step_by(PARTICLE_FLOATS).filter(|bits| is_heavy(bits)).count()
        };
        for kind in KINDS.into_iter().filter(|kind| kind.given().contains('f')) {
            let mut rng = Rng::new(3);
            let asked = Asked::any(kind, &sample(&mut rng), &mut rng);
            assert!(masses(&asked) > 2);
            let smallest = call(asked, |asked| masses(asked) > 1);
            let call = &smallest.call;
            assert_eq!((call.particles, call.particle_words.len()), (2, 2 * PARTICLE_WORDS), "{:?}", kind);
            assert_eq!(
                (call.ids.len(), call.node_floats.len(), call.boundary.frictions.len(), smallest.order.len()),
                (0, 0, 0, 0)
            );
            assert_eq!(call.particle_floats.iter().filter(|bits| **bits != 0).count(), 2);
        }
    }

    /// A smallest call that is refused with each number, and that still is.
    #[test]
    fn refusals_are_left_with_what_it_takes() {
        let mut rng = Rng::new(4);
        let whole = sample(&mut rng);
        let edits = [(1, "m#7", 0), (4, "w9=2", 1), (6, "i2=1", 1), (7, "s5=9", 1), (8, "f26=0", 1), (9, "f26=42C80000", 1)];
        for (number, edit, particles_at_the_most) in edits {
            let asked = Asked::new(Kind::All, whole.edited(&[edit.parse().unwrap()]));
            assert_eq!(asked.judged().refusal.0, number, "{}", edit);
            let smallest = call(asked, |asked| asked.judged().refusal.0 == number);
            assert_eq!(smallest.judged().refusal.0, number);
            let Asked { call, .. } = smallest;
            assert!(
                call.particle_words.len() <= particles_at_the_most * PARTICLE_WORDS && call.ids.len() <= 2,
                "{}: {:?}",
                edit,
                call
            );
        }
    }

    /// The order and the place go with the regions.
    #[test]
    fn a_region_is_taken_out_with_its_places() {
        let mut asked = Asked::new(Kind::Order, samples::Call::on(vec![0, 4096, 8192, 12288]));
        (asked.order, asked.place) = (vec![3, 0, 2, 1], 3);
        without_region(&mut asked, 1);
        assert_eq!((&asked.call.ids[..], &asked.order[..], asked.place), (&[0, 8192, 12288][..], &[2, 0, 1][..], 2));
        assert_eq!((asked.call.regions, asked.call.node_floats.len(), asked.call.ranges.len()), (3, 3 * REGION_FLOATS, 6));
    }

    #[test]
    fn a_collider_is_taken_out_with_its_projections() {
        let mut asked = Asked::new(Kind::Update, samples::Call::on(vec![0]).bounded(2, &[1.0, 2.0, 3.0]));
        asked.call.boundary.insides = (0..48).collect();
        asked.call.boundary.points = (0..96).collect();
        without_collider(&mut asked, 1);
        let boundary = &asked.call.boundary;
        assert_eq!((boundary.colliders, boundary.frictions.len()), (2, 2));
        assert_eq!((&boundary.insides[..4], &boundary.points[..6]), (&[0, 2, 3, 5][..], &[0, 1, 4, 5, 6, 7][..]));
    }

    #[test]
    fn ranges_go_with_their_particles() {
        let mut asked = Asked::new(Kind::All, Style::plain(1.0, [3, 3], [4, 4], 9).sample(&mut Rng::new(2)));
        (0..9).rev().for_each(|_| {
            without_particle(&mut asked, 0);
            assert_eq!(asked.judged().refusal, (0, 0));
        });
        assert_eq!((asked.call.particles, asked.call.particle_floats.len()), (0, 0));
    }

    #[test]
    fn numbers_are_left_with_what_differs() {
        let leaf = leaves::all().into_iter().find(|leaf| leaf.name == "mk_lookup").expect("a function");
        let asked = numbers(&leaf, vec![99, 5, 8, 13, 21, 34], |asked| asked[1..].iter().any(|id| *id >= 16));
        assert_eq!(asked, [0, 16]);
    }
}
