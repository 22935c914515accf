//! Calls in fields of lines, and what a question changes about a call.

use crate::{
    canonical, Boundary, Call, Gather, Records, GIVEN_FLOATS, NODE_FLOATS, PARTICLE_FLOATS, PARTICLE_WORDS, PROJECTION_FLOATS,
    REGION_NODES,
};
use std::fmt;
use std::iter::Copied;
use std::slice::Iter;
use std::str::FromStr;

/// The fields of a line that are still to be read.
type Fields<'a> = Copied<Iter<'a, &'a str>>;

/// How a node of zeros is written, a projection or what is given of a particle; a node or particle that is as it was; and a node that is
/// so but for its mass, which is +0.
const EMPTY: &str = "0";
const KEPT: &str = "=";
const NO_MASS: &str = "m";

impl Call {
    /// The call's fields: settings, regions with their starts and counts, particles, nodes.
    pub fn fields(&self) -> Vec<String> {
        let mut fields: Vec<String> = self.settings().iter().map(|setting| word(setting.to_bits())).collect();
        fields.push(self.regions.to_string());
        for (id, range) in self.ids.iter().zip(self.ranges.chunks_exact(2)) {
            fields.extend([format!("{:016X}", id), range[0].to_string(), range[1].to_string()]);
        }
        fields.push(self.particles.to_string());
        fields.extend(particles(&self.particle_floats, &self.particle_words).map(|(floats, words)| hex(floats) + &hex(words)));
        fields.extend(records(&self.node_floats, NODE_FLOATS, &self.node_words));
        fields
    }

    /// These fields, and behind them the boundary's: settings, colliders, projections.
    pub fn bounded_fields(&self) -> Vec<String> {
        let Boundary { handling, locks, colliders, frictions, points, insides } = &self.boundary;
        let mut fields = self.fields();
        fields.extend([handling.to_string(), locks.to_string(), colliders.to_string()]);
        fields.extend(frictions.iter().map(|friction| word(*friction)));
        fields.extend(records(points, PROJECTION_FLOATS, insides));
        fields
    }

    /// A call's own fields, and behind them a gather's: its setting, and what is given of each particle.
    pub fn gather_fields(&self) -> Vec<String> {
        let Gather { eigenerosion, given_floats, given_words } = &self.gather;
        let mut fields = self.fields();
        fields.push(eigenerosion.to_string());
        fields.extend(records(given_floats, GIVEN_FLOATS, given_words));
        fields
    }

    fn settings(&self) -> [f32; 4] {
        [self.cell_width, self.dt, self.gravity[0], self.gravity[1]]
    }

    /// A call from its fields; anything else is a fault of the file.
    pub fn from_fields(fields: &[&str]) -> Call {
        Call::with_more(fields, |_, _| {})
    }

    /// A call from its fields and, behind them, its boundary's.
    pub fn from_bounded_fields(fields: &[&str]) -> Call {
        Call::with_more(fields, |call, fields| call.boundary = Boundary::read(fields, call.ids.len()))
    }

    /// A call from its fields and, behind them, a gather's.
    pub fn from_gather_fields(fields: &[&str]) -> Call {
        Call::with_more(fields, |call, fields| call.gather = Gather::read(fields, call.particles as usize))
    }

    /// A call from its fields and from what is read behind them.
    fn with_more(fields: &[&str], more: impl FnOnce(&mut Call, &mut Fields)) -> Call {
        let mut fields = fields.iter().copied();
        let mut call = Call::read(&mut fields);
        more(&mut call, &mut fields);
        assert_eq!(fields.next(), None, "fields left over");
        call
    }

    fn read(fields: &mut Fields) -> Call {
        let mut next = || fields.next().expect("another field");
        let [cell_width, dt, x, y] = [0; 4].map(|_| f32::from_bits(bits(next())));
        let mut call = Call { cell_width, dt, gravity: [x, y], ..Call::on(vec![]) };
        call.regions = decimal(next());
        for _ in 0..call.regions {
            call.ids.push(u64::from_str_radix(next(), 16).expect("an id"));
            call.ranges.extend([0; 2].map(|_| decimal::<u64>(next())));
        }
        call.particles = decimal(next());
        (call.particle_floats, call.particle_words) =
            read_records(fields, call.particles as usize, PARTICLE_FLOATS, PARTICLE_WORDS);
        (call.node_floats, call.node_words) = read_records(fields, call.ids.len() * REGION_NODES, NODE_FLOATS, 1);
        call
    }

    /// The nodes after a call that was done, as an answer has them: a node that was hit with one pattern for every NaN, and of
    /// the others whether they are as they were.
    pub fn answered(&self, after: (&[u32], &[u32]), hit: &[bool]) -> Vec<String> {
        let before = nodes(&self.node_floats, &self.node_words);
        let nodes = before.zip(nodes(after.0, after.1)).zip(hit).map(|((before, (floats, flag)), hit)| match hit {
            true => canonical_hex(floats) + &word(*flag),
            false if before == (floats, flag) => KEPT.to_string(),
            false => hex(floats) + &word(*flag),
        });
        nodes.collect()
    }

    /// The nodes after a call that may write to any of them.
    pub fn all_answered(&self, after: (&[u32], &[u32])) -> Vec<String> {
        let before = nodes(&self.node_floats, &self.node_words);
        let moved: Vec<bool> = before.zip(nodes(after.0, after.1)).map(|(before, now)| before != now).collect();
        self.answered(after, &moved)
    }

    /// The nodes after a recomputation of fluids: of one that is as it was, bit for bit, or but for a mass of +0, only that.
    pub fn masses_answered(&self, after: (&[u32], &[u32])) -> Vec<String> {
        let before = nodes(&self.node_floats, &self.node_words);
        let nodes = before.zip(nodes(after.0, after.1)).map(|((old, old_flag), (new, flag))| match old_flag == flag {
            true if old == new => KEPT.to_string(),
            true if old[1..] == new[1..] && new[0] == 0 => NO_MASS.to_string(),
            _ => hex(new) + &word(*flag),
        });
        nodes.collect()
    }

    /// The particles after a call that was done: of one that is as it was, bit for bit, only that; else with one pattern for every NaN.
    pub fn particles_answered(&self, after: (&[u32], &[u32])) -> Vec<String> {
        let before = particles(&self.particle_floats, &self.particle_words);
        let records = before.zip(particles(after.0, after.1)).map(|(before, (floats, words))| match before == (floats, words) {
            true => KEPT.to_string(),
            false => canonical_hex(floats) + &hex(words),
        });
        records.collect()
    }

    pub fn edited(&self, edits: &[Edit]) -> Call {
        let mut call = self.clone();
        edits.iter().for_each(|edit| edit.apply(&mut call));
        call
    }

    /// A call whose lists are as long as its counts say, so that it can be written in fields, and the changes that make this one of it.
    pub fn parted(&self) -> (Call, Vec<Edit>) {
        let (regions, colliders) = (self.ids.len(), self.boundary.frictions.len());
        let (particles, projections) = (self.particle_words.len() / PARTICLE_WORDS, regions * REGION_NODES * colliders);
        let counts = [('r', regions, self.regions), ('p', particles, self.particles), ('c', colliders, self.boundary.colliders)];
        let lengths = [
            ('i', regions),
            ('s', 2 * regions),
            ('f', particles * PARTICLE_FLOATS),
            ('w', particles * PARTICLE_WORDS),
            ('m', regions * REGION_NODES * NODE_FLOATS),
            ('k', regions * REGION_NODES),
            ('n', colliders),
            ('j', projections * PROJECTION_FLOATS),
            ('q', projections),
            ('g', particles * GIVEN_FLOATS),
            ('v', particles),
        ];
        let (mut base, mut edits) = (self.clone(), vec![]);
        for (letter, length) in lengths {
            let own = entries(&mut base, letter);
            if own.len() != length {
                edits.push(Edit::Length(letter, own.len()));
            }
            let beyond = own.iter().enumerate().skip(length).filter(|(_, entry)| **entry != 0);
            edits.extend(beyond.map(|(place, entry)| Edit::Entry(letter, place, *entry)));
            Edit::Length(letter, length).apply(&mut base);
        }
        for (letter, counted, count) in counts {
            Edit::Count(letter, counted as u64).apply(&mut base);
            edits.extend((counted as u64 != count).then(|| Edit::Count(letter, count)));
        }
        (base, edits)
    }
}

/// The entries of a list.
pub fn entries(call: &mut Call, letter: char) -> Vec<u64> {
    match list(call, letter) {
        List::Wide(list) => list.clone(),
        List::Narrow(list) => list.iter().copied().map(u64::from).collect(),
    }
}

/// How many entries a list has.
pub fn length(call: &mut Call, letter: char) -> usize {
    match list(call, letter) {
        List::Wide(list) => list.len(),
        List::Narrow(list) => list.len(),
    }
}

/// Takes so many entries from a place on out of a list, as many as there are.
pub fn take_out(call: &mut Call, letter: char, place: usize, count: usize) {
    let range = |length: usize| place.min(length)..place.saturating_add(count).min(length);
    match list(call, letter) {
        List::Wide(list) => drop(list.drain(range(list.len()))),
        List::Narrow(list) => drop(list.drain(range(list.len()))),
    }
}

impl Boundary {
    fn read(fields: &mut Fields, regions: usize) -> Boundary {
        let mut next = || fields.next().expect("another field");
        let (handling, locks, colliders) = (decimal(next()), decimal(next()), decimal(next()));
        let frictions = (0..colliders).map(|_| bits(next())).collect();
        let (points, insides) = read_records(fields, regions * REGION_NODES * colliders as usize, PROJECTION_FLOATS, 1);
        Boundary { handling, locks, colliders, frictions, points, insides }
    }
}

impl Gather {
    fn read(fields: &mut Fields, particles: usize) -> Gather {
        let eigenerosion = decimal(fields.next().expect("another field"));
        let (given_floats, given_words) = read_records(fields, particles, GIVEN_FLOATS, 1);
        Gather { eigenerosion, given_floats, given_words }
    }
}

/// The floats and the word of each node.
fn nodes<'a>(floats: &'a [u32], words: &'a [u32]) -> impl Iterator<Item = (&'a [u32], &'a u32)> {
    floats.chunks_exact(NODE_FLOATS).zip(words)
}

/// The floats and words of each particle.
fn particles<'a>(floats: &'a [u32], words: &'a [u32]) -> impl Iterator<Item = (&'a [u32], &'a [u32])> {
    floats.chunks_exact(PARTICLE_FLOATS).zip(words.chunks_exact(PARTICLE_WORDS))
}

/// Fields in a row that are the same become one, with their count behind it.
pub fn folded(fields: &[String]) -> Vec<String> {
    let mut found: Vec<(&String, usize)> = vec![];
    for field in fields {
        match found.last_mut() {
            Some((last, count)) if *last == field => *count += 1,
            _ => found.push((field, 1)),
        }
    }
    let written = |(field, count): (&String, usize)| if count == 1 { field.clone() } else { format!("{}*{}", field, count) };
    found.into_iter().map(written).collect()
}

/// The fields that `folded` made these of.
pub fn unfolded<'a>(fields: &'a [&str]) -> impl Iterator<Item = &'a str> {
    fields.iter().flat_map(|field| {
        let (field, count) = field.split_once('*').unwrap_or((*field, "1"));
        std::iter::repeat(field).take(decimal(count))
    })
}

/// Records of so many floats and one word each, in the fields of a line.
fn records<'a>(floats: &'a [u32], each: usize, words: &'a [u32]) -> impl Iterator<Item = String> + 'a {
    floats.chunks_exact(each).zip(words).map(|(floats, last)| match floats.iter().chain([last]).all(|part| *part == 0) {
        true => EMPTY.to_string(),
        false => hex(floats) + &word(*last),
    })
}

/// The floats and the words of so many records.
fn read_records(fields: &mut Fields, count: usize, floats: usize, words: usize) -> Records {
    let read = fields.take(count).map(|field| match field {
        EMPTY => (vec![0; floats], vec![0; words]),
        record => parted(record, floats),
    });
    let (all_floats, all_words): (Vec<Vec<u32>>, Vec<Vec<u32>>) = read.unzip();
    assert_eq!(all_words.len(), count, "fields are missing");
    (all_floats.concat(), all_words.concat())
}

pub(crate) fn word(number: u32) -> String {
    format!("{:08X}", number)
}

fn hex(words: &[u32]) -> String {
    words.iter().map(|part| word(*part)).collect()
}

fn canonical_hex(floats: &[u32]) -> String {
    floats.iter().map(|part| word(canonical(*part))).collect()
}

pub(crate) fn bits(field: &str) -> u32 {
    u32::from_str_radix(field, 16).expect("8 hex digits")
}

pub(crate) fn decimal<T: FromStr>(field: &str) -> T {
    field.parse().ok().expect("a decimal")
}

/// A record's floats and words.
fn parted(field: &str, floats: usize) -> (Vec<u32>, Vec<u32>) {
    let words: Vec<u32> = (0..field.len() / 8).map(|place| bits(&field[8 * place..8 * place + 8])).collect();
    let (floats, words) = words.split_at(floats);
    (floats.to_vec(), words.to_vec())
}

/// What a question changes about a call; `Display` writes it as a field, and `from_str` reads that.
#[derive(Clone, Debug, PartialEq)]
pub enum Edit {
    /// h, t (dt), x or y (gravity), b (boundary handling), d (locks) or e (modified eigenerosion) = bits.
    Setting(char, u32),
    /// r (regions), p (particles) or c (colliders) = a count, whatever the lists have.
    Count(char, u64),
    /// An entry of a list: its letter, place, and bits.
    Entry(char, usize, u64),
    /// A list's length; what is missing is 0.
    Length(char, usize),
    /// All particles are the first one, so often, with what is given of it, and all of the first region.
    Copies(usize),
}

/// A list of a call, by its letter: i ids, s starts and counts, f and w floats and words of particles, m and k of nodes, n
/// frictions, j and q floats and words of projections, g and v of what is given of particles.
enum List<'a> {
    Wide(&'a mut Vec<u64>),
    Narrow(&'a mut Vec<u32>),
}

fn list(call: &mut Call, letter: char) -> List<'_> {
    match letter {
        'i' => List::Wide(&mut call.ids),
        's' => List::Wide(&mut call.ranges),
        'f' => List::Narrow(&mut call.particle_floats),
        'w' => List::Narrow(&mut call.particle_words),
        'm' => List::Narrow(&mut call.node_floats),
        'k' => List::Narrow(&mut call.node_words),
        'n' => List::Narrow(&mut call.boundary.frictions),
        'j' => List::Narrow(&mut call.boundary.points),
        'q' => List::Narrow(&mut call.boundary.insides),
        'g' => List::Narrow(&mut call.gather.given_floats),
        'v' => List::Narrow(&mut call.gather.given_words),
        _ => panic!("no list {}", letter),
    }
}

impl Edit {
    /// The letter of what is changed; all copies are of particles.
    pub fn letter(&self) -> char {
        match self {
            Edit::Setting(letter, _) | Edit::Count(letter, _) | Edit::Entry(letter, ..) | Edit::Length(letter, _) => *letter,
            Edit::Copies(_) => 'p',
        }
    }

    fn apply(&self, call: &mut Call) {
        match *self {
            Edit::Setting(letter, bits) => set(call, letter, bits),
            Edit::Count('r', count) => call.regions = count,
            Edit::Count('p', count) => call.particles = count,
            Edit::Count(_, count) => call.boundary.colliders = count,
            Edit::Entry(letter, place, bits) => match list(call, letter) {
                List::Wide(list) => list[place] = bits,
                List::Narrow(list) => list[place] = bits as u32,
            },
            Edit::Length(letter, length) => match list(call, letter) {
                List::Wide(list) => list.resize(length, 0),
                List::Narrow(list) => list.resize(length, 0),
            },
            Edit::Copies(count) => copy_first(call, count),
        }
    }
}

fn set(call: &mut Call, letter: char, bits: u32) {
    match letter {
        'h' => call.cell_width = f32::from_bits(bits),
        't' => call.dt = f32::from_bits(bits),
        'x' => call.gravity[0] = f32::from_bits(bits),
        'y' => call.gravity[1] = f32::from_bits(bits),
        'b' => call.boundary.handling = bits,
        'd' => call.boundary.locks = bits,
        'e' => call.gather.eigenerosion = bits,
        _ => panic!("no setting {}", letter),
    }
}

fn copy_first(call: &mut Call, count: usize) {
    let Gather { given_floats, given_words, .. } = &mut call.gather;
    let lists = [&mut call.particle_floats, &mut call.particle_words, given_floats, given_words];
    for (list, each) in lists.into_iter().zip([PARTICLE_FLOATS, PARTICLE_WORDS, GIVEN_FLOATS, 1]) {
        *list = list.get(..each).unwrap_or_default().repeat(count);
    }
    call.particles = count as u64;
    for (place, range) in call.ranges.chunks_exact_mut(2).enumerate() {
        range.copy_from_slice(&if place == 0 { [0, count as u64] } else { [count as u64, 0] });
    }
}

impl fmt::Display for Edit {
    fn fmt(&self, f: &mut fmt::Formatter<'_>) -> fmt::Result {
        match self {
            Edit::Setting(letter, bits) => write!(f, "{}={:08X}", letter, bits),
            Edit::Count(letter, count) => write!(f, "{}={}", letter, count),
            Edit::Entry(letter, place, bits) => write!(f, "{}{}={:X}", letter, place, bits),
            Edit::Length(letter, length) => write!(f, "{}#{}", letter, length),
            Edit::Copies(count) => write!(f, "*{}", count),
        }
    }
}

/// Anything but what `Display` writes is a fault of the file.
impl FromStr for Edit {
    type Err = ();

    fn from_str(field: &str) -> Result<Edit, ()> {
        let letter = field.chars().next().ok_or(())?;
        let rest = &field[1..];
        Ok(match (letter, rest.split_once('='), rest.strip_prefix('#')) {
            ('*', ..) => Edit::Copies(decimal(rest)),
            ('r' | 'p' | 'c', Some(("", count)), _) => Edit::Count(letter, decimal(count)),
            ('h' | 't' | 'x' | 'y' | 'b' | 'd' | 'e', Some(("", setting)), _) => Edit::Setting(letter, bits(setting)),
            (_, Some((place, entry)), _) => Edit::Entry(letter, decimal(place), u64::from_str_radix(entry, 16).map_err(drop)?),
            (_, None, Some(length)) => Edit::Length(letter, decimal(length)),
            _ => return Err(()),
        })
    }
}

#[cfg(test)]
mod tests {
    use super::*;
    use crate::random::{bounded, gathered, Style};
    use crate::Rng;

    #[test]
    fn what_is_written_is_read_again() {
        let mut rng = Rng::new(5);
        for _ in 0..200 {
            let call = Style::any(&mut rng).sample(&mut rng);
            let fields = call.fields();
            assert_eq!(Call::from_fields(&fields.iter().map(String::as_str).collect::<Vec<_>>()), call);
        }
    }

    #[test]
    fn a_boundary_is_read_again_behind_its_call() {
        let mut rng = Rng::new(6);
        for colliders in [0, 1, 3, 16] {
            let call = bounded(Style::any(&mut rng).sample(&mut rng), colliders, &mut rng);
            let fields = call.bounded_fields();
            assert_eq!(Call::from_bounded_fields(&fields.iter().map(String::as_str).collect::<Vec<_>>()), call);
        }
    }

    #[test]
    fn what_is_given_is_read_again_behind_its_call() {
        let mut rng = Rng::new(9);
        for _ in 0..50 {
            let call = gathered(Style::any(&mut rng).sample(&mut rng), &mut rng);
            let fields = call.gather_fields();
            assert_eq!(Call::from_gather_fields(&fields.iter().map(String::as_str).collect::<Vec<_>>()), call);
        }
    }

    #[test]
    fn edits_of_a_gather_change_what_they_name() {
        let mut rng = Rng::new(10);
        let call = gathered(Style::plain(1.0, [0, 0], [4, 4], 3).sample(&mut rng), &mut rng);
        let edits = ["e=00000002", "g5=7FC00001", "v2=3", "g#7", "v#0"];
        let read: Vec<Edit> = edits.iter().map(|edit| edit.parse().unwrap()).collect();
        assert!(read.iter().map(Edit::to_string).eq(edits));
        assert_eq!(call.edited(&read[2..3]).gather.given_words[2], 3);
        let Gather { eigenerosion, given_floats, given_words } = call.edited(&read).gather;
        assert_eq!((eigenerosion, given_floats[5], given_floats.len(), given_words.len()), (2, 0x7fc0_0001, 7, 0));
        let Gather { given_floats, given_words, .. } = call.edited(&["*4".parse().unwrap()]).gather;
        assert_eq!((given_floats.len(), given_words.len()), (8, 4));
        assert_eq!(given_floats[6..], call.gather.given_floats[..2]);
    }

    #[test]
    fn an_answer_of_particles_has_what_moved() {
        let call = Style::plain(1.0, [3, 3], [1, 1], 1).sample(&mut Rng::new(1)).edited(&["*4".parse().unwrap()]);
        let (mut floats, mut words) = (call.particle_floats.clone(), call.particle_words.clone());
        for particle in [1, 2] {
            floats[particle * PARTICLE_FLOATS + 25] = 0xffff_ffff;
            words[particle * PARTICLE_WORDS + 3] = 7;
        }
        let answered = call.particles_answered((&floats, &words));
        assert_eq!([&answered[0], &answered[3]], ["=", "="]);
        assert_eq!((answered[1].len(), &answered[1][200..208], &answered[1][232..]), (240, "7FC00000", "00000007"));
        let folded_fields = folded(&answered);
        assert_eq!(folded_fields, ["=".to_string(), answered[1].clone() + "*2", "=".to_string()]);
        assert!(unfolded(&folded_fields.iter().map(String::as_str).collect::<Vec<_>>()).eq(&answered));
        assert!(folded(&[]).is_empty());
    }

    #[test]
    fn edits_of_a_boundary_change_what_they_name() {
        let call = Call::on(vec![0]).bounded(2, &[0.5, 1.0]);
        let edits = ["b=00000004", "d=00000003", "c=9", "n1=7F800000", "j63=80000000", "q31=1", "n#3", "j#65", "q#0", "m3=2"];
        let read: Vec<Edit> = edits.iter().map(|edit| edit.parse().unwrap()).collect();
        assert!(read.iter().map(Edit::to_string).eq(edits));
        assert_eq!(call.edited(&read[5..6]).boundary.insides[31], 1);
        let edited = call.edited(&read);
        let Boundary { handling, locks, colliders, frictions, points, insides } = edited.boundary;
        assert_eq!((handling, locks, colliders, insides.len()), (4, 3, 9, 0));
        assert_eq!((frictions, points[63], points.len()), (vec![0x3f00_0000, 0x7f80_0000, 0], 0x8000_0000, 65));
        assert_eq!(edited.node_floats[3], 2);
    }

    #[test]
    fn edits_are_read_again_and_change_what_they_name() {
        let call = Style::plain(1.0, [0, 0], [4, 4], 3).sample(&mut Rng::new(1));
        let edits =
            ["h=40000000", "y=FFC00000", "r=18446744073709551615", "i0=FFF", "s1=2", "f27=80000000", "w3=2", "m#5", "k#17"];
        let read: Vec<Edit> = edits.iter().map(|edit| edit.parse().unwrap()).collect();
        assert!(read.iter().map(Edit::to_string).eq(edits));
        let edited = call.edited(&read);
        assert_eq!((edited.cell_width, edited.gravity[1].is_nan(), edited.regions), (2.0, true, u64::MAX));
        assert_eq!((edited.ids[0], edited.ranges[1], edited.particle_words[3]), (0xfff, 2, 2));
        assert_eq!((edited.particle_floats[27], edited.node_floats.len(), edited.node_words.len()), (0x8000_0000, 5, 17));
        assert_eq!((edited.particles, edited.ids.len(), edited.dt), (3, call.ids.len(), call.dt));
    }

    #[test]
    fn a_call_is_put_together_again() {
        let call = Style::plain(1.0, [3, 3], [2, 2], 3).sample(&mut Rng::new(1)).bounded(2, &[0.5]);
        let damages = ["m#5 k#999 f#70 w#3 n#3", "i#9 s#1 r=7 p=18446744073709551615 c=0", "j#7 q#0 g#5 v#1 v0=2 g4=7", ""];
        for damage in damages {
            let edits: Vec<Edit> = damage.split_whitespace().map(|edit| edit.parse().unwrap()).collect();
            let damaged = call.edited(&edits);
            let (base, found) = damaged.parted();
            assert_eq!(base.edited(&found), damaged, "{}", damage);
            for (fields, read) in [
                (base.bounded_fields(), Call::from_bounded_fields as fn(&[&str]) -> Call),
                (base.gather_fields(), Call::from_gather_fields),
            ] {
                let read = read(&fields.iter().map(String::as_str).collect::<Vec<_>>());
                assert_eq!(
                    (&read.ids, &read.particle_floats, &read.node_words),
                    (&base.ids, &base.particle_floats, &base.node_words)
                );
            }
            assert!(damage.contains('#') || found.iter().all(|edit| "gv".contains(edit.letter())));
        }
    }

    #[test]
    fn copies_are_all_of_the_first_region() {
        let call = Style::plain(1.0, [3, 3], [1, 1], 1).sample(&mut Rng::new(1)).edited(&["*5".parse().unwrap()]);
        assert_eq!((call.particles, &call.ranges[..4]), (5, &[0, 5, 5, 0][..]));
        assert_eq!((call.particle_floats.len(), call.particle_words.len()), (130, 20));
        assert_eq!(call.position(4), call.position(0));
    }

    #[test]
    fn an_answer_of_all_nodes_has_what_moved() {
        let mut call = Call::on(vec![0]);
        call.node_floats[0] = 0xff80_0001;
        let (mut floats, mut words) = (call.node_floats.clone(), call.node_words.clone());
        (floats[7], words[2]) = (0xffff_ffff, 1);
        let answered = call.all_answered((&floats, &words));
        assert_eq!(answered[..2], ["=".to_string(), format!("{:0<64}", "7FC00000")]);
        assert_eq!(answered[2..4], [format!("{:0>64}", 1), "=".to_string()]);
    }

    #[test]
    fn an_answer_of_masses_has_what_else_moved() {
        let mut call = Call::on(vec![0]);
        call.node_floats[..14].fill(0xff80_0001);
        let (mut floats, mut words) = (call.node_floats.clone(), call.node_words.clone());
        (floats[0], floats[7], floats[14], words[3]) = (0, 0x8000_0000, 1, 1);
        let answered = call.masses_answered((&floats, &words));
        assert_eq!([&answered[0], &answered[4]], ["m", "="]);
        assert_eq!(answered[1], "80000000".to_string() + &"FF800001".repeat(6) + "00000000");
        assert_eq!(answered[2..4], [format!("{:0<64}", "00000001"), format!("{:0>64}", 1)]);
    }

    #[test]
    fn an_answer_has_what_was_hit_and_what_moved() {
        let mut call = Call::on(vec![0]);
        call.node_floats[0] = 0xff80_0001;
        let (mut floats, words) = (call.node_floats.clone(), call.node_words.clone());
        floats[7] = 0xffff_ffff;
        floats[14] = 1;
        let mut hit = vec![false; 16];
        hit[1] = true;
        let answered = call.answered((&floats, &words), &hit);
        let written = |first: &str| format!("{:0<64}", first);
        assert_eq!(answered[..4], ["=".to_string(), written("7FC00000"), written("00000001"), "=".to_string()]);
    }
}
