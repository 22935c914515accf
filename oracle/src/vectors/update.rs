//! Questions to the update, and to clear, scatter and update in one call. What a call is refused for is `reading`'s answer; the nodes
//! of one that is not are the handed-over Rust's. Its clear is the loop of `ParticleSet::sort`, and its sequence is the three in turn.

use super::book::{answer, entry, Book};
use super::faults::{self, over_16, over_512, projections};
use super::floats::{around, near, strange_pairs};
use super::{scatter, Sheet, OF_BOTH};
use crate::reading;
use crate::rng::Rng;
use samples::lines::Edit;
use samples::random::{bounded, Numbers, Old, Style, WIDTHS};
use samples::{Call, FRICTION, FRICTION_Z_UP, NODE_FLOATS, NONE, REGION_NODES, STICK, VELOCITY};
use sparkl2d::scene::Scene;
use sparkl2d::MmapMut;

const LEGEND: [&str; 20] = [
    "Fields, between tabs: W an f32's bits in 8 hex digits, H a u64 in 16, D a decimal, P a particle (26 floats and 4 words, each in 8",
    "hex digits), N a node (7 floats and a word), J a projection (a point's two floats and a word, whether inside), or 0 for a node or",
    "a projection of zeros, E a change.",
    "b a call D W W W W D [H D D].. D P.. N.. D D D W.. J.. = D: the number that it has in the lines below; h, dt, gravity x and y; how",
    "  many regions, of each the id, start and count; how many particles, and these; 16 nodes for each region; boundary handling, locks;",
    "  how many colliders, of each the friction; a projection for each region, cell and collider. How many nodes there are",
    "u the update D E.. = D D N..: the call, with changes",
    "a clear, scatter and update in one D E.. = D D N..: the call, with changes",
    "  Of both: number and index and, where the number is 0, every node after the call: = for one that is as it was, bit for bit; in the",
    "  others a NaN is 7FC00000. Where the number is not 0, every lent word is as it was.",
    "Changes, in their order:",
    "  h=W t=W x=W y=W b=W d=W   cell width, dt, gravity, boundary handling, locks",
    "  r=D p=D c=D       the counts of regions, of particles and of colliders, whatever the lists have",
    "  iD=X sD=X fD=X wD=X mD=X kD=X nD=X jD=X qD=X   an entry of the ids, of the starts and counts, of the floats and of the words of",
    "                    particles and of nodes, of the frictions, of the floats and of the words of projections; X in hex",
    "  iD sD fD wD mD kD nD jD qD with # before the D: the length of these; what is missing is 0",
    "  *D                the particles are the first one, D times, and all of the first region",
    "Numbers are `reading`'s, nodes the Rust's. A flag's word is the port's: 0 is off, all else is on and stays as it is, and what is",
    "switched on is 1.",
    "End of the header.",
];

pub fn make() -> Sheet {
    let sources = [&["src/dynamics/solver/grid_update.rs"], &scatter::SOURCES[..]].concat();
    let mut book = Book::new(Sheet::titled("Update", OF_BOTH, &sources, &LEGEND));
    book.updates();
    book.sequences();
    book.refused_updates();
    book.sheet
}

impl Book {
    /// Writes a call down, unless it stands there already.
    fn add_bounded(&mut self, call: Call) -> usize {
        let fields = call.bounded_fields();
        self.calls.iter().position(|other| *other == call).unwrap_or_else(|| self.enter(call, fields))
    }

    fn ask_update(&mut self, number: usize, edits: &[Edit]) {
        self.question("u", number, vec![], edits, |call| answer(reading::update(call), || updated(call)));
    }

    fn ask_sequence(&mut self, number: usize, edits: &[Edit]) {
        self.question("a", number, vec![], edits, |call| answer(reading::clear_scatter_update(call), || all_three(call)));
    }
}

/// The nodes that the Rust leaves.
fn updated(call: &Call) -> Vec<String> {
    left(call, Scene::update)
}

fn all_three(call: &Call) -> Vec<String> {
    left(call, |scene| {
        scene.clear();
        scene.scatter();
        scene.update();
    })
}

fn left(call: &Call, stages: impl FnOnce(&mut Scene)) -> Vec<String> {
    let mut scene = Scene::new(call, MmapMut::sparse());
    stages(&mut scene);
    let (floats, words) = scene.nodes();
    call.all_answered((&floats, &words))
}

// Updates that are done, of one node: the cell at the origin, where the way from the point to the centre is the point, negated.

/// What is said of the one cell, and of the call.
#[derive(Clone, Copy)]
struct Aim {
    point: [f32; 2],
    inside: bool,
    velocity: [f32; 2],
    friction: f32,
    cell_width: f32,
    dt: f32,
    handling: u32,
}

const AIM: Aim =
    Aim { point: [0.0; 2], inside: false, velocity: [0.0; 2], friction: 0.5, cell_width: 1.0, dt: 1.0, handling: FRICTION };

impl Aim {
    /// The call of `AIM`, whose node has something in every field but its velocity.
    fn call() -> Call {
        let mut call = Call::on(vec![0]).bounded(AIM.handling, &[AIM.friction]);
        for (place, float) in [(0, 1.5f32), (1, 2.5), (2, 3.5), (5, 4.5), (6, 5.5)] {
            call.node_floats[place] = float.to_bits();
        }
        call
    }

    /// What this changes about that call.
    fn edits(&self) -> Vec<Edit> {
        let float = |letter: char, place: usize, float: f32| entry(letter, place, float.to_bits());
        let mut edits = vec![
            float('m', VELOCITY, self.velocity[0]),
            float('m', VELOCITY + 1, self.velocity[1]),
            float('j', 0, self.point[0]),
            float('j', 1, self.point[1]),
        ];
        edits.extend(self.inside.then(|| entry('q', 0, 1)));
        edits.extend((self.friction.to_bits() != AIM.friction.to_bits()).then(|| float('n', 0, self.friction)));
        edits.extend((self.cell_width != AIM.cell_width).then(|| Edit::Setting('h', self.cell_width.to_bits())));
        edits.extend((self.dt != AIM.dt).then(|| Edit::Setting('t', self.dt.to_bits())));
        edits.extend((self.handling != AIM.handling).then(|| Edit::Setting('b', self.handling)));
        edits
    }

    /// The same on the other axis.
    fn turned(self) -> Aim {
        let turned = |[x, y]: [f32; 2]| [y, x];
        Aim { point: turned(self.point), velocity: turned(self.velocity), ..self }
    }
}

/// The numbers `steps` patterns above this one or below.
fn stepped(number: f32, steps: i32) -> f32 {
    f32::from_bits((number.to_bits() as i32 + steps) as u32)
}

/// Two numbers above 0 whose squares' sum is just this, each product and the sum once rounded.
fn with_square(square: f32, rng: &mut Rng) -> [f32; 2] {
    loop {
        let x = rng.between(0.1, 0.99) * square.sqrt();
        let y = (square - x * x).max(0.0).sqrt();
        if let Some(y) = near(y, 8).into_iter().find(|y| x * x + y * y == square) {
            return [x, y];
        }
    }
}

/// Where a norm is too small, by its square.
const LEAST_NORM: f32 = 1.0e-5;
/// Where a tangent is.
const LEAST_TANGENT: f32 = 1.0e-10;

impl Book {
    fn updates(&mut self) {
        let number = self.add_bounded(Aim::call());
        let mut aims = vec![];
        aims.extend(small_norms(&mut self.rng));
        aims.extend(about_the_width(&mut self.rng));
        aims.extend(arrivals(&mut self.rng));
        aims.extend(signs_of_the_normal_velocity(&mut self.rng));
        aims.extend(small_tangents(&mut self.rng));
        aims.extend(frictions());
        aims.extend(beyond_the_range());
        aims.extend(strange_velocities());
        for aim in aims {
            self.ask_update(number, &aim.edits());
        }
        self.flags_and_locks(number);
        self.sampled_updates();
        self.updates_far_out();
        self.updates_at_the_limits();
    }

    /// Flags that are on and off, locks of each axis, nodes of any pattern and of zeros, with each code, inside and outside.
    fn flags_and_locks(&mut self, number: usize) {
        let settings = |handling: u32, locks: u32, inside: u32| {
            vec![Edit::Setting('b', handling), Edit::Setting('d', locks), entry('q', 0, inside), entry('j', 0, 0x3F00_0000)]
        };
        let ways = [NONE, STICK, FRICTION, FRICTION_Z_UP]
            .into_iter()
            .flat_map(|handling| (0..4).flat_map(move |locks| [0, 1].map(|inside| (handling, locks, inside))));
        let velocities = [[-1.0, 0.5], [2.0, -3.0], [0.0, -0.0]].map(|velocity: [f32; 2]| velocity.map(f32::to_bits));
        let nan_in_every_field = (0..NODE_FLOATS).map(|place| entry('m', place, 0x7FC0_0001 + place as u32)).collect::<Vec<_>>();
        let negative_zeros = (0..NODE_FLOATS).map(|place| entry('m', place, 0x8000_0000)).collect::<Vec<_>>();
        let zeros = (0..NODE_FLOATS).map(|place| entry('m', place, 0)).collect::<Vec<_>>();
        for (handling, locks, inside) in ways {
            for word in [0, 1, 2, 7, u32::MAX] {
                let velocity = velocities[(word % 3) as usize];
                let node = vec![entry('m', VELOCITY, velocity[0]), entry('m', VELOCITY + 1, velocity[1]), entry('k', 0, word)];
                self.ask_update(number, &[node, settings(handling, locks, inside)].concat());
            }
            for node in [&nan_in_every_field, &negative_zeros, &zeros] {
                self.ask_update(number, &[node.clone(), settings(handling, locks, inside)].concat());
            }
        }
    }

    /// Few regions and none to sixteen colliders, with numbers and nodes of every kind.
    fn sampled_updates(&mut self) {
        let numbers = [Numbers::Everyday, Numbers::Everyday, Numbers::Mixed, Numbers::Tiny, Numbers::Huge, Numbers::Any];
        let olds = [Old::Numbers, Old::Numbers, Old::Numbers, Old::Patterns, Old::Zeros, Old::Empty];
        let colliders = [1, 2, 3, 5, 0, 1, 4, 2, 16, 1];
        for place in 0..150 {
            let style = Style {
                numbers: numbers[place % 6],
                old: olds[place / 6 % 6],
                other_regions: place % 2,
                ..Style::plain(WIDTHS[place % 12], [place as u32 % 7, 11], [1, 1], 1)
            };
            let call = without_particles(style.sample(&mut self.rng));
            let call = bounded(call, colliders[place % 10], &mut self.rng);
            let number = self.add_bounded(call);
            self.ask_update(number, &[]);
            if place % 10 == 0 {
                (0..4).for_each(|code| self.ask_update(number, &[Edit::Setting('b', code), Edit::Setting('d', 3 - code)]));
            }
        }
    }

    /// Regions whose coordinates an f32 does not hold, and the last ones there are.
    fn updates_far_out(&mut self) {
        let ids =
            [vec![0x5555_5555_5555_5000, 0xAAAA_AAAA_AAAA_A000, !0xFFF], vec![1 << 62, 1 << 63], vec![0x0123_4567_89AB_C000]];
        for (place, ids) in ids.into_iter().cycle().take(12).enumerate() {
            let mut call = Call { cell_width: WIDTHS[place], dt: 0.1, ..Call::on(ids) };
            for float in &mut call.node_floats {
                *float = self.rng.between(-2.0, 2.0).to_bits();
            }
            let call = bounded(call, 1 + place % 3, &mut self.rng);
            let number = self.add_bounded(call);
            self.ask_update(number, &[Edit::Setting('b', FRICTION)]);
        }
    }

    /// As many regions and colliders as there may be, something in the first node and in the last; and no regions, or no colliders.
    fn updates_at_the_limits(&mut self) {
        let number = self.add_bounded(limit());
        self.ask_update(number, &[]);
        self.ask_update(number, &[Edit::Setting('b', STICK), Edit::Setting('d', 1)]);
        self.ask_sequence(number, &[]);
        for call in [Call::on(vec![]), Call::on(vec![]).bounded(2, &[0.5; 16]), Call::on(vec![0, 4096])] {
            let number = self.add_bounded(call);
            for locks in 0..4 {
                self.ask_update(number, &[Edit::Setting('d', locks), Edit::Setting('b', locks)]);
                self.ask_sequence(number, &[Edit::Setting('d', locks), Edit::Setting('b', locks)]);
            }
        }
    }
}

fn without_particles(call: Call) -> Call {
    Call { ranges: vec![0; call.ranges.len()], particles: 0, particle_floats: vec![], particle_words: vec![], ..call }
}

/// 512 regions and 16 colliders; of the last node and its neighbour the last collider says something.
fn limit() -> Call {
    let mut call = Call::on((0..512).map(|place| place << 12).collect()).bounded(FRICTION, &[0.5; 16]);
    let nodes = call.node_words.len();
    for node in [0, nodes - 2, nodes - 1] {
        call.node_floats[node * NODE_FLOATS + VELOCITY..][..2].copy_from_slice(&[1.0, -2.0].map(f32::to_bits));
    }
    let last = call.boundary.insides.len() - 1;
    call.boundary.insides[last] = 1;
    call.boundary.points[2 * last..].copy_from_slice(&[126.0, 63.5].map(f32::to_bits));
    call.boundary.points[2 * (last - 16)..][..2].copy_from_slice(&[125.5, 63.0].map(f32::to_bits));
    call
}

/// Points so near to the centre that the square of the way is about the least one, on one axis and on both.
fn small_norms(rng: &mut Rng) -> Vec<Aim> {
    let mut points: Vec<[f32; 2]> = around(LEAST_NORM.to_bits(), 4).into_iter().map(|bits| [f32::from_bits(bits), 0.0]).collect();
    for steps in -3..=4 {
        let square = stepped(LEAST_NORM * LEAST_NORM, steps);
        points.extend((0..5).map(|_| with_square(square, rng)));
    }
    points.extend([0.0, -0.0, 1e-45, 1e-30, 1e-23, 3e-23, 1e-20, 9e-6].map(|x| [x, 0.0]));
    let mut found = vec![];
    for point in points {
        let along = point.map(|x| (x * 1e5).max(-2.0).min(2.0));
        let velocity = [along[0] - 0.5 * along[1], along[1] + 0.75 * along[0]];
        for (inside, velocity) in [(false, velocity), (true, velocity.map(|part| -part)), (true, velocity)] {
            let aim = Aim { point, inside, velocity, ..AIM };
            found.extend([aim, aim.turned()]);
        }
    }
    found
}

/// Points about a cell's width away, on one axis and on both, with velocities towards them that reach them in dt and that do not.
fn about_the_width(rng: &mut Rng) -> Vec<Aim> {
    let mut found = vec![];
    for cell_width in [1.0, 0.1, 3.0, 1.0 / 3.0, 1048576.0, 1.0 / 1048576.0, 0.05] {
        let mut points: Vec<[f32; 2]> = near(cell_width, 3).into_iter().map(|x| [x, 0.0]).collect();
        points.extend((-3..=3).map(|steps| with_square(stepped(cell_width * cell_width, steps), rng)));
        points.extend([0.25, 0.5, 0.999, 1.001, 2.0].map(|times| [times * cell_width, 0.0]));
        for point in points {
            let along = point.map(|x| x / cell_width);
            let velocity = [along[0] - 0.25 * along[1], along[1] + 0.25 * along[0]];
            for (slow, inside) in [(1.0, false), (1e-9, false), (1e-9, true), (-1.0, true)] {
                let aim = Aim { point, inside, velocity: velocity.map(|part| part * slow), cell_width, ..AIM };
                found.push(if slow < 0.0 { aim.turned() } else { aim });
            }
        }
    }
    found
}

/// Points beyond a cell's width, with velocities that just reach them in dt or just do not; and lengths of time whose products and
/// quotients leave the range.
fn arrivals(rng: &mut Rng) -> Vec<Aim> {
    let mut found = vec![];
    for (cell_width, distance) in [(1.0f32, 1.25f32), (0.1, 0.17), (3.0, 3.7), (1.0 / 1048576.0, 1.5e-5)] {
        let beyond = distance - cell_width;
        for dt in [1.0, 0.5, 0.1, 1.0 / 60.0, 3.0, 0.001, 0.3, 0.7, 1.1] {
            for speed in near(beyond / dt, 3).into_iter().chain([0.5, 0.9, 1.5, 40.0].map(|times| times * beyond / dt)) {
                let aim = Aim { point: [distance, 0.0], velocity: [speed, rng.between(-1.0, 1.0)], cell_width, dt, ..AIM };
                found.push(if rng.below(2) == 0 { aim } else { aim.turned() });
            }
        }
        for dt in [1e-45, 1e-38, 1e-30, 1e30, f32::MAX] {
            for speed in [1e-45, 1e-30, 1e-8, 1.0, 1e8, 1e30, f32::MAX] {
                let way = [0.6 * distance, 0.8 * distance];
                found.push(Aim { point: [distance, 0.0], velocity: [speed, 1.0], cell_width, dt, ..AIM });
                found.push(Aim { point: way, velocity: way.map(|part| part * speed), cell_width, dt, ..AIM });
            }
        }
    }
    for _ in 0..60 {
        let point = [rng.between(-2.0, 2.0), rng.between(1.0, 2.0)];
        let norm = (point[0] * point[0] + point[1] * point[1]).sqrt();
        let speed = (norm - 1.0) * rng.between(0.99, 1.01);
        found.push(Aim { point, velocity: point.map(|part| part / norm * speed), ..AIM });
    }
    found
}

/// Velocities that are almost square to the normal, on an axis and off it.
fn signs_of_the_normal_velocity(rng: &mut Rng) -> Vec<Aim> {
    const LITTLE: [f32; 10] = [0.0, -0.0, 1e-45, -1e-45, f32::MIN_POSITIVE, -f32::MIN_POSITIVE, 1e-30, -1e-30, 1e-8, -1e-8];
    let mut found = vec![];
    for (little, inside) in LITTLE.iter().flat_map(|little| [(*little, false), (*little, true)]) {
        for (distance, along) in [(0.5, 1.0), (0.5, 0.0), (-0.5, -0.0), (1.5, 1.0), (-1.0, 2.0)] {
            let aim = Aim { point: [distance, 0.0], inside, velocity: [little, along], ..AIM };
            found.extend([aim, aim.turned()]);
        }
    }
    for _ in 0..25 {
        let point = [rng.between(0.1, 0.6), rng.between(0.1, 0.6)];
        let speed = rng.between(0.1, 2.0);
        for x in near(point[1] * speed, 2) {
            found.push(Aim { point, inside: rng.below(3) == 0, velocity: [x, -point[0] * speed], ..AIM });
        }
    }
    found
}

/// Tangents whose norm is about the least one, and those that are only what rounding left.
fn small_tangents(rng: &mut Rng) -> Vec<Aim> {
    let mut found = vec![];
    let mut along = around(LEAST_TANGENT.to_bits(), 4).into_iter().map(f32::from_bits).collect::<Vec<_>>();
    along.extend([0.0, -0.0, 1e-45, 1e-30, 1e-23, 1e-20, -1e-20, 1e-12, 1e-9, 1e-8]);
    for along in along {
        for (friction, speed) in [(0.5, 1e-11), (0.0, 1.0), (-0.5, 1.0), (0.5, 0.25)] {
            let aim = Aim { point: [0.5, 0.0], velocity: [speed, along], friction, ..AIM };
            found.extend([aim, aim.turned()]);
        }
    }
    for steps in -3..=3 {
        for _ in 0..3 {
            // A point on the other axis leaves a part of the way in both; a root is never far from its square.
            let [x, y] = with_square(stepped(LEAST_TANGENT * LEAST_TANGENT, steps), rng);
            found.push(Aim { point: [0.0, 1e-4], velocity: [x, y], friction: 0.25, ..AIM });
            found.push(Aim { point: [1e-4, 1e-4], velocity: [x, -y], friction: 0.0, ..AIM });
        }
    }
    for place in 0..60 {
        let point = [rng.between(0.1, 0.6), rng.between(0.1, 0.6)];
        let speed = [1.0, 1e-2, 1e-3, 3e-4, 1e-4, 1e-6][place % 6];
        let friction = [0.5, 0.0, -1.0][place % 3];
        found.push(Aim { point, velocity: point.map(|part| part * speed), friction, ..AIM });
    }
    found
}

/// Frictions that stop the tangent, that just do and just do not, that drive it, and whose products leave the range.
fn frictions() -> Vec<Aim> {
    let mut values = vec![0.0, -0.0, 0.5, 1.0, -1.0, 1e30, -1e30, f32::MAX, f32::MIN, 1e-45, -1e-45, 4.0, 1e-10];
    values.extend(near(2.0, 3));
    let velocities = [
        [1.0, 2.0],
        [1.0, -2.0],
        [1e-3, 2e-3],
        [3.0, 6.0],
        [1e30, 1e30],
        [f32::MAX, 1.0],
        [1.0, f32::MAX],
        [f32::MAX, f32::MIN],
        [1e-30, 1e-9],
        [1e10, 1e19],
        [1e-45, 1.0],
    ];
    let mut found = vec![];
    for friction in values {
        for velocity in velocities {
            for (point, inside) in [([0.5, 0.0], false), ([-0.25, 0.0], true), ([0.3, 0.4], false)] {
                let aim = Aim { point, inside, velocity, friction, ..AIM };
                found.push(aim);
            }
        }
    }
    found
}

/// Points so far away that the square of the way is infinite, and nearly so.
fn beyond_the_range() -> Vec<Aim> {
    let mut far = near(18446744073709551616.0, 2);
    far.extend([1e19, -1e19, 1.3e19, 1e20, -1e20, 1e30, f32::MAX, f32::MIN]);
    let mut found = vec![];
    for far in far {
        for point in [[far, 0.0], [0.0, far], [far, far], [far, 1.0], [far, -0.5 * far]] {
            let along = point.map(|x| if x == 0.0 { 0.5 } else { x.signum() });
            for velocity in [along, along.map(|part| part * f32::MAX), along.map(|part| part * f32::INFINITY)] {
                let dt = if found.len() % 2 == 0 { 1.0 } else { f32::MAX };
                found.push(Aim { point, inside: found.len() % 3 == 0, velocity, dt, ..AIM });
            }
        }
    }
    found
}

/// Velocities of every kind, with each code, inside and outside, near and far.
fn strange_velocities() -> Vec<Aim> {
    let mut found = vec![];
    for (place, velocity) in strange_pairs().map(|pair| pair.map(f32::from_bits)).enumerate() {
        for (handling, inside) in
            [(STICK, true), (STICK, false), (NONE, true), (FRICTION, true), (FRICTION, false), (FRICTION_Z_UP, false)]
        {
            let point = [[0.5, 0.0], [-0.3, 0.4], [0.0, 2.0], [-1.5, -1.5]][(place + found.len()) % 4];
            found.push(Aim { point, inside, velocity, handling, ..AIM });
        }
    }
    found
}

// Clear, scatter and update in one, done.

impl Book {
    fn sequences(&mut self) {
        let numbers = [Numbers::Everyday, Numbers::Everyday, Numbers::Everyday, Numbers::Mixed, Numbers::Tiny, Numbers::Huge];
        let olds = [Old::Patterns, Old::Numbers, Old::Empty];
        for place in 0..72 {
            let style = Style {
                numbers: numbers[place % 6],
                old: olds[place % 3],
                other_regions: place % 2,
                ..Style::plain(WIDTHS[place % 12], [place as u32 % 9, 3], [[3, 2], [1, 1], [5, 1]][place % 3], 1 + place % 5)
            };
            let call = style.sample(&mut self.rng);
            let call = bounded(call, [1, 2, 0, 3][place % 4], &mut self.rng);
            let number = self.add_bounded(call);
            self.ask_sequence(number, &[]);
            self.ask_update(number, &[]);
        }
    }
}

// Calls that are refused.

impl Book {
    fn refused_updates(&mut self) {
        for (number, of_both) in self.good_bounded_calls() {
            let of_update = faults::of_update(&self.calls[number]);
            for edits in &of_update {
                self.ask_update(number, edits);
            }
            for _ in 0..250 {
                let edits = faults::together(&of_update, &mut self.rng);
                self.ask_update(number, &edits);
            }
            if of_both {
                self.refused_sequences(number, of_update);
            }
        }
        self.too_many_of_two();
        self.last_projections();
    }

    fn refused_sequences(&mut self, number: usize, of_update: Vec<Vec<Edit>>) {
        let of_scatter = faults::of_scatter(&self.calls[number]);
        for edits in of_scatter.iter().chain(&of_update) {
            self.ask_sequence(number, edits);
        }
        let all = [of_scatter, of_update].concat();
        for _ in 0..400 {
            let edits = faults::together(&all, &mut self.rng);
            self.ask_sequence(number, &edits);
        }
    }

    /// A few regions and colliders, one of the calls with nodes of any pattern; and which of them is for the sequence too.
    fn good_bounded_calls(&mut self) -> Vec<(usize, bool)> {
        let near = Style::plain(1.0, [2, 2], [3, 3], 6);
        let strange = Style { old: Old::Patterns, ..Style::plain(0.3, [21, 38], [1, 1], 1) };
        [(near, 2, true), (strange, 3, false)]
            .into_iter()
            .map(|(style, colliders, of_both)| {
                let call = style.sample(&mut self.rng);
                let call = bounded(call, colliders, &mut self.rng);
                (self.add_bounded(call), of_both)
            })
            .collect()
    }

    /// More regions or colliders than may be, whatever else is wrong.
    fn too_many_of_two(&mut self) {
        let number = self.add_bounded(Aim::call());
        let regions = |colliders: usize| [over_512(), projections(513, colliders)].concat();
        let no_width = vec![Edit::Setting('h', 0)];
        let both = [over_512(), vec![Edit::Count('c', 17), Edit::Length('n', 17)], projections(513, 17)].concat();
        let faults = [regions(1), over_16(1), both, [over_16(1), no_width.clone()].concat(), [regions(1), no_width].concat()];
        for edits in faults {
            self.ask_update(number, &edits);
            self.ask_sequence(number, &edits);
        }
        // As many as may be of each: the ids are then refused, and nothing before them.
        let most = [vec![Edit::Count('c', 16), Edit::Length('n', 16)], projections(1, 16)].concat();
        self.ask_update(number, &most);
        self.ask_sequence(number, &most);
    }

    /// The last projections, collider and region of as many as there may be.
    fn last_projections(&mut self) {
        let number = self.add_bounded(limit());
        let last = 512 * REGION_NODES * 16 - 1;
        let entries = [('q', last, 2), ('j', 2 * last + 1, 0x7F80_0000), ('j', 2 * last, 0xFFC0_0000), ('n', 15, 0x7F80_0000)];
        for (letter, place, bits) in entries {
            self.ask_update(number, &[entry(letter, place, bits)]);
            self.ask_sequence(number, &[entry(letter, place, bits)]);
        }
        self.ask_update(number, &[Edit::Entry('i', 511, 0)]);
        self.ask_update(number, &[Edit::Entry('i', 511, 511 << 12 | 1)]);
    }
}

#[cfg(test)]
mod tests {
    use super::*;
    use crate::rng::SEED;
    use crate::vectors::format::{self, answered, assert_calls_are_read_again, Question};
    use samples::{plane, Boundary};

    fn questions(sheet: &Sheet) -> Vec<Question> {
        format::questions(sheet, Call::from_bounded_fields, "ua")
    }

    #[test]
    fn every_call_is_read_again_and_every_node_is_answered() {
        let sheet = make();
        assert_calls_are_read_again(&sheet, Call::from_bounded_fields, Call::bounded_fields);
        for (operation, call, answer) in questions(&sheet) {
            let nodes = if answer[0] == "0" { call.node_words.len() } else { 0 };
            assert_eq!(answer.len(), 2 + nodes, "{} {:?}", operation, &answer[..2]);
        }
    }

    #[test]
    fn both_calls_answer_every_number_often() {
        let found = answered(&make(), "ua");
        for (operation, last) in [("u", 6), ("a", 10)] {
            let numbers = found.keys().filter(|(asked, _)| asked == operation).map(|(_, number)| *number);
            assert!(numbers.eq(0..=last), "{}", operation);
        }
        for ((operation, number), (count, indices)) in &found {
            let least_indices = if *number < 4 { 1 } else { 3 };
            assert!(*count >= 5 && indices.len() >= least_indices, "{} {} {} {:?}", operation, number, count, indices);
            assert!(![4, 5].contains(number) || indices.contains(&131071), "{} {}", operation, number);
        }
    }

    /// Of what the three answer by themselves the sequence answers the least number, and in a number that two of them answer first what
    /// comes first there: in 4 the codes, and else what the scatter answers. So it is done where all three are.
    #[test]
    fn the_sequence_is_refused_as_its_calls_are() {
        let mut rng = Rng::new(SEED);
        let call = bounded(Style::plain(1.0, [2, 2], [3, 3], 6).sample(&mut rng), 2, &mut rng);
        let all = [faults::of_scatter(&call), faults::of_update(&call)].concat();
        let mut refused = 0;
        for _ in 0..20_000 {
            let edits = faults::together(&all, &mut rng);
            let call = call.edited(&edits);
            let (floats, words) = (call.node_floats.len() as u64, call.node_words.len() as u64);
            let of_clear = reading::clear(call.regions, &call.ids, floats, words);
            let of_update = reading::update(&call);
            let bad_code = call.boundary.handling > FRICTION_Z_UP || call.boundary.locks > 3;
            let of_scatter = reading::scatter(&reading::Which::All, &call);
            let answers = if bad_code { [of_update, of_clear, of_scatter] } else { [of_clear, of_scatter, of_update] };
            let least = answers.into_iter().flatten().min_by_key(|refusal| refusal.number);
            refused += usize::from(least.is_some());
            assert_eq!(reading::clear_scatter_update(&call), least, "{:?}", edits);
        }
        assert!(refused > 15_000);
    }

    /// Document 01's update once more, by hand, or with one thing wrong about it.
    fn by_hand(call: &Call, wrong: &str) -> Vec<String> {
        let Boundary { locks, frictions, points, insides, .. } = &call.boundary;
        let (mut floats, mut words) = (call.node_floats.clone(), call.node_words.clone());
        let colliders = frictions.len();
        for node in 0..words.len() {
            let (region, number) = (node / REGION_NODES, node % REGION_NODES);
            let region = if wrong == "another region's centre" { 0 } else { call.ids[region] };
            let centre = plane::centre(plane::cell_of(region, number), call.cell_width);
            let own = &mut floats[node * NODE_FLOATS..][..NODE_FLOATS];
            for axis in (0..2).filter(|axis| locks >> if wrong == "axes exchanged" { 1 - axis } else { *axis } & 1 == 1) {
                own[VELOCITY + axis] = 0;
                if wrong != "momentum not locked" {
                    own[1 + axis] = 0;
                }
            }
            let mut velocity = [own[VELOCITY], own[VELOCITY + 1]].map(f32::from_bits);
            for collider in 0..colliders {
                let collider = if wrong == "colliders backwards" { colliders - 1 - collider } else { collider };
                let place = match wrong {
                    "projections by colliders" => collider * words.len() + node,
                    _ => node * colliders + collider,
                };
                let inside = insides[place] == 1;
                if wrong == "flag overwritten" && inside || words[node] == 0 && (inside || wrong == "flag outside") {
                    words[node] = 1;
                }
                let way = [0, 1].map(|axis| centre[axis] - f32::from_bits(points[2 * place + axis]));
                let friction = f32::from_bits(frictions[if wrong == "first friction" { 0 } else { collider }]);
                match call.boundary.handling {
                    STICK if inside || wrong == "stick outside" => velocity = [0.0; 2],
                    FRICTION => velocity = slid(velocity, way, inside, friction, call, wrong),
                    FRICTION_Z_UP if wrong != "z-up is none" => velocity = slid(velocity, way, inside, friction, call, wrong),
                    _ => {}
                }
            }
            for (part, moved) in own[VELOCITY..].iter_mut().zip(velocity) {
                // A NaN that nothing computed keeps its pattern.
                *part = if f32::from_bits(*part).is_nan() && moved.is_nan() { *part } else { moved.to_bits() };
            }
        }
        call.all_answered((&floats, &words))
    }

    fn slid(v: [f32; 2], e: [f32; 2], inside: bool, friction: f32, call: &Call, wrong: &str) -> [f32; 2] {
        let dot = |a: [f32; 2], b: [f32; 2]| a[0] * b[0] + a[1] * b[1];
        let less = |a: [f32; 2], factor: f32, b: [f32; 2]| [a[0] - factor * b[0], a[1] - factor * b[1]];
        let (square, h, dt) = (dot(e, e), call.cell_width, call.dt);
        let n = square.sqrt();
        let far_enough = match wrong {
            "least norm as a literal" => square > 1.0e-10,
            "least norm itself too" => square >= LEAST_NORM * LEAST_NORM,
            "norms compared" => n > LEAST_NORM,
            "no least norm" => square > 0.0,
            _ => square > LEAST_NORM * LEAST_NORM,
        };
        if !far_enough {
            return v;
        }
        let normal = match wrong {
            "times the inverse" => e.map(|part| part * (1.0 / n)),
            _ => e.map(|part| part / n),
        };
        let normal = if inside && wrong != "not negated" { normal.map(|part| -part) } else { normal };
        let s = dot(v, normal);
        if !(s < 0.0 || wrong == "s at 0 too" && s == 0.0) {
            return v;
        }
        let q = if wrong == "q without the width" { n } else { n - h };
        let touches = match wrong {
            "q below 0" => inside || q < 0.0,
            "inside not asked" => q <= 0.0,
            "squares of q" => inside || square <= h * h,
            _ => inside || q <= 0.0,
        };
        if touches {
            let t = less(v, s, normal);
            let norm = dot(t, t).sqrt();
            let slides = match wrong {
                "least tangent itself too" => norm >= LEAST_TANGENT,
                "least tangent as a product" => norm > LEAST_NORM * LEAST_NORM,
                "no least tangent" => norm > 0.0,
                "every tangent" => true,
                _ => norm > LEAST_TANGENT,
            };
            let rest = norm + s * friction;
            return match wrong {
                "small tangents kept as they were" if !slides => v,
                _ if !slides => t,
                "no maximum" => t.map(|part| part / norm * rest),
                "a NaN for a maximum" => t.map(|part| part / norm * if rest.is_nan() || rest > 0.0 { rest } else { 0.0 }),
                "product first" => t.map(|part| part * rest.max(0.0) / norm),
                "quotient of rest" => t.map(|part| part * (rest.max(0.0) / norm)),
                _ => t.map(|part| part / norm * rest.max(0.0)),
            };
        }
        let arrives = match wrong {
            "arrival itself too" => -s * dt >= q,
            "arrival by a quotient" => -s > q / dt,
            "never arrives" => false,
            "always arrives" => true,
            _ => -s * dt > q,
        };
        match wrong {
            _ if !arrives => v,
            "one quotient" => less(v, (q + s * dt) / dt, normal),
            "not what is left" => less(v, s, normal),
            _ => less(v, q / dt + s, normal),
        }
    }

    const WRONG: [&str; 36] = [
        "another region's centre",
        "axes exchanged",
        "momentum not locked",
        "colliders backwards",
        "projections by colliders",
        "flag overwritten",
        "flag outside",
        "first friction",
        "stick outside",
        "z-up is none",
        "least norm as a literal",
        "least norm itself too",
        "norms compared",
        "no least norm",
        "times the inverse",
        "not negated",
        "s at 0 too",
        "q without the width",
        "q below 0",
        "inside not asked",
        "squares of q",
        "least tangent itself too",
        "least tangent as a product",
        "no least tangent",
        "every tangent",
        "small tangents kept as they were",
        "no maximum",
        "a NaN for a maximum",
        "product first",
        "quotient of rest",
        "arrival itself too",
        "arrival by a quotient",
        "never arrives",
        "always arrives",
        "one quotient",
        "not what is left",
    ];

    /// The stand-ins mean what document 01 says, and every wrong update is told from the right one by some questions.
    #[test]
    fn the_rust_is_document_01s_update_and_no_other() {
        let done: Vec<(Call, Vec<String>)> = questions(&make())
            .into_iter()
            .filter(|(operation, _, answer)| operation == "u" && answer[0] == "0")
            .map(|(_, call, answer)| (call, answer[2..].to_vec()))
            .collect();
        for (call, answer) in &done {
            assert_eq!(&by_hand(call, ""), answer);
        }
        for wrong in WRONG {
            let told = done.iter().filter(|(call, answer)| by_hand(call, wrong) != *answer).count();
            assert!(told > 0, "{}", wrong);
        }
    }

    #[test]
    fn random_updates_are_document_01s() {
        let mut rng = Rng::new(SEED);
        for colliders in (0..600).map(|place| place % 6) {
            let call = bounded(Style::any(&mut rng).sample(&mut rng), colliders, &mut rng);
            assert_eq!(reading::update(&call), None);
            assert_eq!(reading::clear_scatter_update(&call), None);
            assert_eq!(updated(&call), by_hand(&call, ""));
        }
    }

    /// What was cleared and not reached has nothing to slide on: only its flag can be switched on.
    #[test]
    fn nodes_of_zeros_stay_zeros() {
        let mut rng = Rng::new(SEED);
        for colliders in (0..200).map(|place| place % 5) {
            let call = bounded(Call::on(vec![0, 4096]), colliders, &mut rng);
            let (zeros, switched_on) = ("=".to_string(), format!("{:0>64}", 1));
            assert!(updated(&call).iter().all(|node| *node == zeros || *node == switched_on));
        }
    }

    #[test]
    fn the_rusts_flag_is_a_bit_among_others() {
        use sparkl2d::dynamics::{GridNode, GridNodeFlags};
        let mut node = GridNode { flags: GridNodeFlags::from_bits_unchecked(1), ..GridNode::default() };
        assert!(!node.boundary());
        node.set_boundary(true);
        assert_eq!(node.flags.bits(), 3);
    }

    #[test]
    fn the_rust_goes_on_where_the_table_refuses() {
        let aim = Aim { point: [0.5, 0.0], velocity: [1.0, 2.0], dt: 0.0, ..AIM };
        let call = Aim::call().edited(&aim.edits());
        assert_eq!(reading::update(&call).map(|refusal| refusal.number), Some(3));
        assert_ne!(updated(&call)[0], "=");
    }

    #[test]
    fn centres_are_the_rusts() {
        let mut rng = Rng::new(SEED);
        for width in WIDTHS {
            let grid = sparkl2d::geometry::way_in::over::<()>(width, MmapMut::sparse());
            for _ in 0..200 {
                let (region, number) = (rng.number() >> rng.below(64) & !0xFFF, rng.below(16));
                let centre = grid.cell_center(region | number << 6);
                assert_eq!(plane::centre(plane::cell_of(region, number as usize), width), [centre.x, centre.y]);
            }
        }
    }
}
