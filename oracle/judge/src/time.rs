//! How long each call of the stages and the whole substep take here and in the handed-over Rust, at three sizes, so that growth shows.

use crate::archive::{self, Which};
use mangerknot_sys::Refusal;
use samples::particle::FLUID;
use samples::random::{bounded, order};
use samples::{plane, Call, Gather, Records, Rng, FRICTION, PARTICLE_FLOATS, PARTICLE_WORDS};
use sparkl2d::scene::Scene;
use sparkl2d::MmapMut;
use std::time::{Duration, Instant};

/// How many particles, and the regions along x and y; those at the far edges have no particles, since stencils reach beyond a region.
const SIZES: [(usize, [u32; 2]); 3] = [(1_024, [4, 4]), (8_192, [8, 8]), (65_536, [32, 16])];
/// The colliders' frictions, of which none is so large that a velocity overflows.
const FRICTIONS: [f32; 4] = [0.0, 0.2, 0.5, 1.0];

/// What is timed. The Rust has no call that goes in an order, and none for three stages in one: it is asked for what comes nearest. Where
/// nothing does, for one region and for each half of gather by itself, the port is timed alone.
#[derive(Clone, Copy, PartialEq)]
pub enum Task {
    Clear,
    Fluids,
    Scatter,
    InOrder,
    Region,
    Update,
    InOne,
    FirstHalf,
    SecondHalf,
    Gather,
    Substep,
}

impl Task {
    /// Whether the Rust has it too, or something that comes near.
    fn is_of_both(self) -> bool {
        !matches!(self, Task::Region | Task::FirstHalf | Task::SecondHalf)
    }
}

const TASKS: [(Task, &str); 11] = [
    (Task::Clear, "clear"),
    (Task::Fluids, "fluids' volumes"),
    (Task::Scatter, "scatter"),
    (Task::InOrder, "scatter, in an order"),
    (Task::Region, "scatter, one region"),
    (Task::Update, "update"),
    (Task::InOne, "clear, scatter and update in one"),
    (Task::FirstHalf, "gather, first half"),
    (Task::SecondHalf, "gather, second half"),
    (Task::Gather, "gather, both halves"),
    (Task::Substep, "the whole substep"),
];

/// Times each side so often, in turn, at each size; says whether both leave the same nodes and the same particles.
pub fn run(repetitions: usize) -> bool {
    println!(
        "machine: {}; one thread; {} repetitions, medians; {} colliders with friction",
        crate::machine(),
        repetitions,
        FRICTIONS.len()
    );
    println!("the port's times have its checks in them, and the Rust checks nothing");
    print(["particles", "", "port ms", "Rust ms", "ratio", "port ns each", "Rust ns each"]);
    let same: Vec<bool> = SIZES.iter().map(|(particles, regions)| table(*particles, *regions, repetitions)).collect();
    same.into_iter().all(|same| same)
}

/// The rows of one size.
fn table(particles: usize, regions: [u32; 2], repetitions: usize) -> bool {
    let mut sides = Sides::new(full_call(particles, regions));
    let mut times = vec![[vec![], vec![]]; TASKS.len()];
    let mut same = true;
    for _ in 0..repetitions {
        for ((task, _), [port, rust]) in TASKS.iter().zip(&mut times) {
            sides.put_back(*task);
            port.push(timed(|| sides.port.go(*task)));
            if task.is_of_both() {
                rust.push(timed(|| sides.rust.go(*task)));
                same &= sides.are_same(*task);
            }
        }
    }
    for ((_, name), [port, rust]) in TASKS.iter().zip(&mut times) {
        let [port, rust] = [median(port), median(rust)].map(|time| time.map(|time| time.as_secs_f64()));
        let ms = |time: Option<f64>| said(time.map(|time| 1e3 * time), 3);
        let each = |time: Option<f64>| said(time.map(|time| 1e9 * time / particles as f64), 1);
        let ratio = said(port.zip(rust).map(|(port, rust)| port / rust), 2);
        print([&particles.to_string(), name, &ms(port), &ms(rust), &ratio, &each(port), &each(rust)]);
    }
    println!("{:>9}  nodes and particles after each that both have: {}", particles, if same { "the same" } else { "DIFFERENT" });
    same
}

fn print([particles, name, port, rust, ratio, port_each, rust_each]: [&str; 7]) {
    println!("{particles:>9}  {name:<33}{port:>11}{rust:>11}{ratio:>8}{port_each:>13}{rust_each:>13}");
}

/// With so many digits behind the point, where there is a number.
fn said(number: Option<f64>, digits: usize) -> String {
    number.map_or("-".to_string(), |number| format!("{number:.digits$}"))
}

/// One side's task once, for a program that counts what is executed in `counted`. Says whether there is such a side, task and size.
pub fn once(side: &str, task: &str, particles: usize) -> Option<bool> {
    let (task, _) = TASKS.iter().find(|(_, name)| *name == task)?;
    let (particles, regions) = SIZES.iter().find(|(size, _)| *size == particles)?;
    let is_port = ["rust", "port"].iter().position(|name| *name == side)? == 1;
    if !is_port && !task.is_of_both() {
        return None;
    }
    let mut sides = Sides::new(full_call(*particles, *regions));
    sides.put_back(*task);
    sides.counted(is_port, *task);
    Some(true)
}

/// Both sides, and where both begin.
struct Sides {
    call: Call,
    port: Port,
    rust: Rust,
}

impl Sides {
    fn new(call: Call) -> Self {
        let order = order(&call, &mut Rng::new(2));
        let region = (call.ids.len() / 2..).find(|place| call.ranges[2 * place + 1] > 0).expect("particles");
        let rust = Rust { scene: Scene::new(&call, memory(&call)) };
        Sides { port: Port { call: call.clone(), order, region }, rust, call }
    }

    /// Particles where they were, and nodes as the stage before a task leaves them.
    fn put_back(&mut self, task: Task) {
        (self.port.call.particle_floats, self.port.call.particle_words) =
            (self.call.particle_floats.clone(), self.call.particle_words.clone());
        self.rust.scene.put_back();
        let before: &[Task] = match task {
            // What stands on the nodes is old, as from the substep before.
            Task::Clear | Task::InOne | Task::Substep => &[Task::Clear, Task::Scatter],
            Task::Fluids | Task::Scatter | Task::InOrder | Task::Region => &[Task::Clear],
            Task::Update => &[Task::Clear, Task::Scatter],
            Task::FirstHalf | Task::Gather => &[Task::Clear, Task::Scatter, Task::Update],
            Task::SecondHalf => &[Task::Clear, Task::Scatter, Task::Update, Task::FirstHalf],
        };
        for task in before {
            self.port.go(*task);
            if task.is_of_both() {
                self.rust.go(*task);
            }
        }
    }

    /// A task of one side, with a name of its own in the program, by which it is found there.
    #[inline(never)]
    fn counted(&mut self, is_port: bool, task: Task) {
        match is_port {
            true => self.port.go(task),
            false => self.rust.go(task),
        }
    }

    fn are_same(&self, task: Task) -> bool {
        let (floats, words) = self.rust.scene.nodes();
        let same_nodes = (&floats, &words) == (&self.port.call.node_floats, &self.port.call.node_words);
        let moves = matches!(task, Task::Fluids | Task::Gather | Task::Substep);
        same_nodes && (!moves || self.rust.scene.particles() == self.port.particles())
    }
}

struct Port {
    call: Call,
    order: Vec<u64>,
    /// A place in the middle of the list, with particles.
    region: usize,
}

impl Port {
    fn go(&mut self, task: Task) {
        match task {
            Task::Clear => self.ask(&Which::Clear),
            Task::Fluids => self.ask(&Which::Fluids),
            Task::Scatter => self.ask(&Which::All),
            Task::InOrder => {
                let order = std::mem::take(&mut self.order);
                self.ask(&Which::Order(&order));
                self.order = order;
            }
            Task::Region => self.ask(&Which::Region(self.region)),
            Task::Update => self.ask(&Which::Update),
            Task::InOne => self.ask(&Which::Sequence),
            Task::FirstHalf => self.ask(&Which::FirstHalf),
            Task::SecondHalf => self.ask(&Which::SecondHalf),
            Task::Gather => [Task::FirstHalf, Task::SecondHalf].iter().for_each(|half| self.go(*half)),
            Task::Substep => [Task::Clear, Task::Scatter, Task::Update, Task::Gather].iter().for_each(|stage| self.go(*stage)),
        }
    }

    fn ask(&mut self, which: &Which) {
        assert_eq!(archive::answer_in_place(which, &mut self.call), Refusal { number: 0, index: 0 });
    }

    fn particles(&self) -> Records {
        (self.call.particle_floats.clone(), self.call.particle_words.clone())
    }
}

struct Rust {
    scene: Scene,
}

impl Rust {
    fn go(&mut self, task: Task) {
        match task {
            Task::Clear => self.scene.clear(),
            Task::Fluids => self.scene.recompute_fluids(),
            Task::Scatter | Task::InOrder => self.scene.scatter(),
            Task::Update => self.scene.update(),
            Task::InOne => [Task::Clear, Task::Scatter, Task::Update].iter().for_each(|stage| self.go(*stage)),
            Task::Gather => self.scene.gather(),
            Task::Substep => [Task::InOne, Task::Gather].iter().for_each(|stage| self.go(*stage)),
            Task::Region | Task::FirstHalf | Task::SecondHalf => panic!("the port's alone"),
        }
    }
}

/// One map that reaches the last region, as the Rust would have it; nothing is looked up in it.
fn memory(call: &Call) -> MmapMut {
    let last = *call.ids.last().expect("a region");
    MmapMut::map_anon(last as usize + 4096).expect("memory")
}

fn timed(work: impl FnOnce()) -> Duration {
    let start = Instant::now();
    work();
    start.elapsed()
}

fn median(times: &mut [Duration]) -> Option<Duration> {
    times.sort_unstable();
    times.get(times.len() / 2).copied()
}

/// A block of regions, filled evenly but for its far edges, with everyday particles, a fourth of them fluid, and points about every cell.
/// Densities are given as what is not zero, as the Rust finds them by itself.
pub(crate) fn full_call(particles: usize, [columns, rows]: [u32; 2]) -> Call {
    let mut ids: Vec<u64> =
        (0..columns * rows).map(|place| plane::region([4 * (place % columns), 4 * (place / columns)])).collect();
    ids.sort_unstable();
    let mut call = Call { dt: 0.001, gravity: [0.0, -9.81], ..Call::on(ids) };
    let cells = [4 * (columns - 1), 4 * (rows - 1)];
    let mut rng = Rng::new(1);
    let mut records: Vec<(u64, [f32; PARTICLE_FLOATS])> = (0..particles).map(|_| particle(cells, &mut rng)).collect();
    records.sort_by_key(|(region, _)| *region);
    call.particles = particles as u64;
    call.particle_floats = records.iter().flat_map(|(_, floats)| floats.map(f32::to_bits)).collect();
    call.particle_words = vec![0; particles * PARTICLE_WORDS];
    for (place, id) in call.ids.iter().enumerate() {
        let before = |least: u64| records.partition_point(|(region, _)| *region < least) as u64;
        let (start, end) = (before(*id), before(id + 1));
        call.ranges[2 * place..2 * place + 2].copy_from_slice(&[start, end - start]);
    }
    let mut call = bounded(call, FRICTIONS.len(), &mut rng);
    (call.boundary.handling, call.boundary.locks) = (FRICTION, 0);
    call.boundary.frictions = FRICTIONS.map(f32::to_bits).to_vec();
    call.particle_words.iter_mut().skip(FLUID).step_by(4 * PARTICLE_WORDS).for_each(|is_fluid| *is_fluid = 1);
    call.gather = Gather {
        eigenerosion: 1,
        given_floats: (0..particles).flat_map(|_| [4.0, rng.between(-1.0, 1.0)]).map(f32::to_bits).collect(),
        given_words: (0..particles).map(|place| u32::from(place % 10 == 0)).collect(),
    };
    call
}

/// A particle somewhere in these cells, with the region that it is in.
fn particle(cells: [u32; 2], rng: &mut Rng) -> (u64, [f32; PARTICLE_FLOATS]) {
    let mut floats = [0; PARTICLE_FLOATS].map(|_| rng.between(-1.0, 1.0));
    [floats[0], floats[1]] = cells.map(|cells| rng.between(0.5, cells as f32));
    [floats[12], floats[13]] = [rng.between(0.5, 1.5), 0.25];
    let first = plane::first_cell([floats[0], floats[1]], 1.0).expect("a place in range");
    (plane::region(first), floats)
}

#[cfg(test)]
mod tests {
    use super::*;

    #[test]
    fn the_largest_call_is_as_large_as_may_be_and_every_task_has_work() {
        let (particles, regions) = SIZES[2];
        let mut sides = Sides::new(full_call(particles, regions));
        assert_eq!((sides.call.regions, sides.call.particles), (512, 65_536));
        for (task, name) in TASKS {
            sides.put_back(task);
            let before = sides.port.call.clone();
            sides.port.go(task);
            let (nodes, moved) =
                (sides.port.call.node_floats != before.node_floats, sides.port.particles().0 != before.particle_floats);
            assert!(nodes || moved, "{} does nothing", name);
            if task.is_of_both() {
                sides.rust.go(task);
                assert!(sides.are_same(task), "{} differs", name);
            }
        }
    }

    #[test]
    fn every_size_is_accepted() {
        for (particles, regions) in SIZES {
            let mut sides = Sides::new(full_call(particles, regions));
            sides.port.go(Task::Substep);
            assert_ne!(sides.port.particles().0, sides.call.particle_floats);
        }
    }

    #[test]
    fn what_is_not_there_is_not_done() {
        assert_eq!(["rust", "port"].map(|side| once(side, "clear", 1_024)), [Some(true); 2]);
        assert_eq!(["rust", "port"].map(|side| once(side, "gather, first half", 1_024)), [None, Some(true)]);
        assert_eq!(once("port", "nothing", 1_024), None);
        assert_eq!(once("neither", "clear", 1_024), None);
        assert_eq!(once("port", "clear", 1_000), None);
    }

    #[test]
    fn the_median_is_in_the_middle() {
        let of = |times: &[u64]| median(&mut times.iter().map(|time| Duration::from_secs(*time)).collect::<Vec<_>>());
        assert_eq!([of(&[9, 1, 5]), of(&[7]), of(&[])], [Some(Duration::from_secs(5)), Some(Duration::from_secs(7)), None]);
    }
}
