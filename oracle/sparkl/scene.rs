//! The handed-over scatter, update, gather and recomputation of fluids on the records that the port is lent, in two dimensions. What the
//! Rust would find out by sorting (regions, their particles, the particles' order) is set from the port's lists, and so is what shapes and
//! models would answer.

use super::given::{self, Between, Host, Numbers};
use super::glue::{self, Memory};
use crate::dynamics::solver::{BoundaryHandling, DamageModel, MlsSolver, RigidWorld, SimulationDofs};
#[cfg(feature = "stand-ins")]
use crate::dynamics::solver::{MpmHooks, SolverParameters};
use crate::dynamics::{GridNode, GridNodeFlags, Particle, ParticleModelHandle, ParticleModelSet, ParticleSet};
use crate::geometry::{way_in, SpGrid};
use crate::math::{Matrix, Point, Real, Vector};
use rapier::geometry::ColliderSet;
#[cfg(feature = "stand-ins")]
use samples::lengths::Step;
use samples::particle::*;
use samples::substeps::Substep;
use samples::{
    Boundary, Call, Records, GIVEN_FLOATS, NODE_FLOATS, PARTICLE_FLOATS, PARTICLE_WORDS, PROJECTION_FLOATS, REGION_NODES,
};
use std::ops::Range;
use std::sync::Arc;

/// All that the Rust's stages work on.
pub struct Scene {
    dt: Real,
    gravity: Vector<Real>,
    ids: Vec<u64>,
    /// The port's words of the nodes, which say more than whether a flag is on.
    words: Vec<u32>,
    grid: SpGrid<GridNode>,
    /// The port's particles, which have fields that the Rust's have not.
    records: Vec<Record>,
    particles: ParticleSet,
    models: ParticleModelSet,
    handles: Handles,
    numbers: Arc<Numbers>,
    between: Option<Arc<Between>>,
    damage_model: DamageModel,
    colliders: ColliderSet,
    boundary_handling: BoundaryHandling,
    simulation_dofs: SimulationDofs,
}

/// The models of solids and of fluids.
type Handles = [ParticleModelHandle; 2];

impl Scene {
    /// The scene of a call that no rule refuses, its nodes in this memory.
    pub fn new(call: &Call, memory: Memory) -> Self {
        let grid = way_in::over(call.cell_width, memory);
        let records: Vec<Record> = records(call).collect();
        let numbers = Arc::new(numbers(call, &records));
        let mut models = ParticleModelSet::new();
        let handles = [false, true].map(|is_fluid| models.insert(given::model(is_fluid, &numbers)));
        let colliders = colliders(call, &grid);
        let mut particles = ParticleSet::new();
        particles.set_particles(all_made(&records, &grid, handles));
        particles.regions = regions(call);
        particles.particle_bins = bins(records.len());
        let mut scene = Scene {
            dt: call.dt,
            gravity: Vector::from(call.gravity),
            ids: call.ids.clone(),
            words: call.node_words.clone(),
            grid,
            records,
            particles,
            models,
            handles,
            numbers,
            between: None,
            damage_model: if call.gather.eigenerosion == 0 { DamageModel::None } else { DamageModel::ModifiedEigenerosion },
            colliders,
            boundary_handling: boundary_handling(call.boundary.handling),
            simulation_dofs: simulation_dofs(call.boundary.locks),
        };
        scene.set_nodes(call);
        scene
    }

    /// The particles that the first half of gather leaves to the second.
    pub fn first_half(call: &Call) -> Records {
        let mut scene = Scene::new(call, glue::memory(&call.ids));
        scene.host(&vec![None; scene.records.len()]);
        scene.gather();
        scene.left()
    }

    /// The particles that the second half of gather leaves of the call's own.
    pub fn second_half(call: &Call) -> Records {
        let mut scene = Scene::halfway(call);
        scene.gather();
        scene.particles()
    }

    /// The particles and the nodes that a recomputation of fluids' volumes leaves.
    pub fn recomputed(call: &Call) -> [Records; 2] {
        let mut scene = Scene::new(call, glue::memory(&call.ids));
        scene.recompute_fluids();
        [scene.particles(), scene.nodes()]
    }

    /// A whole substep, whose gather is one call with the host in its midst: what each of the substep's stages leaves, nodes or particles.
    pub fn substep(substep: &Substep) -> Vec<Records> {
        let mut scene = Scene::new(&substep.call, glue::memory(&substep.call.ids));
        let mut found = vec![];
        scene.clear();
        if substep.recomputes {
            found.push(scene.nodes());
            scene.recompute_fluids();
            found.push(scene.particles());
        }
        scene.scatter();
        scene.update();
        found.push(scene.nodes());
        scene.host(&substep.rewritten);
        scene.gather();
        found.extend([scene.left(), scene.particles()]);
        found
    }

    /// The scene of a call to the second half of gather, which has no positions and no nodes to go by. Its first half has particles at
    /// one place and nodes of zeros, and the call's own particles stand in for what it leaves.
    fn halfway(call: &Call) -> Self {
        let count = call.particles as usize;
        let mut particle_floats = vec![0; count * PARTICLE_FLOATS];
        particle_floats.chunks_exact_mut(PARTICLE_FLOATS).for_each(|floats| floats[POSITION..][..2].fill(1f32.to_bits()));
        let at_one_place = Call {
            ranges: vec![0, call.particles],
            particles: call.particles,
            particle_floats,
            particle_words: call.particle_words.clone(),
            gather: call.gather.clone(),
            ..Call::on(vec![0])
        };
        let mut scene = Scene::new(&at_one_place, glue::memory(&at_one_place.ids));
        scene.records = records(call).collect();
        let replaced = all_made(&scene.records, &scene.grid, scene.handles);
        scene.let_in(Host::Replaces(replaced));
        scene
    }

    /// Lets a host in between the halves, who has an F of his own for some of the particles.
    pub fn host(&mut self, rewritten: &[Option<[u32; 4]>]) {
        let matrix = |bits: &[u32; 4]| by_rows(&bits.map(Real::from_bits));
        self.let_in(Host::Rewrites(rewritten.iter().map(|rewritten| rewritten.as_ref().map(matrix)).collect()));
    }

    fn let_in(&mut self, host: Host) {
        let between = Arc::new(Between::new(host, &self.numbers, self.particles.particles()));
        for handle in self.handles {
            self.models[handle].plastic_model = Some(between.clone());
        }
        self.between = Some(between);
    }

    /// Leaves its particles to one region alone. The Rust has no call for one region: this makes it one.
    pub fn only(&mut self, place: usize) {
        let others = self.particles.regions.iter_mut().enumerate().filter(|(other, _)| *other != place);
        others.for_each(|(_, (_, range))| *range = 0..0);
    }

    pub fn scatter(&mut self) {
        MlsSolver::particle_to_grid_scatter(self.dt, &self.gravity, &mut self.grid, &mut self.particles, &self.models);
    }

    pub fn update(&mut self) {
        let rigid_world = RigidWorld { colliders: &self.colliders };
        let Scene { dt, grid, particles, boundary_handling, simulation_dofs, .. } = self;
        MlsSolver::grid_update(*dt, &rigid_world, grid, particles, *boundary_handling, *simulation_dofs);
    }

    /// Both halves of gather, which are one call in the Rust; a host stands between them only where one was let in. Particles are not
    /// projected.
    pub fn gather(&mut self) {
        let rigid_world = RigidWorld { colliders: &self.colliders };
        let Scene { damage_model, dt, grid, particles, models, .. } = self;
        MlsSolver::grid_to_particle(*damage_model, false, *dt, &rigid_world, grid, particles, models);
    }

    pub fn recompute_fluids(&mut self) {
        MlsSolver::recompute_fluids_volumes(&mut self.grid, &mut self.particles, &self.models);
    }

    /// A step of the Rust's, which sorts the particles by itself before each of its substeps, and recomputes fluids' volumes or not.
    #[cfg(feature = "stand-ins")]
    pub fn step(&mut self, step: &Step, recomputes: bool, hooks: &mut dyn MpmHooks) -> Real {
        let Scene { gravity, grid, particles, models, damage_model, boundary_handling, simulation_dofs, .. } = self;
        let params = SolverParameters {
            dt: step.total,
            max_substep_dt: step.max_substep_dt,
            max_num_substeps: step.max_num_substeps,
            stop_after_one_substep: step.stop_after_one_substep != 0,
            force_fluids_volume_recomputation: recomputes,
            enable_boundary_particle_projection: false,
            damage_model: *damage_model,
            boundary_handling: *boundary_handling,
            simulation_dofs: *simulation_dofs,
        };
        let rigid_world = RigidWorld { colliders: &self.colliders };
        let mut grid_phase = way_in::over(grid.cell_width(), glue::memory(&self.ids));
        MlsSolver::step(&params, gravity, &rigid_world, grid, &mut grid_phase, particles, models, hooks)
    }

    /// The particles, as the port has them.
    pub fn particles(&self) -> Records {
        together(self.particles.iter().zip(&self.records).map(|(particle, record)| record.after(particle)))
    }

    /// The particles as the first half left them to the host.
    pub fn left(&self) -> Records {
        let left = self.between.as_ref().expect("a host").left();
        together(left.iter().zip(&self.records).map(|(particle, record)| record.after(particle)))
    }

    /// Puts the particles back to where the call had them.
    pub fn put_back(&mut self) {
        let made = all_made(&self.records, &self.grid, self.handles);
        self.particles.particles_mut().copy_from_slice(&made);
    }

    /// What `ParticleSet::sort` does to the nodes of the regions that it found before; it does not do this alone.
    pub fn clear(&mut self) {
        for region in &self.ids {
            for cell in cells(*region) {
                self.grid.get_packed_mut(cell).reset();
            }
        }
        self.words.fill(0);
    }

    fn set_nodes(&mut self, call: &Call) {
        let nodes = call.node_floats.chunks_exact(NODE_FLOATS).zip(&call.node_words);
        let places = self.ids.iter().flat_map(|region| cells(*region));
        for (cell, (floats, word)) in places.zip(nodes) {
            *self.grid.get_packed_mut(cell) = made_node(floats, *word);
        }
    }

    /// The nodes' floats, by their bits, and words.
    pub fn nodes(&self) -> Records {
        let found = || self.ids.iter().flat_map(|region| cells(*region)).map(|cell| self.grid.get_packed(cell));
        let words = found().zip(&self.words).map(|(node, word)| node_word(node, *word));
        (found().flat_map(node_bits).collect(), words.collect())
    }

    /// Of each node, whether a particle of a region that still has its own reaches it.
    pub fn hits(&self) -> Vec<bool> {
        let mut hit = vec![false; self.ids.len() * REGION_NODES];
        let ranges = self.particles.regions.iter().map(|(_, range)| range.clone());
        for particle in ranges.flat_map(|range| self.particles.iter_sorted_in_range(range)) {
            for shift in way_in::PACKED_NBH_SHIFTS {
                let cell = way_in::packed_add(particle.grid_index, *shift);
                let place = self.ids.binary_search(&(cell & way_in::REGION_ID_MASK)).expect("a listed region");
                hit[place * REGION_NODES + (cell >> SpGrid::<()>::PACK_ALIGN) as usize % REGION_NODES] = true;
            }
        }
        hit
    }
}

/// A region's cells in the order of the port's nodes, as `sort` counts them too.
fn cells(region: u64) -> impl Iterator<Item = u64> {
    (0..REGION_NODES as u64).map(move |number| region | number << SpGrid::<()>::PACK_ALIGN)
}

fn made_node(floats: &[u32], word: u32) -> GridNode {
    let at = |place: usize| Real::from_bits(floats[place]);
    GridNode {
        mass: at(0),
        momentum: Vector::from([at(1), at(2)]),
        velocity: Vector::from([at(3), at(4)]),
        particles: (0, 0),
        flags: if word == 0 { GridNodeFlags::NONE } else { GridNodeFlags::BOUNDARY },
        psi_momentum: at(5),
        psi_mass: at(6),
    }
}

fn node_bits(node: &GridNode) -> [u32; NODE_FLOATS] {
    let GridNode { mass, momentum, velocity, psi_momentum, psi_mass, .. } = node;
    [mass, &momentum.x, &momentum.y, &velocity.x, &velocity.y, psi_momentum, psi_mass].map(|part| part.to_bits())
}

/// The port has one flag, off at 0 and else on, which keeps its word while it is on; the Rust's is a bit among others.
fn node_word(node: &GridNode, before: u32) -> u32 {
    match (node.boundary(), before) {
        (false, _) => 0,
        (true, 0) => 1,
        (true, before) => before,
    }
}

/// Every collider with its own of the projections, which the port has in the order of regions, cells and colliders.
fn colliders(call: &Call, grid: &SpGrid<GridNode>) -> ColliderSet {
    let Boundary { frictions, points, insides, .. } = &call.boundary;
    let points = points.chunks_exact(PROJECTION_FLOATS).map(|point| Point::from([point[0], point[1]].map(Real::from_bits)));
    let projections: Vec<(bool, Point<Real>)> = points.zip(insides).map(|(point, inside)| (*inside != 0, point)).collect();
    let own = |place: usize| projections.iter().skip(place).step_by(frictions.len()).copied().collect();
    let asked: &[u64] = if frictions.is_empty() { &[] } else { &call.ids };
    let centres: Vec<Point<Real>> = asked.iter().flat_map(|region| cells(*region)).map(|cell| grid.cell_center(cell)).collect();
    let frictions: Vec<Real> = frictions.iter().map(|friction| Real::from_bits(*friction)).collect();
    glue::colliders(&frictions, &centres, &(0..frictions.len()).map(own).collect::<Vec<_>>())
}

fn boundary_handling(code: u32) -> BoundaryHandling {
    match code {
        samples::NONE => BoundaryHandling::None,
        samples::STICK => BoundaryHandling::Stick,
        samples::FRICTION => BoundaryHandling::Friction,
        samples::FRICTION_Z_UP => BoundaryHandling::FrictionZUp,
        _ => panic!("no boundary handling {}", code),
    }
}

fn simulation_dofs(locks: u32) -> SimulationDofs {
    let mut dofs = SimulationDofs::empty();
    dofs.set(SimulationDofs::LOCK_X, locks & 1 != 0);
    dofs.set(SimulationDofs::LOCK_Y, locks & 2 != 0);
    dofs
}

fn regions(call: &Call) -> Vec<(u64, Range<usize>)> {
    let ranges = call.ranges.chunks_exact(2).map(|range| range[0] as usize..(range[0] + range[1]) as usize);
    call.ids.iter().copied().zip(ranges).collect()
}

/// Four particles each, as `sort` fills them at the most, and what says that there are no more.
fn bins(particles: usize) -> Vec<[usize; 5]> {
    let places: Vec<usize> = (0..particles).collect();
    let bin = |places: &[usize]| {
        let mut bin = [usize::MAX; 5];
        bin[..places.len()].copy_from_slice(places);
        bin
    };
    places.chunks(4).map(bin).collect()
}

/// What models say of these particles. A call that is not of the second half says nothing, and then what is said does not matter.
fn numbers(call: &Call, records: &[Record]) -> Numbers {
    let given = |place: usize, otherwise: Real| {
        let said = call.gather.given_floats.iter().skip(place).step_by(GIVEN_FLOATS).map(|bits| Real::from_bits(*bits));
        said.chain(std::iter::repeat(otherwise)).take(records.len()).collect()
    };
    let failures = call.gather.given_words.iter().map(|word| *word != 0).chain(std::iter::repeat(false));
    Numbers {
        stresses: records.iter().map(|record| by_rows(&record.floats[STRESS..])).collect(),
        densities: given(0, 1.0),
        energies: given(1, 0.0),
        failures: failures.take(records.len()).collect(),
    }
}

/// A particle as the port is lent it.
struct Record {
    floats: Vec<Real>,
    words: Vec<u32>,
}

fn records(call: &Call) -> impl Iterator<Item = Record> + '_ {
    let records = call.particle_floats.chunks_exact(PARTICLE_FLOATS).zip(call.particle_words.chunks_exact(PARTICLE_WORDS));
    let floats = |bits: &[u32]| bits.iter().copied().map(Real::from_bits).collect();
    records.map(move |(bits, words)| Record { floats: floats(bits), words: words.to_vec() })
}

/// The Rust's particles.
fn all_made(records: &[Record], grid: &SpGrid<GridNode>, handles: Handles) -> Vec<Particle> {
    records.iter().enumerate().map(|(place, record)| record.made(place, grid, handles)).collect()
}

fn together(records: impl Iterator<Item = ([Real; PARTICLE_FLOATS], [u32; PARTICLE_WORDS])>) -> Records {
    let (floats, words): (Vec<_>, Vec<_>) = records.map(|(floats, words)| (floats.map(Real::to_bits), words)).unzip();
    (floats.concat(), words.concat())
}

impl Record {
    fn pair(&self, place: usize) -> Vector<Real> {
        Vector::from([self.floats[place], self.floats[place + 1]])
    }

    /// The Rust's particle, with the fields that the record has; the others are as a new particle has them.
    fn made(&self, place: usize, grid: &SpGrid<GridNode>, handles: Handles) -> Particle {
        let Record { floats, words } = self;
        let position = Point::from([floats[POSITION], floats[POSITION + 1]]);
        Particle {
            velocity: self.pair(VELOCITY),
            velocity_gradient: by_rows(&floats[GRADIENT..]),
            mass: floats[MASS],
            volume0: floats[VOLUME],
            phase: floats[PHASE],
            crack_propagation_factor: floats[CRACK_FACTOR],
            psi_pos: floats[PSI],
            deformation_gradient: by_rows(&floats[DEFORMATION..]),
            crack_threshold: floats[CRACK_THRESHOLD],
            parameter1: floats[PARAMETER1],
            parameter2: floats[PARAMETER2],
            kinematic_vel: (words[KINEMATIC] != 0).then(|| self.pair(KINEMATIC_VELOCITY)),
            failed: words[FAILED] != 0,
            is_static: words[STATIC] != 0,
            grid_index: grid.cell_associated_to_point(&position),
            user_data: place as u64,
            ..Particle::new(handles[usize::from(words[FLUID] != 0)], position, 0.0, 0.0)
        }
    }

    /// The record that the particle which was made of this one is now. It has the volume from here, which a gather does not write and a
    /// given density may have changed, and what a particle has not: the stress, its kind, a kinematic velocity without its flag.
    fn after(&self, particle: &Particle) -> ([Real; PARTICLE_FLOATS], [u32; PARTICLE_WORDS]) {
        let Particle { position, velocity, velocity_gradient, deformation_gradient, .. } = particle;
        let kinematic = particle.kinematic_vel.unwrap_or_else(|| self.pair(KINEMATIC_VELOCITY));
        let mut floats = [0.0; PARTICLE_FLOATS];
        floats[POSITION..][..2].copy_from_slice(&[position.x, position.y]);
        for (place, pair) in [(VELOCITY, velocity), (KINEMATIC_VELOCITY, &kinematic)] {
            floats[place..][..2].copy_from_slice(&[pair.x, pair.y]);
        }
        for (place, matrix) in [(GRADIENT, velocity_gradient), (DEFORMATION, deformation_gradient)] {
            floats[place..][..4].copy_from_slice(&[(0, 0), (0, 1), (1, 0), (1, 1)].map(|at| matrix[at]));
        }
        floats[STRESS..][..4].copy_from_slice(&self.floats[STRESS..][..4]);
        floats[MASS] = particle.mass;
        floats[VOLUME] = self.floats[VOLUME];
        floats[PHASE] = particle.phase;
        floats[CRACK_FACTOR] = particle.crack_propagation_factor;
        floats[PSI] = particle.psi_pos;
        floats[CRACK_THRESHOLD] = particle.crack_threshold;
        floats[PARAMETER1] = particle.parameter1;
        floats[PARAMETER2] = particle.parameter2;
        let mut words = [0; PARTICLE_WORDS];
        words[FAILED] = u32::from(particle.failed);
        words[KINEMATIC] = u32::from(particle.kinematic_vel.is_some());
        words[FLUID] = self.words[FLUID];
        words[STATIC] = u32::from(particle.is_static);
        (floats, words)
    }
}

/// The matrix whose rows begin here.
fn by_rows(floats: &[Real]) -> Matrix<Real> {
    Matrix::new(floats[0], floats[1], floats[2], floats[3])
}
