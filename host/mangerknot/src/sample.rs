//! A sample, and the stages of a substep in their order.
#![forbid(unsafe_code)]

use crate::fluids_volume::recompute_fluids_volumes2;
use crate::grid_to_particle::{grid_to_particle_first_half2, grid_to_particle_second_half2};
use crate::grid_update::{clear_scatter_update2, grid_update2};
use crate::ids::{dim2, region_of};
use crate::lists::{Colliders, Given, Nodes, NodesMut, Particles, ParticlesMut, Regions, REGION_FLOATS};
use crate::particle_to_grid::{particle_to_grid_scatter2, particle_to_grid_scatter_region2, scatter_in_order2, Scatter};
use crate::records::{
    Handling, Matrix, ModelAnswer, Node, Particle, Projection, DEFORMATION, MASS, NODE_FLOATS, PARTICLE_FLOATS, PARTICLE_WORDS,
    REGION_NODES,
};
use crate::refused::{axes_off_the_grid, color, is_cell_width, Asked, Refused};
use crate::sp_grid::{cell_associated_to_point2, cell_center2, clear2, lookup};
use crate::{MAX_PARTICLES, MAX_REGIONS};
use std::ops::Deref;

/// Particles of the plane, the regions that they are in or reach, and the nodes of these.
///
/// Particles stand region by region, since every stage wants them so: [`Sample::new`] and [`Sample::sort`] see to it, and
/// [`Sample::origins`] tells which is which. A refusal's index is that of the list as it stands when the call is made.
///
/// A substep goes through types, each of which borrows the sample: [`Cleared`], [`Scattered`] (or [`ByRegions`] on the way),
/// [`Updated`], [`Moved`]. Each of them is made by the stage before it alone, and is used up by the one behind it; and all of them can
/// be read as the sample they borrow. A stage that is refused changes nothing, and the borrow ends: the substep begins again with a clear.
/// Only between the halves of gather, when particles have moved, it need not ([`Sample::moved`]).
///
/// So nothing is scattered onto nodes that were not cleared, and nothing twice:
///
/// ```compile_fail,E0599
/// # use mangerknot::{Particle, Sample};
/// let mut sample = Sample::new(1.0, [Particle { position: [1.0, 1.0], ..Particle::default() }])?;
/// sample.scatter(1.0, [0.0, 0.0])?; // a sample is not cleared
/// # Ok::<(), mangerknot::Refused>(())
/// ```
/// ```compile_fail,E0382
/// # use mangerknot::{Particle, Sample};
/// let mut sample = Sample::new(1.0, [Particle { position: [1.0, 1.0], ..Particle::default() }])?;
/// let cleared = sample.clear()?;
/// cleared.scatter(1.0, [0.0, 0.0])?;
/// cleared.scatter(1.0, [0.0, 0.0])?; // used up
/// # Ok::<(), mangerknot::Refused>(())
/// ```
/// ```compile_fail,E0599
/// # use mangerknot::{Particle, Sample};
/// let mut sample = Sample::new(1.0, [Particle { position: [1.0, 1.0], ..Particle::default() }])?;
/// sample.clear()?.scatter(1.0, [0.0, 0.0])?.gather_first_half(false)?; // not updated
/// # Ok::<(), mangerknot::Refused>(())
/// ```
/// ```compile_fail,E0499
/// # use mangerknot::{Particle, Sample};
/// let mut sample = Sample::new(1.0, [Particle { position: [1.0, 1.0], ..Particle::default() }])?;
/// let cleared = sample.clear()?;
/// sample.rewrite(|_, particle| particle.mass = 2.0); // a stage is open
/// cleared.scatter(1.0, [0.0, 0.0])?;
/// # Ok::<(), mangerknot::Refused>(())
/// ```
#[derive(Clone, Debug)]
pub struct Sample {
    cell_width: f32,
    ids: Vec<u64>,
    ranges: Vec<u64>,
    particle_floats: Vec<f32>,
    particle_words: Vec<u32>,
    origins: Vec<usize>,
    node_floats: Vec<f32>,
    node_words: Vec<u32>,
    is_moved: bool,
}

/// Nothing to lock and nothing to collide with, or boundaries that [`Sample::boundary`] made.
///
/// ```
/// use mangerknot::{Boundary, Particle, Sample};
/// let mut sample = Sample::new(1.0, [Particle { position: [1.0, 1.0], velocity: [3.0, 4.0], mass: 1.0, ..Particle::default() }])?;
/// let mut along_x = Boundary::none();
/// along_x.locked = [false, true];
/// let updated = sample.clear()?.scatter(0.1, [0.0, 0.0])?.update(&along_x)?;
/// assert_eq!(updated.node([1, 1]).map(|node| node.velocity), Some([3.0, 0.0]));
/// # Ok::<(), mangerknot::Refused>(())
/// ```
#[derive(Clone, Debug)]
pub struct Boundary {
    /// How colliders are handled.
    pub handling: Handling,
    /// Whether x is locked, and y.
    pub locked: [bool; 2],
    /// The cells that it was made for: their width, and the regions.
    cell_width: f32,
    ids: Vec<u64>,
    frictions: Vec<f32>,
    points: Vec<f32>,
    insides: Vec<u32>,
}

impl Default for Boundary {
    fn default() -> Self {
        Boundary::none()
    }
}

impl Boundary {
    /// No boundary at all.
    pub fn none() -> Boundary {
        let (ids, frictions, points, insides) = (vec![], vec![], vec![], vec![]);
        Boundary { handling: Handling::None, locked: [false; 2], cell_width: 0.0, ids, frictions, points, insides }
    }

    /// The same as lists.
    pub fn colliders(&self) -> Colliders<'_> {
        let [x, y] = self.locked.map(u32::from);
        let (frictions, points, insides) = (&self.frictions, &self.points, &self.insides);
        Colliders { handling: self.handling.code(), locks: x | y << 1, frictions, points, insides }
    }
}

impl Sample {
    /// A sample of these particles. The order in which they are given is kept within each region.
    ///
    /// Refuses what the stages would: 2 (too many particles), 3 (the cell width), 5 (a number that is not finite), 8 (off the grid) and,
    /// since regions are known only then, at last 2 for too many regions. The index is that of the particle as given. Of the other numbers
    /// none can be: flags are `bool`, and lists and regions are made here.
    ///
    /// ```
    /// use mangerknot::{Particle, Sample};
    /// let at = |x: f32, y: f32| Particle { position: [x, y], mass: 1.0, ..Particle::default() };
    /// let sample = Sample::new(1.0, [at(5.0, 1.0), at(1.0, 1.0), at(6.0, 1.0)])?;
    /// assert_eq!(sample.origins(), [1, 0, 2]);
    /// assert_eq!(sample.regions().ids, [0, 4096]); // (0, 0) and (4, 0): no stencil reaches farther
    /// # Ok::<(), mangerknot::Refused>(())
    /// ```
    pub fn new(cell_width: f32, particles: impl IntoIterator<Item = Particle>) -> Result<Sample, Refused> {
        let mut sample = Sample {
            cell_width,
            ids: vec![],
            ranges: vec![],
            particle_floats: vec![],
            particle_words: vec![],
            origins: vec![],
            node_floats: vec![],
            node_words: vec![],
            is_moved: false,
        };
        for (index, particle) in particles.into_iter().enumerate() {
            sample.particle_floats.extend(particle.floats());
            sample.particle_words.extend(particle.words());
            sample.origins.push(index);
        }
        sample.sort()?;
        Ok(sample)
    }

    /// Puts the particles into the regions where they are now, those of one region in the order that they had, and lists the regions
    /// anew. The nodes are new and empty. Refuses as [`Sample::new`] does, and then nothing has changed.
    pub fn sort(&mut self) -> Result<(), Refused> {
        self.checked()?;
        let cells: Vec<u64> = self.positions().map(|position| cell_associated_to_point2(self.cell_width, position)).collect();
        let ids = reached(&cells);
        if ids.len() > MAX_REGIONS {
            return Err(Asked { ids: Some(&ids), ..self.asked() }.refused(2, 0));
        }
        let regions: Vec<u64> = cells.into_iter().map(region_of).collect();
        let mut order: Vec<usize> = (0..self.len()).collect();
        order.sort_by_key(|place| regions[*place]);
        self.particle_floats = in_order(&self.particle_floats, PARTICLE_FLOATS, &order);
        self.particle_words = in_order(&self.particle_words, PARTICLE_WORDS, &order);
        self.origins = in_order(&self.origins, 1, &order);
        let starts = |id: &u64| order.partition_point(|place| regions[*place] < *id);
        let ends = |id: &u64| order.partition_point(|place| regions[*place] <= *id);
        self.ranges = ids.iter().flat_map(|id| [starts(id) as u64, (ends(id) - starts(id)) as u64]).collect();
        self.node_floats = vec![0.0; ids.len() * REGION_FLOATS];
        self.node_words = vec![0; ids.len() * REGION_NODES];
        self.ids = ids;
        Ok(())
    }

    /// Refuses what a stage would refuse of particles, wherever they stand.
    fn checked(&self) -> Result<(), Refused> {
        let first_particle = |number: u32, is_bad: &dyn Fn(usize) -> bool| {
            let place = (0..self.len()).find(|place| is_bad(*place));
            place.map_or(Ok(()), |place| Err(self.asked().refused(number, place)))
        };
        if self.len() > MAX_PARTICLES {
            return Err(self.asked().refused(2, 0));
        }
        if !is_cell_width(self.cell_width) {
            return Err(self.asked().refused(3, 0));
        }
        first_particle(5, &|place| self.floats_of(place).iter().any(|float| !float.is_finite()))?;
        first_particle(8, &|place| axes_off_the_grid(self.cell_width, self.position(place)) != [false; 2])
    }

    fn asked(&self) -> Asked<'_> {
        Asked { cell_width: Some(self.cell_width), particles: Some(self.particle_lists()), ..Asked::default() }
    }

    /// The width of a cell.
    pub fn cell_width(&self) -> f32 {
        self.cell_width
    }

    /// How many particles there are.
    pub fn len(&self) -> usize {
        self.origins.len()
    }

    /// Whether there is none.
    pub fn is_empty(&self) -> bool {
        self.origins.is_empty()
    }

    /// Of each particle, as they stand, the index with which it was given to [`Sample::new`].
    pub fn origins(&self) -> &[usize] {
        &self.origins
    }

    /// The regions, as lists.
    pub fn regions(&self) -> Regions<'_> {
        Regions { ids: &self.ids, ranges: &self.ranges }
    }

    /// The particles, as they stand.
    pub fn particles(&self) -> impl ExactSizeIterator<Item = Particle> + '_ {
        (0..self.len()).map(|place| self.read(place))
    }

    /// A particle by its place; none where there are not so many.
    pub fn particle(&self, place: usize) -> Option<Particle> {
        (place < self.len()).then(|| self.read(place))
    }

    /// The particles, as lists.
    pub fn particle_lists(&self) -> Particles<'_> {
        Particles { floats: &self.particle_floats, words: &self.particle_words }
    }

    /// The nodes of all listed regions with the cells that they belong to, by region and number.
    pub fn nodes(&self) -> impl Iterator<Item = ([u32; 2], Node)> + '_ {
        let cells = self.ids.iter().flat_map(|id| (0..REGION_NODES as u64).map(move |number| dim2::cell_of_region(*id, number)));
        cells.enumerate().map(|(place, cell)| (dim2::unpack(cell), self.node_at(place)))
    }

    /// The node of a cell by its coordinates; none where its region is not listed.
    pub fn node(&self, [x, y]: [u32; 2]) -> Option<Node> {
        let cell = dim2::pack(x, y);
        let region = lookup(&self.ids, region_of(cell)).filter(|_| dim2::unpack(cell) == [x, y])?;
        Some(self.node_at(region * REGION_NODES + dim2::number_in_region(cell) as usize))
    }

    /// The nodes, as lists.
    pub fn node_lists(&self) -> Nodes<'_> {
        Nodes { floats: &self.node_floats, words: &self.node_words }
    }

    /// The mass of all particles, summed up in f64.
    pub fn particle_mass(&self) -> f64 {
        self.particle_floats.iter().skip(MASS).step_by(PARTICLE_FLOATS).map(|mass| f64::from(*mass)).sum()
    }

    /// The mass of all nodes, summed up in f64: after a scatter that of the particles, but for rounding.
    pub fn node_mass(&self) -> f64 {
        self.node_floats.iter().step_by(NODE_FLOATS).map(|mass| f64::from(*mass)).sum()
    }

    /// Lets the host rewrite particles, say the stress by its law, while no stage is open. Nothing is looked at here: what breaks a rule
    /// is refused by the next call that looks at particles, and a particle that is moved into another region wants a [`Sample::sort`].
    ///
    /// ```
    /// use mangerknot::{Particle, Sample};
    /// let mut sample = Sample::new(1.0, [Particle { position: [1.0, 1.0], mass: 1.0, ..Particle::default() }])?;
    /// sample.rewrite(|_, particle| particle.stress[0][1] = f32::NAN);
    /// let refused = sample.clear()?.scatter(0.1, [0.0, 0.0]).unwrap_err();
    /// assert_eq!(refused.to_string(), "particle 0's stress is not finite (number 5, index 0)");
    /// # Ok::<(), mangerknot::Refused>(())
    /// ```
    pub fn rewrite(&mut self, mut rewrite: impl FnMut(usize, &mut Particle)) {
        for place in 0..self.len() {
            let mut particle = self.read(place);
            rewrite(place, &mut particle);
            self.particle_floats[place * PARTICLE_FLOATS..][..PARTICLE_FLOATS].copy_from_slice(&particle.floats());
            self.particle_words[place * PARTICLE_WORDS..][..PARTICLE_WORDS].copy_from_slice(&particle.words());
        }
    }

    /// The floats of all particles, 26 of each, for a host that rewrites many: as [`Sample::rewrite`], nothing is looked at.
    pub fn particle_floats_mut(&mut self) -> &mut [f32] {
        &mut self.particle_floats
    }

    /// Boundaries for the regions as they are listed now. A sort may list others, and then boundaries that were made before are refused
    /// with number 1, even where there are as many regions. There are as many colliders as frictions, and `project` says what the shape
    /// of a collider has for the centre of a cell.
    ///
    /// ```
    /// use mangerknot::{Handling, Particle, Projection, Sample};
    /// let mut sample = Sample::new(1.0, [Particle { position: [1.0, 2.0], velocity: [0.0, -1.0], mass: 1.0, ..Particle::default() }])?;
    /// // A floor at y = 1.5, which sticks.
    /// let floor = sample.boundary(Handling::Stick, &[0.0], |_, [x, y]| match y < 1.5 {
    ///     true => Projection::Inside([x, 1.5]),
    ///     false => Projection::Outside([x, 1.5]),
    /// });
    /// let updated = sample.clear()?.scatter(0.1, [0.0, 0.0])?.update(&floor)?;
    /// assert_eq!(updated.node([1, 1]).map(|node| (node.velocity, node.boundary)), Some(([0.0, 0.0], 1)));
    /// assert_eq!(updated.node([1, 2]).map(|node| (node.velocity, node.boundary)), Some(([0.0, -1.0], 0)));
    /// # Ok::<(), mangerknot::Refused>(())
    /// ```
    pub fn boundary(
        &self,
        handling: Handling,
        frictions: &[f32],
        mut project: impl FnMut(usize, [f32; 2]) -> Projection,
    ) -> Boundary {
        let (cell_width, ids, frictions) = (self.cell_width, self.ids.clone(), frictions.to_vec());
        let mut boundary = Boundary { handling, cell_width, ids, frictions, ..Boundary::none() };
        for (cell, _) in self.nodes() {
            let centre = cell_center2(self.cell_width, dim2::pack(cell[0], cell[1]));
            for collider in 0..boundary.frictions.len() {
                let (point, inside) = project(collider, centre).flat();
                boundary.points.extend(point);
                boundary.insides.push(inside);
            }
        }
        boundary
    }

    /// Opens a substep: every node becomes empty. A substep that was half done ends with that ([`Sample::moved`]).
    pub fn clear(&mut self) -> Result<Cleared<'_>, Refused> {
        clear2(&self.ids, NodesMut { floats: &mut self.node_floats, words: &mut self.node_words })?;
        self.is_moved = false;
        Ok(Cleared { sample: self })
    }

    /// Clear, scatter and update in one, refused for all of theirs together before any is begun. A substep that was half done ends with
    /// that ([`Sample::moved`]).
    pub fn clear_scatter_update(&mut self, dt: f32, gravity: [f32; 2], boundary: &Boundary) -> Result<Updated<'_>, Refused> {
        let colliders = self.fitting(boundary)?;
        self.scattered(dt, gravity, |scatter, nodes| clear_scatter_update2(scatter, colliders, nodes))?;
        self.is_moved = false;
        Ok(Updated { sample: self, dt })
    }

    /// Where the second half of gather was refused, or its [`Moved`] was dropped: that again, so that the host can give something else.
    /// None where a substep is not half done. Until the second half is done, particles have moved and what the models say of them is not
    /// settled; a clear gives that up. What is given is for the particles as they stand then, after a [`Sample::sort`] in another order.
    ///
    /// ```
    /// use mangerknot::{Boundary, ModelAnswer, Particle, Sample};
    /// let mut sample = Sample::new(1.0, [Particle { position: [1.0, 1.0], mass: 1.0, ..Particle::default() }])?;
    /// let moved = sample.clear_scatter_update(0.1, [0.0, 0.0], &Boundary::none())?.gather_first_half(false)?;
    /// let bad = ModelAnswer { density: 1.0, energy: f32::NAN, failed: false };
    /// assert!(moved.gather_second_half(&[bad]).is_err());
    /// let moved = sample.moved().expect("half done");
    /// moved.gather_second_half(&[ModelAnswer { energy: 0.0, ..bad }])?;
    /// assert!(sample.moved().is_none());
    /// # Ok::<(), mangerknot::Refused>(())
    /// ```
    pub fn moved(&mut self) -> Option<Moved<'_>> {
        self.is_moved.then(|| Moved { sample: self })
    }

    /// The boundary as lists, where it was made for the cells that are listed now; without a collider it fits all.
    fn fitting<'b>(&self, boundary: &'b Boundary) -> Result<Colliders<'b>, Refused> {
        let fits = boundary.ids == self.ids && boundary.cell_width == self.cell_width;
        if !boundary.frictions.is_empty() && !fits {
            let sentence = "the boundary's projections are for other regions or cells than are listed".to_string();
            return Err(Refused { number: 1, index: 0, sentence });
        }
        Ok(boundary.colliders())
    }

    /// Asks one of the scatters.
    fn scattered(
        &mut self,
        dt: f32,
        gravity: [f32; 2],
        ask: impl FnOnce(&Scatter<'_>, NodesMut<'_>) -> Result<(), Refused>,
    ) -> Result<(), Refused> {
        let scatter = Scatter {
            cell_width: self.cell_width,
            dt,
            gravity,
            regions: Regions { ids: &self.ids, ranges: &self.ranges },
            particles: Particles { floats: &self.particle_floats, words: &self.particle_words },
        };
        ask(&scatter, NodesMut { floats: &mut self.node_floats, words: &mut self.node_words })
    }

    fn asked_to_scatter(&self, dt: f32, gravity: [f32; 2]) -> Asked<'_> {
        Asked { dt: Some(dt), gravity: Some(gravity), ids: Some(&self.ids), ..self.asked() }
    }

    fn floats_of(&self, place: usize) -> &[f32; PARTICLE_FLOATS] {
        self.particle_floats[place * PARTICLE_FLOATS..][..PARTICLE_FLOATS].try_into().expect("a particle's floats")
    }

    fn position(&self, place: usize) -> [f32; 2] {
        let [x, y, ..] = *self.floats_of(place);
        [x, y]
    }

    fn positions(&self) -> impl Iterator<Item = [f32; 2]> + '_ {
        (0..self.len()).map(|place| self.position(place))
    }

    /// Words come from flags alone, and no stage leaves another one than 0 and 1.
    fn read(&self, place: usize) -> Particle {
        let words: [u32; PARTICLE_WORDS] =
            self.particle_words[place * PARTICLE_WORDS..][..PARTICLE_WORDS].try_into().expect("a particle's words");
        Particle::of_floats(self.floats_of(place), words.map(|word| word != 0))
    }

    fn node_at(&self, place: usize) -> Node {
        let floats = self.node_floats[place * NODE_FLOATS..][..NODE_FLOATS].try_into().expect("a node's floats");
        Node::from_flat(floats, self.node_words[place])
    }
}

/// The regions of the cells' stencils, ascending.
fn reached(cells: &[u64]) -> Vec<u64> {
    let ascending = |mut ids: Vec<u64>| {
        ids.sort_unstable();
        ids.dedup();
        ids
    };
    ascending(ascending(cells.to_vec()).into_iter().flat_map(|cell| dim2::stencil_ids(cell).map(region_of)).collect())
}

/// Records in the order of these places.
fn in_order<T: Copy>(list: &[T], size: usize, order: &[usize]) -> Vec<T> {
    order.iter().flat_map(|place| &list[place * size..][..size]).copied().collect()
}

/// A stage that borrows the sample, and can be read as it.
macro_rules! reads_as_sample {
    ($($stage:ident)*) => {$(
        impl Deref for $stage<'_> {
            type Target = Sample;

            fn deref(&self) -> &Sample {
                self.sample
            }
        }
    )*};
}

reads_as_sample!(Cleared ByRegions Scattered Updated Moved);

/// The nodes are empty.
#[derive(Debug)]
#[must_use = "a substep goes on with a scatter"]
pub struct Cleared<'a> {
    sample: &'a mut Sample,
}

impl<'a> Cleared<'a> {
    /// Scatters all particles at once. The substep's length dt holds for the stages behind as well.
    pub fn scatter(self, dt: f32, gravity: [f32; 2]) -> Result<Scattered<'a>, Refused> {
        self.sample.scattered(dt, gravity, particle_to_grid_scatter2)?;
        Ok(Scattered { sample: self.sample, dt })
    }

    /// Scatters the regions in an order of their places: each once, no colour before a lower one. Whatever order that is, the nodes
    /// are the same.
    pub fn scatter_in_order(self, order: &[usize], dt: f32, gravity: [f32; 2]) -> Result<Scattered<'a>, Refused> {
        let order: Vec<u64> = order.iter().map(|place| *place as u64).collect();
        self.sample.scattered(dt, gravity, |scatter, nodes| scatter_in_order2(&order, scatter, nodes))?;
        Ok(Scattered { sample: self.sample, dt })
    }

    /// Scatters one region at a time, as the host says.
    pub fn by_regions(self, dt: f32, gravity: [f32; 2]) -> ByRegions<'a> {
        ByRegions { sample: self.sample, dt, gravity, order: vec![] }
    }

    /// Every fluid's volume from the mass around it. The nodes have to be cleared again before a scatter: what comes back is the sample.
    ///
    /// ```compile_fail,E0599
    /// # use mangerknot::{Particle, Sample};
    /// let mut sample = Sample::new(1.0, [Particle { position: [1.0, 1.0], ..Particle::default() }])?;
    /// sample.clear()?.recompute_fluids_volumes()?.scatter(1.0, [0.0, 0.0])?; // not cleared
    /// # Ok::<(), mangerknot::Refused>(())
    /// ```
    pub fn recompute_fluids_volumes(self) -> Result<&'a mut Sample, Refused> {
        let Sample { cell_width, ids, ranges, particle_floats, particle_words, node_floats, node_words, .. } = &mut *self.sample;
        recompute_fluids_volumes2(
            *cell_width,
            Regions { ids, ranges },
            ParticlesMut { floats: particle_floats, words: particle_words },
            NodesMut { floats: node_floats, words: node_words },
        )?;
        Ok(self.sample)
    }
}

/// Some regions have been scattered, and others not yet.
///
/// What is refused here has the number and the index that [`Cleared::scatter_in_order`] has for an order that begins so: 4 at the entry
/// that is no region's place, named again or of a lower colour, and 1 where the order ends too early. Each call checks the whole sample,
/// as every call of the archive does.
///
/// ```
/// use mangerknot::{Particle, Sample};
/// let at = |x: f32, y: f32| Particle { position: [x, y], mass: 1.0, ..Particle::default() };
/// let mut sample = Sample::new(1.0, [at(1.0, 1.0), at(9.0, 1.0)])?;
/// let mut stage = sample.clear()?.by_regions(0.1, [0.0, 0.0]);
/// let mut places: Vec<usize> = (0..stage.regions().ids.len()).collect();
/// places.sort_by_key(|place| mangerknot::color2(stage.regions().ids[*place]));
/// for place in places {
///     stage.scatter_region(place)?;
/// }
/// assert_eq!(stage.finish()?.node_mass(), 2.0);
/// # Ok::<(), mangerknot::Refused>(())
/// ```
#[derive(Debug)]
#[must_use = "a substep goes on when every region was scattered"]
pub struct ByRegions<'a> {
    sample: &'a mut Sample,
    dt: f32,
    gravity: [f32; 2],
    order: Vec<u64>,
}

impl<'a> ByRegions<'a> {
    /// Scatters the region at this place. Where it is refused, nothing has changed and another region can be tried.
    pub fn scatter_region(&mut self, place: usize) -> Result<(), Refused> {
        self.order.push(place as u64);
        let scattered = self.in_turn().and_then(|()| {
            let ask = |scatter: &Scatter<'_>, nodes: NodesMut<'_>| particle_to_grid_scatter_region2(place, scatter, nodes);
            self.sample.scattered(self.dt, self.gravity, ask)
        });
        if scattered.is_err() {
            self.order.pop();
        }
        scattered
    }

    /// Whether the last entry of the order may stand behind the others; settings come before it, as in every call.
    fn in_turn(&self) -> Result<(), Refused> {
        let index = self.order.len() - 1;
        let asked = Asked { order: Some(&self.order), ..self.sample.asked_to_scatter(self.dt, self.gravity) };
        match (asked.setting_fault(), asked.order_fault(index)) {
            (Some(_), _) => Err(asked.refused(3, 0)),
            (_, Some(_)) => Err(asked.refused(4, index)),
            _ => Ok(()),
        }
    }

    /// All regions have been scattered; else it is refused with 1, and the substep has to be begun again. Of a sample without regions,
    /// dt and gravity are looked at here.
    pub fn finish(self) -> Result<Scattered<'a>, Refused> {
        let ByRegions { sample, dt, gravity, order } = self;
        let asked = Asked { order: Some(&order), ..sample.asked_to_scatter(dt, gravity) };
        match (order.len() == sample.ids.len(), asked.setting_fault()) {
            (false, _) => Err(asked.refused(1, 0)),
            (_, Some(_)) => Err(asked.refused(3, 0)),
            _ => Ok(Scattered { sample, dt }),
        }
    }
}

/// The nodes have what the particles brought.
#[derive(Debug)]
#[must_use = "a substep goes on with the update"]
pub struct Scattered<'a> {
    sample: &'a mut Sample,
    dt: f32,
}

impl<'a> Scattered<'a> {
    /// Locks and boundaries on every node.
    pub fn update(self, boundary: &Boundary) -> Result<Updated<'a>, Refused> {
        let colliders = self.sample.fitting(boundary)?;
        let Sample { cell_width, ids, node_floats, node_words, .. } = &mut *self.sample;
        let nodes = NodesMut { floats: node_floats, words: node_words };
        grid_update2(*cell_width, self.dt, ids, colliders, nodes)?;
        Ok(Updated { sample: self.sample, dt: self.dt })
    }
}

/// The nodes are as the particles will take them.
#[derive(Debug)]
#[must_use = "a substep goes on with the gather"]
pub struct Updated<'a> {
    sample: &'a mut Sample,
    dt: f32,
}

impl<'a> Updated<'a> {
    /// Particles take velocities from the nodes, move and are deformed, with modified eigenerosion or without.
    pub fn gather_first_half(self, modified_eigenerosion: bool) -> Result<Moved<'a>, Refused> {
        let Sample { cell_width, ids, ranges, particle_floats, particle_words, node_floats, node_words, .. } = &mut *self.sample;
        grid_to_particle_first_half2(
            *cell_width,
            self.dt,
            u32::from(modified_eigenerosion),
            Regions { ids, ranges },
            ParticlesMut { floats: particle_floats, words: particle_words },
            Nodes { floats: node_floats, words: node_words },
        )?;
        self.sample.is_moved = true;
        Ok(Moved { sample: self.sample })
    }
}

/// The particles have moved, and the host may rewrite their deformation gradients.
#[derive(Debug)]
#[must_use = "a substep ends with the second half of gather"]
pub struct Moved<'a> {
    sample: &'a mut Sample,
}

impl<'a> Moved<'a> {
    /// Gives every particle the deformation gradient that the host says, be it the one it has.
    pub fn rewrite_deformation_gradients(self, mut rewrite: impl FnMut(usize, &Particle) -> Matrix) -> Moved<'a> {
        for place in 0..self.sample.len() {
            let [[f00, f01], [f10, f11]] = rewrite(place, &self.sample.read(place));
            self.sample.particle_floats[place * PARTICLE_FLOATS + DEFORMATION..][..4].copy_from_slice(&[f00, f01, f10, f11]);
        }
        self
    }

    /// Settles what the models say of each particle, as they stand, and ends the substep. Where it is refused, [`Sample::moved`] gives
    /// another try.
    pub fn gather_second_half(self, given: &[ModelAnswer]) -> Result<&'a mut Sample, Refused> {
        let floats: Vec<f32> = given.iter().flat_map(|answer| [answer.density, answer.energy]).collect();
        let words: Vec<u32> = given.iter().map(|answer| u32::from(answer.failed)).collect();
        let Sample { particle_floats, particle_words, .. } = &mut *self.sample;
        let particles = ParticlesMut { floats: particle_floats, words: particle_words };
        grid_to_particle_second_half2(particles, Given { floats: &floats, words: &words })?;
        self.sample.is_moved = false;
        Ok(self.sample)
    }
}

/// The colour of a region of the plane, from 0 to 3: no region is scattered before one of a lower colour.
pub fn color2(region_id: u64) -> u64 {
    color(region_id)
}
