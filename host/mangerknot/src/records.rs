//! Records with named fields, and their flat form in memory. No conversion changes a bit, a NaN's pattern neither.
#![forbid(unsafe_code)]

/// The floats of a particle in memory.
pub const PARTICLE_FLOATS: usize = 26;
/// The words of a particle in memory.
pub const PARTICLE_WORDS: usize = 4;
/// The floats of a node in memory.
pub const NODE_FLOATS: usize = 7;
/// The nodes of a region.
pub const REGION_NODES: usize = 16;

/// A 2 by 2 matrix, by rows.
pub type Matrix = [[f32; 2]; 2];

/// The matrix with 1 on its diagonal: the deformation gradient of what is not deformed.
pub const IDENTITY: Matrix = [[1.0, 0.0], [0.0, 1.0]];

/// A particle. The default one is a solid of no mass and volume at the origin, not deformed, intact (its phase is 1), every flag off.
///
/// ```
/// use mangerknot::Particle;
/// let particle = Particle { position: [1.0, 1.0], mass: 64.0, volume0: 1.0, ..Particle::default() };
/// let (floats, words) = (particle.floats(), particle.words());
/// assert_eq!((floats[0], floats[12], words), (1.0, 64.0, [0; 4]));
/// assert_eq!(Particle::from_flat(&floats, &words), Some(particle));
/// assert_eq!(Particle::from_flat(&floats, &[2, 0, 0, 0]), None);
/// ```
#[derive(Clone, Copy, Debug, PartialEq)]
pub struct Particle {
    /// Where it is.
    pub position: [f32; 2],
    /// Its velocity.
    pub velocity: [f32; 2],
    /// The gradient of its velocity.
    pub velocity_gradient: Matrix,
    /// Its stress, which the host's law sets before a scatter: over the initial volume (Kirchhoff's), above 0 where it pulls.
    pub stress: Matrix,
    /// Its mass.
    pub mass: f32,
    /// Its volume in the beginning.
    pub volume0: f32,
    /// Above 0 where it is intact.
    pub phase: f32,
    /// 0 where it takes no part in eigenerosion.
    pub crack_propagation_factor: f32,
    /// Its largest energy so far.
    pub psi_pos: f32,
    /// Its deformation gradient F; of a fluid, only the first entry counts.
    pub deformation_gradient: Matrix,
    /// Beyond which it cracks.
    pub crack_threshold: f32,
    /// What the second half of gather leaves: psi times mass.
    pub parameter1: f32,
    /// What the second half of gather leaves: the mass.
    pub parameter2: f32,
    /// The velocity that a kinematic particle has, whatever the nodes say.
    pub kinematic_vel: [f32; 2],
    /// Whether it has failed.
    pub failed: bool,
    /// Whether it moves by its kinematic velocity.
    pub kinematic: bool,
    /// Whether it is a fluid; else it is a solid.
    pub fluid: bool,
    /// Whether its velocity is set to 0 in the second half of gather; the first half still moves it by what the nodes have.
    pub is_static: bool,
}

impl Default for Particle {
    fn default() -> Self {
        let zeros = Particle::of_floats(&[0.0; PARTICLE_FLOATS], [false; PARTICLE_WORDS]);
        Particle { phase: 1.0, deformation_gradient: IDENTITY, ..zeros }
    }
}

impl Particle {
    /// The particle's floats as memory has them.
    pub fn floats(&self) -> [f32; PARTICLE_FLOATS] {
        let [[g00, g01], [g10, g11]] = self.velocity_gradient;
        let [[s00, s01], [s10, s11]] = self.stress;
        let [[f00, f01], [f10, f11]] = self.deformation_gradient;
        let ([x, y], [vx, vy], [kx, ky]) = (self.position, self.velocity, self.kinematic_vel);
        let (mass, volume0, phase, factor) = (self.mass, self.volume0, self.phase, self.crack_propagation_factor);
        let (psi, threshold, parameter1, parameter2) = (self.psi_pos, self.crack_threshold, self.parameter1, self.parameter2);
        [
            x, y, vx, vy, g00, g01, g10, g11, s00, s01, s10, s11, mass, volume0, phase, factor, psi, f00, f01, f10, f11,
            threshold, parameter1, parameter2, kx, ky,
        ]
    }

    /// The particle's flags as memory has them: failed, kinematic, fluid, static.
    pub fn words(&self) -> [u32; PARTICLE_WORDS] {
        [self.failed, self.kinematic, self.fluid, self.is_static].map(u32::from)
    }

    /// The particle of these floats and words; none where a word is neither 0 nor 1.
    pub fn from_flat(floats: &[f32; PARTICLE_FLOATS], words: &[u32; PARTICLE_WORDS]) -> Option<Particle> {
        words.iter().all(|word| *word <= 1).then(|| Particle::of_floats(floats, words.map(|word| word != 0)))
    }

    pub(crate) fn of_floats(floats: &[f32; PARTICLE_FLOATS], [failed, kinematic, fluid, is_static]: [bool; 4]) -> Particle {
        let [x, y, vx, vy, g00, g01, g10, g11, s00, s01, s10, s11, mass, volume0, phase, factor, psi, rest @ ..] = *floats;
        let [f00, f01, f10, f11, crack_threshold, parameter1, parameter2, kx, ky] = rest;
        Particle {
            position: [x, y],
            velocity: [vx, vy],
            velocity_gradient: [[g00, g01], [g10, g11]],
            stress: [[s00, s01], [s10, s11]],
            mass,
            volume0,
            phase,
            crack_propagation_factor: factor,
            psi_pos: psi,
            deformation_gradient: [[f00, f01], [f10, f11]],
            crack_threshold,
            parameter1,
            parameter2,
            kinematic_vel: [kx, ky],
            failed,
            kinematic,
            fluid,
            is_static,
        }
    }
}

/// What the floats of a particle are called, with how many each is.
pub(crate) const PARTICLE_FIELDS: [(&str, usize); 14] = [
    ("position", 2),
    ("velocity", 2),
    ("velocity gradient", 4),
    ("stress", 4),
    ("mass", 1),
    ("initial volume", 1),
    ("phase", 1),
    ("crack propagation factor", 1),
    ("psi", 1),
    ("deformation gradient", 4),
    ("crack threshold", 1),
    ("parameter1", 1),
    ("parameter2", 1),
    ("kinematic velocity", 2),
];

/// What the words of a particle are called.
pub(crate) const PARTICLE_FLAGS: [&str; PARTICLE_WORDS] = ["failed", "kinematic", "fluid", "is_static"];

/// Where the deformation gradient begins among a particle's floats.
pub(crate) const DEFORMATION: usize = 17;

/// Where the mass stands among a particle's floats.
pub(crate) const MASS: usize = 12;

/// A node of the grid. The default one is empty, as clear leaves it.
///
/// ```
/// use mangerknot::Node;
/// let node = Node { mass: 2.0, boundary: 7, ..Node::default() };
/// assert_eq!(Node::from_flat(&node.floats(), node.boundary), node);
/// ```
#[derive(Clone, Copy, Debug, Default, PartialEq)]
pub struct Node {
    /// The mass that particles brought.
    pub mass: f32,
    /// The momentum that they brought.
    pub momentum: [f32; 2],
    /// The velocity that scatter and update made of it.
    pub velocity: [f32; 2],
    /// What eigenerosion gathers: psi times mass.
    pub psi_momentum: f32,
    /// What eigenerosion gathers: mass.
    pub psi_mass: f32,
    /// The boundary flag, 0 where the cell's centre was inside of no collider. It is a word since a node's contents are read unchecked;
    /// in a [`crate::Sample`] it is 0 or 1.
    pub boundary: u32,
}

impl Node {
    /// The node's floats as memory has them.
    pub fn floats(&self) -> [f32; NODE_FLOATS] {
        let ([px, py], [vx, vy]) = (self.momentum, self.velocity);
        [self.mass, px, py, vx, vy, self.psi_momentum, self.psi_mass]
    }

    /// The node of these floats and this word.
    pub fn from_flat(&[mass, px, py, vx, vy, psi_momentum, psi_mass]: &[f32; NODE_FLOATS], boundary: u32) -> Node {
        Node { mass, momentum: [px, py], velocity: [vx, vy], psi_momentum, psi_mass, boundary }
    }
}

/// What the host's models say of a particle, for the second half of gather.
#[derive(Clone, Copy, Debug, PartialEq)]
pub struct ModelAnswer {
    /// Its density; 0 makes it fail.
    pub density: f32,
    /// Its energy, of which psi keeps the largest.
    pub energy: f32,
    /// Whether it failed, which makes its phase 0.
    pub failed: bool,
}

/// How boundaries are handled.
#[derive(Clone, Copy, Debug, Default, PartialEq, Eq)]
pub enum Handling {
    /// Not at all; only flags are set.
    #[default]
    None,
    /// No velocity inside a collider.
    Stick,
    /// No velocity into a collider, and less along it: inside, and outside up to a cell's width from its surface. Farther out, a velocity
    /// that would come nearer than that within dt is slowed so that it comes just there. Nothing happens where centre and point are no
    /// more than about 1.0e-5 apart, since there is no direction then.
    Friction,
    /// As friction.
    FrictionZUp,
}

impl Handling {
    /// Its code: 0 to 3.
    pub fn code(self) -> u32 {
        match self {
            Handling::None => 0,
            Handling::Stick => 1,
            Handling::Friction => 2,
            Handling::FrictionZUp => 3,
        }
    }
}

/// What a collider's shape has for the centre of a cell: the nearest point of its surface, and on which side of it the centre is.
#[derive(Clone, Copy, Debug, PartialEq)]
pub enum Projection {
    /// The centre is inside.
    Inside([f32; 2]),
    /// The centre is outside.
    Outside([f32; 2]),
}

impl Projection {
    /// The point, and 1 for inside or 0 for outside, as memory has them.
    pub fn flat(self) -> ([f32; 2], u32) {
        match self {
            Projection::Inside(point) => (point, 1),
            Projection::Outside(point) => (point, 0),
        }
    }
}
