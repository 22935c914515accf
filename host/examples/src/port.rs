//! The powder through the library: what a host writes for a substep.

use crate::cup::{CELL, DT, GRAVITY, POWDER, WALLS};
use crate::run::{in_order_of, Solver};
use mangerknot::{Handling, ModelAnswer, Particle, Refused, Sample};

/// The library's sample of the powder.
pub struct Port {
    sample: Sample,
}

impl Port {
    pub fn new(grains: Vec<Particle>) -> Result<Port, Refused> {
        Ok(Port { sample: Sample::new(CELL, grains)? })
    }
}

impl Solver for Port {
    type Refusal = Refused;

    fn substep(&mut self) -> Result<f64, Refused> {
        let Port { sample } = self;
        // The grains have moved: into their regions again, and the cup's walls for the cells of these.
        sample.sort()?;
        let frictions = WALLS.map(|wall| wall.friction);
        let cup = sample.boundary(Handling::Friction, &frictions, |wall, centre| WALLS[wall].projection(centre));

        sample.rewrite(|_, grain| grain.stress = POWDER.stress(grain.deformation_gradient));
        let updated = sample.clear()?.scatter(DT, GRAVITY)?.update(&cup)?;
        let mass = updated.node_mass();

        let given = vec![POWDER_SAYS; updated.len()];
        let moved = updated.gather_first_half(false)?;
        moved.rewrite_deformation_gradients(|_, grain| POWDER.yielded(grain.deformation_gradient)).gather_second_half(&given)?;
        Ok(mass)
    }

    fn grains(&self) -> Vec<Particle> {
        in_order_of(self.sample.origins(), self.sample.particles())
    }
}

/// What the law says of every grain: it never fails, and stores no energy that cracks would be asked of. Of the density only a 0 counts.
pub const POWDER_SAYS: ModelAnswer = ModelAnswer { density: POWDER.density, energy: 0.0, failed: false };
