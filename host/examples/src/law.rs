//! The host's material law: a powder that resists compression and, by friction, shear, but no pull. It is a toy and fitted to no
//! powder. It uses sums, differences, products, quotients, comparisons and roots of f32 alone, each rounded once, so that it answers the
//! same bits on every machine.
//!
//! What a particle's deformation gradient F means for the stress is b = F Fᵀ. In the plane b is J times a matrix of determinant 1, where
//! J = det F is the volume over the initial one:
//!
//! ```text
//! b / J = [t + a, c; c, t - a],   t² = 1 + a² + c²
//! ```
//!
//! Pressure comes from J, and shear stress from a and c. A shear that friction does not hold is taken out of F.

use mangerknot::Matrix;

/// The powder's numbers. Lengths are in mm, times in s and masses in mg, so that a stress of 1 is a thousandth of a pascal.
#[derive(Clone, Copy, Debug, PartialEq)]
pub struct Powder {
    /// Mass over area, where nothing presses.
    pub density: f32,
    /// Resistance to compression, and to shear.
    pub bulk: f32,
    pub shear: f32,
    /// The largest shear stress over pressure: the sine of the angle of inner friction.
    pub friction: f32,
    /// The largest J that F keeps: what a loose particle has to be pressed together before it resists again.
    pub loosest: f32,
}

/// What of F bears stress: J, and of b / J the parts a and c.
#[derive(Clone, Copy)]
struct Strain {
    volume: f32,
    a: f32,
    c: f32,
}

impl Strain {
    fn of([[f00, f01], [f10, f11]]: Matrix) -> Strain {
        let volume = f00 * f11 - f01 * f10;
        let (b00, b01, b11) = (f00 * f00 + f01 * f01, f00 * f10 + f01 * f11, f10 * f10 + f11 * f11);
        Strain { volume, a: (b00 - b11) * 0.5 / volume, c: b01 / volume }
    }

    /// The symmetric F of this strain: the root of J, times the root of the matrix of determinant 1, which is (b / J + 1) over the root
    /// of its trace and 2.
    fn deformation(self) -> Matrix {
        let Strain { volume, a, c } = self;
        let t = (1.0 + a * a + c * c).sqrt();
        let scale = volume.sqrt() / (t + t + 2.0).sqrt();
        [[(t + 1.0 + a) * scale, c * scale], [c * scale, (t + 1.0 - a) * scale]]
    }
}

impl Powder {
    /// The pressure that a volume makes; none where the powder is loose.
    fn pressure(&self, volume: f32) -> f32 {
        if volume < 1.0 {
            self.bulk * 0.5 * (1.0 - volume * volume)
        } else {
            0.0
        }
    }

    /// The stress that a scatter takes (Kirchhoff's).
    pub fn stress(&self, deformation: Matrix) -> Matrix {
        let Strain { volume, a, c } = Strain::of(deformation);
        let pressure = self.pressure(volume);
        if pressure == 0.0 {
            return [[0.0; 2]; 2];
        }
        let (a, c) = (self.shear * a, self.shear * c);
        [[a - pressure, c], [c, -a - pressure]]
    }

    /// What is left of F where the powder yields: of the shear so much as friction holds under this pressure, and none where it is loose.
    pub fn yielded(&self, deformation: Matrix) -> Matrix {
        let Strain { volume, a, c } = Strain::of(deformation);
        let held = self.friction * self.pressure(volume);
        let stress = self.shear * (a * a + c * c).sqrt();
        let left = if stress > held { held / stress } else { 1.0 };
        let volume = if volume > self.loosest { self.loosest } else { volume };
        Strain { volume, a: a * left, c: c * left }.deformation()
    }
}

#[cfg(test)]
mod tests {
    use super::*;
    use mangerknot::IDENTITY;

    const POWDER: Powder = Powder { density: 1.0, bulk: 1000.0, shear: 500.0, friction: 0.5, loosest: 1.1 };

    fn near(left: Matrix, right: Matrix, within: f32) {
        let is_near = (0..4).all(|place| (left.concat()[place] - right.concat()[place]).abs() <= within);
        assert!(is_near, "{:?} and not {:?}", left, right);
    }

    /// Largest shear stress, and pressure.
    fn parts([[s00, s01], [_, s11]]: Matrix) -> [f32; 2] {
        let a = (s00 - s11) * 0.5;
        [(a * a + s01 * s01).sqrt(), (s00 + s11) * -0.5]
    }

    #[test]
    fn it_presses_back_and_does_not_pull() {
        assert_eq!(POWDER.stress(IDENTITY), [[0.0; 2]; 2]);
        assert_eq!(POWDER.stress([[1.5, 0.25], [0.0, 1.0]]), [[0.0; 2]; 2]);
        let pressure = 500.0 * (1.0 - 0.81 * 0.81);
        near(POWDER.stress([[0.9, 0.0], [0.0, 0.9]]), [[-pressure, 0.0], [0.0, -pressure]], 1e-3);
    }

    #[test]
    fn a_turn_makes_no_stress() {
        let (cos, sin) = (0.6, 0.8);
        let turned = |deformation: Matrix| deformation.map(|[a, b]| [a * cos + b * sin, b * cos - a * sin]);
        let deformation = [[0.9, 0.02], [0.03, 0.95]];
        near(POWDER.stress(turned(deformation)), POWDER.stress(deformation), 1e-3);
        near(POWDER.yielded(turned(deformation)), POWDER.yielded(deformation), 1e-6);
    }

    #[test]
    fn what_friction_holds_keeps_its_stress() {
        let held = [[0.9, 0.02], [0.0, 0.9]];
        let [shear, pressure] = parts(POWDER.stress(held));
        assert!(shear > 10.0 && shear < 0.5 * pressure);
        near(POWDER.stress(POWDER.yielded(held)), POWDER.stress(held), 1e-3);
    }

    #[test]
    fn what_friction_does_not_hold_slides_to_its_limit() {
        let sliding = [[0.9, 0.5], [0.0, 1.05]];
        let [shear, pressure] = parts(POWDER.stress(sliding));
        assert!(shear > 2.0 * pressure && pressure > 10.0);
        let [left, still] = parts(POWDER.stress(POWDER.yielded(sliding)));
        assert!((still - pressure).abs() < 1e-2 && (left - 0.5 * pressure).abs() < 1e-2);
    }

    #[test]
    fn a_loose_particle_keeps_its_volume_up_to_a_bound_and_no_shear() {
        let root = 1.05f32.sqrt();
        near(POWDER.yielded([[1.0, 0.3], [0.0, 1.05]]), [[root, 0.0], [0.0, root]], 1e-6);
        let root = 1.1f32.sqrt();
        near(POWDER.yielded([[2.0, 0.3], [0.1, 1.5]]), [[root, 0.0], [0.0, root]], 1e-6);
    }
}
