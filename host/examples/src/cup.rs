//! The scene: a cup with a floor and two walls, and a column of powder against the left one. Lengths are in mm, times in s, masses in mg,
//! all for a slice that is 1 mm thick.

use crate::law::Powder;
use mangerknot::{Particle, Projection};

/// The width of a cell.
pub const CELL: f32 = 1.0;
/// Down, in mm/s².
pub const GRAVITY: [f32; 2] = [0.0, -9810.0];

/// The length of a substep. A wave goes sqrt((bulk + shear) / density) far in a second, and in a substep less than 0.3 of a cell.
pub const DT: f32 = 0.0002;
/// How many it takes until the front stands.
pub const SUBSTEPS: usize = 800;

/// The powder. It is soft, so that a substep can be long: the column's own weight presses its foot together by a fifth.
pub const POWDER: Powder = Powder { density: 1.0, bulk: 1.4e6, shear: 0.8e6, friction: 0.6, loosest: 1.1 };

/// The inner corner on the left, and how wide the cup is. No surface lies on centres of cells, where the update cannot tell which side is
/// inside; floor and left wall lie a tenth of a cell beyond such centres, where they take hold of the powder first. The corner is some
/// cells off 0, since a grain's stencil needs cells about it.
pub const CORNER: [f32; 2] = [8.9, 8.9];
pub const WIDTH: f32 = 48.0;

/// Width and height of the column in cells, and grains to a cell along each axis.
pub const COLUMN: [usize; 2] = [14, 24];
pub const TO_A_CELL: usize = 3;
const APART: f32 = CELL / TO_A_CELL as f32;

/// A half-plane of all that is beyond a line: below it on the axis, or above.
#[derive(Clone, Copy, Debug)]
pub struct Wall {
    pub axis: usize,
    pub line: f32,
    pub is_below: bool,
    pub friction: f32,
}

/// The floor, and the walls on the left and on the right.
pub const WALLS: [Wall; 3] = [
    Wall { axis: 1, line: CORNER[1], is_below: true, friction: 0.7 },
    Wall { axis: 0, line: CORNER[0], is_below: true, friction: 0.2 },
    Wall { axis: 0, line: CORNER[0] + WIDTH, is_below: false, friction: 0.2 },
];

impl Wall {
    /// The point of the surface that is nearest to a cell's centre, and on which side of it that is.
    pub fn projection(&self, centre: [f32; 2]) -> Projection {
        let mut point = centre;
        point[self.axis] = self.line;
        if (centre[self.axis] < self.line) == self.is_below {
            Projection::Inside(point)
        } else {
            Projection::Outside(point)
        }
    }
}

/// The column as it is let go, row by row from the floor up: at rest, and pressed by nothing yet.
pub fn column() -> Vec<Particle> {
    let [columns, rows] = COLUMN.map(|cells| cells * TO_A_CELL);
    (0..columns * rows).map(|place| grain([place % columns, place / columns])).collect()
}

fn grain(place: [usize; 2]) -> Particle {
    let position = [0, 1].map(|axis| CORNER[axis] + (place[axis] as f32 + 0.5) * APART);
    let volume0 = APART * APART;
    Particle { position, mass: POWDER.density * volume0, volume0, ..Particle::default() }
}

/// Where a grain is in the cup, in mm from the left wall and above the floor.
pub fn place(grain: &Particle) -> [f32; 2] {
    [0, 1].map(|axis| grain.position[axis] - CORNER[axis])
}

#[cfg(test)]
mod tests {
    use super::*;

    #[test]
    fn the_column_stands_in_its_corner() {
        let grains = column();
        assert_eq!(grains.len(), 3024);
        let ends = |axis: usize| {
            let places = || grains.iter().map(|grain| place(grain)[axis]);
            [places().fold(f32::INFINITY, f32::min), places().fold(0.0, f32::max)]
        };
        let half = APART * 0.5;
        for (axis, cells) in COLUMN.iter().enumerate() {
            let [first, last] = ends(axis);
            assert!((first - half).abs() < 1e-5 && (last - (*cells as f32 - half)).abs() < 1e-5, "{} to {}", first, last);
        }
    }

    #[test]
    fn a_substep_is_short_for_a_wave() {
        assert!(((POWDER.bulk + POWDER.shear) / POWDER.density).sqrt() * DT < 0.3 * CELL);
    }

    #[test]
    fn a_wall_has_its_nearest_point_and_its_side() {
        let [floor, left, right] = WALLS;
        assert_eq!(floor.projection([3.0, 9.0]), Projection::Outside([3.0, CORNER[1]]));
        assert_eq!(floor.projection([3.0, 8.0]), Projection::Inside([3.0, CORNER[1]]));
        assert_eq!(left.projection([8.0, 4.0]), Projection::Inside([CORNER[0], 4.0]));
        assert_eq!(left.projection([9.0, 4.0]), Projection::Outside([CORNER[0], 4.0]));
        let line = CORNER[0] + WIDTH;
        assert_eq!(right.projection([57.0, 4.0]), Projection::Inside([line, 4.0]));
        assert_eq!(right.projection([56.0, 4.0]), Projection::Outside([line, 4.0]));
    }
}
