//! For rapier's colliders and parry's projections on their shapes: what the port is lent of them. A collider has a friction, and
//! answers the projections it was given, one after the other.

use crate::data::Arena;
use crate::math::{Point, Real};
use std::cell::Cell;

/// For `parry::query`.
pub mod query {
    use crate::math::{Point, Real};

    #[derive(Copy, Clone, Debug)]
    pub struct PointProjection {
        pub is_inside: bool,
        pub point: Point<Real>,
    }

    impl PointProjection {
        pub fn new(is_inside: bool, point: Point<Real>) -> Self {
            PointProjection { is_inside, point }
        }
    }
}

/// For `rapier::geometry::ColliderSet`.
pub type ColliderSet = Arena<Collider>;

/// For a collider and for its shape. The update asks each of them for one cell after the other, by regions as they are listed and
/// by cells as they are numbered, so that how often it was asked says which cell it is asked about; after the last comes the first.
pub struct Collider {
    friction: Real,
    projections: Vec<query::PointProjection>,
    asked: Cell<usize>,
}

impl Collider {
    pub fn new(friction: Real, projections: Vec<query::PointProjection>) -> Self {
        Collider { friction, projections, asked: Cell::new(0) }
    }

    pub fn friction(&self) -> Real {
        self.friction
    }

    pub fn shape(&self) -> &Self {
        self
    }

    /// Where it stands is in what it answers already.
    pub fn position(&self) {}

    pub fn project_point(&self, _: (), _: &Point<Real>, _: bool) -> query::PointProjection {
        let asked = self.asked.get();
        let next = asked + 1;
        self.asked.set(if next == self.projections.len() { 0 } else { next });
        self.projections[asked]
    }
}
