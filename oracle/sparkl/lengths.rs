//! The handed-over step, whose loop chooses the substeps' lengths. What it asks for a proposal was not handed over, and is a host here; the
//! stages in the loop are the Rust's own, on one particle that stands still.

use crate::dynamics::solver::{MlsSolver, MpmHooks};
use crate::dynamics::{GridNode, ParticleModelSet, ParticleSet};
use crate::geometry::{way_in, SpGrid};
use crate::math::Real;
use crate::scene::Scene;
use crate::MmapMut;
use samples::lengths::{proposal, Step, Taken, FINISHED, NONE_LEFT, ONE_DONE};
use samples::particle::{FLUID, KINEMATIC, MASS, POSITION, STATIC};
use samples::substeps::Substep;
use samples::{Call, Records, Rng};
use std::cell::RefCell;
use std::panic::{catch_unwind, resume_unwind, AssertUnwindSafe};

/// What a step did: what the host was told that a substep may be at the most, what he proposed, how long the substeps were, and what the
/// step answered. Where he had no proposal left, he was told once more, and nothing was answered.
#[derive(Debug, Default, PartialEq)]
pub struct Course {
    pub limits: Vec<Real>,
    pub proposals: Vec<Real>,
    pub lengths: Vec<Real>,
    pub answered: Option<Real>,
}

/// Says a length that is at most the one it is told, or none.
pub type Host = Box<dyn FnMut(Real) -> Option<Real>>;

/// The host who is asked, and the course so far.
struct Asked {
    host: Host,
    course: Course,
}

thread_local! {
    static ASKED: RefCell<Option<Asked>> = RefCell::new(None);
}

/// What a host without another proposal leaves the step with.
struct NoneLeft;

impl MlsSolver {
    /// For the estimate that the models make of the particles.
    pub(crate) fn adaptive_timestep_length(limit: Real, _: &SpGrid<GridNode>, _: &ParticleSet, _: &ParticleModelSet) -> Real {
        let proposed = ASKED.with(|asked| {
            let mut asked = asked.borrow_mut();
            let Asked { host, course } = asked.as_mut().expect("a host");
            course.limits.push(limit);
            let proposed = host(limit);
            course.proposals.extend(proposed);
            proposed
        });
        proposed.unwrap_or_else(|| resume_unwind(Box::new(NoneLeft)))
    }

    /// Eigenerosion by neighbours is left out.
    pub(crate) fn evolve_eigenerosion(_: &mut SpGrid<GridNode>, _: &mut ParticleSet) {
        unimplemented!()
    }
}

/// The phase field is left out.
pub(crate) mod phase_field {
    use crate::dynamics::{GridNode, GridNodeCgPhase, ParticleSet};
    use crate::geometry::SpGrid;
    use crate::math::Real;

    pub fn update_phase_field(_: Real, _: &mut SpGrid<GridNode>, _: &mut SpGrid<GridNodeCgPhase>, _: &mut ParticleSet) {
        unimplemented!()
    }
}

/// Lets the Rust make a step with these settings and this host.
pub fn course(step: &Step, host: Host) -> Course {
    let mut watch = Watch { lengths: vec![] };
    let (answered, course) = asking(host, || Scene::new(&standing_still(), MmapMut::sparse()).step(step, false, &mut watch));
    Course { lengths: watch.lengths, answered, ..course }
}

/// What a step answers that asks this host, and what he was told and said; nothing where he had no proposal left.
fn asking(host: Host, step: impl FnOnce() -> Real) -> (Option<Real>, Course) {
    ASKED.with(|asked| *asked.borrow_mut() = Some(Asked { host, course: Course::default() }));
    let stepped = catch_unwind(AssertUnwindSafe(step));
    let asked = ASKED.with(|asked| asked.borrow_mut().take()).expect("a host");
    match stepped {
        Ok(answered) => (Some(answered), asked.course),
        Err(why) if why.is::<NoneLeft>() => (None, asked.course),
        Err(why) => resume_unwind(why),
    }
}

/// The particles after a step of the Rust's that is this one substep, which has no colliders, since they are given by regions as listed.
pub fn stepped(substep: &Substep) -> Records {
    let dt = substep.call.dt;
    let once = Step { total: dt, max_substep_dt: dt, max_num_substeps: 1, stop_after_one_substep: 0, proposals: 0, dts: vec![] };
    let mut scene = Scene::new(&substep.call, MmapMut::sparse());
    scene.host(&substep.rewritten);
    let (answered, _) = asking(Box::new(Some), || scene.step(&once, substep.recomputes, &mut ()));
    assert_eq!(answered, Some(dt));
    scene.particles()
}

/// Lets the Rust make a step with the proposals that it has.
pub fn course_of(step: &Step) -> Course {
    let mut dts = step.dts.clone().into_iter().map(Real::from_bits);
    course(step, Box::new(move |_| dts.next()))
}

/// Lets the Rust make a step with so many random proposals at the most.
pub fn random_course(step: &Step, most: usize, rng: &mut Rng) -> Course {
    let (mut left, mut own) = (most, Rng::new(rng.number()));
    let host = move |limit: Real| {
        left = left.checked_sub(1)?;
        proposal(limit, &mut own)
    };
    course(step, Box::new(host))
}

impl Course {
    /// What is to be answered of this course. The Rust keeps what remains to itself: it is worked out of the lengths here, and what the
    /// host was told shows that it is the same there.
    pub fn taken(&self, step: &Step) -> Taken {
        let mut remaining = vec![step.total];
        self.lengths.iter().for_each(|length| remaining.push(remaining[remaining.len() - 1] - length));
        assert!(self.limits.iter().zip(&remaining).all(|(limit, remaining)| *limit == remaining.min(step.max_substep_dt)));
        let (count, remaining) = (self.lengths.len(), remaining[self.lengths.len()]);
        let end = match self.answered {
            None => NONE_LEFT,
            Some(length) if remaining > 0.0 => {
                assert_eq!((step.stop_after_one_substep, count, length), (1, 1, self.lengths[0]));
                ONE_DONE
            }
            Some(_) => FINISHED,
        };
        Taken { count, remaining, end }
    }
}

/// Looks at a node after each update. Each of the four that the particle reaches has a fourth of its mass, which is 1, and no momentum, so
/// that its velocity is gravity, which is 1, times the substep's length: that length, with no bit lost.
struct Watch {
    lengths: Vec<Real>,
}

impl MpmHooks for Watch {
    fn post_grid_update_hook(&mut self, grid: &mut SpGrid<GridNode>) {
        self.lengths.push(grid.get_packed(way_in::pack([1, 1])).velocity.x);
    }
}

/// A particle of mass 4 half way between cells, and gravity along x. It is fluid, static and kinematic, so that nothing moves it.
fn standing_still() -> Call {
    let particle = Call::of_one(&[(POSITION, 1.5), (POSITION + 1, 1.5), (MASS, 4.0)], &[KINEMATIC, FLUID, STATIC]);
    Call { gravity: [1.0, 0.0], ..particle }
}
