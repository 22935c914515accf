//! Whole substeps in a row: clear, scatter and update in one, the first half of gather, what a host does then, the second half. In front of
//! these, where it is asked for, fluids' volumes are recomputed on nodes that were cleared.

use crate::lines::folded;
use crate::particle::DEFORMATION;
use crate::random::{about_the_largest, bounded, given, sorted_again};
use crate::{Call, Records, Rng, PARTICLE_FLOATS};

/// A substep: its call, which has what every stage is given; the F that the host puts between the halves, where it does; and whether
/// fluids' volumes are recomputed.
pub struct Substep {
    pub call: Call,
    pub rewritten: Vec<Option<[u32; 4]>>,
    pub recomputes: bool,
}

/// The calls of a substep, in their order.
#[derive(Clone, Copy, Debug, PartialEq)]
pub enum Stage {
    Clear,
    Fluids,
    Sequence,
    FirstHalf,
    SecondHalf,
}

impl Stage {
    /// What a stage leaves to the next is particles, or else nodes. The masses that the recomputation leaves are as it found them, since
    /// it found none.
    pub fn leaves_particles(self) -> bool {
        matches!(self, Stage::Fluids | Stage::FirstHalf | Stage::SecondHalf)
    }
}

/// What a stage writes, nodes or particles, or the number and the index that it is refused with.
pub type Answer = Result<Records, (u32, usize)>;

impl Substep {
    fn of(call: Call, recomputes: bool, rng: &mut Rng) -> Substep {
        let colliders = rng.below(3) as usize;
        let call = given(bounded(call, colliders, rng), rng);
        let rewritten = (0..call.particles).map(|_| rewriting(rng)).collect();
        Substep { call, rewritten, recomputes }
    }

    pub fn stages(&self) -> &'static [Stage] {
        const ALL: [Stage; 5] = [Stage::Clear, Stage::Fluids, Stage::Sequence, Stage::FirstHalf, Stage::SecondHalf];
        &ALL[if self.recomputes { 0 } else { 2 }..]
    }

    /// What the first half left, with the host's F.
    pub fn handed_over(&self, left: &Records) -> Call {
        let mut call = self.call.with_particles(left);
        for (floats, rewritten) in call.particle_floats.chunks_exact_mut(PARTICLE_FLOATS).zip(&self.rewritten) {
            rewritten.iter().for_each(|matrix| floats[DEFORMATION..][..4].copy_from_slice(matrix));
        }
        call
    }

    /// What the stages answer one after the other, up to one that is refused.
    pub fn in_turn(&self, mut ask: impl FnMut(Stage, &Call) -> Answer) -> Vec<Answer> {
        let mut call = self.call.clone();
        let mut answers = vec![];
        for stage in self.stages() {
            let answer = ask(*stage, &call);
            match (&answer, stage) {
                (Ok(nodes), Stage::Clear | Stage::Sequence) => (call.node_floats, call.node_words) = nodes.clone(),
                (Ok(particles), Stage::Fluids) => call = call.with_particles(particles),
                (Ok(left), _) => call = self.handed_over(left),
                (Err(_), _) => return [answers, vec![answer]].concat(),
            }
            answers.push(answer);
        }
        answers
    }

    /// The same where all that the stages leave comes at once, from one who refuses nothing.
    pub fn judged(
        &self,
        refused: impl Fn(Stage, &Call) -> Option<(u32, usize)>,
        all_left: impl Fn(&Substep) -> Vec<Records>,
    ) -> Vec<Answer> {
        let mut left = None;
        self.in_turn(|stage, call| match refused(stage, call) {
            Some(refusal) => Err(refusal),
            None => Ok(left.get_or_insert_with(|| all_left(self).into_iter()).next().expect("what a stage leaves")),
        })
    }
}

/// None for most particles, else everyday numbers or an F00 about the largest.
fn rewriting(rng: &mut Rng) -> Option<[u32; 4]> {
    let mut matrix = [0; 4].map(|_| rng.between(-1.5, 1.5));
    let largest = about_the_largest(rng);
    matrix[0] = rng.one_of(&[matrix[0], largest]);
    (rng.below(4) == 0).then(|| matrix.map(f32::to_bits))
}

/// Substeps in a row, from a call on. All that is random about them comes from the seed, so that two who leave the same have the same.
pub struct Chain {
    rng: Rng,
    recomputes: bool,
    next: Option<Call>,
}

impl Chain {
    pub fn new(call: &Call, recomputes: bool, seed: u64) -> Chain {
        Chain { rng: Rng::new(seed), recomputes, next: Some(call.clone()) }
    }

    /// The next substep; none behind one that was refused, or that left a particle off the grid.
    pub fn substep(&mut self) -> Option<Substep> {
        self.next.take().map(|call| Substep::of(call, self.recomputes, &mut self.rng))
    }

    /// Goes on from what this substep's stages answered, up to one that is refused.
    pub fn go_on(&mut self, substep: &Substep, answers: &[Answer]) {
        if let Some(Ok(particles)) = answers.last() {
            self.next = sorted_again(&substep.call.with_particles(particles), &mut self.rng);
        }
    }
}

/// So many substeps in a row at the most, written down: of each stage number and index and, of one that is done and leaves particles, these.
/// `stages` answers a substep's, up to one that is refused.
pub fn run(
    call: &Call,
    recomputes: bool,
    seed: u64,
    count: usize,
    mut stages: impl FnMut(&Substep) -> Vec<Answer>,
) -> Vec<String> {
    let (mut chain, mut fields) = (Chain::new(call, recomputes, seed), vec![]);
    for _ in 0..count {
        let substep = match chain.substep() {
            Some(substep) => substep,
            None => break,
        };
        let answers = stages(&substep);
        for (stage, answer) in substep.stages().iter().zip(&answers) {
            let (number, index) = answer.as_ref().err().copied().unwrap_or_default();
            fields.extend([number.to_string(), index.to_string()]);
            let particles = answer.iter().filter(|_| stage.leaves_particles());
            fields.extend(particles.flat_map(|(floats, words)| folded(&substep.call.particles_answered((floats, words)))));
        }
        chain.go_on(&substep, &answers);
    }
    fields
}

#[cfg(test)]
mod tests {
    use super::*;
    use crate::random::Style;

    /// Stages that move every particle a cell to the right and write their number into the nodes.
    fn moving(stage: Stage, call: &Call) -> Answer {
        let (mut floats, words) = (call.particle_floats.clone(), call.particle_words.clone());
        match stage {
            Stage::Sequence => return Ok((vec![7; call.node_floats.len()], call.node_words.clone())),
            Stage::FirstHalf => assert_eq!(call.node_floats, vec![7; call.node_floats.len()]),
            Stage::SecondHalf if call.position(0)[0] > 9.0 => return Err((5, 3)),
            Stage::SecondHalf => return Ok((floats, words)),
            Stage::Clear => return Ok((vec![0; call.node_floats.len()], vec![0; call.node_words.len()])),
            Stage::Fluids => {
                assert!(call.node_floats.iter().all(|bits| *bits == 0));
                floats[DEFORMATION] = 9f32.to_bits();
                return Ok((floats, words));
            }
        }
        for particle in floats.chunks_exact_mut(PARTICLE_FLOATS) {
            particle[0] = (f32::from_bits(particle[0]) + 1.0).to_bits();
        }
        Ok((floats, words))
    }

    #[test]
    fn particles_go_from_region_to_region_until_a_stage_is_refused() {
        let mut rng = Rng::new(1);
        let call = Style::plain(1.0, [3, 3], [1, 1], 5).sample(&mut rng);
        let mut lists = vec![];
        let fields = run(&call, false, 3, 20, |substep| {
            assert_eq!(substep.rewritten.len(), 5);
            assert_eq!(substep.call.gather.given_words.len(), 5);
            lists.push(substep.call.ids.clone());
            substep.in_turn(moving)
        });
        assert!((4..8).contains(&lists.len()) && lists[0] != lists[lists.len() - 1]);
        assert_eq!(fields[fields.len() - 2..], ["5", "3"]);
    }

    /// What the recomputation leaves goes into the stages behind it, and what comes at once is cut where a stage is refused.
    #[test]
    fn with_fluids_there_are_five_stages() {
        let call = Style::plain(1.0, [3, 3], [1, 1], 2).sample(&mut Rng::new(1));
        let mut stages = vec![];
        let fields = run(&call, true, 3, 1, |substep| {
            let answers = substep.in_turn(|stage, call| {
                let f00 = f32::from_bits(call.particle_floats[DEFORMATION]);
                stages.push((stage, f00 == 9.0));
                moving(stage, call)
            });
            let records = || answers.iter().flatten().cloned().collect();
            assert_eq!(substep.judged(|_, _| None, |_| records()), answers);
            let first_refused = substep.judged(|stage, _| (stage == Stage::Sequence).then_some((5, 1)), |_| records());
            assert_eq!(first_refused, [&answers[..2], &[Err((5, 1))]].concat());
            answers
        });
        assert_eq!(stages[..3], [(Stage::Clear, false), (Stage::Fluids, false), (Stage::Sequence, true)]);
        assert_eq!((stages.len(), &fields[..4]), (5, &["0", "0", "0", "0"].map(String::from)[..]));
    }

    #[test]
    fn a_particle_off_the_grid_ends_it() {
        let mut rng = Rng::new(1);
        let call = Style::plain(1.0, [3, 3], [1, 1], 1).sample(&mut rng);
        let mut count = 0;
        run(&call, false, 3, 20, |substep| {
            count += 1;
            let (mut floats, words) = (substep.call.particle_floats.clone(), substep.call.particle_words.clone());
            floats[1] = if count == 3 { f32::NAN.to_bits() } else { floats[1] };
            vec![Ok((floats, words))]
        });
        assert_eq!(count, 3);
    }

    /// Two sides that leave the same have the same substeps, and one that leaves something else goes on from that.
    #[test]
    fn each_side_goes_on_from_its_own() {
        let call = Style::plain(1.0, [3, 3], [1, 1], 4).sample(&mut Rng::new(1));
        let mut sides = [0; 3].map(|_| Chain::new(&call, false, 3));
        let mut calls = vec![];
        for place in 0..6 {
            let side = &mut sides[place % 3];
            let substep = side.substep().expect("a substep");
            let mut answers = substep.in_turn(moving);
            if place == 2 {
                answers[2].as_mut().expect("particles").0[0] = 7f32.to_bits();
            }
            side.go_on(&substep, &answers);
            calls.push(substep.call);
        }
        assert!(calls[0] == calls[1] && calls[0] == calls[2] && calls[3] == calls[4] && calls[3] != calls[5]);
        assert!((0..4).any(|particle| calls[5].position(particle)[0] == 7.0));
    }

    #[test]
    fn the_host_rewrites_f_alone() {
        let call = Style::plain(1.0, [3, 3], [1, 1], 2).sample(&mut Rng::new(1));
        let substep = Substep { call: call.clone(), rewritten: vec![None, Some([1, 2, 3, 4])], recomputes: false };
        let mut right = call.clone();
        right.particle_floats[PARTICLE_FLOATS + DEFORMATION..][..4].copy_from_slice(&[1, 2, 3, 4]);
        assert_eq!(substep.handed_over(&(call.particle_floats, call.particle_words)), right);
    }
}
