//! What a call is refused for, in a number, an index and a sentence.
#![forbid(unsafe_code)]

use crate::floats::round;
use crate::ids::{dim2, region_of};
use crate::lists::{record, Colliders, Given, Nodes, Particles, REGION_FLOATS};
use crate::records::{PARTICLE_FIELDS, PARTICLE_FLAGS, PARTICLE_FLOATS, PARTICLE_WORDS, REGION_NODES};
use crate::sp_grid::{cell_associated_to_point2, lookup};
use crate::{FIRST_CELL, LAST_CELL, MAX_CELL_WIDTH, MAX_COLLIDERS, MAX_PARTICLES, MAX_REGIONS, MIN_CELL_WIDTH};
use mangerknot_sys::Refusal;
use std::fmt;

/// A call was refused, and everything that it was lent is as it was.
///
/// `number` is that of the rule in the table of `include/mangerknot.h`, and `index` that of the first record that breaks it: of several
/// rules that are broken the least number is answered. The sentence says it in words.
///
/// | Number | Rule | Index |
/// |---|---|---|
/// | 1 | a list's length does not match its count | 0 |
/// | 2 | more than 512 regions, 65,536 particles or 16 colliders | 0 |
/// | 3 | the cell width, dt, gravity or a setting of lengths is not as it has to be | 0 |
/// | 4 | a code, a place, an order, a flag or a proposal is not as it has to be | 0 of codes and places, else the record's |
/// | 5 | a number of a record is not finite | the record's |
/// | 6 | a region's id does not ascend, or is no region's | the region's |
/// | 7 | starts and counts do not cover the particles | the region's; with particles left over, the number of regions |
/// | 8 | a particle lies off the grid | the particle's |
/// | 9 | a particle's cell is not in its region | the particle's |
/// | 10 | a particle's stencil reaches a region that is not listed | the particle's |
///
/// ```
/// use mangerknot::{Particle, Rule, Sample};
/// let refused = Sample::new(1.0, [Particle { position: [1.0, 0.25], ..Particle::default() }]).unwrap_err();
/// assert_eq!((refused.number, refused.index), (8, 0));
/// assert_eq!(refused.rule(), Some(Rule::OffGrid));
/// assert_eq!(refused.to_string(), "particle 0 lies off the grid on y (number 8, index 0)");
/// ```
#[derive(Clone, Debug, PartialEq, Eq)]
#[non_exhaustive]
pub struct Refused {
    /// The rule's number in the table, from 1 to 10.
    pub number: u32,
    /// The index of the first record that breaks it.
    pub index: usize,
    /// Which record, and what is wrong with it.
    pub sentence: String,
}

impl fmt::Display for Refused {
    fn fmt(&self, f: &mut fmt::Formatter<'_>) -> fmt::Result {
        write!(f, "{} (number {}, index {})", self.sentence, self.number, self.index)
    }
}

impl std::error::Error for Refused {}

impl Refused {
    /// The rule by its name; none of a number that the table does not have, which is never answered.
    pub fn rule(&self) -> Option<Rule> {
        Rule::ALL.into_iter().find(|rule| *rule as u32 == self.number)
    }
}

/// The rules of the table by their names, which are those of `include/mangerknot.h`; a rule's number is what it is as a `u32`.
#[derive(Clone, Copy, Debug, PartialEq, Eq, Hash)]
#[non_exhaustive]
pub enum Rule {
    /// A list's length does not match its count.
    Length = 1,
    /// More regions, particles or colliders than a call takes.
    Limit = 2,
    /// The cell width, dt, gravity or a setting of lengths is not as it has to be.
    Setting = 3,
    /// A code, a place, an order, a flag or a proposal is not as it has to be.
    Code = 4,
    /// A number of a record is not finite.
    NotFinite = 5,
    /// A region's id does not ascend, or is no region's.
    RegionIds = 6,
    /// Starts and counts do not cover the particles.
    Cover = 7,
    /// A particle lies off the grid.
    OffGrid = 8,
    /// A particle's cell is not in its region.
    OutOfRegion = 9,
    /// A particle's stencil reaches a region that is not listed.
    Unlisted = 10,
}

impl Rule {
    /// All of them, in the order in which they are looked for.
    pub const ALL: [Rule; 10] = [
        Rule::Length,
        Rule::Limit,
        Rule::Setting,
        Rule::Code,
        Rule::NotFinite,
        Rule::RegionIds,
        Rule::Cover,
        Rule::OffGrid,
        Rule::OutOfRegion,
        Rule::Unlisted,
    ];
}

/// A code of a call: its name, what it is, and the largest that it may be.
pub(crate) type Code = (&'static str, u32, u32);

/// All that a call may be given. Only a call that was refused says it, for the sentence.
#[derive(Clone, Copy, Default)]
pub(crate) struct Asked<'a> {
    pub cell_width: Option<f32>,
    pub dt: Option<f32>,
    pub gravity: Option<[f32; 2]>,
    pub place: Option<usize>,
    pub order: Option<&'a [u64]>,
    pub eigenerosion: Option<u32>,
    pub ids: Option<&'a [u64]>,
    pub ranges: Option<&'a [u64]>,
    pub particles: Option<Particles<'a>>,
    pub given: Option<Given<'a>>,
    pub colliders: Option<Colliders<'a>>,
    pub nodes: Option<Nodes<'a>>,
}

/// The archive's answer, with a sentence about what was asked.
pub(crate) fn judged<'a>(Refusal { number, index }: Refusal, asked: impl FnOnce() -> Asked<'a>) -> Result<(), Refused> {
    match number {
        0 => Ok(()),
        _ => Err(asked().refused(number, index)),
    }
}

impl Asked<'_> {
    /// A refusal of this call.
    pub fn refused(&self, number: u32, index: usize) -> Refused {
        let sentence = match number {
            1 => self.length(),
            2 => self.limit(),
            3 => self.setting_fault(),
            4 => self.word(index),
            5 => self.float(index),
            6 => self.id(index),
            7 => self.range(index),
            8 => self.off_the_grid(index),
            9 => self.elsewhere(index),
            10 => self.unlisted(index),
            _ => None,
        };
        let sentence = sentence.unwrap_or_else(|| "refused by a rule that has no sentence".to_string());
        Refused { number, index, sentence }
    }

    fn regions(&self) -> usize {
        self.ids.map_or(0, <[u64]>::len)
    }

    fn count(&self) -> usize {
        self.particles.map_or(0, |particles| particles.count())
    }

    /// The first list whose length does not match.
    fn length(&self) -> Option<String> {
        let (regions, particles) = (self.regions(), self.count());
        let nodes = regions * REGION_NODES;
        let mut lists = vec![];
        lists.extend(self.order.map(|order| ("the order's entries", order.len(), regions)));
        lists.extend(self.ranges.map(|ranges| ("the regions' starts and counts", ranges.len(), 2 * regions)));
        let mut add = |floats, words| lists.extend([floats, words]);
        if let Some(Particles { floats, words }) = self.particles {
            let [each, flags] = [PARTICLE_FLOATS, PARTICLE_WORDS].map(|size| size * particles);
            add(("the particles' floats", floats.len(), each), ("the particles' words", words.len(), flags));
        }
        if let Some(Given { floats, words }) = self.given {
            add(("the given floats", floats.len(), 2 * particles), ("the given words", words.len(), particles));
        }
        if let Some(Colliders { frictions, points, insides, .. }) = self.colliders {
            let count = nodes * frictions.len();
            add(("the projections' floats", points.len(), 2 * count), ("the projections' words", insides.len(), count));
        }
        if let Some(Nodes { floats, words }) = self.nodes {
            add(("the nodes' floats", floats.len(), REGION_FLOATS * regions), ("the nodes' words", words.len(), nodes));
        }
        let (list, are, should_be) = lists.into_iter().find(|(_, are, should_be)| are != should_be)?;
        Some(format!("{} are {}, and have to be {}", list, are, should_be))
    }

    fn limit(&self) -> Option<String> {
        let colliders = self.colliders.map_or(0, |colliders| colliders.frictions.len());
        let counts = [
            ("regions", self.regions(), MAX_REGIONS),
            ("particles", self.count(), MAX_PARTICLES),
            ("colliders", colliders, MAX_COLLIDERS),
        ];
        let (records, count, limit) = counts.into_iter().find(|(_, count, limit)| count > limit)?;
        Some(format!("there are {} {}, and at most {} are taken", count, records, limit))
    }

    pub fn setting_fault(&self) -> Option<String> {
        let [x, y] = self.gravity.map_or([None; 2], |gravity| gravity.map(Some));
        let settings = [("the cell width", self.cell_width), ("dt", self.dt), ("gravity's x", x), ("gravity's y", y)];
        let not_finite = settings.iter().find(|(_, setting)| setting.map_or(false, |setting| !setting.is_finite()));
        match (not_finite, self.cell_width, self.dt) {
            (Some((setting, _)), _, _) => Some(format!("{} is not finite", setting)),
            (_, Some(width), _) if !is_cell_width(width) => Some("the cell width is not from 2^-20 to 2^20".to_string()),
            (_, _, Some(dt)) if dt <= 0.0 => Some("dt is not above 0".to_string()),
            _ => None,
        }
    }

    fn word(&self, index: usize) -> Option<String> {
        let settings = || self.place_fault().or_else(|| self.code_fault()).filter(|_| index == 0);
        settings()
            .or_else(|| self.order_fault(index))
            .or_else(|| self.flag_fault(index))
            .or_else(|| {
                let failed = self.given?.words.get(index).filter(|word| **word > 1)?;
                Some(format!("what is given of particle {}: its flag `failed` is {}", index, failed))
            })
            .or_else(|| {
                let inside = self.colliders?.insides.get(index).filter(|word| **word > 1)?;
                Some(format!("{}: its flag `inside` is {}", self.projection(index), inside))
            })
    }

    fn place_fault(&self) -> Option<String> {
        let place = self.place.filter(|place| *place >= self.regions())?;
        Some(format!("place {} is no region's, of which there are {}", place, self.regions()))
    }

    fn code_fault(&self) -> Option<String> {
        let boundary = self.colliders.map(|lent| [("boundary handling", lent.handling, 3), ("the code of locks", lent.locks, 3)]);
        let eigenerosion: Option<Code> = self.eigenerosion.map(|code| ("modified eigenerosion", code, 1));
        let mut codes = boundary.into_iter().flatten().chain(eigenerosion);
        let (name, code, largest) = codes.find(|(_, code, largest)| code > largest)?;
        Some(format!("{} is {}, and may be at most {}", name, code, largest))
    }

    /// What is wrong with an entry of the order, as long as those before it are right.
    pub fn order_fault(&self, index: usize) -> Option<String> {
        let (order, ids) = (self.order?, self.ids?);
        let place = *order.get(index)?;
        let colour = |place: u64| ids.get(usize::try_from(place).ok()?).map(|id| color(*id));
        let fault = match (colour(place), index.checked_sub(1).and_then(|before| colour(order[before]))) {
            (None, _) => "is no region's place",
            (Some(now), Some(before)) if now < before => "has a lower colour than the one before it",
            _ if order[..index].contains(&place) => "names a region again",
            _ => return None,
        };
        Some(format!("entry {} of the order, {}, {}", index, place, fault))
    }

    fn flag_fault(&self, index: usize) -> Option<String> {
        let particles = self.particles?;
        let (word, flag) = particles.words_of(index).iter().zip(PARTICLE_FLAGS).find(|(word, _)| **word > 1)?;
        Some(format!("particle {}'s flag `{}` is {}", index, flag, word))
    }

    fn float(&self, index: usize) -> Option<String> {
        let of_particle = self.particles.and_then(|particles| not_finite(particles.floats_of(index), &PARTICLE_FIELDS));
        if let Some(field) = of_particle {
            return Some(format!("particle {}'s {} is not finite", index, field));
        }
        let given = self.given.and_then(|given| not_finite(record(given.floats, index, 2), &[("density", 1), ("energy", 1)]));
        if let Some(field) = given {
            return Some(format!("what is given of particle {}: its {} is not finite", index, field));
        }
        let colliders = self.colliders?;
        if not_finite(record(colliders.frictions, index, 1), &[("friction", 1)]).is_some() {
            return Some(format!("collider {}'s friction is not finite", index));
        }
        let part = not_finite(record(colliders.points, index, 2), &[("x", 1), ("y", 1)])?;
        Some(format!("{}: its point's {} is not finite", self.projection(index), part))
    }

    /// What a projection is of.
    fn projection(&self, index: usize) -> String {
        let colliders = self.colliders.map_or(1, |lent| lent.frictions.len().max(1));
        let cell = index / colliders;
        let (region, number) = (cell / REGION_NODES, cell % REGION_NODES);
        format!("projection {} (region {}, cell {}, collider {})", index, region, number, index % colliders)
    }

    fn id(&self, index: usize) -> Option<String> {
        let ids = self.ids?;
        let id = *ids.get(index)?;
        match index.checked_sub(1).map(|before| ids[before]) {
            Some(before) if before >= id => Some(format!("region {}'s id does not ascend: {} behind {}", index, id, before)),
            _ => Some(format!("region {}'s id, {}, is no region's: its low 12 bits are not zero", index, id)),
        }
    }

    fn range(&self, index: usize) -> Option<String> {
        let (ranges, count) = (self.ranges?, self.count());
        let before: u64 = ranges.chunks_exact(2).take(index).map(|range| range[1]).sum();
        let (start, own) = match *record(ranges, index, 2) {
            [start, own] => (start, own),
            _ => return Some(format!("particles are left over: the regions have {} of {}", before, count)),
        };
        Some(match start == before {
            false => format!("region {}'s particles start at {}, and those before end at {}", index, start, before),
            true => format!(
                "region {}'s {} particles go beyond the last: from {} on there are {}",
                index,
                own,
                start,
                count as u64 - before
            ),
        })
    }

    fn off_the_grid(&self, index: usize) -> Option<String> {
        let off = axes_off_the_grid(self.cell_width?, self.particles?.position(index)?);
        let axes = match off {
            [true, true] => "x and y",
            [true, false] => "x",
            [false, true] => "y",
            [false, false] => return None,
        };
        Some(format!("particle {} lies off the grid on {}", index, axes))
    }

    /// The id of the first cell of a particle's stencil.
    fn first_cell(&self, index: usize) -> Option<u64> {
        Some(cell_associated_to_point2(self.cell_width?, self.particles?.position(index)?))
    }

    fn elsewhere(&self, index: usize) -> Option<String> {
        let (ids, cell) = (self.ids?, self.first_cell(index)?);
        let holds = |range: &[u64]| (range[0]..range[0] + range[1]).contains(&(index as u64));
        let place = self.ranges?.chunks_exact(2).position(holds)?;
        let [is, should] = [region_of(cell), *ids.get(place)?];
        Some(format!(
            "particle {}'s cell is of the region with id {}, and it stands among those of region {} (id {})",
            index, is, place, should
        ))
    }

    fn unlisted(&self, index: usize) -> Option<String> {
        let (ids, cell) = (self.ids?, self.first_cell(index)?);
        let region = dim2::stencil_ids(cell).map(region_of).into_iter().find(|region| lookup(ids, *region).is_none())?;
        Some(format!("particle {}'s stencil reaches the region with id {}, which is not listed", index, region))
    }
}

/// The colour of a region.
pub(crate) fn color(region_id: u64) -> u64 {
    (0..4).find(|color| dim2::is_in_region_with_color(region_id, *color)).expect("every region has a colour")
}

/// The name of the first field that has a number which is not finite.
fn not_finite(floats: &[f32], fields: &[(&'static str, usize)]) -> Option<&'static str> {
    let names = fields.iter().flat_map(|(name, count)| std::iter::repeat(*name).take(*count));
    floats.iter().zip(names).find(|(float, _)| !float.is_finite()).map(|(_, name)| name)
}

/// Whether a cell width is one: finite, and from 2^-20 to 2^20.
pub(crate) fn is_cell_width(width: f32) -> bool {
    (MIN_CELL_WIDTH..=MAX_CELL_WIDTH).contains(&width)
}

/// On which axes a point's nearest cell is not from 1 to 65,535.
pub(crate) fn axes_off_the_grid(cell_width: f32, position: [f32; 2]) -> [bool; 2] {
    position.map(|x| !(FIRST_CELL as f32..=LAST_CELL as f32).contains(&round(x / cell_width)))
}
