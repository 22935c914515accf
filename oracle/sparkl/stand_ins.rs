//! The least of the missing crates that the handed-over files need in order to compile and to mean what they mean there.

use std::collections::HashMap;
use std::fmt;
use std::mem::{align_of, size_of};
use std::ops::{Index, IndexMut, Range};
use std::slice::{from_raw_parts, from_raw_parts_mut};

/// For `log::info!`: its arguments are looked at by the compiler and then dropped.
macro_rules! info {
    ($($argument:tt)*) => {{
        let _ = format_args!($($argument)*);
    }};
}

/// For `nalgebra::vector!`, which has to make constants too.
#[cfg(feature = "dim2")]
macro_rules! vector {
    ($x:expr, $y:expr) => {
        crate::math::Vector { x: $x, y: $y }
    };
}

#[cfg(feature = "dim3")]
macro_rules! vector {
    ($x:expr, $y:expr, $z:expr) => {
        crate::math::Vector { x: $x, y: $y, z: $z }
    };
}

pub(crate) use vector;

/// For `bitflags::bitflags!`; like there, bits that no flag has are carried along.
#[cfg(feature = "dim2")]
macro_rules! flags {
    (pub struct $name:ident: u32 { $(const $flag:ident = $bits:expr;)* }) => {
        #[derive(Copy, Clone, Debug, PartialEq)]
        pub struct $name {
            bits: u32,
        }

        impl $name {
            $(pub const $flag: Self = $name { bits: $bits };)*

            pub fn bits(&self) -> u32 {
                self.bits
            }

            pub fn from_bits_unchecked(bits: u32) -> Self {
                $name { bits }
            }

            pub fn empty() -> Self {
                $name { bits: 0 }
            }

            pub fn contains(&self, other: Self) -> bool {
                self.bits & other.bits == other.bits
            }

            pub fn set(&mut self, other: Self, on: bool) {
                self.bits = if on { self.bits | other.bits } else { self.bits & !other.bits };
            }
        }
    };
}

#[cfg(feature = "dim2")]
pub(crate) use flags;

/// For `anyhow::Error`: nothing here can fail, so there is no value of it.
pub enum Error {}

impl fmt::Debug for Error {
    fn fmt(&self, _: &mut fmt::Formatter<'_>) -> fmt::Result {
        match *self {}
    }
}

/// For `anyhow::Result`.
pub type Result<T> = std::result::Result<T, Error>;

/// For `instant::now`: the time is only ever logged, so it stands still.
pub fn now() -> f64 {
    0.0
}

/// For `rayon::prelude`: what runs there at the same time runs here in plain order.
pub mod prelude {
    use std::slice::{Iter, IterMut};

    pub trait PlainOrder<T> {
        fn par_iter(&self) -> Iter<'_, T>;
        fn par_iter_mut(&mut self) -> IterMut<'_, T>;
        fn par_sort_by_key<K: Ord>(&mut self, key: impl Fn(&T) -> K);
    }

    impl<T> PlainOrder<T> for [T] {
        fn par_iter(&self) -> Iter<'_, T> {
            self.iter()
        }

        fn par_iter_mut(&mut self) -> IterMut<'_, T> {
            self.iter_mut()
        }

        fn par_sort_by_key<K: Ord>(&mut self, key: impl Fn(&T) -> K) {
            self.sort_by_key(key);
        }
    }
}

/// For `rapier::data`: a list that nothing is ever taken from.
pub mod data {
    use std::ops;

    #[derive(Copy, Clone, Debug, PartialEq)]
    pub struct Index(usize);

    pub struct Arena<T>(Vec<T>);

    impl<T> Arena<T> {
        #[allow(clippy::new_without_default)]
        pub fn new() -> Self {
            Arena(vec![])
        }

        pub fn insert(&mut self, entry: T) -> Index {
            self.0.push(entry);
            Index(self.0.len() - 1)
        }

        pub fn get(&self, index: Index) -> Option<&T> {
            self.0.get(index.0)
        }

        pub fn iter(&self) -> impl Iterator<Item = (Index, &T)> {
            self.0.iter().enumerate().map(|(place, entry)| (Index(place), entry))
        }
    }

    impl<T> ops::Index<Index> for Arena<T> {
        type Output = T;

        fn index(&self, index: Index) -> &T {
            &self.0[index.0]
        }
    }

    impl<T> ops::IndexMut<Index> for Arena<T> {
        fn index_mut(&mut self, index: Index) -> &mut T {
            &mut self.0[index.0]
        }
    }
}

/// For `sparkl2d_core`: the settings of an update, of a gather and of a step; and what models say to a graphics card or to whoever
/// chooses a substep's length, which nothing here asks, so that there are no values of it.
pub mod core {
    #[cfg(feature = "dim2")]
    pub mod dynamics {
        pub mod solver {
            #[derive(Copy, Clone, Debug, PartialEq)]
            pub enum BoundaryHandling {
                None,
                Stick,
                Friction,
                FrictionZUp,
            }

            #[derive(Copy, Clone, Debug, PartialEq)]
            pub enum DamageModel {
                None,
                CdMpm,
                Eigenerosion,
                ModifiedEigenerosion,
            }

            crate::bitflags! {
                pub struct SimulationDofs: u32 {
                    const LOCK_X = 1 << 0;
                    const LOCK_Y = 1 << 1;
                }
            }

            /// Those of its fields that a step asks.
            pub struct SolverParameters {
                pub dt: crate::math::Real,
                pub max_substep_dt: crate::math::Real,
                pub max_num_substeps: u32,
                pub stop_after_one_substep: bool,
                pub force_fluids_volume_recomputation: bool,
                pub enable_boundary_particle_projection: bool,
                pub damage_model: DamageModel,
                pub boundary_handling: BoundaryHandling,
                pub simulation_dofs: SimulationDofs,
            }
        }
    }

    pub mod prelude {
        pub enum ActiveTimestepBounds {}
        pub enum CoreConstitutiveModel {}
        pub enum CoreFailureModel {}
        pub enum CorePlasticModel {}
    }
}

/// For `memmap2::MmapMut`: zeroed memory that is never larger than was asked for, as a fresh anonymous map is, or that has a page
/// wherever one was touched. A grid of the latter kind reaches every id, which takes more than a machine lets one map.
pub enum MmapMut {
    /// Pages that lie one behind the other, and how many bytes of them were asked for.
    Whole(Vec<Page>, usize),
    Sparse(HashMap<usize, Box<Page>>),
}

/// As much as a region of the grid takes, and placed as a page of a map is.
#[derive(Clone)]
#[repr(C, align(4096))]
pub struct Page([u8; PAGE]);

const PAGE: usize = 1 << 12;

impl MmapMut {
    pub fn map_anon(length: usize) -> Result<Self> {
        Ok(MmapMut::Whole(vec![Page([0; PAGE]); (length + PAGE - 1) / PAGE], length))
    }

    pub fn sparse() -> Self {
        MmapMut::Sparse(HashMap::new())
    }

    /// How far the memory reaches.
    #[allow(clippy::len_without_is_empty)]
    pub fn len(&self) -> usize {
        match self {
            MmapMut::Whole(_, length) => *length,
            MmapMut::Sparse(_) => usize::MAX,
        }
    }
}

/// The part of a page that a range within it is; only what was written can be read.
impl Index<Range<usize>> for MmapMut {
    type Output = [u8];

    #[inline(always)]
    fn index(&self, range: Range<usize>) -> &[u8] {
        match self {
            MmapMut::Whole(pages, length) => {
                // Sound: so many bytes are in these pages, one behind the other.
                let bytes = unsafe { from_raw_parts(pages.as_ptr() as *const u8, *length) };
                &bytes[range]
            }
            MmapMut::Sparse(pages) => written(pages, range),
        }
    }
}

impl IndexMut<Range<usize>> for MmapMut {
    #[inline(always)]
    fn index_mut(&mut self, range: Range<usize>) -> &mut [u8] {
        match self {
            MmapMut::Whole(pages, length) => {
                // Sound: as above.
                let bytes = unsafe { from_raw_parts_mut(pages.as_mut_ptr() as *mut u8, *length) };
                &mut bytes[range]
            }
            MmapMut::Sparse(pages) => touched(pages, range),
        }
    }
}

/// Kept out of the way of a whole map, which is the one that is timed; and so is the next.
#[cold]
#[inline(never)]
fn written(pages: &HashMap<usize, Box<Page>>, range: Range<usize>) -> &[u8] {
    &pages[&(range.start / PAGE)].0[within(range)]
}

#[cold]
#[inline(never)]
fn touched(pages: &mut HashMap<usize, Box<Page>>, range: Range<usize>) -> &mut [u8] {
    let page = pages.entry(range.start / PAGE).or_insert_with(|| Box::new(Page([0; PAGE])));
    &mut page.0[within(range)]
}

fn within(range: Range<usize>) -> Range<usize> {
    range.start % PAGE..range.start % PAGE + range.len()
}

/// For `bytemuck::Zeroable`.
///
/// # Safety
/// All bits zero have to be a value of the type.
pub unsafe trait Zeroable {}

/// For `bytemuck::Pod`.
///
/// # Safety
/// Every bit pattern of the type's size has to be a value of it.
pub unsafe trait Pod: Zeroable + Copy + 'static {}

/// For `bytemuck::from_bytes`, with its two refusals.
pub fn from_bytes<T: Pod>(bytes: &[u8]) -> &T {
    check_place::<T>(bytes);
    unsafe { &*(bytes.as_ptr() as *const T) }
}

/// For `bytemuck::from_bytes_mut`, with its two refusals.
pub fn from_bytes_mut<T: Pod>(bytes: &mut [u8]) -> &mut T {
    check_place::<T>(bytes);
    unsafe { &mut *(bytes.as_mut_ptr() as *mut T) }
}

fn check_place<T>(bytes: &[u8]) {
    assert_eq!(bytes.len(), size_of::<T>());
    assert_eq!(bytes.as_ptr() as usize % align_of::<T>(), 0);
}
