//! Questions about packed ids, and the answers `sp_grid.rs` gives.
//!
//! Where the Rust has no function for a question, its answer is put together from what the Rust does have: `r0` from its region
//! mask, `k` from its `unpack`, `l` from its region mask, `pack` and `packed_add`, `s` from its `packed_add` and its table of
//! shifts, `f` from its `packed_add` and its constant.

use super::{decimal, hex, hexes, word, Sheet, OF_THE_RUST};
use crate::rng::{Rng, SEED};
use sparkl2d::geometry::way_in as rust2;
use sparkl3d::geometry::way_in as rust3;

/// The handed-over files that give the answers here.
const SOURCES: [&str; 4] = ["src/geometry/sp_grid.rs", "src/geometry/mod.rs", "src/utils/morton2.rs", "src/utils/morton3.rs"];

/// The Rust's shift of a colour by 12 loses bits from here on, so no question has such a colour.
pub const COLOUR_BOUND: u64 = 1 << 52;

/// What the compiled Rust offers in one dimension; coordinates are slices here, so that both dimensions are asked alike.
pub struct Rust {
    pub digit: char,
    pub axes: usize,
    /// The bits after which a coordinate wraps in a sum.
    pub sum_bits: u32,
    pub pack: fn(&[u32]) -> u64,
    pub packi: fn(&[i32]) -> u64,
    pub unpack: fn(u64) -> Vec<u32>,
    pub packed_add: fn(u64, u64) -> u64,
    pub shift_cell_neg_one: fn(u64) -> u64,
    pub shift_cell_neg_two: fn(u64) -> u64,
    pub is_in_region_with_color: fn(u64, u64) -> bool,
    pub region_neighbors: fn(u64) -> Vec<u64>,
    pub nbh_shifts: fn() -> Vec<u64>,
    pub nbh_region_shifts: fn() -> Vec<u64>,
    pub packed_nbh_shifts: &'static [u64],
    pub packed_plus_five: u64,
}

macro_rules! rust {
    ($digit:literal, $sum_bits:literal, $built:ident, $way_in:ident) => {{
        use $built::geometry::SpGrid;
        Rust {
            digit: $digit,
            axes: $way_in::AXES,
            sum_bits: $sum_bits,
            pack: |cell| $way_in::pack(cell.try_into().expect("a coordinate an axis")),
            packi: |cell| $way_in::packi(cell.try_into().expect("a coordinate an axis")),
            unpack: |id| $way_in::unpack(id).to_vec(),
            packed_add: $way_in::packed_add,
            shift_cell_neg_one: |id| SpGrid::<()>::new(1.0).unwrap().shift_cell_neg_one(id),
            shift_cell_neg_two: |id| SpGrid::<()>::new(1.0).unwrap().shift_cell_neg_two(id),
            is_in_region_with_color: SpGrid::<()>::is_in_region_with_color,
            region_neighbors: |id| SpGrid::<()>::region_neighbors(id).to_vec(),
            nbh_shifts: $way_in::nbh_shifts,
            nbh_region_shifts: $way_in::nbh_region_shifts,
            packed_nbh_shifts: $way_in::PACKED_NBH_SHIFTS,
            packed_plus_five: SpGrid::<()>::PACKED_PLUS_FIVE,
        }
    }};
}

pub fn rust_2d() -> Rust {
    rust!('2', 28, sparkl2d, rust2)
}

pub fn rust_3d() -> Rust {
    rust!('3', 19, sparkl3d, rust3)
}

pub type Sum = fn(u64, u64) -> u64;

/// The Rust takes a sum's mask when it is compiled, so the masks to be asked are listed here.
macro_rules! sums_by_mask {
    ($($mask:expr),* $(,)?) => {
        [$(($mask, rust2::masked_add::<{ $mask }> as Sum)),*]
    };
}

pub fn sums_by_mask() -> Vec<(u64, Sum)> {
    sums_by_mask![
        rust2::BLOCK_MX,
        rust2::BLOCK_MY,
        rust3::BLOCK_MX,
        rust3::BLOCK_MY,
        rust3::BLOCK_MZ,
        0,
        u64::MAX,
        1,
        1 << 31,
        1 << 32,
        1 << 63,
        0x8000_0000_0000_0001,
        0x5555_5555_5555_5555,
        0xAAAA_AAAA_AAAA_AAAA,
        0x3333_3333_3333_3333,
        0xCCCC_CCCC_CCCC_CCCC,
        0x0F0F_0F0F_0F0F_0F0F,
        0xFF00_FF00_FF00_FF00,
        0x0000_FFFF_0000_FFFF,
        0x0000_0000_FFFF_FFFF,
        0xFFFF_FFFF_0000_0000,
        0x7FFF_FFFF_FFFF_FFFF,
        0xFFFF_FFFF_FFFF_FFFE,
        0x9249_2492_4924_9249,
        0x0000_0000_0000_0FFF,
    ]
    .to_vec()
}

pub fn make() -> Sheet {
    let mut sheet = Sheet::titled("Packing", OF_THE_RUST, &SOURCES, &LEGEND);
    let mut rng = Rng::new(SEED);
    for rust in [rust_2d(), rust_3d()] {
        packs(&mut sheet, &rust, &mut rng);
        signed_packs(&mut sheet, &rust, &mut rng);
        ids_alone(&mut sheet, &rust, &mut rng);
        sums(&mut sheet, &rust, &mut rng);
        colours(&mut sheet, &rust, &mut rng);
        tables(&mut sheet, &rust);
        cells_of_regions(&mut sheet, &rust, &mut rng);
    }
    regions(&mut sheet, &mut rng);
    masked_sums(&mut sheet, &mut rng);
    sheet
}

const LEGEND: [&str; 13] = [
    "Fields, between tabs: H a u64 in 16 hex digits, W an i32's bits in 8, D a decimal. Digit 2: dim2, 3: dim3, 0: both.",
    "p pack D.. = H; i packi W.. = H; u unpack H = D.. (a coordinate an axis)",
    "a packed_add H H = H; o shift_cell_neg_one H = H; w shift_cell_neg_two H = H",
    "f packed_add of a cell H and PACKED_PLUS_FIVE = H",
    "c is_in_region_with_color H D = D (1 yes, 0 no)",
    "  colours below 2^52: at 2^52 and beyond the Rust's shift drops bits and it answers yes for colour 2^52 on region 0",
    "n region_neighbors H = H.. (3 or 7); t nbh_shifts = H.. (9 or 27); g nbh_region_shifts = H.. (3 or 7)",
    "s the stencil of a cell H = H..: packed_add of the cell and each of PACKED_NBH_SHIFTS, in order",
    "k a cell's number in its region H = D: 4*(y%4) + x%4, in 3D 16*(z%4) more, of the Rust's unpack",
    "l the cell of a region by number H D = H: packed_add(region & REGION_ID_MASK, pack(n%4, n/4%4)), in 3D n/16%4 too",
    "r the region of a cell H = H: id & REGION_ID_MASK",
    "m masked_add H H H = H: mask, i, j; the masks are those the Rust was compiled for, as its mask is a const parameter",
    "End of the header.",
];

// Questions: coordinates.

/// Where a rule changes: the low pair of bits ends, an axis's kept bits end in 3D (19, x 20) and 2D (28), a word ends.
const COORDINATES: [u32; 15] =
    [0, 1, 2, 3, 4, 5, (1 << 19) - 1, 1 << 19, (1 << 20) - 1, 1 << 20, (1 << 28) - 1, 1 << 28, 1 << 31, u32::MAX - 1, u32::MAX];

const SIGNED: [i32; 6] = [-1, -2, 0, -5, i32::MIN, i32::MAX];

/// `value` on one axis, 0 on the others.
fn on_axis<T: Copy + Default>(axes: usize, axis: usize, value: T) -> Vec<T> {
    let mut cell = vec![T::default(); axes];
    cell[axis] = value;
    cell
}

/// Each axis alone at each single bit.
fn single_bit_cells(axes: usize) -> Vec<Vec<u32>> {
    let cells = (0..axes).flat_map(|axis| (0..32).map(move |bit| on_axis(axes, axis, 1 << bit)));
    cells.collect()
}

/// All cells with every coordinate taken from `values`.
fn grid<T: Copy>(axes: usize, values: &[T]) -> Vec<Vec<T>> {
    (0..axes).fold(vec![vec![]], |cells, _| {
        let longer = |cell: &Vec<T>| values.iter().map(|value| [&cell[..], &[*value]].concat()).collect::<Vec<_>>();
        cells.iter().flat_map(longer).collect()
    })
}

fn random_cell(axes: usize, rng: &mut Rng) -> Vec<u32> {
    (0..axes).map(|_| rng.word()).collect()
}

/// Each of `COORDINATES` on each axis, among zeros and among random others, and on all axes at once.
fn edge_cells(axes: usize, rng: &mut Rng) -> Vec<Vec<u32>> {
    let mut cells = vec![];
    for value in COORDINATES {
        cells.push(vec![value; axes]);
        for axis in 0..axes {
            cells.push(on_axis(axes, axis, value));
            let mut among_others = random_cell(axes, rng);
            among_others[axis] = value;
            cells.push(among_others);
        }
    }
    cells
}

fn random_cells(axes: usize, count: usize, rng: &mut Rng) -> Vec<Vec<u32>> {
    (0..count).map(|_| random_cell(axes, rng)).collect()
}

/// Random coordinates of few bits: what grids in use have.
fn near_cells(axes: usize, count: usize, rng: &mut Rng) -> Vec<Vec<u32>> {
    (0..count).map(|_| (0..axes).map(|_| rng.below(1 << 10) as u32).collect()).collect()
}

fn packs(sheet: &mut Sheet, rust: &Rust, rng: &mut Rng) {
    let mut cells = grid(rust.axes, &[0, 1, 3, 4, 5]);
    cells.extend(single_bit_cells(rust.axes));
    cells.extend(edge_cells(rust.axes, rng));
    cells.extend(near_cells(rust.axes, 60, rng));
    cells.extend(random_cells(rust.axes, 120, rng));
    for cell in cells {
        let answer = hex((rust.pack)(&cell));
        sheet.row(&operation('p', rust), decimals(&cell), vec![answer]);
    }
}

fn signed_packs(sheet: &mut Sheet, rust: &Rust, rng: &mut Rng) {
    let signed = |cells: Vec<Vec<u32>>| cells.into_iter().map(|cell| cell.iter().map(|part| *part as i32).collect());
    let mut cells = grid(rust.axes, &SIGNED);
    cells.extend((-8..=8).map(|value| vec![value; rust.axes]));
    cells.extend((0..rust.axes).flat_map(|axis| (-8..=8).map(move |value| on_axis(rust.axes, axis, value))));
    cells.extend(signed(single_bit_cells(rust.axes)));
    cells.extend(signed(random_cells(rust.axes, 80, rng)));
    for cell in cells {
        let answer = hex((rust.packi)(&cell));
        sheet.row(&operation('i', rust), cell.iter().map(|part| word(*part as u32)).collect(), vec![answer]);
    }
}

// Questions: ids.

fn single_bits() -> impl Iterator<Item = u64> {
    (0..64).map(|bit| 1 << bit)
}

/// Nothing, everything, each bit alone, and everything but one bit.
pub fn edge_ids() -> Vec<u64> {
    let mut ids = vec![0, u64::MAX];
    ids.extend(single_bits());
    ids.extend(single_bits().map(|bit| !bit));
    ids
}

/// Random ids, stray bits and all, in turn even, sparse and dense ones, and packed ones without stray bits.
pub fn random_id(rust: &Rust, rng: &mut Rng) -> u64 {
    match rng.below(4) {
        0 => rng.number(),
        1 => rng.number() & rng.number() & rng.number(),
        2 => rng.number() | rng.number() | rng.number(),
        _ => (rust.pack)(&random_cell(rust.axes, rng)),
    }
}

fn random_ids(rust: &Rust, count: usize, rng: &mut Rng) -> Vec<u64> {
    (0..count).map(|_| random_id(rust, rng)).collect()
}

/// The edges, cells of grids in use, and random ids.
fn all_kinds_of_ids(rust: &Rust, count: usize, rng: &mut Rng) -> Vec<u64> {
    let mut ids = edge_ids();
    ids.extend(near_cells(rust.axes, 20, rng).iter().map(|cell| (rust.pack)(cell)));
    ids.extend(random_ids(rust, count, rng));
    ids
}

/// The questions that have an id and nothing else.
fn ids_alone(sheet: &mut Sheet, rust: &Rust, rng: &mut Rng) {
    for id in all_kinds_of_ids(rust, 200, rng) {
        sheet.row(&operation('u', rust), vec![hex(id)], decimals(&(rust.unpack)(id)));
    }
    for id in all_kinds_of_ids(rust, 120, rng) {
        sheet.row(&operation('o', rust), vec![hex(id)], vec![hex((rust.shift_cell_neg_one)(id))]);
        sheet.row(&operation('w', rust), vec![hex(id)], vec![hex((rust.shift_cell_neg_two)(id))]);
        sheet.row(&operation('f', rust), vec![hex(id)], vec![hex((rust.packed_add)(id, rust.packed_plus_five))]);
    }
    for id in all_kinds_of_ids(rust, 80, rng) {
        sheet.row(&operation('n', rust), vec![hex(id)], hexes((rust.region_neighbors)(id)));
        sheet.row(&operation('k', rust), vec![hex(id)], vec![decimal(number_in_region(rust, id))]);
    }
    for id in all_kinds_of_ids(rust, 40, rng) {
        let stencil = rust.packed_nbh_shifts.iter().map(|shift| (rust.packed_add)(id, *shift));
        sheet.row(&operation('s', rust), vec![hex(id)], hexes(stencil));
    }
}

/// The low pairs of the Rust's coordinates, the last axis leading.
pub fn number_in_region(rust: &Rust, id: u64) -> u32 {
    (rust.unpack)(id).iter().rev().fold(0, |number, part| 4 * number + part % 4)
}

fn tables(sheet: &mut Sheet, rust: &Rust) {
    sheet.row(&operation('t', rust), vec![], hexes((rust.nbh_shifts)()));
    sheet.row(&operation('g', rust), vec![], hexes((rust.nbh_region_shifts)()));
}

fn sums(sheet: &mut Sheet, rust: &Rust, rng: &mut Rng) {
    let mut pairs = edge_pairs(rng);
    pairs.extend(wraps(rust, rng));
    pairs.extend((0..160).map(|_| (random_id(rust, rng), random_id(rust, rng))));
    for (i, j) in pairs {
        sheet.row(&operation('a', rust), vec![hex(i), hex(j)], vec![hex((rust.packed_add)(i, j))]);
    }
}

/// Each edge on either side of a random id, and each bit carried: to itself, and through everything.
fn edge_pairs(rng: &mut Rng) -> Vec<(u64, u64)> {
    let mut pairs: Vec<_> = edge_ids().into_iter().map(|id| (id, rng.number())).collect();
    pairs.extend(edge_ids().into_iter().map(|id| (rng.number(), id)));
    pairs.extend(single_bits().map(|bit| (bit, bit)));
    pairs.extend(single_bits().map(|bit| (u64::MAX, bit)));
    pairs.push((0, 0));
    pairs.push((u64::MAX, u64::MAX));
    pairs
}

/// Coordinates whose sum comes to just below, just at and just past the end of an axis; half of them with stray bits besides.
fn wraps(rust: &Rust, rng: &mut Rng) -> Vec<(u64, u64)> {
    let end = 1u64 << rust.sum_bits;
    let mut pairs = vec![];
    for axis in 0..rust.axes {
        for past in -2i64..=5 {
            let part = rng.below(end - 16) + 8;
            let rest = (end - part).wrapping_add(past as u64);
            let mut cell = near_cells(rust.axes, 1, rng).remove(0);
            cell[axis] = part as u32;
            let (i, j) = ((rust.pack)(&cell), (rust.pack)(&on_axis(rust.axes, axis, rest as u32)));
            pairs.push((i, j));
            pairs.push((i | stray_bits(rust, rng), j | stray_bits(rust, rng)));
        }
    }
    pairs
}

/// Some of the bits that belong to no axis of a sum: those that the Rust's sum with nothing drops.
fn stray_bits(rust: &Rust, rng: &mut Rng) -> u64 {
    rng.number() & !(rust.packed_add)(u64::MAX, 0)
}

fn colours(sheet: &mut Sheet, rust: &Rust, rng: &mut Rng) {
    let mut asked: Vec<(u64, u64)> = (0..8).flat_map(|region| (0..=8).map(move |colour| (region << 12, colour))).collect();
    asked.extend(large_colours().into_iter().flat_map(|colour| [0, 0x1000, 0x7000, u64::MAX].map(|region| (region, colour))));
    asked.extend((0..52).map(|bit| (rng.number(), 1 << bit)));
    for id in edge_ids().into_iter().chain(random_ids(rust, 60, rng)) {
        asked.push((id, rng.below(9)));
        asked.push((id, (id >> 12) % (1 << rust.axes)));
    }
    for (region, colour) in asked {
        assert!(colour < COLOUR_BOUND);
        let answer = (rust.is_in_region_with_color)(region, colour);
        sheet.row(&operation('c', rust), vec![hex(region), decimal(colour)], vec![decimal(answer)]);
    }
}

fn large_colours() -> Vec<u64> {
    vec![9, 16, (1 << 12) + 1, 1 << 20, 1 << 32, (1 << 32) + 3, 1 << 51, (1 << 51) + 1, COLOUR_BOUND - 8, COLOUR_BOUND - 1]
}

fn cells_of_regions(sheet: &mut Sheet, rust: &Rust, rng: &mut Rng) {
    let cells = 4u64.pow(rust.axes as u32);
    let mut asked: Vec<(u64, u64)> = (0..cells + 2).map(|number| (rng.number(), number)).collect();
    asked.extend([1 << 12, 1 << 32, (1 << 32) + 5, 1 << 63, u64::MAX - 1, u64::MAX].map(|number| (rng.number(), number)));
    asked.extend(edge_ids().into_iter().map(|id| (id, rng.below(cells))));
    asked.extend(random_ids(rust, 40, rng).into_iter().map(|id| (id, rng.number())));
    for (region, number) in asked {
        let answer = hex(cell_of_region(rust, region, number));
        sheet.row(&operation('l', rust), vec![hex(region), decimal(number)], vec![answer]);
    }
}

/// The number's base-four digits as coordinates, the lowest digit the first axis's.
pub fn cell_of_region(rust: &Rust, region: u64, number: u64) -> u64 {
    let cell: Vec<u32> = (0..rust.axes).map(|axis| (number >> (2 * axis)) as u32 % 4).collect();
    (rust.packed_add)(region & rust2::REGION_ID_MASK, (rust.pack)(&cell))
}

fn regions(sheet: &mut Sheet, rng: &mut Rng) {
    assert_eq!(rust2::REGION_ID_MASK, rust3::REGION_ID_MASK);
    for id in all_kinds_of_ids(&rust_2d(), 100, rng) {
        sheet.row("r0", vec![hex(id)], vec![hex(id & rust2::REGION_ID_MASK)]);
    }
}

fn masked_sums(sheet: &mut Sheet, rng: &mut Rng) {
    for (mask, sum) in sums_by_mask() {
        for (i, j) in mask_pairs(mask, rng) {
            sheet.row("m0", vec![hex(mask), hex(i), hex(j)], vec![hex(sum(i, j))]);
        }
    }
    let sums = sums_by_mask();
    for (place, (i, j)) in edge_pairs(rng).into_iter().enumerate() {
        let (mask, sum) = sums[place % sums.len()];
        sheet.row("m0", vec![hex(mask), hex(i), hex(j)], vec![hex(sum(i, j))]);
    }
}

/// Nothing, everything, the mask against its own lowest and highest bit (a carry all through, a carry out), and random ids.
fn mask_pairs(mask: u64, rng: &mut Rng) -> Vec<(u64, u64)> {
    let lowest = mask & mask.wrapping_neg();
    let highest = mask.checked_next_power_of_two().map_or(1 << 63, |next| next >> 1) & mask;
    let mut pairs = vec![(0, 0), (0, u64::MAX), (u64::MAX, u64::MAX), (mask, mask), (!mask, !mask)];
    pairs.extend([(mask, lowest), (lowest, mask), (mask, highest), (highest, highest), (mask | rng.number(), lowest)]);
    pairs.extend((0..8).map(|_| (rng.number(), rng.number())));
    pairs
}

// Fields.

fn operation(letter: char, rust: &Rust) -> String {
    [letter, rust.digit].iter().collect()
}

fn decimals(parts: &[u32]) -> Vec<String> {
    parts.iter().map(|part| decimal(*part)).collect()
}

#[cfg(test)]
mod tests {
    use super::*;
    use crate::vectors::format::counts;

    const NEG_ONE_2D: u64 = 18446744073709548480;
    const NEG_ONE_3D: u64 = 18446744073709551552;

    #[test]
    fn document_01s_values_in_2d() {
        assert_eq!(rust2::pack([2, 2]), 640);
        assert_eq!(rust2::pack([5, 5]), 12608);
        assert_eq!(rust2::packi([-1, -1]), NEG_ONE_2D);
        assert_eq!(rust2::packed_add(NEG_ONE_2D, rust2::pack([5, 5])), 12288);
        assert_eq!(rust2::pack([1 << 28, 0]), 0);
    }

    #[test]
    fn document_01s_values_in_3d() {
        assert_eq!(rust3::pack([4, 4, 4]), 28672);
        assert_eq!(rust3::packi([-1, -1, -1]), NEG_ONE_3D);
        assert_eq!(rust3::packed_add(NEG_ONE_3D, 0), 9223372036854775744);
    }

    #[test]
    fn a_colour_of_2_to_the_52_is_taken_for_0() {
        assert!(sparkl2d::geometry::SpGrid::<()>::is_in_region_with_color(0, COLOUR_BOUND));
        assert!(sparkl3d::geometry::SpGrid::<()>::is_in_region_with_color(0, COLOUR_BOUND));
        assert!(!sparkl2d::geometry::SpGrid::<()>::is_in_region_with_color(0, COLOUR_BOUND - 1));
        assert!(!sparkl3d::geometry::SpGrid::<()>::is_in_region_with_color(0, COLOUR_BOUND / 2));
    }

    #[test]
    fn the_3d_spreading_sends_bit_16_to_bit_60_as_well_and_loses_bit_20() {
        assert_eq!(sparkl3d::utils::morton_encode3(1 << 15, 0, 0), 1 << 45);
        assert_eq!(sparkl3d::utils::morton_encode3(1 << 16, 0, 0), 1 << 48 | 1 << 60);
        assert_eq!(sparkl3d::utils::morton_encode3(1 << 20, 0, 0), 0);
    }

    #[test]
    fn the_tables_are_what_their_makers_give() {
        for rust in [rust_2d(), rust_3d()] {
            assert_eq!((rust.nbh_shifts)(), rust.packed_nbh_shifts);
        }
        assert_eq!(rust2::nbh_region_shifts(), rust2::PACKED_NBH_REGION_SHIFTS);
        assert_eq!(rust3::nbh_region_shifts(), rust3::PACKED_NBH_REGION_SHIFTS);
    }

    #[test]
    fn the_stand_ins_carry_a_point_to_its_cell_and_back() {
        let grid = sparkl2d::geometry::SpGrid::<()>::new(0.5).unwrap();
        let cell = grid.cell_associated_to_point(&[3.2, 4.9].into());
        assert_eq!(cell, rust2::pack([5, 9]));
        assert_eq!(grid.cell_center(cell), [2.5, 4.5].into());
    }

    #[test]
    fn both_dimensions_are_built_from_the_same_text() {
        assert_eq!(sparkl2d::sources(), sparkl3d::sources());
    }

    /// The kinds of a question's fields and of its answer's, with the numbers of them that differ between 2D and 3D left open.
    const KINDS: [(&str, &str, &str); 16] = [
        ("p", "D..", "H"),
        ("i", "W..", "H"),
        ("u", "H", "D.."),
        ("a", "HH", "H"),
        ("o", "H", "H"),
        ("w", "H", "H"),
        ("f", "H", "H"),
        ("c", "HD", "D"),
        ("n", "H", "H.."),
        ("s", "H", "H.."),
        ("t", "", "H.."),
        ("g", "", "H.."),
        ("k", "H", "D"),
        ("l", "HD", "H"),
        ("r", "H", "H"),
        ("m", "HHH", "H"),
    ];

    /// How many fields `..` stands for.
    fn many(operation: &str) -> usize {
        match operation {
            "p2" | "i2" | "u2" => 2,
            "p3" | "i3" | "u3" | "n2" | "g2" => 3,
            "n3" | "g3" => 7,
            "s2" | "t2" => 9,
            _ => 27,
        }
    }

    fn expanded(kinds: &str, operation: &str) -> String {
        match kinds.strip_suffix("..") {
            Some(kind) => kind.repeat(many(operation)),
            None => kinds.to_string(),
        }
    }

    #[test]
    fn every_line_is_of_the_format_and_every_operation_is_asked() {
        let counts = counts(&make(), |question| {
            let operation = question[0];
            let (_, asks, says) = KINDS.iter().find(|(letter, ..)| operation.starts_with(letter)).unwrap();
            (expanded(asks, operation), expanded(says, operation))
        });
        assert_eq!(counts.len(), 2 * 14 + 2);
        assert!(counts.values().sum::<usize>() >= 5000);
    }
}
