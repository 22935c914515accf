//! Questions, in two dimensions, about points and cells, which `sp_grid.rs` answers, and about lookup and clear, which it has not
//! and which `reading` answers from documents 01 and 02.

use super::floats::{between, nans, patterns, wild_or_not, words, written, WIDTHS, WILD};
use super::packing::edge_ids;
use super::{decimal, hex, hexes, word, Sheet};
use crate::reading;
use crate::rng::{Rng, SEED};
use sparkl2d::geometry::{way_in as rust, SpGrid};
use sparkl2d::math::Point;

const ABOUT: &str = "questions, and the answers of the handed-over Rust or of oracle's own reading to them, line by line.";

/// The handed-over files that answer about points and cells.
const SOURCES: [&str; 3] = ["src/geometry/sp_grid.rs", "src/geometry/mod.rs", "src/utils/morton2.rs"];

const LEGEND: [&str; 10] = [
    "Fields, between tabs: W an f32's bits in 8 hex digits, H a u64 in 16, D a decimal. A NaN in an answer is 7FC00000.",
    "Of the handed-over Rust, with the cell width as first field:",
    "c cell_pos_closest_to_point W W W = W W; a cell_at_point W W W = H; s cell_associated_to_point W W W = H",
    "r region_associated_to_point W W W = H; m cell_center W H = W W",
    "Of oracle's reading of documents 01 and 02:",
    "g a list of ids D H.. = D: the number that it has in the lines below, the ids; how many",
    "l lookup D H = D D: list, sought id; 1 and its place, or 0 and 0",
    "z clear D D D D = D D D: regions, list, lengths of the nodes' floats and words; number, index, and whether nodes are cleared",
    "  (1: every lent float is +0 and every lent word 0; 0: every lent word is as it was)",
    "End of the header.",
];

pub fn make() -> Sheet {
    let mut sheet = Sheet::titled("Grid", ABOUT, &SOURCES, &LEGEND);
    let mut rng = Rng::new(SEED);
    points(&mut rng).into_iter().for_each(|point| ask_point(&mut sheet, point));
    cells(&mut rng).into_iter().for_each(|(width, id)| ask_cell(&mut sheet, width, id));
    let mut lists = Lists::default();
    for ids in lookups(&mut rng) {
        ask_lookups(&mut sheet, &mut lists, &ids);
    }
    for clear in clears(&mut rng) {
        ask_clear(&mut sheet, &mut lists, &clear);
    }
    sheet
}

// Points and cells.

/// A cell width and a point.
type Placed = [f32; 3];

fn ask_point(sheet: &mut Sheet, asked: Placed) {
    let [width, x, y] = asked;
    let (grid, point) = (SpGrid::<()>::new(width).unwrap(), Point::from([x, y]));
    let mut row = |operation, answer| sheet.row(operation, words(&patterns(&asked)), answer);
    row("c", parts(grid.cell_pos_closest_to_point(&point)));
    row("a", vec![hex(grid.cell_at_point(&point))]);
    row("s", vec![hex(grid.cell_associated_to_point(&point))]);
    row("r", vec![hex(grid.region_associated_to_point(&point))]);
}

fn ask_cell(sheet: &mut Sheet, width: f32, id: u64) {
    let centre = SpGrid::<()>::new(width).unwrap().cell_center(id);
    sheet.row("m", vec![word(width.to_bits()), hex(id)], parts(centre));
}

fn parts(point: Point<f32>) -> Vec<String> {
    words(&[written(point.x), written(point.y)])
}

/// Places in cells, where rounding or the cast changes its rule, an axis ends (2^28), or f32s lie a half, 1 or 2 apart.
const PLACES: [f32; 35] = [
    0.0,
    0.25,
    0.49999997,
    0.5,
    0.50000006,
    0.75,
    1.0,
    1.4999999,
    1.5,
    1.5000001,
    2.0,
    2.5,
    3.0,
    3.5,
    4.0,
    4.5,
    7.5,
    8.0,
    65534.5,
    65535.0,
    65535.5,
    65536.0,
    4194303.5,
    8388607.5,
    8388608.0,
    8388609.0,
    16777215.0,
    16777216.0,
    16777218.0,
    268435440.0,
    268435456.0,
    268435488.0,
    4294967040.0,
    4294967296.0,
    1e20,
];

fn points(rng: &mut Rng) -> Vec<Placed> {
    let mut found = vec![];
    for width in WIDTHS {
        let mut along: Vec<f32> = PLACES.iter().map(|place| place * width).collect();
        along.extend(PLACES.iter().step_by(3).map(|place| -place * width));
        along.extend(WILD);
        found.extend(paired(&along).map(|[x, y]| [width, x, y]));
        found.extend((0..12).map(|_| [width, somewhere(rng) * width, somewhere(rng) * width]));
    }
    for width in WILD.into_iter().chain([-1.0, -0.5, 1e-7, 1e7]) {
        let along: Vec<f32> = WILD.into_iter().chain([0.5, 1.5, 2.5, -1.0, 3.0]).collect();
        found.extend(paired(&along).map(|[x, y]| [width, x, y]));
    }
    for nan in nans(rng).into_iter().map(f32::from_bits) {
        found.extend([[1.0, nan, 2.0], [0.5, 3.0, nan], [nan, 1.0, 2.0]]);
    }
    found.extend((0..150).map(|_| [0; 3].map(|_| wild_or_not(rng))));
    found
}

/// Each number as x, with one from further on, or from the beginning again, as y.
fn paired(numbers: &[f32]) -> impl Iterator<Item = [f32; 2]> + '_ {
    numbers.iter().zip(numbers.iter().cycle().skip(11)).map(|(x, y)| [*x, *y])
}

/// A place in cells: a whole number of up to 28 bits, and up to half a cell either way.
fn somewhere(rng: &mut Rng) -> f32 {
    let bits = rng.below(29);
    rng.below(1 << bits) as f32 + between(-0.5, 0.5, rng)
}

/// Coordinates that no f32 has, which lie between two and go to the even one, and the ends of an axis.
const COORDINATES: [u32; 15] = [
    0,
    1,
    5,
    (1 << 24) - 1,
    1 << 24,
    (1 << 24) + 1,
    (1 << 24) + 3,
    (1 << 25) + 2,
    (1 << 25) + 6,
    (1 << 27) - 4,
    (1 << 27) + 8,
    (1 << 27) + 24,
    (1 << 28) - 24,
    (1 << 28) - 8,
    (1 << 28) - 1,
];

fn cells(rng: &mut Rng) -> Vec<(f32, u64)> {
    let mut found = vec![];
    for (place, x) in COORDINATES.into_iter().enumerate() {
        let y = COORDINATES[(place + 6) % COORDINATES.len()];
        found.extend([1.0, WIDTHS[place % WIDTHS.len()]].map(|width| (width, rust::pack([x, y]))));
        found.push((1.0, rust::pack([x, y]) | rng.number() & !rust::packed_add(u64::MAX, 0)));
    }
    let widths = WIDTHS.iter().cycle();
    found.extend(edge_ids().into_iter().zip(widths.clone()).map(|(id, width)| (*width, id)));
    found.extend(widths.take(120).map(|width| (*width, rng.number())));
    found.extend(WILD.into_iter().flat_map(|width| [(width, 0), (width, rust::pack([5, 6])), (width, u64::MAX)]));
    found
}

// Lists of ids.

/// The lists that were asked about; each is written once, with the number by which later lines name it.
#[derive(Default)]
struct Lists(Vec<Vec<u64>>);

impl Lists {
    fn number(&mut self, sheet: &mut Sheet, ids: &[u64]) -> String {
        let number = self.0.iter().position(|known| known == ids).unwrap_or_else(|| {
            let mut fields = vec![decimal(self.0.len() as u64)];
            fields.extend(hexes(ids.iter().copied()));
            sheet.row("g", fields, vec![decimal(ids.len() as u64)]);
            self.0.push(ids.to_vec());
            self.0.len() - 1
        });
        decimal(number as u64)
    }
}

/// The last region there is.
const LAST_REGION: u64 = !0xFFF;

/// The first regions there are.
fn first_regions(count: usize) -> Vec<u64> {
    (0..count as u64).map(|place| place << 12).collect()
}

/// Regions in order, with gaps.
fn some_regions(count: usize, rng: &mut Rng) -> Vec<u64> {
    let mut last = 0;
    let mut next = || {
        last += (2 + rng.below(1 << 40)) << 12;
        last
    };
    (0..count).map(|_| next()).collect()
}

/// The same list to its last entry but one, and then the last region.
fn ending_last(mut ids: Vec<u64>) -> Vec<u64> {
    if let Some(last) = ids.last_mut() {
        *last = LAST_REGION;
    }
    ids
}

fn exchanged(mut ids: Vec<u64>, one: usize, other: usize) -> Vec<u64> {
    ids.swap(one, other);
    ids
}

fn replaced(mut ids: Vec<u64>, place: usize, id: u64) -> Vec<u64> {
    ids[place] = id;
    ids
}

fn reversed(mut ids: Vec<u64>) -> Vec<u64> {
    ids.reverse();
    ids
}

// Lookup.

const LOOKUP_LENGTHS: [usize; 25] =
    [0, 1, 2, 3, 4, 5, 6, 7, 8, 9, 15, 16, 17, 31, 32, 33, 64, 65, 100, 128, 256, 300, 511, 512, 513];

/// Lists that ascend, regions and any ids, with the least and the largest id among them; and lists that do not.
fn lookups(rng: &mut Rng) -> Vec<Vec<u64>> {
    let mut found: Vec<Vec<u64>> = LOOKUP_LENGTHS.iter().map(|count| some_regions(*count, rng)).collect();
    found.extend([1, 2, 3, 8, 33, 512].map(first_regions));
    found.extend([1, 2, 7, 40].map(|count| ending_last(first_regions(count))));
    found.extend([vec![u64::MAX], vec![0, u64::MAX], vec![0, 1, 2, 3, u64::MAX - 1, u64::MAX], vec![1 << 31, 1 << 32, 1 << 63]]);
    for count in [2, 3, 5, 8, 33] {
        found.extend([reversed(some_regions(count, rng)), vec![4096; count]]);
    }
    found.extend([0, 7, 14].map(|place| exchanged(some_regions(16, rng), place, place + 1)));
    found.extend([1, 8, 15].map(|place| exchanged(some_regions(16, rng), 0, place)));
    for (count, bound) in [(5, 3), (20, 10), (64, 40), (100, 50), (200, 1 << 52)] {
        found.push((0..count).map(|_| rng.below(bound) << 12).collect());
    }
    found
}

/// Every member and, of few or at every eighth, the ids on either side of it; and the ends.
fn ask_lookups(sheet: &mut Sheet, lists: &mut Lists, ids: &[u64]) {
    let few = ids.len() <= 40;
    let mut asked = vec![0, 1, 1 << 12, LAST_REGION, u64::MAX];
    for (place, id) in ids.iter().enumerate() {
        asked.push(*id);
        if few || place % 8 == 0 || place + 1 == ids.len() {
            asked.extend([id.wrapping_sub(1), id.wrapping_add(1)]);
        }
    }
    let list = lists.number(sheet, ids);
    for sought in asked {
        let (found, place) = reading::lookup(ids, sought).map_or((0, 0), |place| (1, place as u64));
        sheet.row("l", vec![list.clone(), hex(sought)], vec![decimal(found as u64), decimal(place)]);
    }
}

// Clear.

/// What a call of clear is given, the lent nodes by the lengths of their slices.
#[derive(Clone)]
struct Clear {
    regions: u64,
    ids: Vec<u64>,
    floats: u64,
    words: u64,
}

const REGION_FLOATS: u64 = reading::REGION_NODES * reading::NODE_FLOATS;
const REGION_WORDS: u64 = reading::REGION_NODES * reading::NODE_WORDS;

fn ask_clear(sheet: &mut Sheet, lists: &mut Lists, asked: &Clear) {
    let list = lists.number(sheet, &asked.ids);
    let question = vec![decimal(asked.regions), list, decimal(asked.floats), decimal(asked.words)];
    let answer = match reading::clear(asked.regions, &asked.ids, asked.floats, asked.words) {
        Some(refusal) => [u64::from(refusal.number), refusal.index as u64, 0],
        None => [0, 0, 1],
    };
    sheet.row("z", question, answer.map(decimal).to_vec());
}

/// A call whose lengths all match its count.
fn counted(ids: Vec<u64>) -> Clear {
    let regions = ids.len() as u64;
    Clear { regions, ids, floats: regions * REGION_FLOATS, words: regions * REGION_WORDS }
}

fn clears(rng: &mut Rng) -> Vec<Clear> {
    let lists = good_lists(rng).into_iter().chain(bad_lists(rng)).chain(lists_over_the_limit());
    let mut found: Vec<Clear> = lists.map(counted).collect();
    for count in [0, 1, 2, 3, 16, 511, 512, 513] {
        found.extend(miscounted(&counted(first_regions(count))));
    }
    for ids in [vec![1], vec![4096, 0], vec![0, 4096, 4096, 1]] {
        found.extend(miscounted(&counted(ids)));
    }
    found.extend(huge_counts());
    found.extend((0..250).map(|_| random_clear(rng)));
    found
}

fn good_lists(rng: &mut Rng) -> Vec<Vec<u64>> {
    let mut found: Vec<Vec<u64>> =
        [0, 1, 2, 3, 4, 5, 15, 16, 17, 64, 100, 256, 300, 511, 512].map(|count| some_regions(count, rng)).to_vec();
    found.extend([1, 2, 3, 33, 512].map(first_regions));
    found.extend([1, 2, 40].map(|count| ending_last(first_regions(count))));
    found.extend(pairs_apart_in_high_bits());
    found
}

/// Pairs that ascend, but not for who compares signed numbers or half of the bits.
fn pairs_apart_in_high_bits() -> Vec<Vec<u64>> {
    let pairs =
        [(LAST_REGION >> 1 & LAST_REGION, 1 << 63), (0xFFFF_F000, 1 << 32), ((1 << 32) + (1 << 12), 1 << 33), (1 << 62, 3 << 62)];
    pairs.iter().map(|(one, other)| vec![*one, *other]).collect()
}

/// Lists with low bits set, with pairs that do not ascend, and with several faults.
fn bad_lists(rng: &mut Rng) -> Vec<Vec<u64>> {
    let mut found: Vec<Vec<u64>> = pairs_apart_in_high_bits().into_iter().map(reversed).collect();
    for bit in 0..12 {
        found.extend([vec![1 << bit], replaced(first_regions(3), 1, 1 << 12 | 1 << bit)]);
    }
    for (count, places) in [(2, vec![0, 1]), (3, vec![0, 1, 2]), (16, (0..16).collect()), (512, vec![0, 255, 511])] {
        for place in places {
            let ids = first_regions(count);
            let bit = (place + count) % 12;
            found.push(replaced(ids.clone(), place, ids[place] | 1 << bit));
            if place + 1 < count {
                found.push(replaced(ids.clone(), place + 1, ids[place]));
                found.push(exchanged(ids, place, place + 1));
            }
        }
    }
    found.extend([2, 3, 8].map(|count| vec![LAST_REGION; count]));
    found.extend([2, 3, 8].map(|count| reversed(some_regions(count, rng))));
    found.extend([1, 4, 6].iter().flat_map(|low| [1, 4, 6].map(|later| low_bits_and_a_pair(*low, later))));
    found.extend([u64::MAX, LAST_REGION | 1, 0xFFF].map(|id| vec![id]));
    found
}

/// A low bit at one place, and the id before it again at another.
fn low_bits_and_a_pair(low: usize, later: usize) -> Vec<u64> {
    let ids = first_regions(8);
    let with_low_bit = replaced(ids.clone(), low, ids[low] | 64);
    replaced(with_low_bit.clone(), later, with_low_bit[later - 1])
}

fn lists_over_the_limit() -> Vec<Vec<u64>> {
    let mut found: Vec<Vec<u64>> = [513, 514, 600, 1025].map(first_regions).to_vec();
    found.extend([replaced(first_regions(513), 0, 1), exchanged(first_regions(513), 511, 512)]);
    found
}

/// The call with each length too long and too short, with those of another count, and in other units.
fn miscounted(right: &Clear) -> Vec<Clear> {
    let Clear { regions, floats, words, .. } = *right;
    let with_lengths = |floats: u64, words: u64| Clear { floats, words, ..right.clone() };
    let with_count = |regions: u64| Clear { regions, ..right.clone() };
    let mut found: Vec<Clear> = [1, REGION_FLOATS].iter().map(|more| with_lengths(floats + more, words)).collect();
    found.extend([1, REGION_WORDS].map(|more| with_lengths(floats, words + more)));
    found.extend([1, REGION_FLOATS].iter().filter(|less| **less <= floats).map(|less| with_lengths(floats - less, words)));
    found.extend([1, REGION_WORDS].iter().filter(|less| **less <= words).map(|less| with_lengths(floats, words - less)));
    found.extend([with_lengths(words, floats), with_lengths(0, 0), with_lengths(floats, 0), with_lengths(0, words)]);
    found.extend([with_lengths(4 * floats, 4 * words), with_lengths(floats + words, words), with_lengths(regions * 7, regions)]);
    found.extend([with_count(regions + 1), with_count(regions * REGION_WORDS + 1), with_count(2 * regions + 1)]);
    found.extend(regions.checked_sub(1).map(with_count));
    found.push(Clear { ids: first_regions(right.ids.len() + 1), ..right.clone() });
    found.extend(right.ids.split_last().map(|(_, fewer)| Clear { ids: fewer.to_vec(), ..right.clone() }));
    found
}

/// Counts whose products do not fit 64 bits, or 32, with slices that match what is left of the products.
fn huge_counts() -> Vec<Clear> {
    let mut found = vec![];
    for huge in [1 << 32, 1 << 58, 1 << 59, 1 << 60, 1 << 61, 1 << 63, 15 << 60, u64::MAX - 2] {
        for count in 0..3 {
            let ids = first_regions(count as usize);
            let small = counted(ids.clone());
            let regions = huge + count;
            let lent = |each: u64| Some(regions.wrapping_mul(each)).filter(|length| *length < 1 << 20);
            let floats = lent(REGION_FLOATS).unwrap_or(small.floats);
            let words = lent(REGION_WORDS).unwrap_or(small.words);
            found.push(Clear { regions, ids, floats, words });
        }
    }
    found
}

/// A few regions, of which some are low, repeated or out of order, and now and then a length or a count that is off.
fn random_clear(rng: &mut Rng) -> Clear {
    let count = rng.below(9) as usize;
    let mut ids = some_regions(count, rng);
    for place in 0..count {
        match rng.below(20) {
            0 => ids[place] |= 1 << rng.below(12),
            1 => ids[place] = ids[place.saturating_sub(1)],
            2 => ids.swap(place, place.saturating_sub(1)),
            3 => ids[place] = rng.number(),
            _ => (),
        }
    }
    let right = counted(ids);
    match rng.below(10) {
        0 => Clear { floats: rng.below(9 * REGION_FLOATS), ..right },
        1 => Clear { words: rng.below(9 * REGION_WORDS), ..right },
        2 => Clear { regions: rng.below(9), ..right },
        _ => right,
    }
}

#[cfg(test)]
mod tests {
    use super::*;
    use crate::vectors::format::{counts, rows};
    use std::collections::{BTreeMap, BTreeSet};

    #[test]
    fn every_line_is_of_the_format_and_every_operation_is_asked() {
        let counts = counts(&make(), |question| {
            let (asks, says) = match question[0] {
                "c" => ("WWW".to_string(), "FF"),
                "a" | "s" | "r" => ("WWW".to_string(), "H"),
                "m" => ("WH".to_string(), "FF"),
                "g" => ("D".to_string() + &"H".repeat(question.len() - 2), "D"),
                "l" => ("DH".to_string(), "DD"),
                _ => ("DDDD".to_string(), "DDD"),
            };
            (asks, says.to_string())
        });
        let asked: String = counts.keys().map(String::as_str).collect();
        assert_eq!(asked, "acglmrsz");
        assert!(counts.values().all(|count| *count >= 100), "{:?}", counts);
    }

    /// The x of the cell that is answered where the cell width is 1 and the point's x is this.
    fn answered_x(sheet: &Sheet, operation: &str, x: f32) -> u32 {
        let asked = [operation.to_string(), word(1f32.to_bits()), word(x.to_bits())];
        let row = rows(sheet).find(|(question, _)| question[..3] == asked);
        let (_, answer) = row.unwrap_or_else(|| panic!("{} of {} is not asked", operation, x));
        rust::unpack(u64::from_str_radix(answer[0], 16).unwrap())[0]
    }

    #[test]
    fn the_ends_of_rules_are_asked() {
        let sheet = make();
        assert_eq!([0.49999997, 0.5, 2.5, -0.0, f32::NAN].map(|x| answered_x(&sheet, "a", x)), [0, 1, 3, 0, 0]);
        let last = (1 << 28) - 1;
        assert_eq!(["a", "s"].map(|operation| answered_x(&sheet, operation, 1e20)), [last, last - 1]);
        assert_eq!(["a", "s"].map(|operation| answered_x(&sheet, operation, 0.0)), [0, last]);
        let tie = ["m".to_string(), word(1f32.to_bits()), hex(rust::pack([(1 << 24) + 1, (1 << 27) + 24]))];
        let even = words(&patterns(&[16777216.0, 134217760.0]));
        assert!(rows(&sheet).any(|(question, answer)| question == tie && answer == even));
    }

    /// What is answered to questions that begin with a letter, and how often.
    fn answers(sheet: &Sheet, operation: &str, fields: usize) -> BTreeMap<Vec<String>, usize> {
        let mut found = BTreeMap::new();
        for (_, answer) in rows(sheet).filter(|(question, _)| question[0] == operation) {
            *found.entry(answer[..fields].iter().map(|field| field.to_string()).collect()).or_insert(0) += 1;
        }
        found
    }

    #[test]
    fn every_number_is_answered_often() {
        let numbers = answers(&make(), "z", 1);
        assert_eq!(numbers.keys().flatten().map(String::as_str).collect::<Vec<_>>(), ["0", "1", "2", "6"]);
        assert!(numbers.values().all(|count| *count >= 6), "{:?}", numbers);
        let sixes = answers(&make(), "z", 2).into_keys().filter(|answer| answer[0] == "6");
        let indices: BTreeSet<String> = sixes.map(|answer| answer[1].clone()).collect();
        assert!(indices.len() >= 16 && indices.contains("511"), "{:?}", indices);
    }

    #[test]
    fn lookups_find_and_miss() {
        let found = answers(&make(), "l", 1);
        assert!(found.len() == 2 && found.values().all(|count| *count >= 500), "{:?}", found);
    }

    #[test]
    fn no_slice_is_too_long_to_lend() {
        let sheet = make();
        let lengths =
            rows(&sheet).filter(|(question, _)| question[0] == "z").flat_map(|(question, _)| [question[3], question[4]]);
        assert!(lengths.into_iter().all(|length| length.parse::<u64>().unwrap() < 1 << 20));
    }
}
