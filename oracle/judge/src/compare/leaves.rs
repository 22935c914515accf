//! Every function that is given numbers, and a list at the most: what it is asked, what the archive answers, and what has to be answered.
//!
//! Numbers go as u64, a float by its bits; any NaN of an answer has one pattern. A list that is lent is looked at afterwards: the last number
//! of such an answer is 1 where it is as it was.

use crate::archive;
use crate::lent::Lent;
use mangerknot_sys::*;
use oracle::reading;
use oracle::vectors::floats::{near, wild_or_not, WIDTHS};
use oracle::vectors::lengths::shown_least;
use oracle::vectors::numeric::{answers, is_settled};
use oracle::vectors::packing::{self, cell_of_region, number_in_region, random_id, rust_2d, rust_3d, sums_by_mask, COLOUR_BOUND};
use samples::lengths::{proposal, Step, Taken};
use samples::{canonical, Rng};
use sparkl2d::geometry::{way_in, SpGrid};
use sparkl2d::lengths::course_of;
use sparkl2d::math::Point;

/// One of these functions.
pub struct Leaf {
    pub name: &'static str,
    /// The letter of such a question in the vectors, and the kinds of its fields: H, W and D as there; the last one goes for all that follow.
    letter: &'static str,
    kinds: &'static str,
    /// How many numbers there are at the least; the others are a list's.
    least: usize,
    pub make: fn(&mut Rng) -> Vec<u64>,
    pub port: fn(&[u64]) -> Vec<u64>,
    judge: fn(&Leaf, &[u64]) -> Vec<u64>,
    /// Whether an answer begins with a number of the table.
    refuses: bool,
}

impl Leaf {
    /// What has to be answered.
    pub fn judged(&self, asked: &[u64]) -> Vec<u64> {
        (self.judge)(self, asked)
    }

    /// Whether it is given nothing.
    pub fn is_constant(&self) -> bool {
        self.kinds.is_empty()
    }

    /// The number of the table that an answer has.
    pub fn number(&self, answer: &[u64]) -> u32 {
        if self.refuses {
            answer[0] as u32
        } else {
            0
        }
    }

    /// Whether docs/DIFFERENCES.md has it that the Rust answers this otherwise than document 01, or as the machine does: then the
    /// document's answer is the right one.
    pub fn is_listed(&self, asked: &[u64]) -> bool {
        match self.letter {
            "c2" | "c3" => asked[1] >= COLOUR_BOUND,
            "m" if self.kinds == "WW" => !is_settled((asked[0] as u32, asked[1] as u32)),
            _ => false,
        }
    }

    /// The question in the vectors' fields. A list to look up in has a line of its own.
    pub fn written(&self, asked: &[u64]) -> String {
        let fields: Vec<String> = asked.iter().zip(self.all_kinds()).map(|(number, kind)| field(*number, kind)).collect();
        match self.letter {
            "l" => format!("g\t0\t{}\nl\t0\t{}", fields[1..].join("\t"), fields[0]),
            letter => [&[letter.to_string()], &fields[..]].concat().join("\t"),
        }
    }

    /// The question that was written behind the last line with a colon at its end; None where it is another.
    pub fn read(&self, told: &str) -> Option<Vec<u64>> {
        let lines: Vec<&str> = told.lines().collect();
        let mut question = lines[lines.iter().rposition(|line| line.ends_with(':'))? + 1..].iter();
        let mut behind = |first: &str| question.next()?.strip_prefix(first).map(|fields| fields.split('\t'));
        let fields: Vec<&str> = match self.letter {
            "l" => {
                let ids = behind("g\t0")?;
                behind("l\t0")?.chain(ids).collect()
            }
            letter => behind(letter)?.collect(),
        };
        let fields = fields.into_iter().filter(|field| !field.is_empty());
        let asked = fields.zip(self.all_kinds()).map(|(field, kind)| number(field, kind)).collect::<Option<Vec<u64>>>()?;
        (asked.len() >= self.least).then_some(asked)
    }

    /// The kind of each number.
    fn all_kinds(&self) -> impl Iterator<Item = char> {
        self.kinds.chars().chain(self.kinds.chars().last().into_iter().cycle())
    }

    /// The question with less: without an entry of its list, or with a smaller number.
    pub fn smaller(&self, asked: &[u64]) -> Vec<Vec<u64>> {
        let without = (self.least..asked.len()).rev().map(|place| [&asked[..place], &asked[place + 1..]].concat());
        let with = |place: usize, number: u64| {
            let mut smaller = asked.to_vec();
            smaller[place] = number;
            smaller
        };
        let numbers = (0..asked.len()).flat_map(|place| smaller_numbers(asked[place]).map(move |number| (place, number)));
        without.chain(numbers.map(|(place, number)| with(place, number))).collect()
    }
}

/// Nothing, a float of 1, and the number without one of its bits; each is less than the number.
fn smaller_numbers(number: u64) -> impl Iterator<Item = u64> {
    let known = [0, u64::from(1f32.to_bits())];
    let without_a_bit = (0..64).rev().map(move |bit| number & !(1 << bit));
    known.into_iter().chain(without_a_bit).filter(move |less| *less < number)
}

fn field(number: u64, kind: char) -> String {
    match kind {
        'H' => format!("{:016X}", number),
        'W' => format!("{:08X}", number),
        _ => number.to_string(),
    }
}

fn number(field: &str, kind: char) -> Option<u64> {
    match kind {
        'H' | 'W' => u64::from_str_radix(field, 16).ok(),
        _ => field.parse().ok(),
    }
}

fn float(bits: u64) -> f32 {
    f32::from_bits(bits as u32)
}

fn bits(x: f32) -> u64 {
    u64::from(canonical(x.to_bits()))
}

fn all_bits(numbers: &[f32]) -> Vec<u64> {
    numbers.iter().copied().map(bits).collect()
}

fn narrow(numbers: &[u64]) -> Vec<u32> {
    numbers.iter().map(|number| *number as u32).collect()
}

fn wide(numbers: &[u32]) -> Vec<u64> {
    numbers.iter().copied().map(u64::from).collect()
}

/// All of them, in the header's order.
pub fn all() -> Vec<Leaf> {
    [ids_of_both(), of_dimension_2(), of_dimension_3(), floats(), cells(), lengths()].into_iter().flatten().collect()
}

/// Rows of a table: name, letter and kinds of a question, then how it is made, asked and judged.
macro_rules! leaves {
    ($($function:ident $letter:expr, $kinds:expr, $make:expr, $port:expr, $judge:expr;)*) => {
        vec![$(Leaf {
            name: stringify!($function),
            letter: $letter,
            kinds: $kinds,
            least: $kinds.len(),
            make: $make,
            port: $port,
            judge: $judge,
            refuses: false,
        }),*]
    };
}

// Ids.

fn ids_of_both() -> Vec<Leaf> {
    leaves![
        mk_masked_add "m0", "HHH", |rng| vec![any_mask(rng), any_id(rng), any_id(rng)],
            |a| vec![unsafe { mk_masked_add(a[0], a[1], a[2]) }], |_, a| vec![masked_sum(a[0], a[1], a[2])];
        mk_region_of "r0", "H", |rng| vec![any_id(rng)],
            |a| vec![unsafe { mk_region_of(a[0]) }], |_, a| vec![a[0] & way_in::REGION_ID_MASK];
    ]
}

/// The Rust's sum of a mask that it was compiled for, else the plain one.
fn masked_sum(mask: u64, i: u64, j: u64) -> u64 {
    match sums_by_mask().into_iter().find(|(known, _)| *known == mask) {
        Some((_, sum)) => sum(i, j),
        None => plain_sum(mask, i, j),
    }
}

/// A sum inside its mask: with ones in between, every carry goes on to the mask's next bit.
fn plain_sum(mask: u64, i: u64, j: u64) -> u64 {
    (i & mask).wrapping_add(j | !mask) & mask
}

/// A mask that the Rust was compiled for, or any, with many bits or with few.
fn any_mask(rng: &mut Rng) -> u64 {
    let (known, any, other) = (rng.one_of(&sums_by_mask()).0, rng.number(), rng.number());
    rng.one_of(&[known, known, any, any & other, any | other])
}

/// The functions of one dimension: the Rust, the digit in their letters, the kinds of coordinates without and with a sign, the coordinates'
/// names and places, and the functions' names.
macro_rules! of_dimension {
    (
        $rust:ident $digit:literal $kinds:literal $signed:literal [$($part:ident $place:literal),*] $pack:ident $packi:ident $unpack:ident
        $packed_add:ident $neg_one:ident $neg_two:ident $plus_five:ident $number:ident $cell:ident $color:ident $neighbors:ident
        $shifts:ident $region_shifts:ident $stencil:ident
    ) => {
        leaves![
            $pack concat!("p", $digit), $kinds, |rng| [$($place),*].map(|_| any_coordinate(rng)).to_vec(),
                |a| vec![unsafe { $pack($(a[$place] as u32),*) }], |_, a| vec![($rust().pack)(&narrow(a))];
            $packi concat!("i", $digit), $signed, |rng| [$($place),*].map(|_| any_coordinate(rng)).to_vec(),
                |a| vec![unsafe { $packi($(a[$place] as i32),*) }], |_, a| vec![($rust().packi)(&signed(a))];
            $unpack concat!("u", $digit), "H", one_id,
                |a| {
                    let cell = unsafe { $unpack(a[0]) };
                    wide(&[$(cell.$part),*])
                }, |_, a| wide(&($rust().unpack)(a[0]));
            $packed_add concat!("a", $digit), "HH", |rng| vec![any_id(rng), any_id(rng)],
                |a| vec![unsafe { $packed_add(a[0], a[1]) }], |_, a| vec![($rust().packed_add)(a[0], a[1])];
            $neg_one concat!("o", $digit), "H", one_id,
                |a| vec![unsafe { $neg_one(a[0]) }], |_, a| vec![($rust().shift_cell_neg_one)(a[0])];
            $neg_two concat!("w", $digit), "H", one_id,
                |a| vec![unsafe { $neg_two(a[0]) }], |_, a| vec![($rust().shift_cell_neg_two)(a[0])];
            $plus_five concat!("f", $digit), "H", one_id,
                |a| vec![unsafe { $plus_five(a[0]) }], |_, a| vec![($rust().packed_add)(a[0], $rust().packed_plus_five)];
            $number concat!("k", $digit), "H", one_id,
                |a| vec![unsafe { $number(a[0]) }], |_, a| vec![u64::from(number_in_region(&$rust(), a[0]))];
            $cell concat!("l", $digit), "HD", |rng| vec![any_id(rng), any_count(rng)],
                |a| vec![unsafe { $cell(a[0], a[1]) }], |_, a| vec![cell_of_region(&$rust(), a[0], a[1])];
            $color concat!("c", $digit), "HD", id_and_colour,
                |a| vec![u64::from(unsafe { $color(a[0], a[1]) })],
                |leaf, a| vec![u64::from(!leaf.is_listed(a) && ($rust().is_in_region_with_color)(a[0], a[1]))];
            $neighbors concat!("n", $digit), "H", one_id,
                |a| unsafe { $neighbors(a[0]) }.ids.to_vec(), |_, a| ($rust().region_neighbors)(a[0]);
            $shifts concat!("t", $digit), "", |_| vec![],
                |_| unsafe { $shifts() }.ids.to_vec(), |_, _| ($rust().nbh_shifts)();
            $region_shifts concat!("g", $digit), "", |_| vec![],
                |_| unsafe { $region_shifts() }.ids.to_vec(), |_, _| ($rust().nbh_region_shifts)();
            $stencil concat!("s", $digit), "H", one_id,
                |a| unsafe { $stencil(a[0]) }.ids.to_vec(), |_, a| stencil(&$rust(), a[0]);
        ]
    };
}

fn of_dimension_2() -> Vec<Leaf> {
    of_dimension!(
        rust_2d "2" "DD" "WW" [x 0, y 1] mk_pack2 mk_packi2 mk_unpack2 mk_packed_add2 mk_shift_cell_neg_one2 mk_shift_cell_neg_two2
        mk_shift_cell_plus_five2 mk_number_in_region2 mk_cell_of_region2 mk_is_in_region_with_color2 mk_region_neighbors2
        mk_nbh_shifts2 mk_nbh_region_shifts2 mk_stencil_ids2
    )
}

fn of_dimension_3() -> Vec<Leaf> {
    of_dimension!(
        rust_3d "3" "DDD" "WWW" [x 0, y 1, z 2] mk_pack3 mk_packi3 mk_unpack3 mk_packed_add3 mk_shift_cell_neg_one3
        mk_shift_cell_neg_two3 mk_shift_cell_plus_five3 mk_number_in_region3 mk_cell_of_region3 mk_is_in_region_with_color3
        mk_region_neighbors3 mk_nbh_shifts3 mk_nbh_region_shifts3 mk_stencil_ids3
    )
}

fn signed(numbers: &[u64]) -> Vec<i32> {
    numbers.iter().map(|number| *number as i32).collect()
}

fn stencil(rust: &packing::Rust, id: u64) -> Vec<u64> {
    rust.packed_nbh_shifts.iter().map(|shift| (rust.packed_add)(id, *shift)).collect()
}

/// Edges, cells of either dimension, and any bits.
fn any_id(rng: &mut Rng) -> u64 {
    let bit = 1 << rng.below(64);
    match rng.below(8) {
        0 => rng.one_of(&[0, u64::MAX, bit, !bit, !0xFFF]),
        1 | 2 => random_id(&rust_3d(), rng),
        3 => rng.number() & !0xFFF,
        _ => random_id(&rust_2d(), rng),
    }
}

fn one_id(rng: &mut Rng) -> Vec<u64> {
    vec![any_id(rng)]
}

/// Few bits, all bits, or about a power of two.
fn any_count(rng: &mut Rng) -> u64 {
    let (small, any, bit) = (rng.below(70), rng.number() >> rng.below(64), 1u64 << rng.below(64));
    rng.one_of(&[small, small, any, bit, bit.wrapping_sub(1), bit.wrapping_add(1), u64::MAX])
}

fn any_coordinate(rng: &mut Rng) -> u64 {
    u64::from(any_count(rng) as u32)
}

/// The region's own colour, another one, or none at all.
fn id_and_colour(rng: &mut Rng) -> Vec<u64> {
    let (id, any, few) = (any_id(rng), any_count(rng), rng.below(9));
    let colour = rng.one_of(&[id >> 12 & 3, id >> 12 & 7, few, any, COLOUR_BOUND + (id >> 12 & 7)]);
    vec![id, colour]
}

// Floats.

fn floats() -> Vec<Leaf> {
    leaves![
        mk_to_bits "b", "W", one_float, |a| vec![u64::from(unsafe { mk_to_bits(float(a[0])) })], numeric;
        mk_from_bits "b", "W", one_float, |a| vec![bits(unsafe { mk_from_bits(a[0] as u32) })], numeric;
        mk_round "r", "W", one_float, |a| vec![bits(unsafe { mk_round(float(a[0])) })], numeric;
        mk_to_u32 "c", "W", one_float, |a| vec![u64::from(unsafe { mk_to_u32(float(a[0])) })], numeric;
        mk_from_u32 "w", "W", |rng| vec![any_coordinate(rng)], |a| vec![bits(unsafe { mk_from_u32(a[0] as u32) })], numeric;
        mk_root "q", "W", one_float, |a| vec![bits(unsafe { mk_root(float(a[0])) })], numeric;
        mk_inv_exact "i", "W", one_float, |a| vec![bits(unsafe { mk_inv_exact(float(a[0])) })], numeric;
        mk_max "m", "WW", two_floats, |a| vec![bits(unsafe { mk_max(float(a[0]), float(a[1])) })], maximum;
        mk_abs "a", "W", one_float, |a| vec![bits(unsafe { mk_abs(float(a[0])) })], numeric;
        mk_signum "g", "W", one_float, |a| vec![bits(unsafe { mk_signum(float(a[0])) })], numeric;
        mk_inv_d "d", "W", one_float, |a| vec![bits(unsafe { mk_inv_d(float(a[0])) })], numeric;
        mk_eval_all "e", "W", one_float, |a| all_bits(&unsafe { mk_eval_all(float(a[0])) }.weights), numeric;
        mk_eval "k", "W", one_float, |a| vec![bits(unsafe { mk_eval(float(a[0])) })], numeric;
        mk_eval_derivative "v", "W", one_float, |a| vec![bits(unsafe { mk_eval_derivative(float(a[0])) })], numeric;
        mk_precompute_weights2 "p", "WWW", way_and_width,
            |a| {
                let Weights2 { x, y } = unsafe { mk_precompute_weights2(vector(a), float(a[2])) };
                all_bits(&[x, y].concat())
            }, numeric;
        mk_stencil_with_dir2 "s", "WWW", way_and_width,
            |a| vec![bits(unsafe { mk_stencil_with_dir2(vector(a), float(a[2])) })], numeric;
        mk_stencil2 "t", "WWWWW", points_and_width,
            |a| vec![bits(unsafe { mk_stencil2(point(a), point(&a[2..]), float(a[4])) })], numeric;
        mk_stencil_gradient_with_dir2 "x", "WWW", way_and_width,
            |a| parts(unsafe { mk_stencil_gradient_with_dir2(vector(a), float(a[2])) }), numeric;
        mk_stencil_gradient2 "y", "WWWWW", points_and_width,
            |a| parts(unsafe { mk_stencil_gradient2(point(a), point(&a[2..]), float(a[4])) }), numeric;
    ]
}

/// What Rust itself or the handed-over kernel answers.
fn numeric(leaf: &Leaf, asked: &[u64]) -> Vec<u64> {
    wide(&answers(leaf.letter.chars().next().expect("a letter"), &narrow(asked)))
}

/// Rust's maximum; where that hangs on the machine or is -0, document 01's: the number beside a NaN, and +0 of two zeros.
fn maximum(leaf: &Leaf, asked: &[u64]) -> Vec<u64> {
    if !leaf.is_listed(asked) {
        return numeric(leaf, asked);
    }
    let (a, b) = (float(asked[0]), float(asked[1]));
    match (a.is_nan(), b.is_nan()) {
        (false, false) => vec![0],
        (true, false) => vec![bits(b)],
        _ => vec![bits(a)],
    }
}

fn vector(numbers: &[u64]) -> Vector2 {
    Vector2 { x: float(numbers[0]), y: float(numbers[1]) }
}

fn point(numbers: &[u64]) -> Point2 {
    Point2 { x: float(numbers[0]), y: float(numbers[1]) }
}

fn parts(vector: Vector2) -> Vec<u64> {
    all_bits(&[vector.x, vector.y])
}

/// Halves, whole numbers and the kernel's ends with their neighbours, squares, every exponent, NaNs of any digits, and everyday numbers.
fn any_float(rng: &mut Rng) -> f32 {
    let half = ((rng.word() >> rng.below(32)) as f32 / 2.0).max(0.5);
    let root = (rng.word() >> 20) as f32 / 16.0;
    let (end, sign) = (rng.one_of(&[0.5, 1.0, 1.5, 2.0]), rng.one_of(&[1.0, -1.0]));
    match rng.below(8) {
        0 => rng.one_of(&near(half, 2)) * sign,
        1 => rng.one_of(&near((root * root).max(1e-3), 1)),
        2 => rng.one_of(&near(end, 3)) * sign,
        3 => f32::from_bits(rng.word() | 0x7F80_0000),
        _ => wild_or_not(rng),
    }
}

fn any_bits(rng: &mut Rng) -> u64 {
    u64::from(any_float(rng).to_bits())
}

fn one_float(rng: &mut Rng) -> Vec<u64> {
    vec![any_bits(rng)]
}

/// Now and then the same twice, its negative, or the next.
fn two_floats(rng: &mut Rng) -> Vec<u64> {
    let (a, other) = (any_bits(rng), any_bits(rng));
    vec![a, rng.one_of(&[other, other, a, a ^ 1 << 31, u64::from(a as u32 ^ 1)])]
}

/// A width that a call may have, at the ends of these, and any.
fn any_width(rng: &mut Rng) -> f32 {
    let end = rng.one_of(&[0x3580_0000, 0x4980_0000u32]);
    let about = f32::from_bits(end - 1 + rng.below(3) as u32);
    let (known, any) = (rng.one_of(&WIDTHS), any_float(rng));
    rng.one_of(&[known, known, about, any])
}

/// So many cells' widths, up to two, or anything.
fn some_way(width: f32, rng: &mut Rng) -> f32 {
    let (within, halves, any) = (rng.between(-2.0, 2.0), rng.below(9) as f32 / 2.0 - 2.0, any_float(rng));
    rng.one_of(&[within * width, within * width, halves * width, any])
}

fn way_and_width(rng: &mut Rng) -> Vec<u64> {
    let width = any_width(rng);
    all_kept(&[some_way(width, rng), some_way(width, rng), width])
}

fn points_and_width(rng: &mut Rng) -> Vec<u64> {
    let width = any_width(rng);
    let [ex, ey] = [0; 2].map(|_| (rng.word() >> (16 + rng.below(16))) as f32 * width);
    all_kept(&[ex, ey, ex + some_way(width, rng), ey + some_way(width, rng), width])
}

/// The bits as they are, a NaN's too.
fn all_kept(numbers: &[f32]) -> Vec<u64> {
    numbers.iter().map(|x| u64::from(x.to_bits())).collect()
}

// Cells of points, and lookup.

fn cells() -> Vec<Leaf> {
    leaves![
        mk_cell_pos_closest_to_point2 "c", "WWW", width_and_point,
            |a| {
                let centre = unsafe { mk_cell_pos_closest_to_point2(float(a[0]), point(&a[1..])) };
                all_bits(&[centre.x, centre.y])
            }, |_, a| rust_parts(grid(a).cell_pos_closest_to_point(&rust_point(a)));
        mk_cell_at_point2 "a", "WWW", width_and_point,
            |a| vec![unsafe { mk_cell_at_point2(float(a[0]), point(&a[1..])) }], |_, a| vec![grid(a).cell_at_point(&rust_point(a))];
        mk_cell_associated_to_point2 "s", "WWW", width_and_point,
            |a| vec![unsafe { mk_cell_associated_to_point2(float(a[0]), point(&a[1..])) }],
            |_, a| vec![grid(a).cell_associated_to_point(&rust_point(a))];
        mk_region_associated_to_point2 "r", "WWW", width_and_point,
            |a| vec![unsafe { mk_region_associated_to_point2(float(a[0]), point(&a[1..])) }],
            |_, a| vec![grid(a).region_associated_to_point(&rust_point(a))];
        mk_cell_center2 "m", "WH", |rng| vec![u64::from(any_width(rng).to_bits()), any_id(rng)],
            |a| {
                let centre = unsafe { mk_cell_center2(float(a[0]), a[1]) };
                all_bits(&[centre.x, centre.y])
            }, |_, a| rust_parts(grid(a).cell_center(a[1]));
        mk_lookup "l", "H", sought_and_ids,
            |a| {
                let mut ids = Lent::of(&a[1..], [0, u64::MAX]);
                let list = ids.lent();
                let found = unsafe { mk_lookup(list.as_ptr(), list.len(), a[0]) };
                vec![u64::from(found.found), found.place as u64, u64::from(ids.is_kept())]
            }, |_, a| reading::lookup(&a[1..], a[0]).map_or(vec![0, 0, 1], |place| vec![1, place as u64, 1]);
    ]
}

fn grid(asked: &[u64]) -> SpGrid<()> {
    SpGrid::new(float(asked[0])).expect("a map of a few bytes")
}

fn rust_point(asked: &[u64]) -> Point<f32> {
    Point::from([float(asked[1]), float(asked[2])])
}

fn rust_parts(point: Point<f32>) -> Vec<u64> {
    all_bits(&[point.x, point.y])
}

/// Whole numbers of cells of up to 28 bits, halves and the grid's ends with their neighbours, or anything.
fn width_and_point(rng: &mut Rng) -> Vec<u64> {
    let width = any_width(rng);
    let [x, y] = [0; 2].map(|_| {
        let (any, within) = (rng.word() >> (4 + rng.below(28)), rng.between(-0.5, 0.5));
        let cell = rng.one_of(&[0, 1, 2, 65534, 65535, 65536, any, 1 << 28, u32::MAX]) as f32;
        let place = (cell + rng.one_of(&[0.0, 0.5, -0.5, within, within])) * width;
        let (next, other) = (f32::from_bits(place.to_bits() ^ 1), any_float(rng));
        rng.one_of(&[place, place, next, other])
    });
    all_kept(&[width, x, y])
}

/// Lists that ascend, and now and then do not, and an id that is there, next to one that is, or any.
fn sought_and_ids(rng: &mut Rng) -> Vec<u64> {
    let (some, many) = (rng.below(50), rng.one_of(&[100, 511, 512, 513]));
    let count = rng.one_of(&[0, 1, 2, 3, 4, 7, 8, 9, 31, 33, 64, some, many]);
    let bound = rng.one_of(&[count + 1, 3 * count + 1, 1 << 52]);
    let mut ids: Vec<u64> = (0..count).map(|_| rng.below(bound) << 12).collect();
    if rng.below(5) > 0 {
        ids.sort_unstable();
        ids.dedup();
    }
    let member = if ids.is_empty() { 0 } else { ids[rng.below(ids.len() as u64) as usize] };
    let any = any_id(rng);
    let sought = rng.one_of(&[member, member, member, member.wrapping_add(1), member.wrapping_sub(1), any]);
    [&[sought], &ids[..]].concat()
}

// Lengths.

fn lengths() -> Vec<Leaf> {
    let mut found = leaves![
        mk_step_lengths "t", "WWDDDW", any_step, |a| step_answer(&step(a)), |_, a| judged_step(&step(a));
        mk_substep "s", "WWWW", any_substep,
            |a| {
                let taken = unsafe { mk_substep(float(a[0]), float(a[1]), float(a[2]), float(a[3])) };
                vec![u64::from(taken.number), taken.index as u64, bits(taken.length), bits(taken.remaining)]
            }, |_, a| judged_substep(a);
        mk_min_dt "m", "WD", any_least,
            |a| {
                let LeastLength { number, index, length } = unsafe { mk_min_dt(float(a[0]), a[1] as u32) };
                vec![u64::from(number), index as u64, bits(length)]
            }, |_, a| judged_least(float(a[0]), a[1] as u32);
    ];
    found[0].least = 5;
    found.iter_mut().for_each(|leaf| leaf.refuses = true);
    found
}

/// A step from its numbers.
fn step(asked: &[u64]) -> Step {
    Step {
        total: float(asked[0]),
        max_substep_dt: float(asked[1]),
        max_num_substeps: asked[2] as u32,
        stop_after_one_substep: asked[3] as u32,
        proposals: asked[4],
        dts: narrow(&asked[5..]),
    }
}

/// A step's numbers.
pub fn numbers(step: &Step) -> Vec<u64> {
    let settings = [step.total, step.max_substep_dt].map(|setting| u64::from(setting.to_bits()));
    let counts = [u64::from(step.max_num_substeps), u64::from(step.stop_after_one_substep), step.proposals];
    [&settings[..], &counts, &wide(&step.dts)].concat()
}

fn step_answer(step: &Step) -> Vec<u64> {
    let mut dts = Lent::of(&step.dts, [0x7f80_0001, 0xffff_ffff]);
    let Lengths { number, index, count, remaining, end } = archive::lengths(step, dts.lent());
    vec![u64::from(number), index as u64, count as u64, bits(remaining), u64::from(end), u64::from(dts.is_kept())]
}

/// What is refused is `reading`'s, the others are the Rust's.
fn judged_step(step: &Step) -> Vec<u64> {
    match reading::step_lengths(step) {
        Err(refusal) => vec![u64::from(refusal.number), refusal.index as u64, 0, 0, 0, 1],
        Ok(_) => taken(&course_of(step).taken(step)),
    }
}

fn taken(&Taken { count, remaining, end }: &Taken) -> Vec<u64> {
    vec![0, 0, count as u64, bits(remaining), u64::from(end), 1]
}

fn judged_substep(asked: &[u64]) -> Vec<u64> {
    match reading::substep(float(asked[0]), float(asked[1]), float(asked[2]), float(asked[3])) {
        Err(refusal) => vec![u64::from(refusal.number), refusal.index as u64, 0, 0],
        Ok(substep) => vec![0, 0, bits(substep.length), bits(substep.remaining)],
    }
}

/// What is refused is `reading`'s, and so is what the Rust's loop does not show; the others are the Rust's.
fn judged_least(total: f32, max_num_substeps: u32) -> Vec<u64> {
    match reading::min_dt(total, max_num_substeps) {
        Err(refusal) => vec![u64::from(refusal.number), refusal.index as u64, 0],
        Ok(least) => vec![0, 0, bits(shown_least(total, max_num_substeps).unwrap_or(least))],
    }
}

/// The substeps that the Rust takes in a step which is not refused: what each is given, and what becomes of it.
pub fn substeps_of(step: &Step) -> Vec<(Vec<u64>, Vec<u64>)> {
    let course = course_of(step);
    let (min, mut before) = (reading::least_length(step.total, step.max_num_substeps), step.total);
    let pairs = course.proposals.iter().zip(&course.lengths);
    let substep = |(proposal, length): (&f32, &f32)| {
        let given = all_kept(&[before, min, step.max_substep_dt, *proposal]);
        before -= length;
        (given, [&[0, 0], &all_bits(&[*length, before])[..]].concat())
    };
    pairs.map(substep).collect()
}

/// A step that no rule refuses, with as many proposals as it takes and few more, or with too few.
pub fn good_step(rng: &mut Rng) -> Step {
    let settings = Step::any(rng);
    let min = reading::least_length(settings.total, settings.max_num_substeps);
    let most = rng.one_of(&[1, 4, 12, 40]);
    let most = rng.below(most + 1);
    let (mut remaining, mut dts) = (settings.total, vec![]);
    for _ in 0..most {
        match proposal(remaining.min(settings.max_substep_dt), rng) {
            Some(dt) => {
                dts.push(dt);
                remaining =
                    reading::substep(remaining, min, settings.max_substep_dt, dt).map_or(remaining, |taken| taken.remaining);
            }
            None => break,
        }
    }
    if !(remaining > 0.0) {
        (0..rng.below(3)).for_each(|_| dts.push(any_float(rng)));
    }
    settings.with(&dts)
}

/// A good step, as it is or with some of its numbers changed, or proposals left out or too many.
fn any_step(rng: &mut Rng) -> Vec<u64> {
    let mut asked = numbers(&good_step(rng));
    for _ in 0..rng.below(4) {
        let place = rng.below(asked.len() as u64) as usize;
        match place {
            2 => asked[2] = rng.one_of(&[0, 1, 2, u64::from(u32::MAX)]),
            3 => asked[3] = rng.one_of(&[0, 1, 2, 1 << 31, u64::from(u32::MAX)]),
            4 => {
                asked[4] =
                    rng.one_of(&[asked[4] + 1, asked[4].wrapping_sub(1), asked[4] + (1 << 32), asked[4] + (1 << 62), u64::MAX])
            }
            _ => asked[place] = any_bits(rng),
        }
    }
    asked
}

/// What a step's least length is asked with.
pub fn least_of(step: &Step) -> Vec<u64> {
    vec![u64::from(step.total.to_bits()), u64::from(step.max_num_substeps)]
}

/// That of a good step, as it is or with another total, another count or both.
fn any_least(rng: &mut Rng) -> Vec<u64> {
    let mut asked = least_of(&Step::any(rng));
    let (any, other, count) = (any_bits(rng), u64::from(rng.word() | 0x7F80_0000), any_coordinate(rng));
    asked[0] = rng.one_of(&[asked[0], asked[0], any, any, other]);
    asked[1] = rng.one_of(&[asked[1], asked[1], count, count, 0]);
    asked
}

/// What remains, the least length, the limit and a proposal, of one size or not.
fn any_substep(rng: &mut Rng) -> Vec<u64> {
    let any = [0; 4].map(|_| any_float(rng));
    let remaining = Step::any(rng).total;
    let least = rng.one_of(&[remaining / 4.0, remaining, 2.0 * remaining, any[0]]);
    let most = rng.one_of(&[f32::MAX, remaining, remaining / 2.0, any[1]]);
    let proposed = proposal(remaining.min(most), rng).unwrap_or(0.0);
    let dt = rng.one_of(&[proposed, proposed, remaining, f32::from_bits(remaining.to_bits().wrapping_add(1)), any[2]]);
    all_kept(&[rng.one_of(&[remaining, remaining, remaining, any[3]]), least, most, dt])
}

#[cfg(test)]
mod tests {
    use super::*;

    fn named(name: &str) -> Leaf {
        all().into_iter().find(|leaf| leaf.name == name).expect("a function")
    }

    #[test]
    fn every_function_answers_what_it_has_to() {
        let mut rng = Rng::new(2);
        for leaf in all() {
            for _ in 0..300 {
                let asked = (leaf.make)(&mut rng);
                assert_eq!((leaf.port)(&asked), leaf.judged(&asked), "{}", leaf.written(&asked));
            }
        }
    }

    #[test]
    fn the_plain_sum_is_the_rusts_for_each_of_its_masks() {
        let mut rng = Rng::new(7);
        let masks = sums_by_mask();
        assert_eq!(masks.len(), 25);
        for (mask, sum) in masks.into_iter().flat_map(|known| [known; 1000]) {
            let [i, j] = [0; 2].map(|_| any_id(&mut rng));
            assert_eq!(plain_sum(mask, i, j), sum(i, j), "{:X} {:X} {:X}", mask, i, j);
        }
        let is_known = |mask: &u64| sums_by_mask().iter().any(|(known, _)| known == mask);
        let asked: Vec<u64> = (0..1000).map(|_| any_mask(&mut rng)).collect();
        assert!((300..500).contains(&asked.iter().filter(|mask| is_known(mask)).count()));
    }

    #[test]
    fn what_is_listed_is_document_01s() {
        let colour = named("mk_is_in_region_with_color2");
        assert!(colour.is_listed(&[0, 1 << 52]) && !colour.is_listed(&[0, 3]));
        assert_eq!((colour.judged(&[0, 1 << 52]), colour.judged(&[3 << 12, 3])), (vec![0], vec![1]));
        let max = named("mk_max");
        let negative = u64::from((-0f32).to_bits());
        assert_eq!((max.is_listed(&[negative, negative]), max.judged(&[negative, negative])), (true, vec![0]));
        let (signalling, two) = (0x7f80_0001, u64::from(2f32.to_bits()));
        assert_eq!([max.judged(&[signalling, two]), max.judged(&[two, signalling])], [vec![two], vec![two]]);
        assert!(!max.is_listed(&[two, negative]));
        assert!(!named("mk_min_dt").is_listed(&[0, 0]));
    }

    #[test]
    fn questions_are_written_as_the_vectors_have_them() {
        assert_eq!(named("mk_pack2").written(&[5, 6]), "p2\t5\t6");
        assert_eq!(named("mk_packi3").written(&[0xffff_ffff, 0, 1]), "i3\tFFFFFFFF\t00000000\t00000001");
        assert_eq!(named("mk_lookup").written(&[9, 7, 8]), "g\t0\t0000000000000007\t0000000000000008\nl\t0\t0000000000000009");
        let step = Step { total: 1.0, ..Step::any(&mut Rng::new(1)).with(&[0.5, 0.25]) };
        let fields: Vec<String> = [vec!["t".to_string()], step.fields()].concat();
        assert_eq!(named("mk_step_lengths").written(&numbers(&step)), fields.join("\t"));
    }

    #[test]
    fn what_is_written_is_read_again() {
        let mut rng = Rng::new(5);
        for leaf in all() {
            for _ in 0..20 {
                let asked = (leaf.make)(&mut rng);
                let told = |what: &str| format!("{} {}:\n{}\nand more", leaf.name, what, leaf.written(&asked));
                assert_eq!(leaf.read(&told("is asked")), Some(asked.clone()));
                assert_eq!(leaf.read(&told("differs; first:\nq\t0\nsmallest")), Some(asked.clone()));
            }
        }
        assert_eq!(named("mk_root").read("mk_root is asked:\nr\t3F800000"), None);
        assert_eq!(named("mk_max").read("mk_max is asked:\nm\t3F800000"), None);
    }

    #[test]
    fn the_rusts_substeps_are_those_of_a_substep_by_itself() {
        let (mut rng, mut count) = (Rng::new(3), 0);
        for _ in 0..200 {
            for (given, became) in substeps_of(&good_step(&mut rng)) {
                assert_eq!(judged_substep(&given), became);
                count += 1;
            }
        }
        assert!(count > 300, "{}", count);
    }

    /// Of steps, substeps and least lengths made at random some are done, and each number is answered.
    #[test]
    fn lengths_are_done_and_refused() {
        let mut rng = Rng::new(4);
        for (leaf, own) in lengths().into_iter().zip([&[0, 1, 3, 4][..], &[0, 3, 4], &[0, 3, 4]]) {
            let mut numbers = [0; 5];
            for _ in 0..2000 {
                let asked = (leaf.make)(&mut rng);
                numbers[leaf.number(&leaf.judged(&asked)) as usize] += 1;
            }
            assert!((0..5).all(|number| own.contains(&number) == (numbers[number] > 50)), "{}: {:?}", leaf.name, numbers);
        }
    }

    /// Of good steps' least lengths the Rust shows most.
    #[test]
    fn least_lengths_are_shown() {
        let mut rng = Rng::new(8);
        let shown =
            (0..1000).map(|_| Step::any(&mut rng)).filter(|step| shown_least(step.total, step.max_num_substeps).is_some());
        assert!(shown.count() > 500);
    }

    #[test]
    fn a_smaller_question_is_smaller() {
        let leaf = named("mk_lookup");
        let weight = |asked: &[u64]| (asked.len(), asked.iter().map(|number| u128::from(*number)).sum::<u128>());
        let asked = [77, 5, 0xffff];
        let smaller = leaf.smaller(&asked);
        assert!(smaller.iter().all(|less| weight(less) < weight(&asked)));
        assert!(
            smaller.contains(&vec![77, 5]) && smaller.contains(&vec![0, 5, 0xffff]) && smaller.contains(&vec![76, 5, 0xffff])
        );
        assert!(named("mk_pack2").smaller(&[0, 0]).is_empty());
    }
}
