//! Listings for the bench program, and what it has to print: good ones, refused ones, and ones that cannot be read. `crate::listing`
//! answers, from the documents and the handed-over Rust.

#[cfg(test)]
mod by_hand;
mod examples;

use super::scatter::{listing, ENDS, SOURCES};
use super::{faults, Sheet, OF_BOTH};
use crate::listing::printed;
use crate::rng::{Rng, SEED};
pub use examples::examples;
use samples::damage::{changed_bytes, full_page, NO_FLOATS, NO_LETTERS, NO_LINES, NO_NUMBERS};
use samples::lines::Edit;
use samples::listing::{lines, pieces, with_field, with_line, Lines, LISTED_FLOATS, MOST_PARTICLES, MOST_REGIONS};
use samples::particle::{CRACK_FACTOR, FAILED, GRADIENT, MASS, PHASE, PSI, STRESS, VOLUME};
use samples::random::{Numbers, Style, LAST_CELL, WIDTHS};
use samples::{Call, PARTICLE_FLOATS, PARTICLE_WORDS};
use std::slice::from_ref;

const LEGEND: [&str; 6] = [
    "Each line is a listing: behind its l, between tabs, the listing's own lines. Its answer is what the program prints, likewise.",
    "  \\t is a tab, \\n a line feed, and \\xHH a byte by its two hex digits: every one that is not visible ASCII, \\ and *.",
    "  D* in front of a line: that line so often in a row.",
    "An l by itself is the listing without a byte.",
    "Numbers 3 to 10 are `reading`'s, nodes the Rust's; 2, 11 and how it is printed are `listing`'s.",
    "End of the header.",
];

pub fn make() -> Sheet {
    // Nodes, and the coordinates of their cells.
    let sources = [&SOURCES[..], &["src/utils/morton2.rs"]].concat();
    let sheet = Sheet::titled("Listing", OF_BOTH, &sources, &LEGEND);
    let mut book = Listings { sheet, rng: Rng::new(SEED) };
    book.accepted();
    book.refused();
    book.unreadable();
    book.sheet
}

struct Listings {
    sheet: Sheet,
    rng: Rng,
}

impl Listings {
    fn ask(&mut self, text: &[u8]) {
        self.sheet.row("l", pieces(text), pieces(printed(text).as_bytes()));
    }

    fn ask_lines(&mut self, lines: &[Vec<u8>]) {
        self.ask(&lines.concat());
    }

    fn ask_call(&mut self, call: &Call) {
        self.ask_lines(&lines(call));
    }

    fn ask_style(&mut self, style: Style) {
        let call = style.sample(&mut self.rng);
        self.ask_call(&call);
    }
}

fn first_regions(count: u64) -> Vec<u64> {
    (0..count).map(|place| place << 12).collect()
}

// Listings that are done.

impl Listings {
    fn accepted(&mut self) {
        self.ask_call(&listing());
        self.without_particles();
        self.one_field_at_a_time();
        for (place, width) in WIDTHS.into_iter().enumerate() {
            self.ask_style(Style::plain(width, [1, 2], [5, 5], 4));
            let end = LAST_CELL - place as u32 % 5;
            self.ask_style(Style::plain(width, [[end, 40000, 3][place % 3], [end, 20000][place % 2]], [2, 2], 2));
        }
        for cell in 0..16 {
            self.ask_style(Style::plain(0.1, [4 + cell % 4, 8 + cell / 4], [1, 1], 2));
        }
        for numbers in [Numbers::Everyday, Numbers::Mixed, Numbers::Huge, Numbers::Tiny, Numbers::Any] {
            let places = (0..6).map(|place| Style::plain(WIDTHS[place % 12], [place as u32, 2], [3, 2], 1 + place));
            places.for_each(|style| self.ask_style(Style { numbers, other_regions: 1, ..style }));
        }
        for _ in 0..24 {
            let any = Style::any(&mut self.rng);
            self.ask_style(Style { particles: 3, other_regions: 1, window: [3, 2], ..any });
        }
        self.masses();
        self.at_the_limits();
    }

    fn without_particles(&mut self) {
        let last = !0xFFF;
        for ids in [vec![], vec![0], vec![last], vec![0, 4096, 8192], vec![4096, 1 << 32, 1 << 63, last]] {
            self.ask_call(&Call::on(ids));
        }
        self.ask_call(&Call { cell_width: 1.0 / 1048576.0, dt: 1e-45, gravity: [-0.0, f32::MAX], ..Call::on(vec![0]) });
        self.ask_call(&Call { cell_width: 1048576.0, dt: f32::MAX, gravity: [f32::MIN, 1e-45], ..Call::on(vec![]) });
    }

    /// A particle that has everything, in a cell whose stencil reaches four regions, and each of its numbers made strange.
    fn one_field_at_a_time(&mut self) {
        let call = full_particle(&mut self.rng);
        self.ask_call(&call);
        let ends = ENDS.map(f32::to_bits);
        for place in 2..LISTED_FLOATS {
            let count = if place == MASS { ends.len() } else { 4 };
            for end in ends.iter().cycle().skip(3 * place).take(count) {
                self.ask_call(&call.edited(&[Edit::Entry('f', place, u64::from(*end))]));
            }
        }
        for (letter, end) in ends.iter().flat_map(|end| [('x', *end), ('y', *end)]) {
            self.ask_call(&call.edited(&[Edit::Setting(letter, end)]));
        }
        for dt in [1e-45, 1e-20, 3.0, 1e20, f32::MAX].map(f32::to_bits) {
            self.ask_call(&call.edited(&[Edit::Setting('t', dt)]));
        }
        self.ask_call(&call.edited(&[Edit::Entry('w', FAILED, 1)]));
        let stress = |place: usize| Edit::Entry('f', STRESS + place, u64::from(f32::MAX.to_bits()));
        self.ask_call(&call.edited(&[Edit::Entry('w', FAILED, 1), stress(0), stress(1), stress(2), stress(3)]));
        // Zero stress times infinity.
        let large = [Edit::Setting('t', f32::MAX.to_bits()), Edit::Entry('f', VOLUME, u64::from(f32::MAX.to_bits()))];
        self.ask_call(&call.edited(&[&[Edit::Entry('w', FAILED, 1)], &large[..]].concat()));
    }

    /// Masses that leave none on some nodes or on all, that overflow, and that reach nodes with a weight of 0.
    fn masses(&mut self) {
        let two = |one: (f32, f32), other: (f32, f32)| {
            let mut call = listing().edited(&[Edit::Copies(2)]);
            for (place, (x, mass)) in [one, other].into_iter().enumerate() {
                call.particle_floats[place * PARTICLE_FLOATS] = x.to_bits();
                call.particle_floats[place * PARTICLE_FLOATS + MASS] = mass.to_bits();
            }
            call
        };
        let (large, half) = (f32::MAX, 64.0);
        for (one, other) in [
            ((1.0, half), (1.0, -half)),
            ((0.75, half), (1.25, -half)),
            ((1.0, half), (2.0, -half)),
            ((1.5, half), (2.0, half)),
            ((0.5, half), (1.0, -0.0)),
            ((0.5, 0.0), (1.5, 0.0)),
            ((1.0, large), (1.0, large)),
            ((1.0, large), (1.0, -large)),
            ((1.0, -large), (1.25, -large)),
            ((1.0, 1e-45), (1.0, 1e-44)),
        ] {
            self.ask_call(&two(one, other));
        }
        // A weight of 0 times infinity, on nodes that another particle reaches.
        let infinite = Edit::Entry('f', GRADIENT, u64::from(f32::MAX.to_bits()));
        self.ask_call(&two((1.5, half), (2.0, half)).edited(&[infinite]));
        for count in [3, 7, 250] {
            self.ask_call(&two((1.0, large), (1.0, large)).edited(&[Edit::Copies(count)]));
            let full = full_particle(&mut self.rng);
            self.ask_call(&full.edited(&[Edit::Copies(count)]));
        }
    }

    /// As many regions and particles as there may be, by themselves and together, and few of them in many bytes.
    fn at_the_limits(&mut self) {
        let regions = first_regions(MOST_REGIONS as u64);
        self.ask_call(&listing().on_list(&regions));
        self.ask_call(&listing().edited(&[Edit::Copies(MOST_PARTICLES)]));
        self.ask_call(&listing().edited(&[Edit::Copies(MOST_PARTICLES)]).on_list(&regions));
        for (window, count) in [([29, 29], 60), ([5, 29], 30), ([29, 29], MOST_PARTICLES)] {
            let call = Style::plain(0.5, [0, 0], window, count).sample(&mut self.rng);
            self.ask_call(&call.on_list(&regions));
        }
        let dense = Style::plain(0.25, [6, 6], [1, 1], 90).sample(&mut self.rng);
        self.ask_call(&dense);
        self.ask_call(&full_page(&mut Rng::new(SEED)));
    }
}

fn full_particle(rng: &mut Rng) -> Call {
    let mut call = Style::plain(0.5, [3, 2], [1, 1], 1).sample(rng);
    for (place, float) in [(PHASE, 0.5f32), (CRACK_FACTOR, 2.0), (PSI, 0.75)] {
        call.particle_floats[place] = float.to_bits();
    }
    call.particle_words[FAILED] = 0;
    call
}

// Listings that can be read, and are refused.

/// Flags that are out of range, some of which are 0 or 1 in fewer bits.
const NO_FLAGS: [&str; 9] = ["2", "3", "10", "256", "65537", "4294967295", "4294967296", "4294967297", "18446744073709551615"];

impl Listings {
    fn refused(&mut self) {
        let corner = Style::plain(1.0, [3, 3], [1, 1], 2).sample(&mut self.rng);
        let near = Style::plain(0.3, [21, 38], [3, 6], 6).sample(&mut self.rng);
        let faults = [listed_faults(&corner), listed_faults(&near)];
        faults[0].iter().for_each(|edits| self.ask_call(&corner.edited(edits)));
        faults[1].iter().step_by(5).for_each(|edits| self.ask_call(&near.edited(edits)));
        for place in 0..90 {
            let call = [&corner, &near][place % 2];
            let edits = faults::together(&faults[place % 2], &mut self.rng);
            self.ask_call(&call.edited(&edits));
        }
        for bit in 0..12 {
            let place = bit % corner.ids.len();
            self.ask_call(&corner.edited(&[Edit::Entry('i', place, corner.ids[place] | 1 << bit)]));
        }
        self.flags(&near);
        self.too_many();
        self.uncovered(&near);
        self.last_records();
    }

    /// Flags out of range, alone, twice, and with what comes before and behind them in the table.
    fn flags(&mut self, call: &Call) {
        let (good, last) = (lines(call), 1 + call.ids.len() + call.particles as usize - 1);
        let first = 1 + call.ids.len();
        for (place, flag) in NO_FLAGS.iter().enumerate() {
            let flagged = with_field(&good, first + place % call.particles as usize, 1 + LISTED_FLOATS, flag.as_bytes());
            self.ask_lines(&flagged);
            self.ask_lines(&with_field(&flagged, last, 1 + LISTED_FLOATS, b"7"));
            let others: [(usize, usize, &[u8]); 5] =
                [(0, 2, b"00000000"), (first, 1, b"7FC00000"), (1, 1, b"1"), (1, 2, b"9"), (first, 2, b"00000000")];
            let (line, field, other) = others[place % 5];
            self.ask_lines(&with_field(&flagged, line, field, other));
        }
    }

    /// More regions or particles than there may be, whatever else is wrong.
    fn too_many(&mut self) {
        let w = lines(&Call::on(vec![])).remove(0);
        let p = lines(&listing()).pop().expect("a particle");
        let no_width = with_field(from_ref(&w), 0, 1, b"00000000").remove(0);
        let no_flag = with_field(from_ref(&p), 0, 1 + LISTED_FLOATS, b"2").remove(0);
        let off = with_field(from_ref(&p), 0, 1, b"FF800000").remove(0);
        let empty = b"r\t0\t0\t0\n".to_vec();
        let regions: Lines = lines(&Call::on(first_regions(MOST_REGIONS as u64 + 1))).split_off(1);
        for (first, r, p, counts) in [
            (&w, &regions, &p, [65, 0]),
            (&w, &regions, &p, [0, 257]),
            (&w, &regions, &p, [64, 257]),
            (&w, &regions, &p, [65, 256]),
            (&w, &regions, &p, [65, 257]),
            (&w, &vec![empty.clone(); 1000], &p, [1000, 1]),
            (&w, &regions, &p, [1, 3000]),
            (&no_width, &regions, &p, [65, 1]),
            (&no_width, &regions, &p, [1, 257]),
            (&no_width, &regions, &p, [64, 256]),
            (&w, &vec![empty.clone(); 65], &no_flag, [65, 1]),
            (&w, &vec![empty; 64], &no_flag, [64, 256]),
            (&w, &regions, &off, [1, 257]),
            (&w, &regions, &off, [64, 256]),
            (&w, &regions, &p, [0, 256]),
            (&w, &regions, &p, [64, 256]),
        ] {
            self.ask_lines(&[vec![first.clone()], r[..counts[0]].to_vec(), vec![p.clone(); counts[1]]].concat());
        }
    }

    /// Particles that no region has, and regions whose particles are not there.
    fn uncovered(&mut self, call: &Call) {
        let good = lines(call);
        let (first, last) = (1 + call.ids.len(), good.len() - 1);
        self.ask_lines(&[&good[..1], &good[first..]].concat());
        self.ask_lines(&good[..first]);
        self.ask_lines(&good[..last]);
        self.ask_lines(&[&good[..], &good[last..]].concat());
        for place in 1..first {
            self.ask_lines(&with_line(&good, place, b""));
            self.ask_lines(&with_line(&good, place, &good[place].repeat(2)));
        }
        for place in first..last {
            let mut exchanged = good.clone();
            exchanged.swap(place, place + 1);
            self.ask_lines(&exchanged);
        }
        self.ask_lines(&[lines(&listing()).remove(0), lines(&listing()).remove(2)]);
    }

    /// The last of as many regions and particles as there may be.
    fn last_records(&mut self) {
        let full = lines(&listing().edited(&[Edit::Copies(MOST_PARTICLES)]).on_list(&first_regions(MOST_REGIONS as u64)));
        let last = full.len() - 1;
        let changes: [(usize, usize, &[u8]); 12] = [
            (last, 1 + LISTED_FLOATS, b"2"),
            (last, 1 + LISTED_FLOATS, b"x"),
            (last, LISTED_FLOATS, b"7F800000"),
            (last, 1, b"00000000"),
            (last, 2, b"40A00000"),
            (last, 1, b"49800000"),
            (MOST_REGIONS, 1, b"258049"),
            (MOST_REGIONS, 1, b"0"),
            (MOST_REGIONS, 2, b"255"),
            (MOST_REGIONS, 3, b"1"),
            (1, 3, b"255"),
            (4, 1, b"16384"),
        ];
        for (line, field, other) in changes {
            self.ask_lines(&with_field(&full, line, field, other));
        }
        let few = lines(&listing().edited(&[Edit::Copies(MOST_PARTICLES)]));
        self.ask_lines(&with_field(&few, few.len() - 1, 1, b"40400000"));
        self.ask_lines(&with_field(&few, few.len() - 1, 1, b"41400000"));
    }
}

/// What a scatter can be refused for, as far as a listing can say it.
fn listed_faults(call: &Call) -> Vec<Vec<Edit>> {
    let is_listed = |edit: &Edit| match *edit {
        Edit::Setting(..) => true,
        Edit::Entry('f', place, _) => place % PARTICLE_FLOATS < LISTED_FLOATS,
        Edit::Entry('w', place, _) => place % PARTICLE_WORDS == FAILED,
        Edit::Entry('i' | 's', ..) => true,
        _ => false,
    };
    faults::of_scatter(call).into_iter().filter(|edits| edits.iter().all(is_listed)).collect()
}

// Listings that cannot be read.

impl Listings {
    fn unreadable(&mut self) {
        let corner = Style::plain(1.0, [3, 3], [1, 1], 2).sample(&mut self.rng);
        let good = lines(&corner);
        self.ask(b"");
        for text in [&b"\n"[..], b"\n\n", b"w", b"w\t", b"\0", b"\r\n", b"p", b"hello\n", b"ok\t0\n"] {
            self.ask(text);
        }
        self.fields(&good);
        self.ends(&good);
        self.orders(&good);
        self.behind_many(&good);
        self.behind_faults(&good);
        for _ in 0..130 {
            let changed = changed_bytes(&good.concat(), &mut self.rng);
            self.ask(&changed);
        }
    }

    /// Each kind of field in each kind of line.
    fn fields(&mut self, good: &[Vec<u8>]) {
        let last = good.len() - 1;
        for (place, other) in NO_FLOATS.iter().enumerate() {
            self.ask_lines(&with_field(good, 0, 1 + place % 4, other));
            self.ask_lines(&with_field(good, last - place % 2, 1 + place % LISTED_FLOATS, other));
        }
        for (place, other) in NO_NUMBERS.iter().enumerate() {
            (1..4).for_each(|field| self.ask_lines(&with_field(good, 1 + (place + field) % 4, field, other)));
            self.ask_lines(&with_field(good, last - place % 2, 1 + LISTED_FLOATS, other));
        }
        for field in 1..4 {
            for large in [&b"18446744073709551615"[..], b"18446744073709551614", b"10000000000000000000", b"9223372036854775808"]
            {
                self.ask_lines(&with_field(good, 2, field, large));
            }
        }
        // The longest line that can be read.
        self.ask_lines(&with_line(good, 4, b"r\t18446744073709547520\t18446744073709551615\t18446744073709551615\n"));
        for (line, field) in [(0, 4), (1, 3), (2, 1), (last, 1), (last, 1 + LISTED_FLOATS)] {
            self.ask_lines(&with_field(good, line, field, b""));
        }
        for (place, letter) in NO_LETTERS.iter().enumerate() {
            self.ask_lines(&with_field(good, 0, 0, letter));
            self.ask_lines(&with_field(good, [1, 2, last][place % 3], 0, letter));
        }
        // A field more or less, in front or behind.
        for line in [0, 1, last] {
            let text = good[line].strip_suffix(b"\n").expect("a whole line");
            let fields: Vec<&[u8]> = text.split(|byte| *byte == b'\t').collect();
            let (first, rest, end) = (fields[0], &fields[1..], fields[fields.len() - 1]);
            for other in [
                [&[first], &rest[1..]].concat(),
                fields[..fields.len() - 1].to_vec(),
                [&fields[..], &[end]].concat(),
                [&fields[..], &[b""]].concat(),
                [&fields[..], &[b"0"]].concat(),
                [&[&b""[..]], &fields[..]].concat(),
                [&[first, b""], rest].concat(),
                [&[first], &fields[..]].concat(),
                rest.to_vec(),
                vec![first],
            ] {
                self.ask_lines(&with_line(good, line, &[other.join(&b'\t'), b"\n".to_vec()].concat()));
            }
            let blanks = good[line].iter().map(|byte| if *byte == b'\t' { b' ' } else { *byte });
            self.ask_lines(&with_line(good, line, &blanks.collect::<Vec<u8>>()));
            let lower: Vec<u8> = good[line].to_ascii_lowercase();
            self.ask_lines(&with_line(good, line, &lower));
        }
    }

    /// What ends a line, and what ends the text.
    fn ends(&mut self, good: &[Vec<u8>]) {
        for end in
            [&b""[..], b"\r\n", b"\n\n", b" \n", b"\t\n", b"\0\n", b"\r", b"\n\r", b"\n\r\n", b"\x0B\n", b"\x0C", b"\xC2\x85"]
        {
            for line in [0, 2, good.len() - 1] {
                let text = good[line].strip_suffix(b"\n").expect("a whole line");
                self.ask_lines(&with_line(good, line, &[text, end].concat()));
            }
        }
        let text = good.concat();
        for behind in NO_LINES {
            self.ask(&[&text[..], behind].concat());
            self.ask(&[behind, &text[..]].concat());
        }
        for behind in [&b" "[..], b"\0", b"p", b"\x1A", &good[good.len() - 1][..20]] {
            self.ask(&[&text[..], behind].concat());
        }
        let crs = text.iter().flat_map(|byte| if *byte == b'\n' { vec![b'\r', b'\n'] } else { vec![*byte] });
        self.ask(&crs.collect::<Vec<u8>>());
        let w = &good[0];
        self.ask(&w[..w.len() - 1]);
        self.ask(&[&w[..w.len() - 1], b"\r\n"].concat());
        self.ask(&[&w[..], b"\n"].concat());
    }

    /// Lines that could be read elsewhere.
    fn orders(&mut self, good: &[Vec<u8>]) {
        let first = good.iter().position(|line| line[0] == b'p').expect("a particle");
        let (w, r, p) = (&good[..1], &good[1..first], &good[first..]);
        for order in [
            [r, p].concat(),
            [p, r].concat(),
            [r, w, p].concat(),
            [r, p, w].concat(),
            [p, w, r].concat(),
            [w, p, r].concat(),
            [w, w, r, p].concat(),
            [w, r, w, p].concat(),
            [w, r, p, w].concat(),
            [w, w].concat(),
            [w, r, p, r].concat(),
            [w, r, p, r, p].concat(),
            [w, r, &p[..1], &r[..1], &p[1..]].concat(),
            [w, p, r, p].concat(),
            [w, r, p, w, r, p].concat(),
            r.to_vec(),
            p.to_vec(),
        ] {
            self.ask_lines(&order);
        }
        for _ in 0..20 {
            let mut shuffled = good.to_vec();
            self.rng.shuffle(&mut shuffled[1..]);
            self.ask_lines(&shuffled);
        }
    }

    /// A line that cannot be read behind more than there may be, and behind as many.
    fn behind_many(&mut self, good: &[Vec<u8>]) {
        let (w, r, p) = (&good[0], &good[1], &good[good.len() - 1]);
        let counts = [[1, 256], [1, 257], [1, 300], [64, 1], [65, 1], [65, 0], [513, 0], [65, 257], [0, 3000]];
        for (place, [regions, particles]) in counts.into_iter().enumerate() {
            let lines = [vec![w.clone()], vec![r.clone(); regions], vec![p.clone(); particles]].concat();
            let behind: [&[u8]; 4] = match particles {
                0 => [b"r\t0\t00\t0\n", b"r\t0\t0\n", w, b"p"],
                _ => [NO_LINES[place], r, w, &p[..p.len() - 1]],
            };
            for other in behind {
                self.ask(&[&lines.concat()[..], other].concat());
            }
            let middle = lines.len() - 2;
            self.ask_lines(&with_field(&lines, middle, 1, b"g"));
        }
    }

    /// A line that cannot be read, behind or ahead of one that is refused for something else.
    fn behind_faults(&mut self, good: &[Vec<u8>]) {
        let last = good.len() - 1;
        let refused: [(usize, usize, &[u8]); 10] = [
            (0, 1, b"00000000"),
            (0, 2, b"80000000"),
            (0, 3, b"7FC00000"),
            (last - 1, 1 + LISTED_FLOATS, b"2"),
            (last - 1, 5, b"FF800000"),
            (1, 1, b"64"),
            (2, 1, b"0"),
            (1, 3, b"5"),
            (last - 1, 1, b"80000000"),
            (last - 1, 2, b"47000000"),
        ];
        for (place, (line, field, other)) in refused.into_iter().enumerate() {
            let faulty = with_field(good, line, field, other);
            self.ask_lines(&faulty);
            self.ask_lines(&with_field(&faulty, last, 1 + place, b"3f800000"));
            self.ask_lines(&with_field(&faulty, 3, 1 + place % 3, b"+1"));
            self.ask(&[&faulty.concat(), NO_LINES[place]].concat());
        }
    }
}

#[cfg(test)]
mod tests {
    use super::*;
    use crate::vectors::format::rows;
    use samples::listing::text;
    use std::collections::{BTreeMap, BTreeSet};

    /// Every listing and its answer.
    fn listings() -> Vec<(Vec<u8>, String)> {
        let sheet = make();
        let found = rows(&sheet).map(|(question, answer)| (text(&question[1..]), String::from_utf8(text(&answer)).unwrap()));
        found.collect()
    }

    #[test]
    fn every_listing_is_read_again() {
        let listings = listings();
        assert!(listings.len() >= 1000, "{}", listings.len());
        for (text, answer) in &listings {
            assert_eq!(&printed(text), answer);
        }
        let texts: BTreeSet<&Vec<u8>> = listings.iter().map(|(text, _)| text).collect();
        assert_eq!(texts.len(), listings.len());
    }

    /// Every number that the program can answer, often and with several indices; number 1 it cannot.
    #[test]
    fn every_number_is_answered_often() {
        let mut found: BTreeMap<u32, Vec<u64>> = BTreeMap::new();
        let mut nodes = BTreeSet::new();
        for (_, answer) in listings() {
            let last = answer.lines().last().unwrap();
            let fields: Vec<&str> = last.split('\t').collect();
            match fields[..] {
                ["ok", count] => drop(nodes.insert(count.parse::<u64>().unwrap())),
                ["no", number, index] => found.entry(number.parse().unwrap()).or_default().push(index.parse().unwrap()),
                _ => panic!("{}", last),
            }
        }
        assert!(found.keys().copied().eq(2..=11));
        for (number, indices) in &found {
            let different: BTreeSet<&u64> = indices.iter().collect();
            assert!(indices.len() >= 10, "{} {}", number, indices.len());
            assert!(*number < 4 || different.len() >= 4, "{} {:?}", number, different);
            assert!(![4, 5, 8, 9, 10].contains(number) || different.contains(&255), "{} {:?}", number, different);
            assert!(![6, 7].contains(number) || different.contains(&63), "{} {:?}", number, different);
        }
        assert!(nodes.len() >= 25 && nodes.contains(&0) && nodes.contains(&1024), "{:?}", nodes);
    }

    /// The listing by hand prints the same, and each wrong one something else for some listing.
    #[test]
    fn wrong_listings_are_told_apart() {
        let listings = listings();
        let told = |wrong: &str| listings.iter().filter(|(text, answer)| by_hand::printed(text, wrong) != *answer).count();
        assert_eq!(told(""), 0);
        let untold: Vec<&&str> = by_hand::WRONG.iter().filter(|wrong| told(wrong) == 0).collect();
        assert!(untold.is_empty(), "{:?}", untold);
    }

    #[test]
    fn random_listings_are_document_01s() {
        let mut book = Listings { sheet: Sheet::titled("", "", &[], &[]), rng: Rng::new(SEED ^ 1) };
        for _ in 0..1500 {
            let call = Style::any(&mut book.rng).sample(&mut book.rng);
            let good = lines(&call).concat();
            assert_eq!(printed(&good), by_hand::printed(&good, ""));
            let changed = changed_bytes(&good, &mut book.rng);
            assert_eq!(printed(&changed), by_hand::printed(&changed, ""), "{:?}", pieces(&changed));
            let mut shuffled = lines(&call);
            book.rng.shuffle(&mut shuffled[1..]);
            assert_eq!(printed(&shuffled.concat()), by_hand::printed(&shuffled.concat(), ""));
        }
    }
}
