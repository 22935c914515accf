//! The bench listing, as document 01 says it: what the program prints for an input. Lines are read and nodes printed here, what a listing
//! is refused for behind its lines is `reading`'s, and the nodes are the handed-over Rust's.

use crate::reading::{self, Refusal, Which};
use samples::listing::{LISTED_FLOATS, MOST_PARTICLES, MOST_REGIONS};
use samples::particle::FAILED;
use samples::{canonical, Call, NODE_FLOATS, PARTICLE_FLOATS, PARTICLE_WORDS, REGION_NODES, VELOCITY};
use sparkl2d::geometry::way_in::unpack;
use sparkl2d::scene::Scene;
use sparkl2d::MmapMut;

/// What the program prints.
pub fn printed(text: &[u8]) -> String {
    match read(text).and_then(nodes) {
        Ok(lines) => format!("{}ok\t{}\n", lines.concat(), lines.len()),
        Err(Refusal { number, index }) => format!("no\t{}\t{}\n", number, index),
    }
}

/// A line by itself.
enum Line {
    Settings([u32; 4]),
    Region([u64; 3]),
    Particle([u32; LISTED_FLOATS], u64),
}

/// What lines have told so far.
#[derive(Default)]
struct Listing {
    settings: Option<[u32; 4]>,
    regions: Vec<[u64; 3]>,
    particles: Vec<([u32; LISTED_FLOATS], u64)>,
}

/// All lines, before anything else is judged: 11 with the index of the first that is not readable, or at which one is missing.
fn read(text: &[u8]) -> Result<Listing, Refusal> {
    let mut listing = Listing::default();
    for (index, bytes) in text.split_inclusive(|byte| *byte == b'\n').enumerate() {
        line(bytes).and_then(|line| listing.take(line)).ok_or(Refusal { number: 11, index })?;
    }
    listing.settings.map(|_| ()).ok_or(Refusal { number: 11, index: 0 })?;
    Ok(listing)
}

impl Listing {
    /// One `w`, then `r`, then `p`: nothing where this line may not stand here.
    fn take(&mut self, line: Line) -> Option<()> {
        match (line, self.settings) {
            (Line::Settings(settings), None) => self.settings = Some(settings),
            (Line::Region(region), Some(_)) if self.particles.is_empty() => self.regions.push(region),
            (Line::Particle(floats, failed), Some(_)) => self.particles.push((floats, failed)),
            _ => return None,
        }
        Some(())
    }
}

/// A readable line, its line feed with it.
fn line(bytes: &[u8]) -> Option<Line> {
    let text = std::str::from_utf8(bytes.strip_suffix(b"\n")?).ok()?;
    let fields: Vec<&str> = text.split('\t').collect();
    match fields[..] {
        ["w", ref floats @ ..] => Some(Line::Settings(all(floats, float)?)),
        ["r", ref numbers @ ..] => Some(Line::Region(all(numbers, number)?)),
        ["p", ref floats @ .., failed] => Some(Line::Particle(all(floats, float)?, number(failed)?)),
        _ => None,
    }
}

/// So many fields and no more, each of which is good.
fn all<T, const COUNT: usize>(fields: &[&str], good: impl Fn(&str) -> Option<T>) -> Option<[T; COUNT]> {
    fields.iter().map(|field| good(field)).collect::<Option<Vec<T>>>()?.try_into().ok()
}

/// The bits of a float: 8 hex digits, the letters among them upper case.
fn float(field: &str) -> Option<u32> {
    let is_good = field.len() == 8 && field.bytes().all(|byte| matches!(byte, b'0'..=b'9' | b'A'..=b'F'));
    is_good.then(|| u32::from_str_radix(field, 16).expect("8 hex digits"))
}

/// A number below 2^64 in decimal digits, of which the first is 0 only where it is the only one.
fn number(field: &str) -> Option<u64> {
    let is_good = field.bytes().all(|byte| byte.is_ascii_digit()) && (field == "0" || !field.starts_with('0'));
    is_good.then(|| field.parse().ok()).flatten()
}

/// The `n` lines of a listing that is not refused.
fn nodes(listing: Listing) -> Result<Vec<String>, Refusal> {
    if listing.regions.len() > MOST_REGIONS || listing.particles.len() > MOST_PARTICLES {
        return Err(Refusal { number: 2, index: 0 });
    }
    let call = call(&listing);
    match reading::scatter(&Which::All, &call) {
        Some(refusal) => Err(refusal),
        None => Ok(scattered(&call)),
    }
}

/// The scatter that is asked for. What a particle's line does not have is 0, and a flag above 1 stays out of range.
fn call(listing: &Listing) -> Call {
    let [cell_width, dt, x, y] = listing.settings.expect("a `w` line").map(f32::from_bits);
    let mut call = Call { cell_width, dt, gravity: [x, y], ..Call::on(listing.regions.iter().map(|[id, ..]| *id).collect()) };
    call.ranges = listing.regions.iter().flat_map(|[_, start, count]| [*start, *count]).collect();
    call.particles = listing.particles.len() as u64;
    for (listed, failed) in &listing.particles {
        let (mut floats, mut words) = ([0; PARTICLE_FLOATS], [0; PARTICLE_WORDS]);
        floats[..LISTED_FLOATS].copy_from_slice(listed);
        words[FAILED] = (*failed).min(2) as u32;
        call.particle_floats.extend(floats);
        call.particle_words.extend(words);
    }
    call
}

/// The nodes that the Rust leaves with a mass, each in its line.
fn scattered(call: &Call) -> Vec<String> {
    let mut scene = Scene::new(call, MmapMut::sparse());
    scene.clear();
    scene.scatter();
    let (floats, _) = scene.nodes();
    let cells = call.ids.iter().flat_map(|id| (0..REGION_NODES as u64).map(move |cell| unpack(id | cell << 6)));
    let nodes = cells.zip(floats.chunks_exact(NODE_FLOATS));
    nodes.filter(|(_, node)| f32::from_bits(node[0]) != 0.0).map(|(cell, node)| node_line(cell, node)).collect()
}

/// The cell's x and y, and the node's mass, momentum and velocity.
fn node_line([x, y]: [u32; 2], node: &[u32]) -> String {
    let floats: String = node[..VELOCITY + 2].iter().map(|bits| format!("\t{:08X}", canonical(*bits))).collect();
    format!("n\t{}\t{}{}\n", x, y, floats)
}

#[cfg(test)]
mod tests {
    use super::*;

    const W: &str = "w 3F800000 3F800000 00000000 00000000\n";
    const R: &str = "r 0 0 1\n";

    /// A particle of mass 64 and volume 1 at this x, at y = 1, and with the velocity (1, 0).
    fn p(x: &str, failed: &str) -> String {
        let zeros = "00000000 ".repeat(9);
        format!("p {} 3F800000 3F800000 {}42800000 3F800000 00000000 00000000 00000000 {}\n", x, zeros, failed)
    }

    fn one() -> String {
        p("3F800000", "0")
    }

    /// What is printed for these lines, whose blanks stand for tabs in both.
    fn answer(lines: &[&str]) -> String {
        printed(lines.concat().replace(' ', "\t").as_bytes()).replace('\t', " ")
    }

    fn assert_refused(lines: &[&str], number: u32, index: usize) {
        assert_eq!(answer(lines), format!("no {} {}\n", number, index), "{:?}", lines);
    }

    const DOCUMENT_01: &str = "\
n 0 0 3F800000 3F800000 00000000 3F800000 00000000
n 1 0 40C00000 40C00000 00000000 3F800000 00000000
n 2 0 3F800000 3F800000 00000000 3F800000 00000000
n 0 1 40C00000 40C00000 00000000 3F800000 00000000
n 1 1 42100000 42100000 00000000 3F800000 00000000
n 2 1 40C00000 40C00000 00000000 3F800000 00000000
n 0 2 3F800000 3F800000 00000000 3F800000 00000000
n 1 2 40C00000 40C00000 00000000 3F800000 00000000
n 2 2 3F800000 3F800000 00000000 3F800000 00000000
ok 9
";

    #[test]
    fn document_01s_listing_to_the_byte() {
        let text = format!("{}{}{}", W, R, one()).replace(' ', "\t");
        assert_eq!(printed(text.as_bytes()), DOCUMENT_01.replace(' ', "\t"));
    }

    #[test]
    fn counts_are_judged_behind_all_lines_and_ahead_of_3() {
        let particles = one().repeat(300);
        assert_refused(&[W, R, &particles], 2, 0);
        assert_refused(&[W, R, &particles, "p\n"], 11, 302);
        assert_refused(&[W, &"r 0 0 0\n".repeat(65)], 2, 0);
        assert_refused(&[W, &"r 0 0 0\n".repeat(65), "r 0 0\n"], 11, 66);
        assert_refused(&["w 00000000 3F800000 00000000 00000000\n", &one().repeat(257)], 2, 0);
        assert_refused(&[W, &"r 0 0 0\n".repeat(64)], 6, 1);
        assert_refused(&[W, &one().repeat(256)], 7, 0);
        assert_refused(&[W, &"r 0 0 0\n".repeat(65), &one().repeat(257)], 2, 0);
    }

    #[test]
    fn settings_alone_are_accepted_and_particles_without_regions_are_left_over() {
        assert_eq!(answer(&[W]), "ok 0\n");
        assert_eq!(answer(&[W, "r 0 0 0\n"]), "ok 0\n");
        assert_refused(&[W, &one()], 7, 0);
        assert_refused(&[W, &p("7FC00000", "0")], 5, 0);
    }

    #[test]
    fn one_w_then_r_then_p() {
        assert_refused(&[W, R, &one(), "r 4096 1 0\n"], 11, 3);
        assert_refused(&[W, R, &one(), "r 4096 1 0\n", &one()], 11, 3);
        assert_refused(&[W, W], 11, 1);
        assert_refused(&[W, R, W, &one()], 11, 2);
        for first in [R, &one(), "\n", "w 3F800000 3F800000 00000000\n", "W 3F800000 3F800000 00000000 00000000\n"] {
            assert_refused(&[first, W, R, &one()], 11, 0);
        }
    }

    #[test]
    fn every_line_has_its_line_feed_and_no_line_is_empty() {
        assert_refused(&[""], 11, 0);
        assert_refused(&["\n"], 11, 0);
        assert_refused(&[W.trim_end()], 11, 0);
        assert_refused(&[W, R, one().trim_end()], 11, 2);
        assert_refused(&[W, R, &one(), "p"], 11, 3);
        assert_refused(&[W, R, &one(), "\n"], 11, 3);
        assert_refused(&[W, "\n", R, &one()], 11, 1);
    }

    #[test]
    fn whole_numbers_are_below_2_to_the_64() {
        let (last, beyond) = ("18446744073709551615", "18446744073709551616");
        for failed in ["2", "10", "256", "4294967296", "4294967297", last] {
            assert_refused(&[W, R, &p("3F800000", failed)], 4, 0);
        }
        for failed in [beyond, "36893488147419103232", "00", "01", "+1", "-0", "", "1.0", "0x1", "1e0"] {
            assert_refused(&[W, R, &p("3F800000", failed)], 11, 2);
        }
        assert_refused(&[W, &format!("r {} 0 1\n", last), &one()], 6, 0);
        assert_refused(&[W, &format!("r 0 {} 1\n", last), &one()], 7, 0);
        assert_refused(&[W, &format!("r 0 0 {}\n", last), &one()], 7, 0);
        for region in [[beyond, "0", "1"], ["0", beyond, "1"], ["0", "0", beyond]] {
            assert_refused(&[W, &format!("r {}\n", region.join(" ")), &one()], 11, 1);
        }
        assert_refused(&[W, "r 1 0 1\n", &one()], 6, 0);
        assert_refused(&[W, "r 2048 0 1\n", &one()], 6, 0);
    }

    #[test]
    fn records_are_counted_by_their_kind() {
        assert_refused(&[W, "r 0 0 2\n", "r 4096 2 0\n", &one(), &p("3F800000", "2")], 4, 1);
        assert_refused(&[W, "r 0 0 2\n", "r 4096 2 0\n", &one(), &p("7F800000", "0")], 5, 1);
        assert_refused(&[W, "r 0 0 1\n", "r 4096 1 0\n", "r 4096 1 0\n", &one()], 6, 2);
        assert_refused(&[W, "r 0 0 1\n", "r 4096 0 0\n", &one()], 7, 1);
        assert_refused(&[W, "r 0 0 2\n", &one(), &p("00000000", "0")], 8, 1);
        assert_refused(&[W, "r 0 0 1\n", "r 4096 1 1\n", &one(), &one()], 9, 1);
        assert_refused(&[W, "r 0 0 2\n", &one(), &p("40400000", "0")], 10, 1);
    }

    #[test]
    fn any_eight_upper_case_digits_are_a_float() {
        for float in ["7F800000", "FF800000", "7FC00000", "FFFFFFFF", "7F800001"] {
            assert_refused(&[&format!("w 3F800000 3F800000 {} 00000000\n", float)], 3, 0);
            assert_refused(&[W, R, &p(float, "0")], 5, 0);
        }
        for float in ["3f800000", "3F80000", "03F800000", "3F80000G", "0x3F8000", "+3F80000", "1.000000", "1", ""] {
            assert_refused(&[W, R, &p(float, "0")], 11, 2);
        }
    }

    #[test]
    fn no_other_byte_is_passed_over() {
        for (wrong, index) in [("w\r", 0), ("w\0", 0), ("r\r", 1), ("p\u{a0}", 2)] {
            let lines = [W, R, &one()].map(|line| line.replace(&wrong[..1], wrong));
            assert_refused(&[&lines.concat()], 11, index);
        }
        for end in [" \n", "\r\n", "\0\n", "0\n", " 0\n", "\u{b}\n"] {
            for (index, line) in [W, R, &one()].iter().enumerate() {
                let mut lines = [W, R, &one()].map(str::to_string);
                lines[index] = line.replace('\n', end);
                let is_longer_count = index == 1 && end == "0\n";
                let (number, index) = if is_longer_count { (7, 0) } else { (11, index) };
                assert_refused(&[&lines.concat()], number, index);
            }
        }
        let blanks = [W, R, &one()].concat();
        assert_eq!(printed(blanks.as_bytes()), "no\t11\t0\n");
        assert_eq!(printed(b"\xEF\xBB\xBFw\n\xFF"), "no\t11\t0\n");
    }

    /// Half way between cells the last row of weights is 0; two particles of opposite masses leave none anywhere.
    #[test]
    fn a_node_without_mass_is_not_printed() {
        let half = answer(&[W, R, &p("3FC00000", "0")]);
        assert!(half.ends_with("ok 6\n"), "{}", half);
        let other = one().replace("42800000", "C2800000");
        assert_eq!(answer(&[W, "r 0 0 2\n", &one(), &other]), "ok 0\n");
        assert!(answer(&[W, R, &other]).starts_with("n 0 0 BF800000 BF800000 00000000 3F800000 80000000\n"));
        for zero in ["00000000", "80000000"] {
            assert_eq!(answer(&[W, R, &one().replace("42800000", zero)]), "ok 0\n");
        }
    }

    #[test]
    fn every_nan_is_printed_alike() {
        let largest = one().replace("42800000", "7F7FFFFF");
        let found = answer(&[W, "r 0 0 4\n", &largest.repeat(4)]);
        assert!(found.contains("n 1 1 7F800000 7F800000 00000000 7FC00000 7FC00000\n"), "{}", found);
        assert!(found.ends_with("ok 9\n"));
    }
}
