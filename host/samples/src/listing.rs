//! Bench listings as texts: those of calls, with other fields or lines, and as they are written in vectors.

use crate::particle::{FAILED, PSI};
use crate::{Call, PARTICLE_FLOATS, PARTICLE_WORDS};

/// The lines of a listing, good or not, each with its line feed.
pub type Lines = Vec<Vec<u8>>;

/// The floats of a `p` line: those of the record up to psi.
pub const LISTED_FLOATS: usize = PSI + 1;

/// The program's own limits, which are below those of a call.
pub const MOST_REGIONS: usize = 64;
pub const MOST_PARTICLES: usize = 256;

/// A call of a scatter as a listing, with as much of it as a listing has.
pub fn lines(call: &Call) -> Lines {
    let floats = |floats: &[u32]| floats.iter().map(|bits| format!("\t{:08X}", bits)).collect::<String>();
    let settings = [call.cell_width, call.dt, call.gravity[0], call.gravity[1]].map(f32::to_bits);
    let mut found = vec![format!("w{}\n", floats(&settings))];
    let regions = call.ids.iter().zip(call.ranges.chunks(2));
    found.extend(regions.map(|(id, range)| format!("r\t{}\t{}\t{}\n", id, range[0], range[1])));
    let particles = call.particle_floats.chunks(PARTICLE_FLOATS).zip(call.particle_words.chunks(PARTICLE_WORDS));
    found.extend(particles.map(|(own, words)| format!("p{}\t{}\n", floats(&own[..LISTED_FLOATS]), words[FAILED])));
    found.into_iter().map(String::into_bytes).collect()
}

/// A text's lines, each with its line feed; the last may lack it.
pub fn split(text: &[u8]) -> impl Iterator<Item = &[u8]> {
    text.split_inclusive(|byte| *byte == b'\n')
}

/// The lines with another field in one of them; field 0 is the letter.
pub fn with_field(lines: &[Vec<u8>], line: usize, field: usize, other: &[u8]) -> Lines {
    let mut lines = lines.to_vec();
    let text = lines[line].strip_suffix(b"\n").expect("a whole line");
    let mut fields: Vec<&[u8]> = text.split(|byte| *byte == b'\t').collect();
    fields[field] = other;
    let text = [fields.join(&b'\t'), b"\n".to_vec()].concat();
    lines[line] = text;
    lines
}

/// The lines with this in place of one of them, which may be none or several.
pub fn with_line(lines: &[Vec<u8>], line: usize, other: &[u8]) -> Lines {
    let mut lines = lines.to_vec();
    lines[line] = other.to_vec();
    lines
}

/// A text's lines, each as it is written in vectors, and those that are alike in a row as one.
pub fn pieces(text: &[u8]) -> Vec<String> {
    let mut found: Vec<(usize, &[u8])> = vec![];
    for line in split(text) {
        match found.last_mut() {
            Some((count, last)) if *last == line => *count += 1,
            _ => found.push((1, line)),
        }
    }
    let written = |line: &[u8]| line.iter().map(|byte| shown(*byte)).collect::<String>();
    found.iter().map(|(count, line)| if *count > 1 { format!("{}*{}", count, written(line)) } else { written(line) }).collect()
}

fn shown(byte: u8) -> String {
    match byte {
        b'\t' => "\\t".to_string(),
        b'\n' => "\\n".to_string(),
        b'\\' | b'*' => format!("\\x{:02X}", byte),
        b'!'..=b'~' => char::from(byte).to_string(),
        _ => format!("\\x{:02X}", byte),
    }
}

/// A text from its pieces.
pub fn text(pieces: &[&str]) -> Vec<u8> {
    pieces.iter().flat_map(|piece| unfolded(piece)).collect()
}

fn unfolded(piece: &str) -> Vec<u8> {
    let (count, line) = piece.split_once('*').map_or((1, piece), |(count, line)| (count.parse().expect("a count"), line));
    let mut parts = line.split('\\');
    let mut bytes = parts.next().unwrap_or("").as_bytes().to_vec();
    for part in parts {
        let (byte, length) = match part.as_bytes()[0] {
            b't' => (b'\t', 1),
            b'n' => (b'\n', 1),
            _ => (u8::from_str_radix(&part[1..3], 16).expect("a byte's digits"), 3),
        };
        bytes.push(byte);
        bytes.extend(part[length..].bytes());
    }
    bytes.repeat(count)
}

#[cfg(test)]
mod tests {
    use super::*;

    #[test]
    fn every_byte_is_written_and_read_again() {
        let written = ["a\\x5C\\x2A", "3*\\t\\xFF\\n"];
        assert_eq!(text(&written), b"a\\*\t\xFF\n\t\xFF\n\t\xFF\n");
        assert_eq!(pieces(b"\\*\n \n \n~"), ["\\x5C\\x2A\\n", "2*\\x20\\n", "~"]);
        let all: Vec<u8> = (0..=255).chain((0..=255).rev()).collect();
        let written = pieces(&all);
        assert_eq!(text(&written.iter().map(String::as_str).collect::<Vec<&str>>()), all);
    }

    #[test]
    fn a_call_has_a_line_for_each_of_its_records() {
        let call = Call::of_one(&[(0, 1.0), (PSI, 2.0)], &[FAILED]);
        let lines = lines(&call);
        assert_eq!(lines[..2], [b"w\t3F800000\t3F800000\t00000000\t00000000\n".to_vec(), b"r\t0\t0\t1\n".to_vec()]);
        assert!(lines[2].starts_with(b"p\t3F800000\t00000000\t") && lines[2].ends_with(b"\t40000000\t1\n"));
        assert_eq!(with_field(&lines, 1, 3, b"7")[1], b"r\t0\t0\t7\n");
        assert_eq!(with_line(&lines, 0, b"").concat(), lines[1..].concat());
    }
}
