//! Texts that are almost listings: good ones of any shape, and what can be done to them. All comes from a seed.

use crate::lines::Edit;
use crate::listing::{lines, split, Lines, MOST_PARTICLES, MOST_REGIONS};
use crate::random::{sorted_again, Style};
use crate::{Call, Rng, PARTICLE_FLOATS};

/// No floats, as a field; the last few are good ones with a byte too much.
pub const NO_FLOATS: [&[u8]; 24] = [
    b"",
    b"0",
    b"1",
    b"1.0",
    b"3F80000",
    b"03F800000",
    b"3F8000000",
    b"3f800000",
    b"3F80000f",
    b"3F80000G",
    b"3F80000O",
    b"0x3F8000",
    b"0X3F8000",
    b"+3F80000",
    b"-3F80000",
    b"3F8 0000",
    b"3F80_000",
    b"3F80000\xC3",
    b"NaN",
    b"infinity",
    b" 3F800000",
    b"3F800000 ",
    b"3F800000\0",
    b"3F800000\r",
];

/// No whole numbers, as a field.
pub const NO_NUMBERS: [&[u8]; 22] = [
    b"",
    b"00",
    b"01",
    b"000",
    b"-0",
    b"-1",
    b"+0",
    b"+1",
    b" 1",
    b"1 ",
    b"0\r",
    b"0\0",
    b"0.0",
    b"1e0",
    b"0x1",
    b"A",
    b"1_000",
    b"18446744073709551616",
    b"18446744073709551617",
    b"99999999999999999999",
    b"100000000000000000000000000000000000000000",
    b"\xD9\xA1",
];

/// Letters that begin no line, or not this one.
pub const NO_LETTERS: [&[u8]; 12] = [b"", b"W", b"ww", b" w", b"w ", b"x", b"n", b"#", b"\0", b"\xEF\xBB\xBFw", b"r", b"p"];

/// Whole lines that cannot be read, wherever they stand.
pub const NO_LINES: [&[u8]; 16] = [
    b"\n",
    b"\r\n",
    b" \n",
    b"\t\n",
    b"\0\n",
    b"# a comment\n",
    b"w\n",
    b"r\n",
    b"p\n",
    b"r\t\n",
    b"p\t\n",
    b"ok\t0\n",
    b"no\t11\t0\n",
    b"\xFF\xFE\n",
    b"\xE2\x80\xA8\n",
    b"x",
];

/// Floats that can be read, and are out of their range, at the end of it, or strange.
const ODD_FLOATS: [&[u8]; 16] = [
    b"7FC00000",
    b"FFC00000",
    b"7F800001",
    b"FFFFFFFF",
    b"7F800000",
    b"FF800000",
    b"80000000",
    b"00000000",
    b"00000001",
    b"80000001",
    b"7F7FFFFF",
    b"FF7FFFFF",
    b"BF800000",
    b"49800001",
    b"35800000",
    b"477FFF00",
];

/// Whole numbers that can be read, likewise.
const ODD_NUMBERS: [&[u8]; 16] = [
    b"0",
    b"1",
    b"2",
    b"3",
    b"255",
    b"256",
    b"257",
    b"4095",
    b"4096",
    b"8192",
    b"4294967296",
    b"4294967297",
    b"9223372036854775808",
    b"18446744073709547520",
    b"18446744073709551614",
    b"18446744073709551615",
];

/// A listing that is good, but for one that has more regions or particles than there may be.
pub fn good(rng: &mut Rng) -> Vec<u8> {
    lines(&shape(rng)).concat()
}

/// Few particles mostly, since these are many texts; now and then as many regions or particles as there may be, or some more.
fn shape(rng: &mut Rng) -> Call {
    match rng.below(200) {
        0 => Call::on(regions(near(MOST_REGIONS, rng))),
        1 => of_one(rng).edited(&[Edit::Copies(near(MOST_PARTICLES, rng))]),
        2 | 3 => on_more_regions(of_one(rng), near(MOST_REGIONS, rng)),
        4..=7 => of_one(rng).edited(&[Edit::Copies(2 + rng.below(30) as usize)]),
        8 | 9 => full_page(rng),
        10..=19 => Call::on(regions(rng.below(6) as usize)),
        20..=39 => Style::any(rng).sample(rng),
        40..=59 => on_more_regions(of_one(rng), rng.below(12) as usize),
        _ => {
            let window = [0; 2].map(|_| 1 + rng.below(4) as u32);
            Style { particles: 1 + rng.below(3) as usize, window, other_regions: rng.below(2) as usize, ..Style::any(rng) }
                .sample(rng)
        }
    }
}

/// As many regions and particles as there may be, 8 by 8 and spread evenly, so that every node gets mass and every line is as long as
/// coordinates near the ends of the axes make it.
pub fn full_page(rng: &mut Rng) -> Call {
    const CORNER: usize = 65_500;
    let width = rng.one_of(&[1.0, 0.5, 0.3, 3.0]);
    let mut call = Style::plain(width, [CORNER as u32; 2], [1, 1], MOST_PARTICLES).sample(rng);
    for (place, floats) in call.particle_floats.chunks_exact_mut(PARTICLE_FLOATS).enumerate() {
        for (float, step) in floats.iter_mut().zip([place % 16, place / 16]) {
            // Of 32 cells on an axis the first and the last are reached from the second and from the one before the last.
            let cell = (CORNER + 1 + 29 * step / 15) as f32 + rng.between(-0.4, 0.4);
            *float = (cell * width).to_bits();
        }
    }
    sorted_again(&call, rng).expect("places on the grid")
}

fn of_one(rng: &mut Rng) -> Call {
    Style { particles: 1, window: [1, 1], other_regions: 0, ..Style::any(rng) }.sample(rng)
}

/// A number about a limit.
fn near(limit: usize, rng: &mut Rng) -> usize {
    limit - 2 + rng.below(5) as usize
}

fn regions(count: usize) -> Vec<u64> {
    (0..count as u64).map(|place| place << 12).collect()
}

/// The call's particles on a list of so many regions more.
fn on_more_regions(call: Call, more: usize) -> Call {
    let mut ids = [&call.ids[..], &regions(more)].concat();
    ids.sort_unstable();
    ids.dedup();
    call.on_list(&ids)
}

/// The text with damage: one kind, or several one after the other. It is another text than it was.
pub fn damaged(text: &[u8], rng: &mut Rng) -> Vec<u8> {
    let mut found = text.to_vec();
    let count = rng.one_of(&[1, 1, 1, 1, 1, 2, 2, 3, 6]);
    for _ in 0..count {
        rng.one_of(DAMAGES)(&mut found, rng);
    }
    while found == text {
        rng.one_of(DAMAGES)(&mut found, rng);
    }
    found
}

type Damage = fn(&mut Vec<u8>, &mut Rng);

/// Each as often as it is taken; fields with other numbers can be read still, and say what else is refused.
const DAMAGES: &[Damage] = &[
    change_bytes,
    change_bytes,
    flip_bit,
    put_byte,
    cut_end,
    cut_front,
    cut_middle,
    repeat_middle,
    lengthen,
    splice,
    splice_lines,
    swap_lines,
    drop_line,
    repeat_line,
    move_line,
    put_line,
    shuffle,
    end_lines_otherwise,
    drop_last_line_feed,
    blanks_for_tabs,
    change_case,
    odd_field,
    odd_field,
    odd_field,
    odd_field,
    odd_field,
    odd_field,
    bad_field,
    bad_field,
    decorate_field,
    swap_fields,
    drop_field,
    repeat_field,
    bad_letter,
    next_number,
    next_number,
    next_number,
];

fn place(length: usize, rng: &mut Rng) -> usize {
    rng.below(length as u64 + 1) as usize
}

/// Two places, the first not behind the second; no farther from each other than some lines are long.
fn span(text: &[u8], rng: &mut Rng) -> (usize, usize) {
    let start = place(text.len(), rng);
    let most = rng.one_of(&[2, 9, 30, 300]);
    (start, (start + place(most, rng)).min(text.len()))
}

// Bytes.

/// One byte of a text, or now and then two, replaced, left out, put in or said twice.
pub fn changed_bytes(text: &[u8], rng: &mut Rng) -> Vec<u8> {
    const OTHERS: &[u8] = b"0123456789ABCDEFabcdefg\t\t\t\n\n\n \r\0+-.wrpn\x80\xFF";
    let mut text = text.to_vec();
    for _ in 0..rng.one_of(&[1, 1, 1, 2]) {
        let (place, other) = (rng.below(text.len() as u64) as usize, rng.one_of(OTHERS));
        match rng.below(5) {
            0 => drop(text.remove(place)),
            1 => text.insert(place, other),
            2 => text.insert(place, text[place]),
            _ => text[place] = other,
        }
    }
    text
}

fn change_bytes(text: &mut Vec<u8>, rng: &mut Rng) {
    if text.len() > 2 {
        *text = changed_bytes(text, rng);
    }
}

fn flip_bit(text: &mut Vec<u8>, rng: &mut Rng) {
    let (place, bit) = (place(text.len(), rng), rng.below(8));
    text.iter_mut().skip(place).take(1).for_each(|byte| *byte ^= 1 << bit);
}

fn put_byte(text: &mut Vec<u8>, rng: &mut Rng) {
    let (place, any) = (place(text.len(), rng), rng.word() as u8);
    text.insert(place, rng.one_of(&[0, 0xFF, 0x80, 0xC3, 0xEF, b'\r', b'\t', b'\n', b' ', any]));
}

fn cut_end(text: &mut Vec<u8>, rng: &mut Rng) {
    text.truncate(place(text.len(), rng));
}

fn cut_front(text: &mut Vec<u8>, rng: &mut Rng) {
    let end = place(text.len(), rng);
    text.drain(..end);
}

fn cut_middle(text: &mut Vec<u8>, rng: &mut Rng) {
    let (start, end) = span(text, rng);
    text.drain(start..end);
}

fn repeat_middle(text: &mut Vec<u8>, rng: &mut Rng) {
    let (start, end) = span(text, rng);
    let again = text[start..end].repeat(1 + rng.below(3) as usize);
    text.splice(end..end, again);
}

/// One byte so often that a line becomes longer than any that can be read.
fn lengthen(text: &mut Vec<u8>, rng: &mut Rng) {
    let (place, byte) = (place(text.len(), rng), rng.one_of(b"0F1\t \0wrp\xFF"));
    let few = rng.below(40) as usize;
    let count = if rng.below(50) == 0 { 70_000 } else { rng.one_of(&[few, 64, 100, 200, 250 + few, 300, 1000]) };
    text.splice(place..place, std::iter::repeat(byte).take(count));
}

/// The front of one text and the end of another.
fn splice(text: &mut Vec<u8>, rng: &mut Rng) {
    let other = good(rng);
    text.truncate(place(text.len(), rng));
    text.extend(&other[place(other.len(), rng)..]);
}

// Lines.

fn change_lines(text: &mut Vec<u8>, change: impl FnOnce(&mut Lines)) {
    let mut lines: Lines = split(text).map(<[u8]>::to_vec).collect();
    change(&mut lines);
    *text = lines.concat();
}

fn splice_lines(text: &mut Vec<u8>, rng: &mut Rng) {
    let other = good(rng);
    let others: Lines = split(&other).map(<[u8]>::to_vec).collect();
    change_lines(text, |lines| {
        lines.truncate(place(lines.len(), rng));
        lines.extend_from_slice(&others[place(others.len(), rng)..]);
    });
}

fn swap_lines(text: &mut Vec<u8>, rng: &mut Rng) {
    change_lines(text, |lines| {
        let [one, other] = [0; 2].map(|_| place(lines.len(), rng));
        if one.max(other) < lines.len() {
            lines.swap(one, other);
        }
    });
}

fn drop_line(text: &mut Vec<u8>, rng: &mut Rng) {
    change_lines(text, |lines| {
        let place = place(lines.len(), rng);
        lines.drain(place..(place + 1).min(lines.len()));
    });
}

fn repeat_line(text: &mut Vec<u8>, rng: &mut Rng) {
    change_lines(text, |lines| {
        let place = place(lines.len(), rng);
        let again = lines.get(place).cloned().unwrap_or_default();
        lines.insert(place, again.repeat(1 + rng.below(2) as usize));
    });
}

fn move_line(text: &mut Vec<u8>, rng: &mut Rng) {
    change_lines(text, |lines| {
        let from = place(lines.len(), rng);
        if from < lines.len() {
            let line = lines.remove(from);
            lines.insert(place(lines.len(), rng), line);
        }
    });
}

fn put_line(text: &mut Vec<u8>, rng: &mut Rng) {
    change_lines(text, |lines| lines.insert(place(lines.len(), rng), rng.one_of(&NO_LINES).to_vec()));
}

fn shuffle(text: &mut Vec<u8>, rng: &mut Rng) {
    change_lines(text, |lines| {
        let kept = (rng.below(2) as usize).min(lines.len());
        rng.shuffle(&mut lines[kept..]);
    });
}

/// Every line, or one of them, with another end than a line feed.
fn end_lines_otherwise(text: &mut Vec<u8>, rng: &mut Rng) {
    let end: &[u8] = rng.one_of(&[&b"\r\n"[..], b"\r\n", b"\r", b" \n", b"\t\n", b"\0\n", b"\n\n", b""]);
    change_lines(text, |lines| {
        let (all, one) = (rng.below(2) == 0, place(lines.len(), rng));
        for (_, line) in lines.iter_mut().enumerate().filter(|(place, line)| (all || *place == one) && line.ends_with(b"\n")) {
            line.pop();
            line.extend(end);
        }
    });
}

fn drop_last_line_feed(text: &mut Vec<u8>, _: &mut Rng) {
    if text.ends_with(b"\n") {
        text.pop();
    }
}

/// The tabs of all lines, or of one, as blanks.
fn blanks_for_tabs(text: &mut Vec<u8>, rng: &mut Rng) {
    change_lines(text, |lines| {
        let (all, one) = (rng.below(4) == 0, place(lines.len(), rng));
        let chosen = lines.iter_mut().enumerate().filter(|(place, _)| all || *place == one);
        chosen.flat_map(|(_, line)| line).filter(|byte| **byte == b'\t').for_each(|byte| *byte = b' ');
    });
}

fn change_case(text: &mut Vec<u8>, rng: &mut Rng) {
    change_lines(text, |lines| {
        let place = place(lines.len(), rng);
        let upper = rng.below(2) == 0;
        let chosen = lines.iter_mut().skip(place).take(1);
        chosen.for_each(|line| if upper { line.make_ascii_uppercase() } else { line.make_ascii_lowercase() });
    });
}

// Fields.

/// The fields of one line, its letter first, without its line feed. Lines at the front are as likely as all particles.
fn change_fields(text: &mut Vec<u8>, rng: &mut Rng, change: impl Fn(&mut Lines, &mut Rng)) {
    change_lines(text, |lines| {
        let (anywhere, in_front) = (place(lines.len(), rng), rng.below(6) as usize);
        let place = rng.one_of(&[anywhere, in_front]);
        for line in lines.iter_mut().skip(place).take(1) {
            let (body, end) = line.strip_suffix(b"\n").map_or((&line[..], &b""[..]), |body| (body, b"\n"));
            let mut fields: Lines = body.split(|byte| *byte == b'\t').map(<[u8]>::to_vec).collect();
            change(&mut fields, rng);
            *line = [&fields.join(&b'\t'), end].concat();
        }
    });
}

/// Another field at some place, by whether that is a float's: it has as many digits.
fn put_field(text: &mut Vec<u8>, rng: &mut Rng, floats: &[&[u8]], numbers: &[&[u8]]) {
    change_fields(text, rng, |fields, rng| {
        let place = place(fields.len(), rng).max(1);
        for field in fields.iter_mut().skip(place).take(1) {
            *field = rng.one_of(if field.len() == 8 { floats } else { numbers }).to_vec();
        }
    });
}

fn odd_field(text: &mut Vec<u8>, rng: &mut Rng) {
    put_field(text, rng, &ODD_FLOATS, &ODD_NUMBERS);
}

fn bad_field(text: &mut Vec<u8>, rng: &mut Rng) {
    put_field(text, rng, &NO_FLOATS, &NO_NUMBERS);
}

/// A sign, a leading zero, a digit more, or what is no digit, in front of a field or behind it.
fn decorate_field(text: &mut Vec<u8>, rng: &mut Rng) {
    let more: &[u8] =
        rng.one_of(&[&b"0"[..], b"0", b"00", b"+", b"-", b" ", b"0x", b"1", b"9", b"F", b"\0", b".0", b"e1", b"\xC2\xA0"]);
    let (in_front, chosen) = (rng.below(2) == 0, rng.below(20) as usize);
    change_fields(text, rng, |fields, _| {
        let place = chosen % fields.len().max(1);
        for field in fields.iter_mut().skip(place).take(1) {
            *field = if in_front { [more, field].concat() } else { [field, more].concat() };
        }
    });
}

fn swap_fields(text: &mut Vec<u8>, rng: &mut Rng) {
    change_fields(text, rng, |fields, rng| {
        let [one, other] = [0; 2].map(|_| rng.below(fields.len() as u64) as usize);
        fields.swap(one, other);
    });
}

fn drop_field(text: &mut Vec<u8>, rng: &mut Rng) {
    change_fields(text, rng, |fields, rng| drop(fields.remove(rng.below(fields.len() as u64) as usize)));
}

fn repeat_field(text: &mut Vec<u8>, rng: &mut Rng) {
    change_fields(text, rng, |fields, rng| {
        let place = rng.below(fields.len() as u64) as usize;
        fields.insert(place, fields[place].clone());
    });
}

fn bad_letter(text: &mut Vec<u8>, rng: &mut Rng) {
    change_fields(text, rng, |fields, rng| fields[0] = rng.one_of(&NO_LETTERS).to_vec());
}

/// A whole number one more or one less, or a float's next: the start of a region, its count, a place on the edge of a cell.
fn next_number(text: &mut Vec<u8>, rng: &mut Rng) {
    let step = |number: u64, up: bool| if up { number.wrapping_add(1) } else { number.wrapping_sub(1) };
    change_fields(text, rng, |fields, rng| {
        let (place, up) = (place(fields.len(), rng).max(1), rng.below(2) == 0);
        for field in fields.iter_mut().skip(place).take(1) {
            let digits = std::str::from_utf8(field).unwrap_or("");
            let other = match digits.len() {
                8 => u32::from_str_radix(digits, 16).map(|bits| format!("{:08X}", step(u64::from(bits), up) as u32)),
                _ => digits.parse().map(|number| step(number, up).to_string()),
            };
            *field = other.map_or_else(|_| field.clone(), String::into_bytes);
        }
    });
}

#[cfg(test)]
mod tests {
    use super::*;
    use crate::plane;
    use std::collections::BTreeSet;

    #[test]
    fn one_seed_makes_the_same_texts() {
        let texts = |seed: u64| {
            let mut rng = Rng::new(seed);
            let texts = (0..200).map(|_| good(&mut rng)).collect::<Lines>();
            texts.iter().map(|text| damaged(text, &mut rng)).collect::<Lines>()
        };
        assert_eq!(texts(1), texts(1));
        assert_ne!(texts(1), texts(2));
    }

    /// Every kind changes texts, most of those that it is given, and takes every text, be it empty or no listing.
    #[test]
    fn every_damage_does_something_to_any_text() {
        let mut rng = Rng::new(5);
        let texts: Lines = (0..60).map(|_| good(&mut rng)).collect();
        for (kind, damage) in DAMAGES.iter().enumerate() {
            let changed = |text: &Vec<u8>, rng: &mut Rng| {
                let mut found = text.clone();
                damage(&mut found, rng);
                found != *text
            };
            let count = texts.iter().filter(|text| changed(text, &mut rng)).count();
            assert!(count >= 15, "damage {} changes {} of 60", kind, count);
            for text in [&b""[..], b"\n", b"w", b"\n\n\n", b"\t\t", b"\xFF\n\0"] {
                for _ in 0..50 {
                    changed(&text.to_vec(), &mut rng);
                }
            }
        }
    }

    #[test]
    fn damaged_texts_differ_from_the_good_one_and_from_each_other() {
        let mut rng = Rng::new(6);
        let text = good(&mut rng);
        let found: BTreeSet<Vec<u8>> = (0..1000).map(|_| damaged(&text, &mut rng)).collect();
        assert!(!found.contains(&text) && found.len() > 750, "{}", found.len());
        assert!(found.iter().any(|text| std::str::from_utf8(text).is_err()));
        assert!(found.iter().any(|text| text.contains(&0)) && found.iter().any(|text| !text.ends_with(b"\n")));
    }

    /// Shapes from nothing to more than there may be.
    #[test]
    fn good_texts_have_any_shape() {
        let mut rng = Rng::new(7);
        let texts: Lines = (0..6000).map(|_| good(&mut rng)).collect();
        for (letter, most) in [(b'r', MOST_REGIONS), (b'p', MOST_PARTICLES)] {
            let counts: BTreeSet<usize> = texts.iter().map(|text| split(text).filter(|line| line[0] == letter).count()).collect();
            assert!([0, 1, 2, 3, most, most + 1].iter().all(|count| counts.contains(count)), "{:?}", counts);
        }
        let bytes: usize = texts.iter().map(Vec::len).sum();
        assert!(bytes / texts.len() < 2000, "{} bytes a text", bytes / texts.len());
    }

    #[test]
    fn a_full_page_has_every_node() {
        for call in (0..20).map(|seed| full_page(&mut Rng::new(seed))) {
            assert_eq!((call.ids.len(), call.particles as usize), (MOST_REGIONS, MOST_PARTICLES));
            assert!(call.hits(None).into_iter().all(|hit| hit));
            assert!(call.ids.iter().all(|id| plane::cell_of(*id, 0).iter().all(|part| (65_500..65_532).contains(part))));
        }
    }
}
