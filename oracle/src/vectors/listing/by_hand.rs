//! Document 01's bench listing once more, by hand: its lines, what it is refused for, its scatter and what is printed, or with one thing
//! wrong about it.

use crate::vectors::hands::{shifts, weights, Body, Pair};
use samples::particle::*;
use samples::{plane, Call, NODE_FLOATS, PARTICLE_FLOATS, PARTICLE_WORDS, REGION_NODES};

/// A number of the table and an index.
type No = (u64, u64);

pub fn printed(text: &[u8], wrong: &str) -> String {
    let no = |(number, index): No| match wrong {
        "no without an index" => format!("no\t{}\n", number),
        "no in upper case" => format!("NO\t{}\t{}\n", number, index),
        "no without a line feed" => format!("no\t{}\t{}", number, index),
        "nothing printed of a refusal" => String::new(),
        "ok behind a refusal" => format!("no\t{}\t{}\nok\t0\n", number, index),
        _ => format!("no\t{}\t{}\n", number, index),
    };
    let (call, unreadable) = read(text, wrong);
    let judged = first_no(&call, wrong);
    match (unreadable, judged) {
        (Some(_), Some((2, index))) if wrong == "2 before 11" => no((2, index)),
        (Some(_), Some((number, index))) if wrong == "11 behind 3" && number <= 3 => no((number, index)),
        (Some(_), Some((number, index))) if wrong == "11 behind 5" && number <= 5 => no((number, index)),
        (Some(_), Some(judged)) if wrong == "11 behind all others" => no(judged),
        (Some(unreadable), _) => no(unreadable),
        (None, Some(judged)) => no(judged),
        // What a wrong rule lets through cannot be scattered, and whatever is printed then is not `no`.
        (None, None) if first_no(&call, "").is_some() => "ok\t0\n".to_string(),
        (None, None) => lines_of(&call, &scattered(&call, wrong), wrong),
    }
}

// Lines.

/// What the lines up to the first unreadable one say, and that one's index. A flag above 1 is 2.
fn read(text: &[u8], wrong: &str) -> (Call, Option<No>) {
    let mut call = Call::on(vec![]);
    let (mut seen, mut index) = ((false, 0, 0), 0);
    let mut rest = text;
    while !rest.is_empty() {
        let end = rest.iter().position(|byte| *byte == b'\n');
        let mut line = &rest[..end.unwrap_or(rest.len())];
        rest = &rest[end.map_or(rest.len(), |end| end + 1)..];
        let is_whole = end.is_some() || wrong == "last line feed not needed";
        if wrong == "carriage returns left out" {
            line = line.strip_suffix(b"\r").unwrap_or(line);
        }
        if wrong == "blanks at the end left out" {
            line = line.strip_suffix(b" ").unwrap_or(line);
        }
        let is_passed_over = match wrong {
            "empty lines passed over" => line.is_empty() && end.is_some(),
            "an empty line at the end passed over" => line.is_empty() && end.is_some() && rest.is_empty() && index > 0,
            "comments passed over" => line.starts_with(b"#"),
            "lines beyond the limits passed over" => seen.1 > 64 || seen.2 > 256,
            "unknown lines passed over" => !matches!(line.first(), Some(b'w' | b'r' | b'p')),
            _ => false,
        };
        if !(is_passed_over || is_whole && taken(&mut call, &mut seen, line, wrong)) {
            let counted = match wrong {
                "index of 11 from 1" => index + 1,
                "index of 11 by its kind" if line.first() == Some(&b'p') => seen.2,
                "index of 11 is 0" => 0,
                "index of 11 in bytes" => (text.len() - rest.len()) as u64,
                "index of 11 in 8 bits" => index % 256,
                _ => index,
            };
            return (call, Some((11, counted)));
        }
        index += 1;
    }
    let is_good = seen.0 || wrong == "no w needed" || wrong == "nothing is readable" && text.is_empty();
    (call, (!is_good).then_some((11, 0)))
}

/// Takes a line into the call; `seen` has whether there was a `w`, and how many `r` and `p`. Whether it could be taken.
fn taken(call: &mut Call, seen: &mut (bool, u64, u64), line: &[u8], wrong: &str) -> bool {
    let is_between = |byte: &u8| *byte == b'\t' || wrong == "blanks for tabs" && *byte == b' ';
    let mut fields: Vec<&[u8]> = line.split(is_between).collect();
    match wrong {
        "a tab at the end passed over" if fields.last() == Some(&&b""[..]) => drop(fields.pop()),
        "empty fields passed over" => fields.retain(|field| !field.is_empty()),
        _ => {}
    }
    let (letter, most) = match (fields.first().copied().unwrap_or(b""), wrong) {
        (b"w", _) | (b"W", "letters of either case") => (b'w', 4),
        (b"r", _) | (b"R", "letters of either case") => (b'r', 3),
        (b"p", _) | (b"P", "letters of either case") => (b'p', 18),
        _ => return false,
    };
    let is_w_free = ["no w needed", "w anywhere"].contains(&wrong);
    let may_stand = match letter {
        b'w' => !seen.0 || wrong == "a second w taken",
        b'r' => (seen.0 || is_w_free) && (seen.2 == 0 || wrong == "r behind p taken"),
        _ => (seen.0 || is_w_free) && (seen.1 > 0 || wrong != "p without r unreadable"),
    };
    if !may_stand {
        return false;
    }
    let own = &fields[1..];
    let has_all = match wrong {
        "fields too many passed over" => own.len() >= most,
        "fields too few are 0" => own.len() <= most,
        _ => own.len() == most,
    };
    if !has_all {
        return false;
    }
    let at = |place: usize| own.get(place).copied().unwrap_or(if letter == b'r' || place == 17 { b"0" } else { b"00000000" });
    match letter {
        b'w' => match [0, 1, 2, 3].map(|place| float(at(place), wrong)) {
            [Some(h), Some(dt), Some(x), Some(y)] => {
                (call.cell_width, call.dt, call.gravity) = (h, dt, [x, y]);
                seen.0 = true;
            }
            _ => return false,
        },
        b'r' => match [0, 1, 2].map(|place| number(at(place), wrong)) {
            [Some(id), Some(start), Some(count)] => {
                call.ids.push(id);
                call.ranges.extend([start, count]);
                call.regions += 1;
                seen.1 += 1;
            }
            _ => return false,
        },
        _ => {
            let floats: Option<Vec<f32>> = (0..17).map(|place| float(at(place), wrong)).collect();
            match (floats, flag(at(17), wrong)) {
                (Some(floats), Some(flag)) => {
                    let mut record: Vec<u32> = floats.into_iter().map(f32::to_bits).collect();
                    match wrong {
                        "gradient by columns" => record.swap(GRADIENT + 1, GRADIENT + 2),
                        "stress by columns" => record.swap(STRESS + 1, STRESS + 2),
                        "stress ahead of the gradient" => (0..4).for_each(|place| record.swap(GRADIENT + place, STRESS + place)),
                        "volume ahead of the mass" => record.swap(MASS, VOLUME),
                        "y ahead of x" => record.swap(0, 1),
                        "velocity's y ahead of its x" => record.swap(VELOCITY, VELOCITY + 1),
                        _ => {}
                    }
                    record.resize(PARTICLE_FLOATS, 0);
                    call.particle_floats.extend(record);
                    call.particle_words.push(flag);
                    call.particle_words.extend([0; PARTICLE_WORDS - 1]);
                    call.particles += 1;
                    seen.2 += 1;
                }
                _ => return false,
            }
        }
    }
    true
}

fn float(field: &[u8], wrong: &str) -> Option<f32> {
    let has_length = match wrong {
        "floats of fewer digits" => (1..=8).contains(&field.len()),
        "floats of more digits" => field.len() >= 8,
        _ => field.len() == 8,
    };
    let mut bits = 0u64;
    for byte in field {
        let digit = match byte {
            b'0'..=b'9' => byte - b'0',
            b'A'..=b'F' => byte - b'A' + 10,
            b'a'..=b'f' if wrong == "lower case digits" => byte - b'a' + 10,
            b'G' if wrong == "G is a digit" => 0,
            _ => return None,
        };
        bits = bits << 4 & 0xFFFF_FFFF | u64::from(digit);
    }
    let float = f32::from_bits(bits as u32);
    let is_taken = match wrong {
        "a NaN is unreadable" => !float.is_nan(),
        "an infinity is unreadable" => !float.is_infinite(),
        _ => true,
    };
    (has_length && is_taken).then_some(float)
}

fn digits(field: &[u8], wrong: &str) -> Option<u128> {
    let mut field = field;
    if wrong == "a plus is taken" {
        field = field.strip_prefix(b"+").unwrap_or(field);
    }
    if wrong == "-0 is taken" && field == b"-0" {
        field = b"0";
    }
    let is_taken = match wrong {
        "leading zeros" => true,
        "leading zeros of zero" => field.iter().all(|byte| *byte == b'0') || field.first() != Some(&b'0'),
        "a zero alone is unreadable" => field.first() != Some(&b'0'),
        _ => field == b"0" || field.first() != Some(&b'0'),
    };
    if !is_taken || field.is_empty() && wrong != "an empty number is 0" || field.iter().any(|byte| !byte.is_ascii_digit()) {
        return None;
    }
    let digit = |byte: &u8| u128::from(byte - b'0');
    Some(field.iter().fold(0u128, |all, byte| all.saturating_mul(10).saturating_add(digit(byte))))
}

fn number(field: &[u8], wrong: &str) -> Option<u64> {
    let number = digits(field, wrong)?;
    match wrong {
        "whole numbers wrap" => Some(number as u64),
        "whole numbers stop at the last" => Some(number.min(u128::from(u64::MAX)) as u64),
        "whole numbers below 2^63" => (number < 1 << 63).then_some(number as u64),
        "whole numbers below 2^64 - 1" => (number < u128::from(u64::MAX)).then_some(number as u64),
        "whole numbers up to 2^64" => (number <= 1 << 64).then_some(number as u64),
        "whole numbers of 20 digits" => (field.len() <= 20).then_some(number as u64),
        _ => u64::try_from(number).ok(),
    }
}

fn flag(field: &[u8], wrong: &str) -> Option<u32> {
    match (wrong, digits(field, wrong)?) {
        ("flags wrap at 32 bits", number) => Some((number as u32).min(2)),
        ("flags wrap at 8 bits", number) => Some(u32::from(number as u8).min(2)),
        ("flags above 1 unreadable", 2..) => None,
        ("flags above 1 are on", number) => Some(number.min(1) as u32),
        ("flags without end", number) => Some(number.min(2) as u32),
        ("2 is a flag", 2) => Some(1),
        _ => number(field, wrong).map(|number| number.min(2) as u32),
    }
}

// Numbers.

/// The first number whose condition holds.
fn first_no(call: &Call, wrong: &str) -> Option<No> {
    let mut order: Vec<u64> = (2..=10).collect();
    match wrong {
        "3 before 2" => order.swap(0, 1),
        "4 before 3" => order.swap(1, 2),
        "5 before 4" => order.swap(2, 3),
        "6 before 5" => order.swap(3, 4),
        "7 before 6" => order.swap(4, 5),
        "8 before 7" => order.swap(5, 6),
        "5 behind 8" => order = vec![2, 3, 4, 6, 7, 8, 5, 9, 10],
        "6 before 3" => order = vec![2, 6, 3, 4, 5, 7, 8, 9, 10],
        "2 behind all others" => order = vec![3, 4, 5, 6, 7, 8, 9, 10, 2],
        "particle by particle" => return by_particles(call, wrong),
        _ => {}
    }
    order.into_iter().find_map(|number| broken(number, call, wrong).map(|index| (number, indexed(number, index, call, wrong))))
}

fn indexed(number: u64, index: u64, call: &Call, wrong: &str) -> u64 {
    match wrong {
        "indices by lines" if number > 3 => index + 1 + if [6, 7].contains(&number) { 0 } else { call.regions },
        "indices from 1" if number > 3 => index + 1,
        "no index" => 0,
        _ => index,
    }
}

/// 8 to 10 of one particle before those of the next.
fn by_particles(call: &Call, wrong: &str) -> Option<No> {
    let early = (2..=7).find_map(|number| broken(number, call, wrong).map(|index| (number, index)));
    let late = || (8..=10).filter_map(|number| broken(number, call, wrong).map(|index| (index, number))).min();
    early.or_else(|| late().map(|(index, number)| (number, index)))
}

fn broken(number: u64, call: &Call, wrong: &str) -> Option<u64> {
    let at = |place: Option<usize>| place.map(|place| place as u64);
    let first = |is_broken: &dyn Fn(usize) -> bool, count: u64| at((0..count as usize).find(|place| is_broken(*place)));
    let floats = |particle: usize| call.particle_floats[particle * PARTICLE_FLOATS..][..PARTICLE_FLOATS].iter();
    let h = call.cell_width;
    match number {
        2 => {
            let (regions, particles) = match wrong {
                "63 regions" => (63, 256),
                "65 regions" => (65, 256),
                "255 particles" => (64, 255),
                "257 particles" => (64, 257),
                "a call's limits" => (512, 65536),
                "64 particles" => (64, 64),
                _ => (64, 256),
            };
            (call.regions > regions || call.particles > particles).then_some(0)
        }
        3 => {
            let (least, largest) = (1.0 / 1048576.0, 1048576.0);
            let h_is_good = match wrong {
                "any width above 0" => h > 0.0 && h.is_finite(),
                "least width refused" => h > least && h <= largest,
                "largest width refused" => h >= least && h < largest,
                _ => h >= least && h <= largest,
            };
            let dt_is_good = match wrong {
                "dt of 0" => call.dt >= 0.0 && call.dt.is_finite(),
                "negative dt" => call.dt != 0.0 && call.dt.is_finite(),
                "infinite dt" => call.dt > 0.0,
                _ => call.dt > 0.0 && call.dt.is_finite(),
            };
            let gravity_is_good = match wrong {
                "gravity not looked at" => true,
                "gravity's x not looked at" => call.gravity[1].is_finite(),
                "no gravity refused" => call.gravity.iter().all(|part| part.is_normal()),
                _ => call.gravity.iter().all(|part| part.is_finite()),
            };
            (!(h_is_good && dt_is_good && gravity_is_good)).then_some(0)
        }
        4 => first(&|particle| call.particle_words[particle * PARTICLE_WORDS + FAILED] > 1, call.particles),
        5 => first(
            &|particle| match wrong {
                "NaN alone is not finite" => floats(particle).any(|bits| f32::from_bits(*bits).is_nan()),
                "infinities alone are not finite" => floats(particle).any(|bits| f32::from_bits(*bits).is_infinite()),
                "cracks not looked at" => floats(particle).take(PHASE).any(|bits| !f32::from_bits(*bits).is_finite()),
                "the largest is not finite" => floats(particle).any(|bits| bits & 0x7FFF_FFFF >= 0x7F7F_FFFF),
                _ => floats(particle).any(|bits| !f32::from_bits(*bits).is_finite()),
            },
            call.particles,
        ),
        6 => first(
            &|place| {
                let id = call.ids[place];
                let low = match wrong {
                    "low bits not looked at" => 0,
                    "eleven low bits" => 0x7FF,
                    "low bits but 0 to 5" => 0xFC0,
                    _ => 0xFFF,
                };
                let does_ascend = |one: u64, next: u64| match wrong {
                    "ids need not ascend" => true,
                    "ids may repeat" => one <= next,
                    "ids ascend as signed ones" => (one as i64) < next as i64,
                    _ => one < next,
                };
                let (before, behind) = (place.checked_sub(1), call.ids.get(place + 1));
                let pair_is_good = match wrong {
                    "the earlier one of a pair" => behind.map_or(true, |next| does_ascend(id, *next)),
                    _ => before.map_or(true, |before| does_ascend(call.ids[before], id)),
                };
                id & low != 0 || !pair_is_good
            },
            call.regions,
        ),
        7 => uncovered(call, wrong),
        8 => first(&|particle| first_cell(call, particle, wrong).is_none(), call.particles),
        9 => {
            let own = call.ids.iter().zip(call.ranges.chunks(2)).flat_map(|(id, range)| (0..range[1].min(256)).map(move |_| *id));
            let own: Vec<u64> = own.take(call.particles as usize).collect();
            let is_other = |particle: usize| match (first_cell(call, particle, wrong), own.get(particle)) {
                (Some(cell), Some(own)) => plane::region(cell) != *own,
                _ => true,
            };
            match wrong {
                "9 not looked at" => None,
                _ => first(&is_other, call.particles),
            }
        }
        _ => {
            let is_missing = |particle: usize| {
                let [x, y] = first_cell(call, particle, wrong).unwrap_or([0, 0]);
                let reached = match wrong {
                    "corners of stencils not looked at" => vec![[x, y], [x + 2, y], [x, y + 2]],
                    "own region alone looked at" => vec![[x, y]],
                    "stencils of four cells" => vec![[x, y], [x + 1, y], [x, y + 1], [x + 1, y + 1]],
                    "stencils of sixteen cells" => vec![[x, y], [x + 3, y], [x, y + 3], [x + 3, y + 3]],
                    _ => vec![[x, y], [x + 2, y], [x, y + 2], [x + 2, y + 2]],
                };
                reached.into_iter().any(|cell| !call.ids.contains(&plane::region(cell)))
            };
            first(&is_missing, call.particles)
        }
    }
}

fn uncovered(call: &Call, wrong: &str) -> Option<u64> {
    let mut end = 0u128;
    for (place, range) in call.ranges.chunks(2).enumerate() {
        let (start, count) = (u128::from(range[0]), u128::from(range[1]));
        let starts = match wrong {
            "starts of empty regions not looked at" => count == 0 || start == end,
            "starts not looked at" => true,
            "gaps not looked at" => start >= end,
            _ => start == end,
        };
        end = if wrong == "sums wrap" { u128::from((end + count) as u64) } else { end + count };
        let fits = wrong == "counts not looked at" || wrong == "sums wrap" || end <= u128::from(call.particles);
        if !starts || !fits {
            return Some(place as u64);
        }
    }
    match (end.cmp(&u128::from(call.particles)), wrong) {
        (std::cmp::Ordering::Equal, _) | (_, "particles left over not looked at") => None,
        (_, "particles left over by their first") => Some(end as u64),
        (_, "particles left over by the last region") => Some(call.regions.saturating_sub(1)),
        _ => Some(call.regions),
    }
}

fn first_cell(call: &Call, particle: usize, wrong: &str) -> Option<[u32; 2]> {
    let r = call.position(particle).map(|x| match wrong {
        "r cut and not rounded" => (x / call.cell_width).floor(),
        "r by adding a half" => (x / call.cell_width + 0.5).floor(),
        "r by a product" => (x * (1.0 / call.cell_width)).round(),
        _ => (x / call.cell_width).round(),
    });
    let largest = match wrong {
        "r up to 65,536" => 65536.0,
        "r up to 65,534" => 65534.0,
        "r up to 2^28" => 268435456.0,
        _ => 65535.0,
    };
    let least = if wrong == "r from 2 on" { 2.0 } else { 1.0 };
    r.iter().all(|r| *r >= least && *r <= largest).then(|| r.map(|r| r as u32 - 1))
}

// Nodes.

/// Of every node its floats, and whether it was hit.
fn scattered(call: &Call, wrong: &str) -> Vec<(Vec<f32>, bool)> {
    let mut nodes = vec![(vec![0.0f32; NODE_FLOATS], false); call.ids.len() * REGION_NODES];
    let mut regions: Vec<(u64, &[u64])> = call.ids.iter().copied().zip(call.ranges.chunks(2)).collect();
    if wrong != "regions by their ids" {
        regions.sort_by_key(|(id, _)| plane::colour(*id));
    }
    if wrong == "first region alone" {
        regions.truncate(1);
    }
    for (_, range) in regions {
        let mut particles: Vec<usize> = (range[0] as usize..(range[0] + range[1]) as usize).collect();
        if wrong == "particles backwards" {
            particles.reverse();
        }
        for particle in particles {
            let bits = &call.particle_floats[particle * PARTICLE_FLOATS..][..PARTICLE_FLOATS];
            let words = call.particle_words[particle * PARTICLE_WORDS..][..PARTICLE_WORDS].to_vec();
            let body = Body { floats: bits.iter().copied().map(f32::from_bits).collect(), words };
            shifts("").into_iter().for_each(|shift| hit(&mut nodes, call, &body, shift, wrong));
        }
    }
    nodes
}

fn hit(nodes: &mut [(Vec<f32>, bool)], call: &Call, body: &Body, shift: [usize; 2], wrong: &str) {
    let Call { cell_width: h, dt, gravity, .. } = *call;
    let (mass, volume, way) = (body.floats[MASS], body.floats[VOLUME], body.way(h));
    let along = way.map(|way| weights(-way / h));
    let w = along[0][shift[0]] * along[1][shift[1]];
    let inv = if wrong == "inverse by two quotients" { 4.0 / h / h } else { 4.0 / (h * h) };
    let (g, s) = (body.square(GRADIENT), body.square(STRESS));
    let keeps_stress = wrong == "stress of failed particles" || !body.is(FAILED);
    let affine = |row: usize, column: usize| {
        let stress = if keeps_stress { s[row][column] } else { 0.0 };
        match wrong {
            "dt ahead of the volume" => mass * g[row][column] - volume * dt * inv * stress,
            "no stress of failed particles at all" if body.is(FAILED) => mass * g[row][column],
            "gradient transposed" => mass * g[column][row] - volume * inv * dt * stress,
            _ => mass * g[row][column] - volume * inv * dt * stress,
        }
    };
    let dpt: Pair = [0, 1].map(|axis| way[axis] + shift[axis] as f32 * h);
    let (node, was_hit) = &mut nodes[body.node(shift, call)];
    *was_hit = true;
    if wrong == "a weight of 0 brings nothing" && w == 0.0 {
        return;
    }
    node[0] += w * mass;
    for row in [0, 1] {
        let moved = affine(row, 0) * dpt[0] + affine(row, 1) * dpt[1];
        node[1 + row] += w * (moved + mass * body.floats[VELOCITY + row]);
    }
    for row in [0, 1] {
        let momentum = match wrong {
            "no gravity" => node[1 + row],
            "gravity by dt first" => node[1 + row] + node[0] * (gravity[row] * dt),
            _ => node[1 + row] + node[0] * gravity[row] * dt,
        };
        node[3 + row] = match wrong {
            "velocity by a quotient" if node[0] != 0.0 => momentum / node[0],
            _ if node[0] == 0.0 => momentum * 0.0,
            _ => momentum * (1.0 / node[0]),
        };
    }
}

// What is printed.

fn lines_of(call: &Call, nodes: &[(Vec<f32>, bool)], wrong: &str) -> String {
    let mut order: Vec<usize> = (0..nodes.len()).collect();
    let cell = |place: usize| plane::cell_of(call.ids[place / REGION_NODES], place % REGION_NODES);
    let region = |place: usize| place / REGION_NODES;
    match wrong {
        "x ahead of y in order" => order.sort_by_key(|place| (region(*place), cell(*place))),
        "rows through all regions" => order.sort_by_key(|place| [cell(*place)[1], cell(*place)[0]]),
        "regions by colours" => order.sort_by_key(|place| plane::colour(call.ids[region(*place)])),
        "nodes backwards" => order.reverse(),
        _ => {}
    }
    let printed: Vec<String> = order
        .into_iter()
        .filter(|place| {
            let (node, was_hit) = &nodes[*place];
            match wrong {
                "every node printed" => true,
                "every node that was hit printed" => *was_hit,
                "masses above 0 printed" => node[0] > 0.0,
                "masses that are numbers printed" => node[0] != 0.0 && node[0].is_finite(),
                "nodes that move printed" => node[0] != 0.0 && node[3..5] != [0.0, 0.0],
                "subnormal masses not printed" => node[0].is_normal() || node[0].is_infinite(),
                _ => node[0] != 0.0,
            }
        })
        .map(|place| line_of(cell(place), &nodes[place].0, wrong))
        .collect();
    let count = match wrong {
        "ok counts all nodes" => nodes.len(),
        "ok counts nodes that were hit" => nodes.iter().filter(|(_, was_hit)| *was_hit).count(),
        "ok counts regions" => call.ids.len(),
        "ok counts particles" => call.particles as usize,
        "ok counts lines" => printed.len() + 1,
        _ => printed.len(),
    };
    let ok = match wrong {
        "ok without a count" => "ok\n".to_string(),
        "ok without a line feed" => format!("ok\t{}", count),
        "ok behind a blank" => format!("ok {}\n", count),
        "ok with a carriage return" => format!("ok\t{}\r\n", count),
        "no ok" => String::new(),
        "no ok without nodes" if count == 0 => String::new(),
        _ => format!("ok\t{}\n", count),
    };
    match wrong {
        "ok first" => ok + &printed.concat(),
        _ => printed.concat() + &ok,
    }
}

fn line_of([x, y]: [u32; 2], node: &[f32], wrong: &str) -> String {
    let word = |number: &f32| match wrong {
        "NaN with its own bits" if number.is_nan() => "FFC00000".to_string(),
        "NaN as a word" if number.is_nan() => "NaN".to_string(),
        "-0 as +0" if *number == 0.0 => "00000000".to_string(),
        "lower case printed" => format!("{:08x}", number.to_bits()),
        "no leading zeros printed" => format!("{:X}", number.to_bits()),
        "infinities as the largest" if number.is_infinite() => format!("{:08X}", f32::MAX.copysign(*number).to_bits()),
        _ if number.is_nan() => "7FC00000".to_string(),
        _ => format!("{:08X}", number.to_bits()),
    };
    let [x, y] = match wrong {
        "y printed ahead of x" => [y, x],
        "cells counted in their region" => [x % 4, y % 4],
        "cells counted from 1" => [x + 1, y + 1],
        "cells in 16 bits" => [x % 65536, y % 65536],
        _ => [x, y],
    };
    let [mass, momentum, velocity] = [&node[..1], &node[1..3], &node[3..5]];
    let floats = match wrong {
        "velocity ahead of momentum" => [mass, velocity, momentum].concat(),
        "psi printed too" => node.to_vec(),
        "no velocity printed" => [mass, momentum].concat(),
        "mass last" => [momentum, velocity, mass].concat(),
        _ => [mass, momentum, velocity].concat(),
    };
    let words: Vec<String> = floats.iter().map(word).collect();
    let end = match wrong {
        "a tab at the end printed" => "\t\n",
        "n lines with a carriage return" => "\r\n",
        _ => "\n",
    };
    format!("n\t{}\t{}\t{}{}", x, y, words.join("\t"), end)
}

pub const WRONG: [&str; 173] = [
    "no without an index",
    "no in upper case",
    "no without a line feed",
    "nothing printed of a refusal",
    "ok behind a refusal",
    "2 before 11",
    "11 behind 3",
    "11 behind 5",
    "11 behind all others",
    "last line feed not needed",
    "carriage returns left out",
    "blanks at the end left out",
    "empty lines passed over",
    "an empty line at the end passed over",
    "comments passed over",
    "lines beyond the limits passed over",
    "unknown lines passed over",
    "index of 11 from 1",
    "index of 11 by its kind",
    "index of 11 is 0",
    "index of 11 in bytes",
    "index of 11 in 8 bits",
    "no w needed",
    "nothing is readable",
    "blanks for tabs",
    "a tab at the end passed over",
    "empty fields passed over",
    "letters of either case",
    "w anywhere",
    "a second w taken",
    "r behind p taken",
    "p without r unreadable",
    "fields too many passed over",
    "fields too few are 0",
    "gradient by columns",
    "stress by columns",
    "stress ahead of the gradient",
    "volume ahead of the mass",
    "y ahead of x",
    "velocity's y ahead of its x",
    "floats of fewer digits",
    "floats of more digits",
    "lower case digits",
    "G is a digit",
    "a NaN is unreadable",
    "an infinity is unreadable",
    "a plus is taken",
    "-0 is taken",
    "leading zeros",
    "leading zeros of zero",
    "a zero alone is unreadable",
    "an empty number is 0",
    "whole numbers wrap",
    "whole numbers stop at the last",
    "whole numbers below 2^63",
    "whole numbers below 2^64 - 1",
    "whole numbers up to 2^64",
    "whole numbers of 20 digits",
    "flags wrap at 32 bits",
    "flags wrap at 8 bits",
    "flags above 1 unreadable",
    "flags above 1 are on",
    "flags without end",
    "2 is a flag",
    "3 before 2",
    "4 before 3",
    "5 before 4",
    "6 before 5",
    "7 before 6",
    "8 before 7",
    "5 behind 8",
    "6 before 3",
    "2 behind all others",
    "particle by particle",
    "indices by lines",
    "indices from 1",
    "no index",
    "63 regions",
    "65 regions",
    "255 particles",
    "257 particles",
    "a call's limits",
    "64 particles",
    "any width above 0",
    "least width refused",
    "largest width refused",
    "dt of 0",
    "negative dt",
    "infinite dt",
    "gravity not looked at",
    "gravity's x not looked at",
    "no gravity refused",
    "NaN alone is not finite",
    "infinities alone are not finite",
    "cracks not looked at",
    "the largest is not finite",
    "low bits not looked at",
    "eleven low bits",
    "low bits but 0 to 5",
    "ids need not ascend",
    "ids may repeat",
    "ids ascend as signed ones",
    "the earlier one of a pair",
    "9 not looked at",
    "corners of stencils not looked at",
    "own region alone looked at",
    "stencils of four cells",
    "stencils of sixteen cells",
    "starts of empty regions not looked at",
    "starts not looked at",
    "gaps not looked at",
    "sums wrap",
    "counts not looked at",
    "particles left over not looked at",
    "particles left over by their first",
    "particles left over by the last region",
    "r cut and not rounded",
    "r by adding a half",
    "r by a product",
    "r up to 65,536",
    "r up to 65,534",
    "r up to 2^28",
    "r from 2 on",
    "regions by their ids",
    "first region alone",
    "particles backwards",
    "inverse by two quotients",
    "stress of failed particles",
    "dt ahead of the volume",
    "no stress of failed particles at all",
    "gradient transposed",
    "a weight of 0 brings nothing",
    "no gravity",
    "gravity by dt first",
    "velocity by a quotient",
    "x ahead of y in order",
    "rows through all regions",
    "regions by colours",
    "nodes backwards",
    "every node printed",
    "every node that was hit printed",
    "masses above 0 printed",
    "masses that are numbers printed",
    "nodes that move printed",
    "subnormal masses not printed",
    "ok counts all nodes",
    "ok counts nodes that were hit",
    "ok counts regions",
    "ok counts particles",
    "ok counts lines",
    "ok without a count",
    "ok without a line feed",
    "ok behind a blank",
    "ok with a carriage return",
    "no ok",
    "no ok without nodes",
    "ok first",
    "NaN with its own bits",
    "NaN as a word",
    "-0 as +0",
    "lower case printed",
    "no leading zeros printed",
    "infinities as the largest",
    "y printed ahead of x",
    "cells counted in their region",
    "cells counted from 1",
    "cells in 16 bits",
    "velocity ahead of momentum",
    "psi printed too",
    "no velocity printed",
    "mass last",
    "a tab at the end printed",
    "n lines with a carriage return",
];
