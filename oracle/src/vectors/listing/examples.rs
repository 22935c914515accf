//! Listings that a newcomer can read, for the folder `examples`; the program is run on the first of them.

use super::super::scatter::listing;
use super::{lines, with_field};
use crate::listing::printed;
use samples::particle::{MASS, POSITION, VELOCITY, VOLUME};
use samples::{Call, PARTICLE_FLOATS, PARTICLE_WORDS};

/// The files' paths in the repository and their texts: each listing, and what is printed for it.
pub fn examples() -> Vec<(String, String)> {
    let (one, four) = (lines(&listing()), lines(&block()));
    let all = [
        ("one-particle", one.clone()),
        ("four-regions", four.clone()),
        ("refused", with_field(&four, 8, 1, b"00000000")),
        ("unreadable", with_field(&one, 2, 3, b"3f800000")),
    ];
    let texts = all.map(|(name, lines)| (name, String::from_utf8(lines.concat()).expect("plain text")));
    let files = |(name, text): (&str, String)| {
        let answer = printed(text.as_bytes());
        [(format!("examples/{}.tsv", name), text), (format!("examples/{}.out", name), answer)]
    };
    let program = [("stdin", texts[0].1.clone()), ("stdout", printed(texts[0].1.as_bytes()))];
    let of_program = program.into_iter().map(|(name, text)| (format!("crates/bench/{}", name), text));
    texts.into_iter().flat_map(files).chain(of_program).collect()
}

/// Four particles that fall, of mass 4 and volume 1, two by two about the corner where four regions meet. Their first cells are all of
/// region 0, and they reach the other three.
fn block() -> Call {
    let mut call = Call { dt: 0.125, gravity: [0.0, -8.0], ..Call::on(vec![0, 4096, 8192, 12288]) };
    for place in [[3.25, 3.25], [4.25, 3.25], [3.25, 4.25], [4.25, 4.25]] {
        let mut floats = [0.0f32; PARTICLE_FLOATS];
        floats[POSITION..][..2].copy_from_slice(&place);
        floats[VELOCITY + 1] = -1.0;
        (floats[MASS], floats[VOLUME]) = (4.0, 1.0);
        call.particle_floats.extend(floats.map(f32::to_bits));
        call.particle_words.extend([0; PARTICLE_WORDS]);
        call.particles += 1;
    }
    call.ranges = vec![0, 4, 4, 0, 4, 0, 4, 0];
    call
}

#[cfg(test)]
mod tests {
    use super::examples;

    #[test]
    fn examples_print_what_they_are_there_for() {
        let files = examples();
        let printed = |name: &str| &files.iter().find(|(path, _)| path == name).expect("an example").1;
        assert!(printed("examples/one-particle.out").ends_with("ok\t9\n"));
        assert!(printed("examples/four-regions.out").ends_with("ok\t16\n"));
        assert_eq!(printed("examples/refused.out"), "no\t8\t3\n");
        assert_eq!(printed("examples/unreadable.out"), "no\t11\t2\n");
        assert_eq!(printed("crates/bench/stdin"), printed("examples/one-particle.tsv"));
        assert_eq!(printed("crates/bench/stdout"), printed("examples/one-particle.out"));
    }
}
