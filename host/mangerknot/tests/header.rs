//! The crate's constants, and the names and numbers of its rules and codes, against those of the header, which the gate holds against
//! the source.

use mangerknot::records::{NODE_FLOATS, PARTICLE_FLOATS, PARTICLE_WORDS, REGION_NODES};
use mangerknot::{
    listing, Handling, Rule, FIRST_CELL, LAST_CELL, MAX_CELL_WIDTH, MAX_COLLIDERS, MAX_PARTICLES, MAX_REGIONS, MIN_CELL_WIDTH,
};
use std::collections::BTreeMap;
use std::fmt::Debug;

const HEADER: &str = include_str!("../../../include/mangerknot.h");

/// The header's constants whose names begin so, by the rest of their names: `#define MK_NAME VALUE`, and in enums `MK_NAME = VALUE,`.
fn constants(prefix: &str) -> BTreeMap<String, f64> {
    let constant = |line: &str| {
        let (name, value) = match line.strip_prefix("#define ") {
            Some(line) => line.split_once(' ')?,
            None => line.trim_start().split_once(" = ")?,
        };
        let name = name.strip_prefix("MK_")?.strip_prefix(prefix)?;
        let digits = value.split(|c: char| !c.is_ascii_digit() && c != '.').next()?;
        Some((name.to_string(), digits.parse().ok()?))
    };
    HEADER.lines().filter_map(constant).collect()
}

/// A name as a constant has it: `NotFinite` is `NOT_FINITE`.
fn upper(name: impl Debug) -> String {
    let name = format!("{:?}", name);
    let parts = name.chars().enumerate().map(|(place, letter)| match place > 0 && letter.is_ascii_uppercase() {
        true => format!("_{}", letter),
        false => letter.to_ascii_uppercase().to_string(),
    });
    parts.collect()
}

#[test]
fn rules() {
    let mut of_header = constants("REFUSED_");
    // No call answers it: it stands in the text that a listing's answer is.
    assert_eq!(of_header.remove("UNREADABLE"), Some(11.0));
    let rules: BTreeMap<String, f64> = Rule::ALL.iter().map(|rule| (upper(rule), f64::from(*rule as u32))).collect();
    assert_eq!(rules, of_header);
    assert_eq!(rules.len(), Rule::ALL.len());
    assert!(Rule::ALL.windows(2).all(|pair| (pair[0] as u32) < pair[1] as u32), "the least is looked for first");
}

#[test]
fn handlings() {
    let all = [Handling::None, Handling::Stick, Handling::Friction, Handling::FrictionZUp];
    let codes: BTreeMap<String, f64> = all.iter().map(|handling| (upper(handling), f64::from(handling.code()))).collect();
    assert_eq!(codes, constants("BOUNDARY_"));
}

#[test]
fn limits_and_sizes() {
    let of_header = constants("");
    let whole = [
        ("MAX_REGIONS", MAX_REGIONS),
        ("MAX_PARTICLES", MAX_PARTICLES),
        ("MAX_COLLIDERS", MAX_COLLIDERS),
        ("FIRST_CELL", FIRST_CELL as usize),
        ("LAST_CELL", LAST_CELL as usize),
        ("PARTICLE_FLOATS", PARTICLE_FLOATS),
        ("PARTICLE_WORDS", PARTICLE_WORDS),
        ("NODE_FLOATS", NODE_FLOATS),
        ("CELLS_OF_REGION", REGION_NODES),
        ("LISTING_BYTES", listing::LISTING_BYTES),
        ("LISTING_MAX_REGIONS", listing::MAX_REGIONS),
        ("LISTING_MAX_PARTICLES", listing::MAX_PARTICLES),
    ];
    for (name, value) in whole {
        assert_eq!(of_header.get(name), Some(&(value as f64)), "{}", name);
    }
    for (name, value) in [("MIN_CELL_WIDTH", MIN_CELL_WIDTH), ("MAX_CELL_WIDTH", MAX_CELL_WIDTH)] {
        assert_eq!(of_header.get(name), Some(&f64::from(value)), "{}", name);
    }
}
