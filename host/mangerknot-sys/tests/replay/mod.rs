//! Replays vectors through the archive, and reads their fields. Every test has of this what it needs.
#![allow(dead_code)]

use std::collections::BTreeMap;
use std::fs;
use std::str::FromStr;

/// Compares the answer to every question of a file with the one that stands beside it; says how often each kind was asked.
pub fn replay(questions: &str, answers: &str, mut answer: impl FnMut(&[&str]) -> String) -> BTreeMap<String, usize> {
    let read = |name: &str| fs::read_to_string(format!("{}/../../{}", env!("CARGO_MANIFEST_DIR"), name)).expect(name);
    let (questions, answers) = (read(questions), read(answers));
    assert_eq!(questions.lines().count(), answers.lines().count());
    let mut asked = BTreeMap::new();
    for (question, right) in questions.lines().zip(answers.lines()).filter(|(question, _)| !question.starts_with('#')) {
        let fields: Vec<&str> = question.split('\t').collect();
        assert_eq!(answer(&fields), right, "to {}", question);
        *asked.entry(fields[0].to_string()).or_default() += 1;
    }
    asked
}

pub fn decimal<T: FromStr>(field: &str) -> T {
    field.parse().ok().expect("a decimal field")
}
