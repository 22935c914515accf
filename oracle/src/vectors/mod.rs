//! The vectors files: questions for the project's programs or its archive, and the answers that the port is held to.

mod book;
pub mod faults;
pub mod floats;
mod fluids;
pub mod gather;
mod grid;
#[cfg(test)]
mod hands;
pub mod lengths;
mod listing;
pub mod numeric;
pub mod packing;
mod scatter;
mod update;

use crate::rng::SEED;
use crate::sha256::hex_digest;
pub use listing::examples;
use std::collections::HashSet;

/// Two files of the repository, and what makes them.
pub struct Vectors {
    pub questions: &'static str,
    pub answers: &'static str,
    pub make: fn() -> Sheet,
}

pub const ALL: &[Vectors] = &[
    Vectors { questions: "crates/packing_runs/stdin", answers: "crates/packing_runs/stdout", make: packing::make },
    Vectors { questions: "crates/numeric_runs/stdin", answers: "crates/numeric_runs/stdout", make: numeric::make },
    Vectors { questions: "host/vectors/grid.questions", answers: "host/vectors/grid.answers", make: grid::make },
    Vectors { questions: "host/vectors/scatter.questions", answers: "host/vectors/scatter.answers", make: scatter::make },
    Vectors { questions: "host/vectors/update.questions", answers: "host/vectors/update.answers", make: update::make },
    Vectors { questions: "host/vectors/gather.questions", answers: "host/vectors/gather.answers", make: gather::make },
    Vectors { questions: "host/vectors/fluids.questions", answers: "host/vectors/fluids.answers", make: fluids::make },
    Vectors { questions: "host/vectors/lengths.questions", answers: "host/vectors/lengths.answers", make: lengths::make },
    Vectors { questions: "host/vectors/listing.questions", answers: "host/vectors/listing.answers", make: listing::make },
];

impl Vectors {
    /// The two files' paths in the repository and their texts.
    pub fn files(&self) -> [(String, String); 2] {
        let sheet = (self.make)();
        [(self.questions.to_string(), sheet.questions), (self.answers.to_string(), sheet.answers)]
    }
}

/// What a sheet is about whose answers are all the Rust's, and which a program reads and writes.
pub const OF_THE_RUST: &str = "questions (stdin) and the answers of the handed-over Rust to them (stdout), line by line.";

/// What a sheet is about whose answers are the Rust's and, for what the Rust does not have, `reading`'s.
pub const OF_BOTH: &str = "questions, and the answers of the handed-over Rust and of oracle's own reading to them, line by line.";

/// Questions and answers, line by line; both begin with the header.
pub struct Sheet {
    questions: String,
    answers: String,
    asked: HashSet<String>,
}

impl Sheet {
    /// A sheet with nothing but its header: what it is about, the seed, the handed-over files that answer, and the legend.
    pub fn titled(title: &str, about: &str, sources: &[&str], legend: &[&str]) -> Self {
        let mut lines = vec![
            format!("{} vectors: {}", title, about),
            "Made by `oracle write`, held against the Rust by `oracle check`; not to be edited by hand.".to_string(),
            format!("seed {}", hex(SEED)),
        ];
        lines.extend(digests(sources));
        lines.extend(legend.iter().map(|line| line.to_string()));
        let header: String = lines.iter().map(|line| format!("# {}\n", line)).collect();
        Sheet { questions: header.clone(), answers: header, asked: HashSet::new() }
    }

    /// Writes a question and its answer, unless that question stands here already.
    pub fn row(&mut self, operation: &str, question: Vec<String>, answer: Vec<String>) {
        let mut fields = vec![operation.to_string()];
        fields.extend(question);
        let line = fields.join("\t");
        if self.asked.insert(line.clone()) {
            self.questions += &(line + "\n");
            self.answers += &(answer.join("\t") + "\n");
        }
    }
}

/// A header's lines that pin the named ones of the handed-over files by their digests.
fn digests(names: &[&str]) -> Vec<String> {
    let sources = sparkl2d::sources();
    let bytes = |name: &str| sources.iter().find(|(path, _)| *path == name).expect("a file of the build").1;
    names.iter().map(|name| format!("sha256 {} {}", hex_digest(bytes(name)), name)).collect()
}

/// A u64 as sixteen hex digits.
pub fn hex(number: u64) -> String {
    format!("{:016X}", number)
}

/// Each u64 as sixteen hex digits.
pub fn hexes(numbers: impl IntoIterator<Item = u64>) -> Vec<String> {
    numbers.into_iter().map(hex).collect()
}

/// A u32 as eight hex digits.
pub fn word(number: u32) -> String {
    format!("{:08X}", number)
}

/// A number in plain decimal.
pub fn decimal(number: impl Into<u64>) -> String {
    number.into().to_string()
}

/// Reads a sheet's lines again, for the tests of each sheet.
#[cfg(test)]
mod format {
    use super::{word, Sheet};
    use samples::lines::Edit;
    use samples::{Call, WRITTEN_NAN};
    use std::collections::{BTreeMap, BTreeSet};

    pub fn fields(line: &str) -> Vec<&str> {
        line.split('\t').collect()
    }

    /// The questions and their answers, by fields.
    pub fn rows(sheet: &Sheet) -> impl Iterator<Item = (Vec<&str>, Vec<&str>)> {
        let lines = sheet.questions.lines().zip(sheet.answers.lines());
        lines.filter(|(question, _)| !question.starts_with('#')).map(|(question, answer)| (fields(question), fields(answer)))
    }

    /// A question about a call: which it is, the call with its changes, and the answer.
    pub type Question = (String, Call, Vec<String>);

    /// The questions of these letters about the calls of a sheet, whose fields `read` reads.
    pub fn questions(sheet: &Sheet, read: fn(&[&str]) -> Call, letters: &str) -> Vec<Question> {
        let (mut calls, mut found) = (vec![], vec![]);
        for (question, answer) in rows(sheet) {
            if question[0] == "b" {
                calls.push(read(&question[2..]));
            } else if letters.contains(question[0]) {
                let edits: Vec<Edit> = question[2..].iter().map(|edit| edit.parse().unwrap()).collect();
                let call: &Call = &calls[question[1].parse::<usize>().unwrap()];
                let answer = answer.iter().map(|field| field.to_string()).collect();
                found.push((question[0].to_string(), call.edited(&edits), answer));
            }
        }
        found
    }

    /// The calls of a sheet, whose fields `read` reads and `fields` writes again.
    pub fn assert_calls_are_read_again(sheet: &Sheet, read: fn(&[&str]) -> Call, fields: fn(&Call) -> Vec<String>) {
        for (question, answer) in rows(sheet).filter(|(question, _)| question[0] == "b") {
            let call = read(&question[2..]);
            assert!(fields(&call).iter().eq(&question[2..]));
            assert_eq!(answer, [call.node_words.len().to_string()]);
        }
    }

    /// The indices that calls of these letters answer with each number, and how often.
    pub fn answered(sheet: &Sheet, letters: &str) -> BTreeMap<(String, u32), (usize, BTreeSet<u64>)> {
        let mut found: BTreeMap<(String, u32), (usize, BTreeSet<u64>)> = BTreeMap::new();
        for (question, answer) in rows(sheet).filter(|(question, _)| letters.contains(question[0])) {
            let entry = found.entry((question[0].to_string(), answer[0].parse().unwrap())).or_default();
            entry.0 += 1;
            entry.1.insert(answer[1].parse().unwrap());
        }
        found
    }

    /// How often each operation is asked. `kinds` has, for a question, a letter for each field behind its first and for each of
    /// its answer: H and W upper case hex digits, 16 and 8, F such a W that is an f32 and no NaN but the written one, D a decimal, and *
    /// a W or so many of them in a row.
    pub fn counts(sheet: &Sheet, kinds: impl Fn(&[&str]) -> (String, String)) -> BTreeMap<String, usize> {
        let mut counts = BTreeMap::new();
        assert_eq!(sheet.questions.lines().count(), sheet.answers.lines().count());
        assert!(comments(&sheet.questions).eq(comments(&sheet.answers)));
        for (asked, said) in rows(sheet) {
            let (asks, says) = kinds(&asked);
            assert_kinds(&asked, &asked[1..], &asks);
            assert_kinds(&asked, &said, &says);
            *counts.entry(asked[0].to_string()).or_insert(0) += 1;
        }
        counts
    }

    fn comments(text: &str) -> impl Iterator<Item = (usize, &str)> {
        text.lines().enumerate().filter(|(_, line)| line.starts_with('#'))
    }

    fn assert_kinds(question: &[&str], fields: &[&str], kinds: &str) {
        assert_eq!(fields.len(), kinds.len(), "{:?}", question);
        assert!(fields.iter().zip(kinds.chars()).all(|(field, kind)| is_of_kind(field, kind)), "{:?}", question);
    }

    fn is_of_kind(field: &str, kind: char) -> bool {
        let upper_hex = field.chars().all(|c| c.is_ascii_digit() || ('A'..='F').contains(&c));
        match kind {
            'H' => field.len() == 16 && upper_hex,
            'W' => field.len() == 8 && upper_hex,
            'F' => is_of_kind(field, 'W') && (field == word(WRITTEN_NAN) || !is_nan(field)),
            '*' => field
                .split_once('*')
                .map_or(is_of_kind(field, 'W'), |(one, count)| is_of_kind(one, 'W') && is_of_kind(count, 'D')),
            _ => field.parse::<u64>().map_or(false, |number| number.to_string() == field),
        }
    }

    fn is_nan(field: &str) -> bool {
        f32::from_bits(u32::from_str_radix(field, 16).unwrap()).is_nan()
    }
}

#[cfg(test)]
mod tests {
    use super::*;

    #[test]
    fn one_seed_makes_one_sheet() {
        assert!(ALL.iter().all(|vectors| vectors.files() == vectors.files()));
    }
}
