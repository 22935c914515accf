//! What was asked so far, and how it is told at the end.

use samples::Records;
use std::collections::BTreeMap;

/// A call is done, or refused by one of the numbers from 1 on.
const NUMBERS: usize = 11;

/// The archive's functions as Rust has them declared.
const DECLARED: &str = include_str!("../../../../host/mangerknot-sys/src/lib.rs");

/// Functions that are not asked here: of whole texts, which have a judge of their own.
const ELSEWHERE: [&str; 1] = ["mk_bench"];

/// The names of all functions that are to be asked, in the order of their declarations.
pub fn functions() -> Vec<&'static str> {
    let behind = DECLARED.lines().filter_map(|line| line.trim().strip_prefix("pub fn "));
    behind.filter_map(|line| line.split('(').next()).filter(|name| !ELSEWHERE.contains(name)).collect()
}

#[derive(Default)]
pub struct Table {
    rows: BTreeMap<&'static str, [u64; NUMBERS]>,
    pub calls: u64,
    /// Calls whose answer is document 01's, since docs/DIFFERENCES.md has the Rust's as another.
    pub listed: u64,
    pub differ: u64,
    pub chains: u64,
    pub substeps: u64,
    pub longest: u64,
    pub nodes: Written,
    pub particles: Written,
}

/// How many records of calls that were done were compared, how many of these were written, and of the latter how many have a float that is
/// not finite.
#[derive(Debug, Default, PartialEq)]
pub struct Written {
    pub compared: u64,
    pub written: u64,
    pub strange: u64,
}

impl Written {
    /// The records before and after, with so many floats and words each.
    pub fn take(&mut self, before: (&[u32], &[u32]), after: &Records, floats: usize, words: usize) {
        let before = before.0.chunks_exact(floats).zip(before.1.chunks_exact(words));
        for (before, after) in before.zip(after.0.chunks_exact(floats).zip(after.1.chunks_exact(words))) {
            self.compared += 1;
            if before != after {
                self.written += 1;
                self.strange += u64::from(after.0.iter().any(|bits| !f32::from_bits(*bits).is_finite()));
            }
        }
    }
}

impl Table {
    pub fn count(&mut self, name: &'static str, number: u32) {
        self.calls += 1;
        self.rows.entry(name).or_default()[number as usize] += 1;
    }

    /// The functions that were not asked.
    pub fn left_out(&self) -> Vec<&'static str> {
        functions().into_iter().filter(|name| !self.rows.contains_key(name)).collect()
    }

    /// The whole of it.
    pub fn told(&self, seed: u64, machine: &str) -> String {
        let sums = self.rows.values().fold([0; NUMBERS], |mut sums, row| {
            sums.iter_mut().zip(row).for_each(|(sum, count)| *sum += count);
            sums
        });
        let heads = ["done".to_string()].into_iter().chain((1..NUMBERS).map(|number| number.to_string()));
        let mut lines = vec![
            format!("seed: {}", seed),
            format!("machine: {}", machine),
            format!("calls: {}, of which {} are done and {} refused", self.calls, sums[0], self.calls - sums[0]),
            row("calls by function and number", heads),
        ];
        let told = functions().into_iter().filter_map(|name| self.rows.get(name).map(|counts| (name, counts)));
        lines.extend(told.chain([("in all", &sums)]).map(|(name, counts)| row(name, counts.iter().map(written_count))));
        lines.push(format!("not asked: {:?}", self.left_out()));
        lines.push(format!(
            "of these calls in chains of substeps: {} chains, {} substeps, {} in the longest",
            self.chains, self.substeps, self.longest
        ));
        for (name, records) in [("nodes", &self.nodes), ("particles", &self.particles)] {
            let Written { compared, written, strange } = records;
            lines.push(format!(
                "{} compared: {}, {} of them written, of which {} have a NaN or an infinity",
                name, compared, written, strange
            ));
        }
        lines.push(format!("held to document 01, where docs/DIFFERENCES.md has the Rust's answer as another: {}", self.listed));
        lines.push(format!("differences: {}", self.differ));
        lines.join("\n")
    }
}

fn written_count(count: &u64) -> String {
    match count {
        0 => "-".to_string(),
        count => count.to_string(),
    }
}

fn row(name: &str, fields: impl Iterator<Item = String>) -> String {
    format!("{:<36}", name) + &fields.map(|field| format!("{:>8}", field)).collect::<String>()
}

#[cfg(test)]
mod tests {
    use super::*;
    use std::collections::BTreeSet;

    #[test]
    fn functions_are_those_of_the_header() {
        let header = include_str!("../../../../include/mangerknot.h");
        let names = functions();
        assert!(names.len() > 60 && names.iter().all(|name| header.contains(&format!(" {}(", name))), "{:?}", names);
        let of_header = header.split(|c: char| !c.is_ascii_alphanumeric() && c != '_').filter(|word| word.starts_with("mk_"));
        let of_header: BTreeSet<&str> = of_header.filter(|word| header.contains(&format!(" {}(", word))).collect();
        assert!(of_header.iter().all(|name| names.contains(name) || ELSEWHERE.contains(name)), "{:?}", of_header);
    }

    #[test]
    fn rows_and_sums_are_told() {
        let mut table = Table::default();
        table.count("mk_clear2", 0);
        table.count("mk_clear2", 6);
        table.count("mk_round", 0);
        let told = table.told(7, "a machine");
        let has = |name: &str, fields: &[&str]| {
            let line = told.lines().find(|line| line.starts_with(name)).expect("a row");
            line.split_whitespace().skip(name.split(' ').count()).take(fields.len()).eq(fields.iter().copied())
        };
        assert!(has("mk_clear2", &["1", "-", "-", "-", "-", "-", "1"]) && has("in all", &["2", "-", "-", "-", "-", "-", "1"]));
        assert!(told.starts_with("seed: 7\nmachine: a machine\ncalls: 3, of which 2 are done and 1 refused\n"));
        assert!(!table.left_out().contains(&"mk_clear2") && table.left_out().contains(&"mk_root"));
        assert_eq!(table.left_out().len() + 2, functions().len());
    }

    #[test]
    fn strange_records_are_counted() {
        let mut written = Written::default();
        let before = (&[1, 2, 3, 4, 5, 6][..], &[0, 0, 0][..]);
        written.take(before, &(vec![1, 2, 3, 0x7f80_0000, 5, 6], vec![0, 0, 1]), 2, 1);
        assert_eq!(written, Written { compared: 3, written: 2, strange: 1 });
    }
}
