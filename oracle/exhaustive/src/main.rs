//! Compares `mk_round`, `mk_to_u32` and `mk_root` of the archive with Rust's `f32::round`, `as u32` and `f32::sqrt`, each on every
//! pattern of 32 bits or on some. Any NaN equals any NaN. Status 1 where an answer differs, 2 where the words are wrong.
//!
//!     exhaustive [FROM TO STEP]     patterns FROM, FROM + STEP, .. below TO; all 2^32 where nothing is said

use mangerknot_sys::{mk_root, mk_round, mk_to_u32};
use std::process::ExitCode;
use std::sync::atomic::{AtomicU64, Ordering};
use std::thread;

const ALL: u64 = 1 << 32;

/// Patterns that a thread takes at a time: few enough that none waits long for the last.
const PORTION: u64 = 1 << 20;

#[derive(Clone, Copy)]
struct Range {
    from: u64,
    to: u64,
    step: u64,
}

impl Range {
    fn count(self) -> u64 {
        (self.to - self.from + self.step - 1) / self.step
    }

    fn pattern(self, place: u64) -> u32 {
        (self.from + place * self.step) as u32
    }
}

/// One function: the port's answer and Rust's, as bits.
struct Pair {
    name: &'static str,
    port: fn(f32) -> u32,
    rust: fn(f32) -> u32,
}

const PAIRS: [Pair; 3] = [
    Pair { name: "round", port: |x| bits(unsafe { mk_round(x) }), rust: |x| bits(x.round()) },
    Pair { name: "to_u32", port: |x| unsafe { mk_to_u32(x) }, rust: |x| x as u32 },
    Pair { name: "root", port: |x| bits(unsafe { mk_root(x) }), rust: |x| bits(x.sqrt()) },
];

/// The bits of an answer, the same for every NaN.
fn bits(x: f32) -> u32 {
    if x.is_nan() {
        0x7fc0_0000
    } else {
        x.to_bits()
    }
}

#[derive(Clone, Copy, Debug, Default, PartialEq)]
struct Tally {
    compared: u64,
    differ: u64,
    first: Option<u32>,
}

impl Tally {
    fn take(&mut self, pattern: u32, same: bool) {
        self.compared += 1;
        if !same {
            self.differ += 1;
            self.first = Some(self.first.map_or(pattern, |first| first.min(pattern)));
        }
    }

    fn join(self, other: Tally) -> Tally {
        Tally {
            compared: self.compared + other.compared,
            differ: self.differ + other.differ,
            first: self.first.into_iter().chain(other.first).min(),
        }
    }
}

fn compare(pair: &Pair, range: Range) -> Tally {
    let next = AtomicU64::new(0);
    let work = || {
        let mut tally = Tally::default();
        loop {
            let start = next.fetch_add(PORTION, Ordering::Relaxed);
            if start >= range.count() {
                return tally;
            }
            for place in start..range.count().min(start + PORTION) {
                let pattern = range.pattern(place);
                let x = f32::from_bits(pattern);
                tally.take(pattern, (pair.port)(x) == (pair.rust)(x));
            }
        }
    };
    let threads = thread::available_parallelism().map_or(1, |n| n.get());
    thread::scope(|scope| {
        let workers: Vec<_> = (0..threads).map(|_| scope.spawn(work)).collect();
        workers.into_iter().map(|worker| worker.join().expect("a worker ends")).fold(Tally::default(), Tally::join)
    })
}

fn range(words: &[String]) -> Option<Range> {
    let numbers: Option<Vec<u64>> = words.iter().map(|word| word.parse().ok()).collect();
    match numbers?[..] {
        [] => Some(Range { from: 0, to: ALL, step: 1 }),
        [from, to, step] if from < to && to <= ALL && step > 0 => Some(Range { from, to, step }),
        _ => None,
    }
}

fn main() -> ExitCode {
    let words: Vec<String> = std::env::args().skip(1).collect();
    let range = match range(&words) {
        Some(range) => range,
        None => {
            eprintln!("exhaustive [FROM TO STEP], FROM < TO <= {}, STEP > 0", ALL);
            return ExitCode::from(2);
        }
    };
    let machine = std::env::var("MANGERKNOT_MACHINE").unwrap_or_else(|_| "not said".to_string());
    println!("machine: {}", machine);
    println!("patterns: {:08X} to {:08X}, step {}", range.from, range.to - 1, range.step);
    let mut differ = 0;
    for pair in &PAIRS {
        let tally = compare(pair, range);
        println!("{}: {} compared, {} differ", pair.name, tally.compared, tally.differ);
        if let Some(first) = tally.first {
            let x = f32::from_bits(first);
            println!("{}: first at {:08X}: {:08X} and not {:08X}", pair.name, first, (pair.port)(x), (pair.rust)(x));
        }
        differ += tally.differ;
    }
    if differ == 0 {
        ExitCode::SUCCESS
    } else {
        ExitCode::FAILURE
    }
}

#[cfg(test)]
mod tests {
    use super::*;

    const WHOLE: Range = Range { from: 0, to: ALL, step: 4093 };

    /// The numbers that Rust does not round up to 1 by adding a half.
    #[test]
    fn a_wrong_function_is_told() {
        let wrong = Pair { name: "half and cut", port: |x| bits((x + 0.5).floor()), rust: |x| bits(x.round()) };
        let around = Range { from: 0x3eff_fffe, to: 0x3f00_0001, step: 1 };
        assert_eq!(compare(&wrong, around), Tally { compared: 3, differ: 1, first: Some(0x3eff_ffff) });
    }

    #[test]
    fn a_wrong_sign_of_zero_is_told() {
        let wrong = Pair { name: "no sign", port: |x| bits(x.abs()), rust: bits };
        let zero = Range { from: 0x8000_0000, to: 0x8000_0001, step: 1 };
        assert_eq!(compare(&wrong, zero), Tally { compared: 1, differ: 1, first: Some(0x8000_0000) });
    }

    #[test]
    fn every_pattern_of_a_range_is_taken_once() {
        let never = Pair { name: "never", port: |_| 0, rust: |_| 1 };
        let count = WHOLE.count();
        assert_eq!(compare(&never, WHOLE), Tally { compared: count, differ: count, first: Some(0) });
        assert_eq!(WHOLE.pattern(count - 1), 4294964992);
        assert_eq!(count, (0..ALL).step_by(4093).count() as u64);
    }

    #[test]
    fn words_are_a_range_or_refused() {
        let said = |words: &[&str]| range(&words.iter().map(|word| word.to_string()).collect::<Vec<_>>()).map(Range::count);
        assert_eq!(said(&[]), Some(ALL));
        assert_eq!(said(&["5", "12", "3"]), Some(3));
        assert_eq!(said(&["0", "4294967297", "1"]), None);
        assert_eq!(said(&["7", "7", "1"]), None);
        assert_eq!(said(&["0", "7", "0"]), None);
        assert_eq!(said(&["0", "7"]), None);
    }
}
