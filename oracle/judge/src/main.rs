//! The archive's functions beside the handed-over Rust's, in one process; and bench listings beside the oracle's answers.
//!
//!     judge compare SEED COUNT     so many random and adversarial calls of all functions, whole substeps in chains among them, and a few
//!                                  more to the end of a round; counts by function and by number; the smallest call that differs, if
//!                                  any, in the vectors' fields; status 1 where something differs or a function was left out
//!     judge round SEED ROUND       one round of these by itself, each call printed before it is asked; status 1 where something differs
//!     judge hostile                every call that is lent lists, of 1,000,000 entries: what it answers and how long that takes; status 1 where
//!                                  one is not refused at once, or writes
//!     judge replay                 a call that was printed once more, from its lines on standard input; status 1 where it differs
//!     judge listings SEED COUNT    so many damaged bench listings, and good ones among them, in one process: text in, text out; status 1 at the
//!                                  first answer that is not the oracle's, in room enough and in too little
//!     judge program SEED COUNT FILE WORDS..   the same through a program, a process each: what it prints, its status, and that it ends
//!     judge time [REPETITIONS]     each call of the stages and the whole substep at 1,024, 8,192 and 65,536 particles, each side by
//!                                  itself: medians, ratios, and what a particle costs; status 1 where the sides leave different nodes
//!                                  or particles
//!     judge once SIDE TASK PARTICLES   one row of that table on one side, once, for a program that counts instructions
//!     judge slump [SUBSTEPS]       the powder column of host/examples under its host's law, so many substeps or all; status 1 where a
//!                                  particle differs after any of them
//!
//! Should the archive crash in `compare` or `listings`, or not answer within a minute, the last line says where that was.
//!
//! Any NaN equals any NaN in a node that is hit or moved and in a particle that is; the others keep every bit. Status 2 where the words are
//! wrong.

#[path = "../../../host/mangerknot-sys/tests/archive/mod.rs"]
mod archive;
mod compare;
#[path = "../../../host/mangerknot-sys/tests/guarded/mod.rs"]
mod guarded;
#[path = "../../../host/mangerknot-sys/tests/lent/mod.rs"]
mod lent;
mod listings;
mod program;
#[path = "../../../host/mangerknot-sys/tests/replay/mod.rs"]
mod replay;
mod slump;
mod time;
mod watch;

use std::io::Read;
use std::process::ExitCode;

fn main() -> ExitCode {
    let arguments: Vec<String> = std::env::args().skip(1).collect();
    let words: Vec<&str> = arguments.iter().map(String::as_str).collect();
    let done = match words[..] {
        ["compare", seed, count] => numbers(seed, count).map(|(seed, count)| compare::run(seed, count)),
        ["round", seed, round] => numbers(seed, round).map(|(seed, round)| compare::round(seed, round)),
        ["hostile"] => Some(compare::hostile::run()),
        ["replay"] => input().and_then(|told| compare::replay(&told)),
        ["listings", seed, count] => numbers(seed, count).map(|(seed, count)| listings::run(seed, count)),
        ["program", seed, count, file, ref words @ ..] => {
            numbers(seed, count).map(|(seed, count)| program::run(seed, count, file, words))
        }
        ["time"] => Some(time::run(11)),
        ["time", repetitions] => repetitions.parse().ok().filter(|count| *count > 0).map(time::run),
        ["once", side, task, particles] => particles.parse().ok().and_then(|particles| time::once(side, task, particles)),
        ["slump"] => Some(slump::run(examples::cup::SUBSTEPS)),
        ["slump", substeps] => substeps.parse().ok().filter(|count| *count > 0).map(slump::run),
        _ => None,
    };
    match done {
        Some(true) => ExitCode::SUCCESS,
        Some(false) => ExitCode::FAILURE,
        None => {
            eprintln!(
                "judge compare SEED COUNT, round SEED ROUND, hostile, replay with a call's lines, listings SEED COUNT, \
                 program SEED COUNT FILE WORDS.., time [REPETITIONS above 0], once SIDE TASK PARTICLES, or slump [SUBSTEPS above 0]"
            );
            ExitCode::from(2)
        }
    }
}

fn numbers(seed: &str, count: &str) -> Option<(u64, u64)> {
    seed.parse().ok().zip(count.parse().ok())
}

/// Standard input, where it is text.
fn input() -> Option<String> {
    let mut text = String::new();
    std::io::stdin().read_to_string(&mut text).ok().map(|_| text)
}

/// What figures are worth depends on this.
fn machine() -> String {
    std::env::var("MANGERKNOT_MACHINE").unwrap_or_else(|_| "not said".to_string())
}
