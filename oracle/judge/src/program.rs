//! Damaged bench listings through a program, a process each: what it prints, its status, and that it ends.

use crate::listings::judged;
use crate::watch::LIMIT;
use samples::listing::pieces;
use std::io::{Read, Write};
use std::process::{Child, Command, Stdio};
use std::sync::mpsc::channel;
use std::thread;
use std::time::Duration;

/// Asks the program; says whether nothing differs.
pub fn run(seed: u64, count: u64, file: &str, words: &[&str]) -> bool {
    judged("through the program, a process each", seed, count, &mut |text, _| printed_by(file, words, text, LIMIT))
}

/// What it prints for a text, if it ends in time with status 0 and says nothing else.
fn printed_by(file: &str, words: &[&str], text: &[u8], limit: Duration) -> Result<Vec<u8>, String> {
    let mut child = Command::new(file)
        .args(words)
        .stdin(Stdio::piped())
        .stdout(Stdio::piped())
        .stderr(Stdio::piped())
        .spawn()
        .map_err(|error| format!("{} does not start: {}", file, error))?;
    let mut input = child.stdin.take().expect("asked for");
    let text = text.to_vec();
    // It need not read on behind an unreadable line, so that what is left over is no error.
    let writer = thread::spawn(move || drop(input.write_all(&text)));
    let answered = ended(&mut child, limit);
    if answered.is_none() {
        drop(child.kill());
    }
    let status = child.wait().map_err(|error| error.to_string())?;
    writer.join().expect("it ends with the program");
    match answered {
        None => Err(format!("no end after {} s", limit.as_secs())),
        Some([printed, errors]) if status.code() == Some(0) && errors.is_empty() => Ok(printed),
        Some([printed, errors]) => Err(format!(
            "{}, printed {}, and on standard error {}",
            status,
            pieces(&printed).join(" "),
            pieces(&errors).join(" ")
        )),
    }
}

/// All of its standard output and error, where it closes both in time.
fn ended(child: &mut Child, limit: Duration) -> Option<[Vec<u8>; 2]> {
    let (mut output, mut errors) = (child.stdout.take().expect("asked for"), child.stderr.take().expect("asked for"));
    let (sender, receiver) = channel();
    thread::spawn(move || {
        let mut read = [vec![], vec![]];
        // Errors are few, and so do not fill their pipe while the output is read.
        let done = output.read_to_end(&mut read[0]).and_then(|_| errors.read_to_end(&mut read[1]));
        drop(sender.send(done.map(|_| read)));
    });
    receiver.recv_timeout(limit).ok()?.ok()
}

#[cfg(test)]
mod tests {
    use super::*;

    const SECOND: Duration = Duration::from_secs(1);

    fn shell(script: &str, text: &[u8]) -> Result<Vec<u8>, String> {
        printed_by("/bin/sh", &["-c", script], text, SECOND)
    }

    #[test]
    fn what_is_printed_is_answered() {
        assert_eq!(shell("cat", b"a\0\xFF\n"), Ok(b"a\0\xFF\n".to_vec()));
        let large = vec![b'x'; 1 << 20];
        assert_eq!(shell("cat", &large), Ok(large.clone()));
        assert_eq!(shell("echo no", &large), Ok(b"no\n".to_vec()));
    }

    #[test]
    fn a_status_an_error_a_signal_and_no_end_are_wrong() {
        for script in ["cat; exit 1", "cat; echo wrong >&2", "cat; kill -SEGV $$", "exec sleep 20"] {
            assert!(shell(script, b"a\n").is_err(), "{}", script);
        }
        assert!(printed_by("/no/such/file", &[], b"", SECOND).is_err());
    }

    /// A program that prints the same for every text is right about some of the first texts, and not about all.
    #[test]
    fn a_wrong_program_is_told() {
        assert!(!run(1, 40, "/bin/sh", &["-c", "cat >/dev/null; printf 'no\\t11\\t0\\n'"]));
        assert!(run(1, 0, "/bin/sh", &[]));
    }
}
