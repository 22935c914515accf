//! Tells where the judge was, should it not come back from a call: where that crashes, or never ends.

use std::fmt::Display;
use std::io::Write;
use std::process::{exit, Child, Command, Stdio};
use std::sync::{Arc, Mutex};
use std::thread;
use std::time::{Duration, Instant};

/// What is not answered by then never is.
pub const LIMIT: Duration = Duration::from_secs(60);

/// A process beside this one, which is told what is asked and prints the last of it where this one ends without taking leave: however
/// it ends, it cannot keep the other from that. And a thread that ends this one where a call takes too long, since nothing else can.
pub struct Watch {
    witness: Child,
    since: Arc<Mutex<Instant>>,
}

impl Watch {
    pub fn start() -> Watch {
        Watch::printing_to(Stdio::inherit())
    }

    fn printing_to(output: Stdio) -> Watch {
        let witness = Command::new("tail").args(["-n", "1"]).stdin(Stdio::piped()).stdout(output).spawn().expect("tail runs");
        let since = Arc::new(Mutex::new(Instant::now()));
        let seen = Arc::downgrade(&since);
        thread::spawn(move || {
            while let Some(since) = seen.upgrade() {
                if since.lock().expect("the other side does not stop").elapsed() > LIMIT {
                    println!("no answer after {} s", LIMIT.as_secs());
                    exit(1);
                }
                drop(since);
                thread::sleep(Duration::from_secs(1));
            }
        });
        Watch { witness, since }
    }

    /// Notes in one line what is asked from now on.
    pub fn on(&self, what: impl Display) {
        self.again();
        let mut told = self.witness.stdin.as_ref().expect("a pipe");
        told.write_all(format!("{}\n", what).as_bytes()).expect("it reads to the end");
    }

    /// Lets the time for an answer begin anew.
    pub fn again(&self) {
        *self.since.lock().expect("the other side does not stop") = Instant::now();
    }
}

impl Drop for Watch {
    /// Takes leave, unless something panics: where that was is told too.
    fn drop(&mut self) {
        if !thread::panicking() {
            drop(self.witness.kill());
        }
        drop(self.witness.stdin.take());
        drop(self.witness.wait());
    }
}

#[cfg(test)]
mod tests {
    use super::*;
    use std::io::Read;
    use std::panic::catch_unwind;

    /// What is printed beside a judge that ends like this.
    fn printed(end: fn(Watch)) -> String {
        let mut watch = Watch::printing_to(Stdio::piped());
        let mut output = watch.witness.stdout.take().expect("a pipe");
        watch.on("the first");
        watch.on("the last");
        end(watch);
        let mut printed = String::new();
        output.read_to_string(&mut printed).expect("plain text");
        printed
    }

    #[test]
    fn the_last_note_is_printed_where_no_leave_is_taken() {
        assert_eq!(printed(drop), "");
        // Where a process ends anyhow, its end of the pipe is closed and nothing else is done.
        let crashes = |mut watch: Watch| {
            drop(watch.witness.stdin.take());
            drop(watch.witness.wait());
        };
        assert_eq!(printed(crashes), "the last\n");
        let panics = |watch: Watch| drop(catch_unwind(move || panic!("on purpose, {}", watch.witness.id())));
        assert_eq!(printed(panics), "the last\n");
    }
}
