//! Asks the handed-over Rust and writes its answers down (`write`), or holds the answers written down against it (`check`).

use oracle::vectors;
use std::path::{Path, PathBuf};
use std::process::ExitCode;
use std::{env, fs, io};

const USAGE: &str = "usage: oracle write [--root DIR]   makes every vectors file and every example
       oracle check [--root DIR]   makes them again in memory and compares; status 1 on any difference
DIR is the repository's root; without it, the one this program was built in.";

fn main() -> ExitCode {
    let arguments: Vec<String> = env::args().skip(1).collect();
    let words: Vec<&str> = arguments.iter().map(String::as_str).collect();
    match words[..] {
        ["write"] => write(&built_in()),
        ["check"] => check(&built_in()),
        ["write", "--root", root] => write(Path::new(root)),
        ["check", "--root", root] => check(Path::new(root)),
        _ => {
            eprintln!("{}", USAGE);
            ExitCode::from(2)
        }
    }
}

/// The repository this program was built in: its package lies directly below the root.
fn built_in() -> PathBuf {
    Path::new(env!("CARGO_MANIFEST_DIR")).join("..")
}

/// The path in the repository of every vectors file, and of every example of the bench listing, and its text as the Rust gives it now.
fn files() -> impl Iterator<Item = (String, String)> {
    vectors::ALL.iter().flat_map(|vectors| vectors.files()).chain(vectors::examples())
}

fn write(root: &Path) -> ExitCode {
    for (name, text) in files() {
        if let Err(error) = write_file(&root.join(&name), &text) {
            eprintln!("{}: {}", name, error);
            return ExitCode::FAILURE;
        }
        println!("wrote {} ({} lines)", name, text.lines().count());
    }
    ExitCode::SUCCESS
}

fn write_file(path: &Path, text: &str) -> io::Result<()> {
    if let Some(folder) = path.parent() {
        fs::create_dir_all(folder)?;
    }
    fs::write(path, text)
}

fn check(root: &Path) -> ExitCode {
    let mut alike = true;
    for (name, made) in files() {
        match compared(fs::read(root.join(&name)), made.as_bytes()) {
            Ok(()) => println!("ok {} ({} lines)", name, made.lines().count()),
            Err(difference) => {
                alike = false;
                println!("DIFFERS {}: {}", name, difference);
            }
        }
    }
    if alike {
        ExitCode::SUCCESS
    } else {
        ExitCode::FAILURE
    }
}

/// Holds a file as it was read against its text made again, byte for byte; a file that cannot be read differs.
fn compared(read: io::Result<Vec<u8>>, made: &[u8]) -> Result<(), String> {
    match read {
        Err(error) => Err(error.to_string()),
        Ok(found) if found == made => Ok(()),
        Ok(found) => Err(first_difference(&found, made)),
    }
}

/// Says where two differing texts part; a text that has ended shows an empty line.
fn first_difference(found: &[u8], made: &[u8]) -> String {
    let mut number = 1;
    let (mut found_lines, mut made_lines) = (lines(found), lines(made));
    loop {
        let (has, should) = (found_lines.next(), made_lines.next());
        if has != should || has.is_none() {
            return format!("first differing line {}: has {:?}, should be {:?}", number, shown(has), shown(should));
        }
        number += 1;
    }
}

/// Lines with their line feeds, so that a missing last one is seen.
fn lines(text: &[u8]) -> impl Iterator<Item = &[u8]> {
    text.split_inclusive(|byte| *byte == b'\n')
}

fn shown(line: Option<&[u8]>) -> String {
    String::from_utf8_lossy(line.unwrap_or(b"")).into_owned()
}

#[cfg(test)]
mod tests {
    use super::*;

    #[test]
    fn the_same_bytes_are_alike() {
        assert_eq!(compared(Ok(b"# a\n1\n".to_vec()), b"# a\n1\n"), Ok(()));
    }

    #[test]
    fn one_digit_is_a_difference() {
        let difference = compared(Ok(b"# a\n1\n2\n".to_vec()), b"# a\n1\n3\n").unwrap_err();
        assert_eq!(difference, r#"first differing line 3: has "2\n", should be "3\n""#);
    }

    #[test]
    fn a_missing_line_feed_or_line_is_a_difference() {
        let no_line_feed = compared(Ok(b"1\n2".to_vec()), b"1\n2\n").unwrap_err();
        assert_eq!(no_line_feed, r#"first differing line 2: has "2", should be "2\n""#);
        let no_line = compared(Ok(b"1\n".to_vec()), b"1\n2\n").unwrap_err();
        assert_eq!(no_line, r#"first differing line 2: has "", should be "2\n""#);
    }

    #[test]
    fn a_missing_file_is_a_difference() {
        assert!(compared(Err(io::ErrorKind::NotFound.into()), b"").is_err());
    }
}
