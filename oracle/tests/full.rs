//! The harness for a full checkout, on the stand-ins: the vectors' own answers come out of it.

use sparkl2d::full::{written, Written};
use std::fs;
use std::path::{Path, PathBuf};

fn root() -> PathBuf {
    Path::new(env!("CARGO_MANIFEST_DIR")).join("..")
}

#[test]
fn every_answer_is_the_vectors() {
    let found = written(&root()).expect("the vectors");
    assert!(found.iter().map(|sheet| sheet.name).eq(["packing", "numeric", "grid", "scatter", "update", "gather", "fluids"]));
    for sheet in found {
        let files = ["crates/{}_runs/stdout", "host/vectors/{}.answers"].map(|file| root().join(file.replace("{}", sheet.name)));
        let handed = files.iter().find_map(|file| fs::read_to_string(file).ok()).expect("the answers");
        println!("{}: {} of its own, {} differ, {} left", sheet.name, sheet.own, sheet.differ, sheet.left);
        assert!(sheet.is_right() && sheet.answers == handed, "{}", sheet.name);
        assert!(!Written { own: sheet.own - sheet.own / 50, ..sheet }.is_right());
    }
}

/// A repository whose answers are wrong: what the harness answers itself is right all the same, and is counted.
#[test]
fn a_wrong_answer_is_not_handed_on() {
    let folder = std::env::temp_dir().join(format!("mangerknot-full-{}", std::process::id()));
    for name in ["crates/packing_runs/stdin", "crates/numeric_runs/stdin"] {
        fs::create_dir_all(folder.join(name).parent().unwrap()).unwrap();
    }
    fs::create_dir_all(folder.join("host/vectors")).unwrap();
    fs::write(folder.join("crates/packing_runs/stdin"), "p2\t5\t5\np3\t4\t4\t4\n").unwrap();
    fs::write(folder.join("crates/packing_runs/stdout"), "0000000000000000\n0000000000000001\n").unwrap();
    fs::write(folder.join("crates/numeric_runs/stdin"), "i\t40000000\nr\t40200000\n").unwrap();
    fs::write(folder.join("crates/numeric_runs/stdout"), "00000000\n40400000\n").unwrap();
    for name in ["grid", "scatter", "update", "gather", "fluids"] {
        for end in ["questions", "answers"] {
            fs::write(folder.join(format!("host/vectors/{}.{}", name, end)), "").unwrap();
        }
    }
    let found = written(&folder).unwrap();
    fs::remove_dir_all(&folder).unwrap();
    let counts = |place: usize| [found[place].own, found[place].differ, found[place].left];
    assert_eq!((counts(0), &found[0].answers[..]), ([1, 1, 1], "0000000000003140\n0000000000000001\n"));
    assert_eq!((counts(1), &found[1].answers[..]), ([1, 1, 1], "3F000000\n40400000\n"));
    assert!((2..7).all(|place| counts(place) == [0; 3]));
    for sheet in found {
        let differs = sheet.differ > 0;
        assert_eq!(Written { own: 100_000, ..sheet }.is_right(), !differs);
    }
}
