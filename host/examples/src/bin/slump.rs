//! Lets the column slump, says how it goes on, and writes the pictures.
//!
//!     slump FOLDER

use examples::cup::{column, SUBSTEPS};
use examples::pictures::pictures;
use examples::port::Port;
use examples::run::{mass, slump, Moment};
use std::error::Error;
use std::path::Path;
use std::process::ExitCode;

/// A line is printed after every so many substeps.
const EVERY: usize = 50;

fn main() -> ExitCode {
    let words: Vec<String> = std::env::args().skip(1).collect();
    match &words[..] {
        [folder] => match run(Path::new(folder)) {
            Ok(()) => ExitCode::SUCCESS,
            Err(error) => {
                eprintln!("slump: {}", error);
                ExitCode::FAILURE
            }
        },
        _ => {
            eprintln!("slump FOLDER");
            ExitCode::from(2)
        }
    }
}

fn run(folder: &Path) -> Result<(), Box<dyn Error>> {
    let grains = column();
    println!("{} grains of {:.3} mg in all, {} substeps", grains.len(), mass(&grains), SUBSTEPS);
    let course = slump(&mut Port::new(grains)?, |moment, _| say(moment))?;
    std::fs::create_dir_all(folder)?;
    for (name, picture) in pictures(&course) {
        let file = folder.join(name);
        std::fs::write(&file, picture)?;
        println!("wrote {}", file.display());
    }
    Ok(())
}

fn say(moment: &Moment) {
    let Moment { substep, front, top, energy, mass } = moment;
    if substep % EVERY == 0 {
        println!(
            "substep {:3}, {:5.1} ms: front {:4.1} mm, top {:4.1} mm, kinetic energy {:5.3} uJ, mass on nodes {:.5} mg",
            substep,
            moment.time(),
            front,
            top,
            energy,
            mass
        );
    }
}
