//! What a run is drawn as: three frames of the powder in its cup, and the flow curve.

use crate::cup::{place, DT, SUBSTEPS, WIDTH};
use crate::run::{Course, Moment, FRAMES};
use crate::svg::{Axis, Chart};
use mangerknot::Particle;

/// Colours of the powder's layers, from the floor up.
const LAYERS: [&str; 6] = ["#6b2f22", "#a8501f", "#d98e2b", "#8a9a3b", "#3d8577", "#27506b"];
const WALL: &str = "#5f5a52";

/// How high a frame is drawn, in mm.
const HEIGHT: f32 = 28.0;

/// The pictures and the names of their files.
pub fn pictures(course: &Course) -> Vec<(&'static str, String)> {
    let names = ["slump-start.svg", "slump-middle.svg", "slump-end.svg"];
    let frames = names.into_iter().zip(&course.frames).map(|(name, (moment, grains))| (name, frame(moment, grains)));
    frames.chain([("slump-front.svg", curve(&course.moments))]).collect()
}

/// The grains where they are, each in the colour of the layer that it began in: the column is listed from the floor up.
fn frame(moment: &Moment, grains: &[Particle]) -> String {
    let axes =
        [("mm from the left wall", WIDTH), ("mm above the floor", HEIGHT)].map(|(label, end)| Axis { label, end, tick: 8.0 });
    let mut chart = Chart::new(&format!("The powder after {} ms", moment.time()), axes);
    for (layer, colour) in LAYERS.iter().enumerate() {
        let (from, to) = (grains.len() * layer / LAYERS.len(), grains.len() * (layer + 1) / LAYERS.len());
        chart.dots(&grains[from..to].iter().map(place).collect::<Vec<_>>(), colour, 2.6);
    }
    let words = format!("{} grains, coloured by the layer they began in", grains.len());
    chart.note([WIDTH - 1.0, HEIGHT - 2.0], &words, WALL);
    chart.line(&[[0.0, HEIGHT], [0.0, 0.0], [WIDTH, 0.0], [WIDTH, HEIGHT]], WALL, 3.0);
    chart.finished()
}

/// Front and top over time. The moments that have a frame are marked.
fn curve(moments: &[Moment]) -> String {
    let end = SUBSTEPS as f32 * DT * 1e3;
    let axes = [Axis { label: "ms after it is let go", end, tick: 20.0 }, Axis { label: "mm", end: WIDTH, tick: 8.0 }];
    let mut chart = Chart::new("How far the front comes", axes);
    // Of each line its name, how far above its end that stands, its colour, and its number.
    let lines: [(_, _, _, fn(&Moment) -> f32); 2] = [
        ("front, from the left wall", 2.0, LAYERS[1], |moment| moment.front),
        ("top, above the floor", -4.0, LAYERS[5], |moment| moment.top),
    ];
    for (name, above, colour, of) in lines {
        let points: Vec<[f32; 2]> = moments.iter().map(|moment| [moment.time(), of(moment)]).collect();
        chart.line(&points, colour, 2.5);
        chart.dots(&FRAMES.map(|substep| points[substep]), colour, 7.0);
        let [time, last] = points[SUBSTEPS];
        chart.note([time - 3.0, last + above], &format!("{}: {:.1} mm", name, last), colour);
    }
    chart.finished()
}
