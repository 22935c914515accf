//! Calls on slices against the archive's own: random ones, and random ones with a fault. Number, index and every word are the same.

#[path = "../../mangerknot-sys/tests/archive/mod.rs"]
mod archive;
mod safe;

use archive::Which;
use safe::answer_as_raw;
use samples::lines::Edit;
use samples::random::{bounded, gathered, order, Style};
use samples::{Call, Rng};
use std::collections::BTreeSet;
use std::fs;

const SEED: u64 = 0x5361_6665_2063_616c;

fn any_call(rng: &mut Rng) -> Call {
    let call = Style::any(rng).sample(rng);
    let colliders = rng.below(3) as usize;
    gathered(bounded(call, colliders, rng), rng)
}

/// Every call, the scatter of one region and in an order among them.
fn all_calls<'a>(place: usize, order: &'a [u64]) -> [Which<'a>; 9] {
    let scatters = [Which::All, Which::Region(place), Which::Order(order)];
    let [all, region, ordered] = scatters;
    [Which::Clear, all, region, ordered, Which::Update, Which::Sequence, Which::FirstHalf, Which::SecondHalf, Which::Fluids]
}

#[test]
fn what_is_done_is_what_the_archive_does() {
    let mut rng = Rng::new(SEED);
    for _ in 0..500 {
        let call = any_call(&mut rng);
        let (place, order) = (rng.below(call.regions) as usize, order(&call, &mut rng));
        for which in &all_calls(place, &order) {
            let (answer, after) = answer_as_raw(which, &call);
            assert_eq!(answer, Ok(()));
            assert!(which.writes_nodes() || after.node_floats == call.node_floats);
        }
    }
}

/// A change that breaks a rule, or now and then none.
fn fault(call: &Call, rng: &mut Rng) -> Edit {
    let lists = [
        ('i', call.ids.len()),
        ('s', call.ranges.len()),
        ('f', call.particle_floats.len()),
        ('w', call.particle_words.len()),
        ('m', call.node_floats.len()),
        ('k', call.node_words.len()),
        ('n', call.boundary.frictions.len()),
        ('j', call.boundary.points.len()),
        ('q', call.boundary.insides.len()),
        ('g', call.gather.given_floats.len()),
        ('v', call.gather.given_words.len()),
    ];
    let (list, length) = rng.one_of(&lists);
    let bad_float = rng.one_of(&[f32::NAN, f32::INFINITY, f32::NEG_INFINITY, -1.0, 0.0, 3e38]).to_bits();
    let word = rng.one_of(&[2, 4096, u32::MAX, bad_float, bad_float, bad_float]);
    match rng.below(5) {
        0 => Edit::Length(list, rng.one_of(&[length + 1, length.saturating_sub(1), 0, 2 * length])),
        1 => Edit::Setting(rng.one_of(&['h', 't', 'x', 'y', 'b', 'd', 'e']), word),
        2 if !call.ids.is_empty() => Edit::Entry('i', call.ids.len() - 1, 1 << 60),
        3 if length > 0 => Edit::Entry(list, rng.below(length as u64) as usize, u64::from(word)),
        4 if call.particle_floats.len() > 26 => Edit::Entry('f', 26 + rng.below(2) as usize, u64::from(bad_float)),
        _ => Edit::Setting('t', 0),
    }
}

/// And each refusal has a sentence about a record that is there.
#[test]
fn what_is_refused_is_refused_alike() {
    let mut rng = Rng::new(!SEED);
    let mut numbers = BTreeSet::new();
    for _ in 0..1000 {
        let call = any_call(&mut rng);
        let mut faulty = call.clone();
        let mut faults = vec![];
        for _ in 0..1 + rng.below(2) {
            faults.push(fault(&faulty, &mut rng));
            faulty = call.edited(&faults);
        }
        let mut order = order(&call, &mut rng);
        let place = rng.below(call.regions + 1) as usize;
        if rng.below(4) == 0 {
            order[rng.below(call.regions) as usize] = rng.below(call.regions + 1);
        }
        for which in &all_calls(place, &order) {
            if let Err(refused) = answer_as_raw(which, &faulty).0 {
                assert!(!refused.sentence.contains("no sentence"), "{} of {:?}", refused, faults);
                numbers.insert(refused.number);
            }
        }
    }
    assert_eq!(numbers.into_iter().collect::<Vec<_>>(), [1, 3, 4, 5, 6, 7, 8, 9, 10]);
}

/// Every function that is declared is passed on by some module.
#[test]
fn every_function_is_passed_on() {
    let here = env!("CARGO_MANIFEST_DIR");
    let read = |path: &str| fs::read_to_string(format!("{}/{}", here, path)).expect("a source");
    let sources = fs::read_dir(format!("{}/src", here)).expect("the sources").map(|entry| entry.expect("a source").path());
    let modules: String = sources.map(|path| fs::read_to_string(path).expect("a source")).collect();
    let declared = read("../mangerknot-sys/src/lib.rs");
    let names: Vec<&str> = declared.split("pub fn ").skip(1).filter_map(|rest| rest.split('(').next()).collect();
    assert!(names.len() >= 67);
    let missing: Vec<&&str> = names.iter().filter(|name| !modules.contains(&format!("{}:", name))).collect();
    assert!(missing.is_empty(), "{:?}", missing);
}
