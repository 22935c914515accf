//! Calls on lent memory between guards, of which every word is looked at afterwards. Every test has those that it needs.
#![allow(dead_code)]

use crate::archive::{self, Lists, Which};
use crate::lent::Lent;
use crate::replay::{decimal, replay};
use mangerknot_sys::Refusal;
use samples::lines::Edit;
use samples::substeps::{Answer, Stage};
use samples::{Boundary, Call, Gather, Records};

/// The particles and the nodes after a call.
pub type Both = [Records; 2];

/// What a call answers, and afterwards what it writes: the particles for a half of the gather and for the recomputation of fluids, else the
/// nodes.
pub fn ask(which: &Which, call: &Call) -> (Refusal, Records) {
    let (refusal, [particles, nodes]) = ask_for_both(which, call);
    (refusal, if which.writes_particles() { particles } else { nodes })
}

/// What a call answers, and afterwards particles and nodes. Whatever it does not write is as it was, and so is all where it is refused.
pub fn ask_for_both(which: &Which, call: &Call) -> (Refusal, Both) {
    let (refusal, both, is_kept) = ask_and_look(which, call);
    assert!(is_kept, "answered {}, and not every word is as it has to be", refusal.number);
    (refusal, both)
}

/// What a call answers, and afterwards particles and nodes; and whether whatever it does not write is as it was, and all where it is
/// refused.
pub fn ask_and_look(which: &Which, call: &Call) -> (Refusal, Both, bool) {
    let (wide, narrow) = ([u64::MAX, 0], [0x7f80_0001, 0xffff_ffff]);
    let lend = |words: &[u32]| Lent::of(words, narrow);
    let order: &[u64] = if let Which::Order(order) = which { order } else { &[] };
    let mut wide_lists = [order, &call.ids, &call.ranges].map(|words| Lent::of(words, wide));
    let Boundary { frictions, points, insides, .. } = &call.boundary;
    let Gather { given_floats, given_words, .. } = &call.gather;
    let mut given = [frictions, points, insides, given_floats, given_words].map(|words| lend(words));
    let mut particles = [&call.particle_floats, &call.particle_words].map(|words| lend(words));
    let mut nodes = [&call.node_floats, &call.node_words].map(|words| lend(words));
    let refusal = {
        let [order, ids, ranges] = &mut wide_lists;
        let [collider_floats, projection_floats, projection_words, given_floats, given_words] = &mut given;
        let [particle_floats, particle_words] = &mut particles;
        let [node_floats, node_words] = &mut nodes;
        let lists = Lists {
            ids: ids.lent(),
            ranges: ranges.lent(),
            particle_floats: particle_floats.lent(),
            particle_words: particle_words.lent(),
            collider_floats: collider_floats.lent(),
            projection_floats: projection_floats.lent(),
            projection_words: projection_words.lent(),
            given_floats: given_floats.lent(),
            given_words: given_words.lent(),
            node_floats: node_floats.lent(),
            node_words: node_words.lent(),
        };
        match which {
            Which::Order(_) => archive::answer(&Which::Order(order.lent()), call, lists),
            _ => archive::answer(which, call, lists),
        }
    };
    let lists_are = wide_lists.iter().all(Lent::is_kept) && given.iter().all(Lent::is_kept);
    let records_are =
        [(&particles, which.writes_particles()), (&nodes, which.writes_nodes())].iter().all(|(records, written)| {
            let is_kept = if *written && refusal.number == 0 { Lent::guards_are_kept } else { Lent::is_kept };
            records.iter().all(is_kept)
        });
    let both = [particles, nodes].map(|[mut floats, mut words]| (floats.lent().to_vec(), words.lent().to_vec()));
    (refusal, both, lists_are && records_are)
}

/// What a stage of a substep leaves. The recomputation of fluids leaves nodes as they were that have no mass.
pub fn stage(stage: Stage, call: &Call) -> Answer {
    let which = Which::from(stage);
    let (Refusal { number, index }, [particles, nodes]) = ask_for_both(&which, call);
    assert!(stage != Stage::Fluids || nodes == (call.node_floats.clone(), call.node_words.clone()));
    match number {
        0 if stage.leaves_particles() => Ok(particles),
        0 => Ok(nodes),
        number => Err((number, index)),
    }
}

/// What a call writes that has to be done.
pub fn done(which: &Which, call: &Call) -> Records {
    let (refusal, records) = ask(which, call);
    assert_eq!(refusal, Refusal { number: 0, index: 0 });
    records
}

/// The archive's answer to a question about a call with changes; what one that is done leaves is put in fields by `written`.
pub fn answer(which: &Which, call: &Call, edits: &[&str], written: impl FnOnce(&Call, &Both) -> Vec<String>) -> String {
    let edits: Vec<Edit> = edits.iter().map(|edit| edit.parse().expect("a change")).collect();
    let call = call.edited(&edits);
    let (Refusal { number, index }, records) = ask_for_both(which, &call);
    let mut fields = vec![number.to_string(), index.to_string()];
    if number == 0 {
        fields.extend(written(&call, &records));
    }
    fields.join("\t")
}

/// Replays vectors about calls: a line that begins with b has a call's number and the fields that `read` reads, every other one the number
/// of such a call and more. Answers the letters that lines began with.
pub fn replay_calls(name: &str, read: fn(&[&str]) -> Call, answer: impl Fn(&str, &Call, &[&str]) -> String) -> String {
    let mut calls: Vec<Call> = vec![];
    let [questions, answers] = ["questions", "answers"].map(|ending| format!("host/vectors/{}.{}", name, ending));
    let asked = replay(&questions, &answers, |question| match *question {
        ["b", number, ref fields @ ..] => {
            assert_eq!(decimal::<usize>(number), calls.len());
            calls.push(read(fields));
            calls[calls.len() - 1].node_words.len().to_string()
        }
        [letter, number, ref more @ ..] => answer(letter, &calls[decimal::<usize>(number)], more),
        _ => panic!("no such question: {:?}", question),
    });
    asked.keys().map(String::as_str).collect()
}
