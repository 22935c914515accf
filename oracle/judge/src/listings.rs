//! Damaged bench listings through the archive, in one process, beside the oracle's own answer to each.

use crate::watch::Watch;
use mangerknot_sys::mk_bench;
use oracle::listing::printed;
use samples::damage::{damaged, good};
use samples::listing::{pieces, split};
use samples::Rng;
use std::collections::BTreeMap;
use std::time::Instant;

/// A good listing is asked too, beside every so many damaged ones.
const GOOD: u64 = 8;

/// What stands behind the room for an answer, and in it before.
const GUARD: usize = 16;
const BLANK: u8 = 0xA5;

/// More room than any answer needs, by document 01's limits: 1,024 lines of less than 90 bytes, and one more.
const ROOM: usize = 100_000;

/// A function from a text to its answer, as the archive has it.
type Bench<'a> = &'a dyn Fn(&[u8], &mut [u8]) -> usize;

/// Asks the archive; says whether nothing differs.
pub fn run(seed: u64, count: u64) -> bool {
    let watch = Watch::start();
    let archive = |text: &[u8], out: &mut [u8]| unsafe { mk_bench(text.as_ptr(), text.len(), out.as_mut_ptr(), out.len()) };
    judged("through the archive, in room enough and in too little", seed, count, &mut |text, sample| {
        watch.on(format_args!("ended in sample {} of seed {}, on the text {}", sample, seed, pieces(text).join(" ")));
        in_rooms(text, sample, &archive)
    })
}

/// Asks about so many damaged texts and the good ones beside them, each of which `ask` answers, or says what is wrong with it;
/// at the first answer that is wrong, prints the smallest text that has a wrong one.
pub fn judged(way: &str, seed: u64, count: u64, ask: &mut dyn FnMut(&[u8], u64) -> Result<Vec<u8>, String>) -> bool {
    println!("machine: {}", crate::machine());
    println!("seed: {}", seed);
    let (began, mut tally) = (Instant::now(), Tally::default());
    for sample in 0..count {
        for text in texts(seed, sample) {
            if let Err(wrong) = compared(&text, sample, ask).map(|answer| tally.take(&text, &answer)) {
                println!("sample {}, of {} bytes: {}", sample, text.len(), wrong);
                let small = smallest(&text, &mut |text| compared(text, sample, ask).is_err());
                println!("the smallest: {}", pieces(&small).join(" "));
                println!("expected:     {}", pieces(printed(&small).as_bytes()).join(" "));
                println!("wrong:        {}", compared(&small, sample, ask).err().unwrap_or_default());
                return false;
            }
        }
    }
    println!("listings: {} damaged and {} good ones, {} bytes, {}", count, tally.texts - count, tally.bytes, way);
    println!("answers: {}", tally.said());
    println!("differ: 0; {:.1} s", began.elapsed().as_secs_f64());
    true
}

/// A sample's texts, by the seed and its number alone: a damaged one, and now and then the good one that it was.
fn texts(seed: u64, sample: u64) -> Vec<Vec<u8>> {
    let mut rng = Rng::new(Rng::new(seed).number() ^ Rng::new(sample).number());
    let text = good(&mut rng);
    let damaged = damaged(&text, &mut rng);
    if sample % GOOD == 0 {
        vec![damaged, text]
    } else {
        vec![damaged]
    }
}

/// The answer, if it is the oracle's.
fn compared(text: &[u8], sample: u64, ask: &mut dyn FnMut(&[u8], u64) -> Result<Vec<u8>, String>) -> Result<Vec<u8>, String> {
    let answer = ask(text, sample)?;
    if answer == printed(text).as_bytes() {
        Ok(answer)
    } else {
        Err(format!("answered {}", pieces(&answer).join(" ")))
    }
}

#[derive(Default)]
struct Tally {
    texts: u64,
    bytes: usize,
    /// How often each number was answered, with 0 for `ok`.
    answers: BTreeMap<u32, u64>,
}

impl Tally {
    fn take(&mut self, text: &[u8], answer: &[u8]) {
        self.texts += 1;
        self.bytes += text.len();
        *self.answers.entry(number(answer)).or_default() += 1;
    }

    fn said(&self) -> String {
        let said = |(number, count): (&u32, &u64)| {
            if *number == 0 {
                format!("ok {}", count)
            } else {
                format!("no {} {}", number, count)
            }
        };
        self.answers.iter().map(said).collect::<Vec<_>>().join(", ")
    }
}

/// The number of an answer that is the oracle's: of `no` the field behind it.
fn number(answer: &[u8]) -> u32 {
    let answer = String::from_utf8_lossy(answer);
    answer.strip_prefix("no\t").and_then(|fields| fields.split('\t').next()?.parse().ok()).unwrap_or(0)
}

/// The answer in room enough, which is now just as much and now more, if nothing is written behind it; and none in too little room, if
/// nothing is written at all.
fn in_rooms(text: &[u8], sample: u64, bench: Bench) -> Result<Vec<u8>, String> {
    let mut page = vec![BLANK; ROOM];
    let length = bench(text, &mut page);
    if length == 0 || length > ROOM || page[length..].iter().any(|byte| *byte != BLANK) {
        return Err(format!("answered {} in {} bytes, and wrote behind it or nothing", length, ROOM));
    }
    page.truncate(length);
    let (more, less) =
        ([0, 1, 7, 4096][sample as usize % 4], [length - 1, 0, length / 2, sample as usize % length][sample as usize / 4 % 4]);
    for (room, right) in [(length + more, length), (less, 0)] {
        let mut out = vec![BLANK; room + GUARD];
        let answered = bench(text, &mut out[..room]);
        if answered != right || out[..right] != page[..right] || out[right..].iter().any(|byte| *byte != BLANK) {
            return Err(format!("in {} bytes answered {} for {}, or wrote what it should not", room, answered, right));
        }
    }
    Ok(page)
}

/// A text as small as lines and bytes can be taken from it while it stays wrong.
fn smallest(text: &[u8], is_wrong: &mut dyn FnMut(&[u8]) -> bool) -> Vec<u8> {
    let lines: Vec<Vec<u8>> = split(text).map(<[u8]>::to_vec).collect();
    let text = reduced(lines, &mut |lines| is_wrong(&lines.concat())).concat();
    reduced(text, is_wrong)
}

/// A list as short as pieces can be taken from it, halves first and single entries last, while it stays wrong.
fn reduced<T: Clone>(mut list: Vec<T>, is_wrong: &mut dyn FnMut(&[T]) -> bool) -> Vec<T> {
    let mut size = (list.len() / 2).max(1);
    loop {
        let before = list.len();
        let mut place = 0;
        while place < list.len() {
            let end = (place + size).min(list.len());
            let shorter = [&list[..place], &list[end..]].concat();
            if is_wrong(&shorter) {
                list = shorter;
            } else {
                place = end;
            }
        }
        match size {
            1 if list.len() == before => return list,
            1 => (),
            _ => size /= 2,
        }
    }
}

#[cfg(test)]
mod tests {
    use super::*;

    /// The oracle's own answer, as the archive would give it.
    fn right(text: &[u8], out: &mut [u8]) -> usize {
        let answer = printed(text);
        match out.get_mut(..answer.len()) {
            Some(front) => front.copy_from_slice(answer.as_bytes()),
            None => return 0,
        }
        answer.len()
    }

    fn first_wrong(count: u64, bench: Bench) -> Option<(u64, String)> {
        (0..count).find_map(|sample| {
            let texts = texts(3, sample);
            let wrong = |text: &Vec<u8>| compared(text, sample, &mut |text, sample| in_rooms(text, sample, bench)).err();
            texts.iter().find_map(wrong).map(|wrong| (sample, wrong))
        })
    }

    #[test]
    fn what_is_right_is_found_right() {
        assert_eq!(first_wrong(300, &right), None);
    }

    /// Whatever a call could do to the room that it is lent.
    #[test]
    fn what_is_written_at_a_wrong_place_is_found() {
        let behind = |text: &[u8], out: &mut [u8]| {
            let length = right(text, out);
            out.iter_mut().skip(length).take(1).for_each(|byte| *byte = 0);
            length
        };
        let in_part = |text: &[u8], out: &mut [u8]| {
            let answer = printed(text);
            out.iter_mut().zip(answer.bytes()).for_each(|(byte, right)| *byte = right);
            if out.len() < answer.len() {
                0
            } else {
                answer.len()
            }
        };
        let one_too_few = |text: &[u8], out: &mut [u8]| if out.len() == printed(text).len() { 0 } else { right(text, out) };
        let nothing = |_: &[u8], _: &mut [u8]| 0;
        for bench in [&behind as Bench, &in_part, &one_too_few, &nothing] {
            assert!(first_wrong(60, bench).is_some());
        }
    }

    /// An answer that is wrong for few texts, and what is left of the first of them.
    #[test]
    fn what_is_answered_wrong_is_found_and_made_small() {
        let wrong = |text: &[u8], out: &mut [u8]| {
            let tolerated: Vec<u8> = text.iter().copied().filter(|byte| *byte != b'\r').collect();
            right(&tolerated, out)
        };
        let (sample, _) = first_wrong(5000, &wrong).expect("a text with a carriage return that is read otherwise");
        let is_wrong = |text: &[u8]| compared(text, sample, &mut |text, sample| in_rooms(text, sample, &wrong)).is_err();
        let text = texts(3, sample).into_iter().find(|text| is_wrong(text)).expect("one of the sample's");
        let small = smallest(&text, &mut |text| is_wrong(text));
        assert!(is_wrong(&small) && small.contains(&b'\r'));
        assert!(small.len() <= 40, "{:?}", pieces(&small));
    }

    #[test]
    fn a_list_is_reduced_to_what_is_needed() {
        let needed = |list: &[u32]| list.contains(&7) && list.contains(&61);
        assert_eq!(reduced((0..100).collect(), &mut |list| needed(list)), [7, 61]);
        assert!(reduced(vec![1, 2, 3], &mut |_| true).is_empty());
        assert_eq!(smallest(b"a\nbcd\nef\n", &mut |text| text.contains(&b'c')), b"c");
    }

    /// Texts are the sample's own; every answer there is comes among some thousands, none of them seldom, and so do full pages.
    #[test]
    fn every_answer_comes() {
        assert_eq!(texts(1, 8), texts(1, 8));
        assert!(texts(1, 8) != texts(2, 8) && texts(1, 8) != texts(1, 9));
        let (mut tally, mut full_pages) = (Tally::default(), 0);
        for text in (0..4000).flat_map(|sample| texts(1, sample)) {
            let answer = printed(&text);
            tally.take(&text, answer.as_bytes());
            full_pages += usize::from(answer.ends_with("ok\t1024\n"));
        }
        assert!(tally.answers.keys().copied().eq([0].into_iter().chain(2..12)), "{:?}", tally.answers);
        assert!(tally.answers[&0] > 400 && tally.answers[&11] > 1000 && full_pages > 2, "{:?} {}", tally.answers, full_pages);
        assert!(tally.said().starts_with("ok ") && tally.said().contains(", no 2 "), "{}", tally.said());
    }
}
