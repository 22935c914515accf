//! Cells of points, lookup and clear through the archive: the grid vectors, a table by hand, and every word of lent memory.

mod lent;
mod packed;
mod pattern;
mod replay;

use lent::Lent;
use mangerknot_sys::*;
use packed::{hex, id};
use pattern::bits;
use replay::{decimal, replay};
use std::ptr;

/// Document 01's values, by hand: cells of points, and the centre of the cell at 5, 5.
#[test]
fn cells_by_hand() {
    let at = |x, y| Point2 { x, y };
    unsafe {
        assert_eq!(mk_cell_at_point2(1.0, at(2.5, 0.49999997)), mk_pack2(3, 0));
        assert_eq!(mk_cell_at_point2(0.5, at(-7.0, f32::NAN)), 0);
        assert_eq!(mk_cell_associated_to_point2(1.0, at(1.0, 1.0)), 0);
        assert_eq!(mk_cell_associated_to_point2(1.0, at(0.0, 0.0)), 18446744073709548480);
        assert_eq!(mk_region_associated_to_point2(1.0, at(0.0, 0.0)), 18446744073709547520);
        assert_eq!(mk_cell_associated_to_point2(0.5, at(3.2, 4.9)), mk_pack2(5, 9));
        assert_eq!(mk_cell_pos_closest_to_point2(0.5, at(3.2, 4.9)), at(3.0, 5.0));
        assert_eq!(mk_cell_pos_closest_to_point2(1.0, at(-0.25, 2.5)).x.to_bits(), 0x8000_0000);
        assert_eq!(mk_cell_center2(0.5, 12608), at(2.5, 2.5));
        assert_eq!(mk_cell_center2(1.0, 12608 | 0xc3f), at(5.0, 5.0));
    }
}

fn lookup(ids: &[u64], id: u64) -> FoundPlace {
    unsafe { mk_lookup(ids.as_ptr(), ids.len(), id) }
}

#[test]
fn lookups_by_hand() {
    let (at, absent) = (|place| FoundPlace { found: 1, place }, FoundPlace { found: 0, place: 0 });
    assert_eq!([0, 4096, 8192, 12288].map(|id| lookup(&[4096, 12288], id)), [absent, at(0), absent, at(1)]);
    assert_eq!(lookup(&[0], 0), at(0));
    assert_eq!(lookup(&[u64::MAX - 1, u64::MAX], u64::MAX), at(1));
    assert_eq!(lookup(&[], 0), absent);
    assert_eq!(unsafe { mk_lookup(ptr::null(), 0, 0) }, absent);
}

/// Marsaglia's xorshift32.
fn random(seed: u32) -> impl Iterator<Item = u32> {
    let mut state = seed.wrapping_mul(0x9e37_79b9) | 1;
    std::iter::repeat_with(move || {
        state ^= state << 13;
        state ^= state >> 17;
        state ^= state << 5;
        state
    })
}

/// What arithmetic may not carry through: NaNs, signalling and quiet, with any digits and either sign; between them infinities,
/// zeros, subnormals and any other pattern.
fn patterns(seed: u32) -> impl Iterator<Item = u32> {
    random(seed).enumerate().map(|(place, random)| {
        let (sign, digits) = (random & 0x8000_0000, random & 0x003f_ffff);
        match place % 8 {
            0..=2 => sign | 0x7f80_0000 | digits | 1,
            3 | 4 => sign | 0x7fc0_0000 | digits,
            5 => [0x7f80_0000, 0xff80_0000, 0x8000_0000, 0x0000_0000][random as usize % 4],
            6 => sign | digits,
            _ => random,
        }
    })
}

/// Every lent word is zero, and the guards are as they were.
fn is_cleared(words: &mut Lent<u32>) -> bool {
    words.guards_are_kept() && words.lent().iter().all(|word| *word == 0)
}

/// A call of clear, with nodes full of patterns that are lent as raw words; every lent word is looked at afterwards.
fn clear(regions: usize, ids: &[u64], floats: usize, words: usize) -> Refusal {
    let seed = (regions as u32) ^ (floats as u32) << 8 ^ (words as u32) << 16;
    let mut ids = Lent::of(ids, [u64::MAX, 0]);
    let mut floats = Lent::of(&patterns(seed).take(floats).collect::<Vec<_>>(), [0x7f80_0001, 0xffff_ffff]);
    let mut words = Lent::of(&random(!seed).take(words).collect::<Vec<_>>(), [0xa5a5_a5a5, 7]);
    let (lent_ids, lent_floats, lent_words) = (ids.lent(), floats.lent(), words.lent());
    let refusal = unsafe {
        mk_clear2(
            regions,
            lent_ids.as_ptr(),
            lent_ids.len(),
            lent_floats.as_mut_ptr().cast(),
            lent_floats.len(),
            lent_words.as_mut_ptr(),
            lent_words.len(),
        )
    };
    assert!(ids.is_kept());
    match refusal.number {
        0 => {
            assert!(is_cleared(&mut floats) && is_cleared(&mut words), "done, and not every node is zero, or more than the nodes")
        }
        _ => assert!(floats.is_kept() && words.is_kept(), "refused by {}, and not every word is as it was", refusal.number),
    }
    refusal
}

fn regions(count: u64) -> Vec<u64> {
    (0..count).map(|place| place << 12).collect()
}

/// Document 01's table on calls of clear, by hand: regions, their ids, floats and words of the nodes; number and index.
#[test]
fn refusals_by_hand() {
    let mut shuffled = regions(512);
    shuffled.swap(510, 511);
    let table: Vec<(usize, Vec<u64>, usize, usize, (u32, usize))> = vec![
        (0, vec![], 0, 0, (0, 0)),
        (1, vec![0], 112, 16, (0, 0)),
        (2, vec![4096, !0xfff], 224, 32, (0, 0)),
        (512, regions(512), 57344, 8192, (0, 0)),
        // 1: a slice's length does not match its count, whatever else is wrong.
        (1, vec![0], 111, 16, (1, 0)),
        (1, vec![0], 113, 16, (1, 0)),
        (1, vec![0], 112, 15, (1, 0)),
        (1, vec![0], 112, 17, (1, 0)),
        (1, vec![], 112, 16, (1, 0)),
        (1, vec![0, 4096], 112, 16, (1, 0)),
        (0, vec![0], 112, 16, (1, 0)),
        (2, vec![1, 1], 224, 31, (1, 0)),
        (513, regions(513), 57456, 8207, (1, 0)),
        (1 << 60, vec![], 0, 0, (1, 0)),
        ((1 << 60) + 1, vec![0], 112, 16, (1, 0)),
        (usize::MAX, vec![], 0, 0, (1, 0)),
        // 2: more than 512 regions, whatever their ids.
        (513, regions(513), 57456, 8208, (2, 0)),
        (513, vec![1; 513], 57456, 8208, (2, 0)),
        // 6: the first id with low bits, or not above the one before it.
        (1, vec![1], 112, 16, (6, 0)),
        (1, vec![2048], 112, 16, (6, 0)),
        (2, vec![0, 4096 + 64], 224, 32, (6, 1)),
        (2, vec![4096, 4096], 224, 32, (6, 1)),
        (2, vec![1 << 63, 4096], 224, 32, (6, 1)),
        (3, vec![0, 8192, 4096], 336, 48, (6, 2)),
        (3, vec![8192, 4096, 1], 336, 48, (6, 1)),
        (3, vec![1, 0, 0], 336, 48, (6, 0)),
        (512, shuffled, 57344, 8192, (6, 511)),
    ];
    for (regions, ids, floats, words, (number, index)) in table {
        let refusal = clear(regions, &ids, floats, words);
        assert_eq!(refusal, Refusal { number, index }, "{} regions {:?}, {} floats, {} words", regions, ids, floats, words);
    }
}

/// Nothing is behind a pointer with a count of 0, and NULL is as good as any.
#[test]
fn empty_slices_may_be_null() {
    let clear = |regions| unsafe { mk_clear2(regions, ptr::null(), 0, ptr::null_mut(), 0, ptr::null_mut(), 0) };
    assert_eq!(clear(0), Refusal { number: 0, index: 0 });
    assert_eq!(clear(1), Refusal { number: 1, index: 0 });
    assert_eq!(clear(1 << 60), Refusal { number: 1, index: 0 });
}

/// Each pattern in turn at one float of a node, refused and cleared.
#[test]
fn no_pattern_is_too_strange() {
    for bits in (0..=u32::MAX).step_by(1_000_003).chain([0x7f80_0001, 0xffc0_0000, 0x8000_0000]) {
        let (mut floats, mut words) = ([bits; 112], [bits; 16]);
        let mut clear = |id: u64| {
            let refusal = unsafe { mk_clear2(1, &id, 1, floats.as_mut_ptr().cast(), 112, words.as_mut_ptr(), 16) };
            (refusal, floats, words)
        };
        assert_eq!(clear(1), (Refusal { number: 6, index: 0 }, [bits; 112], [bits; 16]));
        assert_eq!(clear(0), (Refusal { number: 0, index: 0 }, [0; 112], [0; 16]));
    }
}

fn float(field: &str) -> f32 {
    f32::from_bits(u32::from_str_radix(field, 16).expect("a field of 8 hex digits"))
}

fn point(answer: Point2) -> String {
    format!("{:08X}\t{:08X}", bits(answer.x), bits(answer.y))
}

/// The archive's answer to a question, with the lists of those before it; the letters are explained at the top of the file.
fn answer(question: &[&str], lists: &mut Vec<Vec<u64>>) -> String {
    let at = |x: &str, y: &str| Point2 { x: float(x), y: float(y) };
    match *question {
        ["c", width, x, y] => point(unsafe { mk_cell_pos_closest_to_point2(float(width), at(x, y)) }),
        ["a", width, x, y] => id(unsafe { mk_cell_at_point2(float(width), at(x, y)) }),
        ["s", width, x, y] => id(unsafe { mk_cell_associated_to_point2(float(width), at(x, y)) }),
        ["r", width, x, y] => id(unsafe { mk_region_associated_to_point2(float(width), at(x, y)) }),
        ["m", width, cell] => point(unsafe { mk_cell_center2(float(width), hex(cell)) }),
        ["g", number, ref ids @ ..] => {
            assert_eq!(decimal::<usize>(number), lists.len());
            lists.push(ids.iter().map(|id| hex(id)).collect());
            ids.len().to_string()
        }
        ["l", list, sought] => {
            let FoundPlace { found, place } = lookup(&lists[decimal::<usize>(list)], hex(sought));
            format!("{}\t{}", found, place)
        }
        ["z", regions, list, floats, words] => {
            let ids = &lists[decimal::<usize>(list)];
            let Refusal { number, index } = clear(decimal(regions), ids, decimal(floats), decimal(words));
            format!("{}\t{}\t{}", number, index, u32::from(number == 0))
        }
        _ => panic!("no such question: {:?}", question),
    }
}

#[test]
fn grid_vectors() {
    let mut lists = vec![];
    let asked = replay("host/vectors/grid.questions", "host/vectors/grid.answers", |question| answer(question, &mut lists));
    let kinds: String = asked.keys().map(String::as_str).collect();
    assert_eq!(kinds, "acglmrsz");
}
