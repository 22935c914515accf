//! Packing through the archive: document 01's values, and every packing vector, whose answers are the handed-over Rust's.

mod packed;
mod replay;

use mangerknot_sys::*;
use packed::{hex, id};
use replay::{decimal, replay};

#[test]
fn document_01s_values_in_2d() {
    unsafe {
        assert_eq!(mk_pack2(2, 2), 640);
        assert_eq!(mk_pack2(5, 5), 12608);
        assert_eq!(mk_packi2(-1, -1), 18446744073709548480);
        assert_eq!(mk_packed_add2(18446744073709548480, 12608), 12288);
        assert_eq!(mk_pack2(1 << 28, 0), 0);
    }
}

#[test]
fn document_01s_values_in_3d() {
    unsafe {
        assert_eq!(mk_pack3(4, 4, 4), 28672);
        assert_eq!(mk_packi3(-1, -1, -1), 18446744073709551552);
        assert_eq!(mk_packed_add3(18446744073709551552, 0), 9223372036854775744);
    }
}

#[test]
fn arguments_keep_their_order() {
    unsafe {
        assert_eq!(mk_unpack2(mk_pack2(1, 2)), Cell2 { x: 1, y: 2 });
        assert_eq!(mk_unpack3(mk_pack3(1, 2, 3)), Cell3 { x: 1, y: 2, z: 3 });
        assert_eq!(mk_unpack2(mk_packi2(-1, 2)), Cell2 { x: (1 << 28) - 1, y: 2 });
        assert_eq!(mk_unpack3(mk_packi3(-1, 2, -3)), Cell3 { x: (1 << 20) - 1, y: 2, z: (1 << 19) - 3 });
        assert_eq!(mk_masked_add(0xff, 0x1ff, 0x2), 0x1);
    }
}

/// A flag is 0 or 1 in all of its 32 bits, and beyond the last colour it is 0, where the Rust answers otherwise.
#[test]
fn flags_are_numbers() {
    unsafe {
        assert_eq!((0..5).map(|color| mk_is_in_region_with_color2(0x3fff, color)).collect::<Vec<_>>(), [0, 0, 0, 1, 0]);
        assert_eq!(
            (0..9).map(|color| mk_is_in_region_with_color3(0x5000, color)).collect::<Vec<_>>(),
            [0, 0, 0, 0, 0, 1, 0, 0, 0]
        );
        assert_eq!(mk_is_in_region_with_color2(0, 1 << 52), 0);
        assert_eq!(mk_is_in_region_with_color3(0, 1 << 52), 0);
    }
}

fn signed(word: &str) -> i32 {
    u32::from_str_radix(word, 16).expect("a field of 8 hex digits") as i32
}

fn ids(answers: &[u64]) -> String {
    answers.iter().map(|answer| id(*answer)).collect::<Vec<_>>().join("\t")
}

/// The archive's answer to a question; the letters are explained at the top of the file.
unsafe fn answer(question: &[&str]) -> String {
    match *question {
        ["p2", x, y] => id(mk_pack2(decimal(x), decimal(y))),
        ["p3", x, y, z] => id(mk_pack3(decimal(x), decimal(y), decimal(z))),
        ["i2", x, y] => id(mk_packi2(signed(x), signed(y))),
        ["i3", x, y, z] => id(mk_packi3(signed(x), signed(y), signed(z))),
        ["u2", cell] => {
            let Cell2 { x, y } = mk_unpack2(hex(cell));
            format!("{}\t{}", x, y)
        }
        ["u3", cell] => {
            let Cell3 { x, y, z } = mk_unpack3(hex(cell));
            format!("{}\t{}\t{}", x, y, z)
        }
        ["a2", i, j] => id(mk_packed_add2(hex(i), hex(j))),
        ["a3", i, j] => id(mk_packed_add3(hex(i), hex(j))),
        ["o2", cell] => id(mk_shift_cell_neg_one2(hex(cell))),
        ["o3", cell] => id(mk_shift_cell_neg_one3(hex(cell))),
        ["w2", cell] => id(mk_shift_cell_neg_two2(hex(cell))),
        ["w3", cell] => id(mk_shift_cell_neg_two3(hex(cell))),
        ["f2", cell] => id(mk_shift_cell_plus_five2(hex(cell))),
        ["f3", cell] => id(mk_shift_cell_plus_five3(hex(cell))),
        ["c2", region, color] => mk_is_in_region_with_color2(hex(region), decimal(color)).to_string(),
        ["c3", region, color] => mk_is_in_region_with_color3(hex(region), decimal(color)).to_string(),
        ["n2", region] => ids(&mk_region_neighbors2(hex(region)).ids),
        ["n3", region] => ids(&mk_region_neighbors3(hex(region)).ids),
        ["t2"] => ids(&mk_nbh_shifts2().ids),
        ["t3"] => ids(&mk_nbh_shifts3().ids),
        ["g2"] => ids(&mk_nbh_region_shifts2().ids),
        ["g3"] => ids(&mk_nbh_region_shifts3().ids),
        ["s2", cell] => ids(&mk_stencil_ids2(hex(cell)).ids),
        ["s3", cell] => ids(&mk_stencil_ids3(hex(cell)).ids),
        ["k2", cell] => mk_number_in_region2(hex(cell)).to_string(),
        ["k3", cell] => mk_number_in_region3(hex(cell)).to_string(),
        ["l2", region, number] => id(mk_cell_of_region2(hex(region), decimal(number))),
        ["l3", region, number] => id(mk_cell_of_region3(hex(region), decimal(number))),
        ["r0", cell] => id(mk_region_of(hex(cell))),
        ["m0", mask, i, j] => id(mk_masked_add(hex(mask), hex(i), hex(j))),
        _ => panic!("no such question: {:?}", question),
    }
}

#[test]
fn packing_vectors() {
    let asked = replay("crates/packing_runs/stdin", "crates/packing_runs/stdout", |question| unsafe { answer(question) });
    // 30 functions, each asked: an empty file would pass otherwise.
    assert_eq!(asked.len(), 30);
}
