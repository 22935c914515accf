//! The bench listing through the archive: the listing vectors, each in room enough and in too little.

mod lent;
mod replay;

use lent::Lent;
use mangerknot_sys::mk_bench;
use replay::replay;
use samples::listing::{pieces, text};
use std::ptr;
use std::thread::Builder;

/// More than any answer has.
const ROOM: usize = 100_000;

/// What the archive writes into so many bytes, and what it answers; guards and text are kept, and so is all behind the answer.
fn bench(listing: &[u8], room: usize) -> (Vec<u8>, usize) {
    let (mut lent, mut out) = (Lent::of(listing, [b'\n', b'0']), Lent::of(&vec![0xA5; room], [0x5A, 0x5B]));
    let text = lent.lent();
    let page = out.lent();
    let length = unsafe { mk_bench(text.as_ptr(), text.len(), page.as_mut_ptr(), page.len()) };
    assert!(lent.is_kept() && out.guards_are_kept() && length <= room);
    let written = out.lent()[..length].to_vec();
    assert!(out.lent()[length..].iter().all(|byte| *byte == 0xA5));
    (written, length)
}

/// The answer, which is the same in just as much room, and none in less.
fn answer(listing: &[u8]) -> Vec<u8> {
    let (written, length) = bench(listing, ROOM);
    assert!(length > 0);
    assert_eq!(bench(listing, length), (written.clone(), length));
    for room in [length - 1, length / 2, 0] {
        assert_eq!(bench(listing, room), (vec![], 0));
    }
    written
}

#[test]
fn listing_vectors() {
    let asked = replay("host/vectors/listing.questions", "host/vectors/listing.answers", |question| match *question {
        ["l", ref fields @ ..] => pieces(&answer(&text(fields))).join("\t"),
        _ => panic!("no such question: {:?}", question),
    });
    assert!(asked["l"] >= 1000);
}

/// The stack that the header asks for is enough, with 32 KiB for what a thread and this file take themselves.
#[test]
fn the_stack_of_the_header_is_enough() {
    Builder::new().stack_size((192 + 32) * 1024).spawn(listing_vectors).unwrap().join().unwrap();
}

/// Nothing is behind a pointer with a count of 0, and NULL is as good as any.
#[test]
fn no_text_and_no_room_may_be_null() {
    let mut page = [0; 8];
    assert_eq!(unsafe { mk_bench(ptr::null(), 0, page.as_mut_ptr(), page.len()) }, 8);
    assert_eq!(&page, b"no\t11\t0\n");
    assert_eq!(unsafe { mk_bench(ptr::null(), 0, ptr::null_mut(), 0) }, 0);
    assert_eq!(unsafe { mk_bench(page.as_ptr(), page.len(), ptr::null_mut(), 0) }, 0);
}
