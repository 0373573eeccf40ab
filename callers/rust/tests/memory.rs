//! How much memory calls ask for.

use dagcbor::{take_tape, CarReader};
use std::alloc::{GlobalAlloc, Layout, System};
use std::cell::Cell;

thread_local! {
    /// The bytes that this thread asked for so far.
    static ASKED: Cell<usize> = const { Cell::new(0) };
}

struct Counted;

// SAFETY: it is the system's allocator.
unsafe impl GlobalAlloc for Counted {
    unsafe fn alloc(&self, layout: Layout) -> *mut u8 {
        let _ = ASKED.try_with(|it| it.set(it.get() + layout.size()));
        System.alloc(layout)
    }

    unsafe fn dealloc(&self, at: *mut u8, layout: Layout) {
        System.dealloc(at, layout)
    }
}

#[global_allocator]
static COUNTED: Counted = Counted;

/// The bytes that are asked for meanwhile.
fn asked<T>(call: impl FnOnce() -> T) -> (T, usize) {
    let before = ASKED.with(Cell::get);
    let answer = call();
    (answer, ASKED.with(Cell::get) - before)
}

#[test]
fn an_item_of_many_takes_no_room_for_all() {
    let bytes = b"\x82\x01\x61a".repeat(1 << 16);
    let ((first, rest), asked) = asked(|| take_tape(&bytes).unwrap());
    assert_eq!((first.items().len(), rest.len()), (3, bytes.len() - 4));
    assert!(asked < 1 << 13, "{asked}");
}

#[test]
fn announced_lengths_ask_for_nothing() {
    let file = b"\x11\xa2\x65roots\x80\x67version\x01\xff\xff\xff\xff\xff\xff\xff\xff\x7f";
    let (section, asked) = asked(|| CarReader::new(&file[..]).unwrap().next());
    assert!(section.unwrap().is_err() && asked < 1 << 17, "{asked}");
}

#[cfg(feature = "serde")]
#[test]
fn announced_lengths_of_blocks_ask_for_nothing() {
    for first in [0x5b, 0x7b, 0x9b, 0xbb] {
        let front = [first, 0x7f, 0xff, 0xff, 0xff, 0xff, 0xff, 0xff, 0xff, 0x60];
        let read = || dagcbor::from_reader_once::<dagcbor::Ipld, _>(&front[..]);
        let (read, asked) = asked(read);
        assert!(read.is_err() && asked < 1 << 12, "{asked}");
    }
}
