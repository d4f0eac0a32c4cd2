//! How much stack a call uses: the stack of a thread is painted before each call, and the deepest byte that lost its paint tells.

use crate::calls::{answer, records, Lent, Record};

const PAINT: u8 = 0xA5;
/// How far below the caller the stack is painted, and from where on, so that the painter's own frame is spared.
const DEPTH: usize = 1 << 20;
const SPARED: usize = 1 << 10;

/// Paints the stack below `base`.
#[inline(never)]
fn paint(base: *mut u8) {
    for distance in SPARED..DEPTH {
        // The thread's stack is larger than what is painted, and nothing lives below this frame.
        unsafe { base.sub(distance).write_volatile(PAINT) };
    }
}

/// How far below `base` the deepest byte without paint is.
#[inline(never)]
fn deepest(base: *mut u8) -> usize {
    let changed = |distance: &usize| unsafe { base.sub(*distance).read_volatile() } != PAINT;
    (SPARED..DEPTH).rev().find(changed).unwrap_or(SPARED)
}

/// The stack that one call uses, in bytes.
#[inline(never)]
fn used(record: &Record, lent: &mut Lent) -> usize {
    let mut here = 0u8;
    let base = &raw mut here;
    paint(base);
    std::hint::black_box(answer(record, lent));
    deepest(base)
}

fn run_all(records: &[Record]) {
    let mut lent = Lent::new(b'b');
    println!("call\trecords\tbytes");
    let calls = [
        (b'b', "blocks"),
        (b'c', "check"),
        (b'p', "pair"),
        (b't', "tighter"),
        (b's', "symmetries"),
        (b'r', "report"),
        (b'x', "record"),
        (b'd', "sum"),
        (b'a', "moved_bound"),
        (b'n', "office"),
    ];
    for (kind, name) in calls {
        let records = records.iter().filter(|record| record.kind == kind);
        let bytes: Vec<usize> = records.map(|record| used(record, &mut lent)).collect();
        let most = bytes.iter().copied().max().unwrap_or(0);
        assert!(most + 1 < DEPTH, "a call used all of the painted stack");
        println!("{name}\t{}\t{most}", bytes.len());
    }
}

/// Answers the records of the standard input, each with a painted stack, and prints the most bytes that a call of each kind used.
pub fn run() {
    let records = records();
    let thread = std::thread::Builder::new().stack_size(2 * DEPTH);
    let thread = thread.spawn(move || run_all(&records));
    thread.expect("a thread begins").join().expect("it ends");
}
