//! Counts requests for memory: those of one round of each row, for the original and for this library.
//!
//! It prints the rows that differ, and the number of rows that do not. Both sides use the heap of this program: the
//! Rattle library instead of the kit's heap, and Rust as its allocator.
#[macro_use]
mod loops;
mod inputs;
mod keys;
mod original;
#[cfg(peers)]
mod peers;
mod rattle;
mod rows;

use inputs::{Numbers, Texts};
use rows::{Loop, Row};
use std::alloc::{GlobalAlloc, Layout, System};
use std::sync::atomic::{AtomicU64, Ordering::Relaxed};

static ASKED: AtomicU64 = AtomicU64::new(0);
static GROWN: AtomicU64 = AtomicU64::new(0);
static FREED: AtomicU64 = AtomicU64::new(0);
static BYTES: AtomicU64 = AtomicU64::new(0);

fn add(count: &AtomicU64, n: usize) {
    count.fetch_add(n as u64, Relaxed);
}

struct Counted;

unsafe impl GlobalAlloc for Counted {
    unsafe fn alloc(&self, layout: Layout) -> *mut u8 {
        add(&ASKED, 1);
        add(&BYTES, layout.size());
        unsafe { System.alloc(layout) }
    }

    unsafe fn dealloc(&self, p: *mut u8, layout: Layout) {
        add(&FREED, 1);
        unsafe { System.dealloc(p, layout) }
    }

    unsafe fn realloc(&self, p: *mut u8, layout: Layout, size: usize) -> *mut u8 {
        add(&GROWN, 1);
        add(&BYTES, size);
        unsafe { System.realloc(p, layout, size) }
    }
}

#[global_allocator]
static COUNTED: Counted = Counted;

unsafe extern "C" {
    fn malloc(n: usize) -> *mut u8;
    fn realloc(p: *mut u8, n: usize) -> *mut u8;
    fn free(p: *mut u8);
}

#[repr(C)]
pub struct Granted {
    ok: bool,
    p: *mut u8,
}

fn granted(p: *mut u8) -> Granted {
    let ok = !p.is_null();
    Granted {
        ok,
        p: if ok { p } else { 16 as *mut u8 },
    }
}

#[unsafe(no_mangle)]
pub extern "C" fn rattle_alloc(n: usize, align: usize) -> Granted {
    add(&ASKED, 1);
    add(&BYTES, n);
    granted(unsafe { malloc(n.max(align)) })
}

#[unsafe(no_mangle)]
pub extern "C" fn rattle_realloc(p: *mut u8, _kept: usize, n: usize, align: usize) -> Granted {
    add(&GROWN, 1);
    add(&BYTES, n);
    granted(unsafe { realloc(p, n.max(align)) })
}

#[unsafe(no_mangle)]
pub extern "C" fn rattle_dealloc(p: *mut u8) {
    add(&FREED, 1);
    unsafe { free(p) }
}

/// Requests, growths, frees, and the bytes that were requested.
type Counts = [u64; 4];

fn counts() -> Counts {
    [&ASKED, &GROWN, &FREED, &BYTES].map(|count| count.load(Relaxed))
}

fn counts_of<T>(row: &Row<T>, run: Loop<T>, rounds: u64) -> Counts {
    let before = counts();
    std::hint::black_box(run(row.keys, row.probes, rounds));
    let after = counts();
    [0, 1, 2, 3].map(|i| after[i] - before[i])
}

/// Returns the requests of the second of two rounds.
fn round<T>(row: &Row<T>, run: Loop<T>) -> Counts {
    let (one, two) = (counts_of(row, run, 1), counts_of(row, run, 2));
    [0, 1, 2, 3].map(|i| two[i].wrapping_sub(one[i]))
}

/// Returns how many loops of this library make the same requests as the original, and how many loops there are.
fn compare<T>(rows: Vec<Row<T>>, n: usize) -> (usize, usize) {
    let mut equal = (0, 0);
    for row in rows {
        let expected = round(&row, row.loops[0].1);
        let ours = row.loops.iter().filter(|it| it.0.starts_with("vecmap"));
        for (who, run) in ours.skip(1) {
            let found = round(&row, *run);
            equal.0 += usize::from(found == expected);
            equal.1 += 1;
            if found != expected {
                let name = row.name.replace('|', "\\|");
                println!("| {name} | {n} | {expected:?} | {found:?} ({who}) |");
            }
        }
    }
    equal
}

fn main() {
    println!("\n| requests, growths, frees, bytes of a round | size | vecmap-rs | vecmap |");
    println!("|---|---|---|---|");
    let mut equal = (0, 0);
    for n in [2, 4, 8, 16, 32, 128, 512] {
        let inputs = Numbers::of(n);
        for part in [
            compare(rows::numbers(&inputs), n),
            compare(rows::texts(&Texts::of(&inputs), n), n),
        ] {
            equal = (equal.0 + part.0, equal.1 + part.1);
        }
    }
    println!("\nThe same in {} of {}.", equal.0, equal.1);
}
