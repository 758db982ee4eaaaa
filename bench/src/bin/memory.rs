//! The memory of an index beside the Rust's: what is allocated for it and not freed. See ../../../docs/PERFORMANCE.md.

#![allow(dead_code)]

#[path = "../port.rs"]
mod port;
#[path = "../rust.rs"]
mod rust;
#[path = "../work.rs"]
mod work;

use std::alloc::{GlobalAlloc, Layout, System};
use std::sync::atomic::{AtomicUsize, Ordering};
use std::time::Duration;
use work::Work;

pub type Side = Box<dyn FnMut() -> Duration>;

/// Counts the bytes that are allocated and not freed.
struct Counting;

static HELD: AtomicUsize = AtomicUsize::new(0);

unsafe impl GlobalAlloc for Counting {
    unsafe fn alloc(&self, layout: Layout) -> *mut u8 {
        HELD.fetch_add(layout.size(), Ordering::Relaxed);
        System.alloc(layout)
    }

    unsafe fn dealloc(&self, at: *mut u8, layout: Layout) {
        HELD.fetch_sub(layout.size(), Ordering::Relaxed);
        System.dealloc(at, layout)
    }
}

#[global_allocator]
static COUNTING: Counting = Counting;

/// What the value holds that a function makes.
fn held<T>(make: impl FnOnce() -> T) -> usize {
    let before = HELD.load(Ordering::Relaxed);
    let made = make();
    let after = HELD.load(Ordering::Relaxed);
    drop(made);
    after - before
}

/// What the indexes hold.
fn indexes() -> [(&'static str, Work); 3] {
    let mut full = work::filled(16);
    full.batches.extend(work::two_runs().1.batches);
    [
        ("no group", Work::default()),
        ("8 groups of 32 entries and 16 keys", work::filled(16)),
        ("8 groups of 64 entries and 16 keys", full),
    ]
}

fn port_held(work: &Work) -> usize {
    let batches = port::batches(work);
    held(|| port::index(&batches))
}

fn main() {
    println!("| memory of an index | Rust, bytes | port, bytes | port / Rust |");
    println!("|---|---|---|---|");
    for (name, work) in indexes() {
        let (rust, port) = (held(|| rust::index(&work)), port_held(&work));
        println!("| {} | {} | {} | {:.2} |", name, rust, port, port as f64 / rust as f64);
    }
}
