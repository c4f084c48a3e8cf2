// Counts the bytes that are allocated, for the table of memory.
use crate::calls::Side;
use crate::drop_in::DropIn;
use crate::loads::{self, Load};
use crate::original::{hashed::Hashed, ordered::Ordered};
use crate::single::Single;
use std::alloc::{GlobalAlloc, Layout, System};
use std::sync::atomic::{AtomicUsize, Ordering::Relaxed};

static LIVE: AtomicUsize = AtomicUsize::new(0);
static MOST: AtomicUsize = AtomicUsize::new(0);

struct Counting;

fn more(bytes: usize) {
    let live = LIVE.fetch_add(bytes, Relaxed) + bytes;
    MOST.fetch_max(live, Relaxed);
}

// SAFETY: every call is handed to the system's allocator as it came.
unsafe impl GlobalAlloc for Counting {
    unsafe fn alloc(&self, layout: Layout) -> *mut u8 {
        more(layout.size());
        // SAFETY: as the caller promises.
        unsafe { System.alloc(layout) }
    }

    unsafe fn alloc_zeroed(&self, layout: Layout) -> *mut u8 {
        more(layout.size());
        // SAFETY: as the caller promises.
        unsafe { System.alloc_zeroed(layout) }
    }

    unsafe fn dealloc(&self, place: *mut u8, layout: Layout) {
        LIVE.fetch_sub(layout.size(), Relaxed);
        // SAFETY: as the caller promises.
        unsafe { System.dealloc(place, layout) }
    }
}

#[global_allocator]
static COUNTING: Counting = Counting;

// What `run` leaves allocated in the end, and had at most, beyond what was there before.
fn taken<T>(run: impl FnOnce() -> T) -> (T, usize, usize) {
    let before = LIVE.load(Relaxed);
    MOST.store(before, Relaxed);
    let left = run();
    (left, LIVE.load(Relaxed) - before, MOST.load(Relaxed) - before)
}

const LOADS: [&str; 8] =
    ["steady-4-40", "steady-4-1000", "steady-4-10000", "steady-16-1000", "prints-1000", "prints-65536", "held-100", "held-4000"];

fn after<S: Side>(load: &Load) -> (S, usize, usize) {
    taken(|| {
        let mut side = S::new(load.limits);
        for call in load.parts.iter().flat_map(|part| &part.calls) {
            side.prepare(call);
        }
        side
    })
}

fn kilobytes(bytes: usize) -> String {
    crate::table::number(bytes as u64 / 1_000)
}

pub fn print() {
    println!("\n| kB after the load | shipped | at most | ordered | store's words in use | store | drop-in's heap |");
    println!("|---|---|---|---|---|---|---|");
    for (_, make) in loads::all().iter().filter(|(name, _)| LOADS.contains(&name.as_str())) {
        let load = make();
        let (_, shipped, most) = after::<Hashed>(&load);
        let (_, ordered, _) = after::<Ordered>(&load);
        let (single, _, _) = after::<Single>(&load);
        let (_, drop_in, _) = after::<DropIn>(&load);
        let (used, store) = single.bytes();
        let cells = [shipped, most, ordered, used, store, drop_in].map(kilobytes);
        println!("| {} (`{}`) | {} |", load.what, load.name, cells.join(" | "));
    }
}
