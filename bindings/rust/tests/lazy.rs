//! What iteration holds does not grow with the matches.
use chromesquid::AhoCorasick;
use std::{
    alloc::{GlobalAlloc, Layout, System},
    sync::atomic::{AtomicUsize, Ordering::SeqCst},
};

struct Counted;

static HELD: AtomicUsize = AtomicUsize::new(0);
static MOST: AtomicUsize = AtomicUsize::new(0);

// SAFETY: it calls the system's allocator, and counts.
unsafe impl GlobalAlloc for Counted {
    unsafe fn alloc(&self, layout: Layout) -> *mut u8 {
        MOST.fetch_max(HELD.fetch_add(layout.size(), SeqCst) + layout.size(), SeqCst);
        System.alloc(layout)
    }

    unsafe fn dealloc(&self, at: *mut u8, layout: Layout) {
        HELD.fetch_sub(layout.size(), SeqCst);
        System.dealloc(at, layout)
    }
}

#[global_allocator]
static ALLOCATOR: Counted = Counted;

/// How many items there are, and how many bytes were held at most while they were counted, beyond what was held before.
fn counted<I>(items: impl FnOnce() -> I) -> (usize, usize)
where
    I: Iterator,
{
    let before = HELD.load(SeqCst);
    MOST.store(before, SeqCst);
    (items().count(), MOST.load(SeqCst) - before)
}

#[test]
fn nested_patterns() {
    let patterns: Vec<_> = (1..=100).map(|len| "a".repeat(len)).collect();
    let text = "a".repeat(100_000);
    let searcher = AhoCorasick::new(&patterns).unwrap();
    let all = 100 * text.len() - 99 * 100 / 2;
    let (count, most) = counted(|| searcher.find_overlapping_iter(&text));
    assert!(count == all && most < 8 << 20, "{count} matches, {most} bytes");
    let (count, most) = counted(|| searcher.find_iter(&text));
    assert!(count == text.len() && most < 1 << 20, "{count} matches, {most} bytes");
    let first = counted(|| searcher.find_overlapping_iter(&text).take(1));
    assert!(first.0 == 1 && first.1 < 8 << 20);
}
