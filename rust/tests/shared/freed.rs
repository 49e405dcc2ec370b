// SPDX-License-Identifier: ISC
//! What values leave in the memory that they free: an allocator looks at each block before it takes
//! it back.
#![allow(dead_code)]

use std::alloc::{GlobalAlloc, Layout, System};
use std::mem::size_of;
use std::sync::atomic::{AtomicBool, AtomicUsize, Ordering::SeqCst};
use std::sync::Mutex;

const MOST: usize = 512;
pub const SECRET: [u8; 48] = *b"a secret of this test, which nothing else has..!";

// The block that is looked at, what it had when it was freed, and how many blocks had the secret.
static WATCHED: AtomicUsize = AtomicUsize::new(0);
static SEEN: Mutex<[u8; MOST]> = Mutex::new([0; MOST]);
static IS_ARMED: AtomicBool = AtomicBool::new(false);
static WITH_SECRET: AtomicUsize = AtomicUsize::new(0);
// What is looked for beside the secret: a value that a call makes of it, masked.
pub static MADE: Mutex<[u8; 48]> = Mutex::new([0; 48]);
pub const MASK: u8 = 0x5a;

// The secret is found by any of its parts of so many bytes.
const PART: usize = 8;

fn has_part(bytes: &[u8]) -> bool {
    let made = *MADE.lock().unwrap();
    let is_part = |it: &[u8]| {
        let is_of_made = |part: &[u8]| part.iter().zip(it).all(|(a, b)| *a == *b ^ MASK);
        SECRET.windows(PART).any(|part| part == it) || made.windows(PART).any(is_of_made)
    };
    bytes.windows(PART).any(is_part)
}

pub struct Watching;

// SAFETY: each call is the system's.
unsafe impl GlobalAlloc for Watching {
    unsafe fn alloc(&self, layout: Layout) -> *mut u8 {
        System.alloc(layout)
    }

    unsafe fn dealloc(&self, block: *mut u8, layout: Layout) {
        let bytes = std::slice::from_raw_parts(block, layout.size());
        if block as usize == WATCHED.load(SeqCst) {
            SEEN.lock().unwrap()[..bytes.len()].copy_from_slice(bytes);
        }
        if IS_ARMED.load(SeqCst) && has_part(bytes) {
            WITH_SECRET.fetch_add(1, SeqCst);
        }
        System.dealloc(block, layout)
    }
}

#[global_allocator]
static ALLOCATOR: Watching = Watching;

/// Drops a value, and tells how many of its bytes the drop changed, all of which must be zeros then.
pub fn wiped<T>(value: T) -> usize {
    let boxed = Box::new(value);
    let address: *const T = &*boxed;
    // SAFETY: the value has no bytes between its fields that are read as anything but bytes.
    let before = unsafe { std::slice::from_raw_parts(address.cast::<u8>(), size_of::<T>()) };
    let before = before.to_vec();
    WATCHED.store(address as usize, SeqCst);
    drop(boxed);
    WATCHED.store(0, SeqCst);
    let after = SEEN.lock().unwrap();
    let changed = (0..before.len()).filter(|&at| before[at] != after[at]);
    changed.inspect(|&at| assert_eq!(after[at], 0)).count()
}

/// How many blocks had the secret when they were freed.
pub fn freed_with_secret(run: impl FnOnce()) -> usize {
    WITH_SECRET.store(0, SeqCst);
    IS_ARMED.store(true, SeqCst);
    run();
    IS_ARMED.store(false, SeqCst);
    WITH_SECRET.load(SeqCst)
}
