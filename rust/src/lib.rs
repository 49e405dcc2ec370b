// SPDX-License-Identifier: ISC
//! Digests, HMAC, HKDF and PBKDF2 with the names of `ring` 0.17, over the proved library
//! `libyezdopin`.
//!
//! ```
//! use yezdopin::{digest, hmac};
//!
//! let key = hmac::Key::new(hmac::HMAC_SHA256, b"Jefe");
//! let tag = hmac::sign(&key, b"what do ya want for nothing?");
//! hmac::verify(&key, b"what do ya want for nothing?", tag.as_ref())?;
//!
//! let mut context = digest::Context::new(&digest::SHA256);
//! context.update(b"hello, ");
//! context.update(b"world");
//! assert_eq!(context.finish().as_ref()[..2], [0x09, 0xca]);
//! # Ok::<(), yezdopin::error::Unspecified>(())
//! ```
//!
//! As in `ring`, a call without a `Result` panics on an input past the standard's limit, of about
//! `2^61` bytes or more.
//!
//! Without the feature `std`, which is on by default, the crate needs `alloc` in place of the
//! standard library, and [`error::Unspecified`] is no `std::error::Error`.
#![no_std]
#![deny(missing_docs, unsafe_op_in_unsafe_fn)]

extern crate alloc;
#[cfg(feature = "std")]
extern crate std;

#[macro_use]
mod rows;

mod calls;
pub mod constant_time;
pub mod digest;
pub mod error;
pub mod hkdf;
pub mod hmac;
pub mod merkle;
pub mod password_hash;
pub mod pbkdf2;
pub mod rand;
pub mod tls13;
pub mod tokens;
pub mod webhook;

/// The version of the library that is linked: the major number from bit 16 on, the minor from bit
/// 8 on, and the patch's.
pub fn library_version() -> u32 {
    // SAFETY: it takes nothing.
    unsafe { calls::yz_version() }
}

/// Whether the processor can run the library, whose code is for x86-64-v2 (SSSE3, SSE4.2, POPCNT),
/// or for any 64-bit ARM processor. On an older x86-64 processor any other call of this crate may
/// end the program by `SIGILL`.
pub fn is_supported() -> bool {
    #[cfg(target_arch = "x86_64")]
    return is_x86_64_v2();
    #[cfg(not(target_arch = "x86_64"))]
    return true;
}

#[cfg(target_arch = "x86_64")]
fn is_x86_64_v2() -> bool {
    // SSE3, SSSE3, CMPXCHG16B, SSE4.1, SSE4.2 and POPCNT, then LAHF, as `yz_supported` asks in C.
    const WANTED: u32 = 1 | 1 << 9 | 1 << 13 | 1 << 19 | 1 << 20 | 1 << 23;
    const LAHF: u32 = 1;
    // SAFETY: every x86-64 processor has `cpuid` and both leaves.
    #[allow(unused_unsafe)] // later compilers call it safe
    let (found, further) = unsafe {
        use core::arch::x86_64::__cpuid;
        (__cpuid(1).ecx, __cpuid(0x8000_0001).ecx)
    };
    found & WANTED == WANTED && further & LAHF == LAHF
}

// What a status says.
fn done(status: i32) -> Result<(), error::Unspecified> {
    match status {
        calls::YZ_OK => Ok(()),
        _ => Err(error::Unspecified),
    }
}
