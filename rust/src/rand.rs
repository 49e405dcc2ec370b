// SPDX-License-Identifier: ISC
//! Random bytes from the operating system.
//!
//! ```
//! use yezdopin::rand::{self, SecureRandom};
//!
//! let rng = rand::SystemRandom::new();
//! let mut salt = [0; 16];
//! rng.fill(&mut salt)?;
//! let nonce: [u8; 12] = rand::generate(&rng)?.expose();
//! # Ok::<(), yezdopin::error::Unspecified>(())
//! ```

use crate::error::Unspecified;
use core::ffi::c_void;

/// A secure source of random bytes. It is sealed: [`SystemRandom`] is the only one.
///
/// ```compile_fail,E0277
/// use yezdopin::error::Unspecified;
///
/// #[derive(Debug)]
/// struct Mine;
///
/// impl yezdopin::rand::SecureRandom for Mine {
///     fn fill(&self, _: &mut [u8]) -> Result<(), Unspecified> {
///         Ok(())
///     }
/// }
/// ```
pub trait SecureRandom: sealed::SecureRandom {
    /// Fills `dest` with random bytes. Where that is refused, bytes of `dest` may be written.
    fn fill(&self, dest: &mut [u8]) -> Result<(), Unspecified>;
}

impl<T: sealed::SecureRandom> SecureRandom for T {
    fn fill(&self, dest: &mut [u8]) -> Result<(), Unspecified> {
        self.fill_impl(dest)
    }
}

/// A random value that nothing has seen, until it is exposed. It has no trait on purpose: it can't
/// be copied, compared or printed.
pub struct Random<T: RandomlyConstructable>(T);

impl<T: RandomlyConstructable> Random<T> {
    /// The value.
    pub fn expose(self) -> T {
        self.0
    }
}

/// A random value from `rng`: arrays of bytes.
pub fn generate<T: RandomlyConstructable>(
    rng: &dyn SecureRandom,
) -> Result<Random<T>, Unspecified> {
    let mut value = T::zero();
    rng.fill(value.as_mut_bytes())?;
    Ok(Random(value))
}

/// What [`generate`] gives: an array of bytes. It is sealed.
pub trait RandomlyConstructable: sealed::RandomlyConstructable {}

impl<T: sealed::RandomlyConstructable> RandomlyConstructable for T {}

/// The source of the operating system: on Linux with glibc or musl `getrandom(2)`, on macOS
/// `getentropy(2)`, on Windows `BCryptGenRandom`. The crate doesn't build for others. The first
/// call waits until the system has gathered enough, and none falls back to another source. One
/// serves all threads.
#[derive(Clone, Debug)]
pub struct SystemRandom(());

impl SystemRandom {
    /// The source, of which nothing is asked yet.
    // As in `ring`, it has no `Default`.
    #[allow(clippy::new_without_default)]
    pub fn new() -> Self {
        SystemRandom(())
    }
}

impl sealed::SecureRandom for SystemRandom {
    fn fill_impl(&self, dest: &mut [u8]) -> Result<(), Unspecified> {
        let mut filled = 0;
        while filled < dest.len() {
            filled += some_random(&mut dest[filled..])?;
        }
        Ok(())
    }
}

// Writes random bytes over the front of `dest`, which isn't empty, and tells how many: one or more.
// Linux may write fewer than asked for, or none where a signal comes between.
#[cfg(target_os = "linux")]
fn some_random(dest: &mut [u8]) -> Result<usize, Unspecified> {
    loop {
        // SAFETY: `dest` is lent for writing.
        let written = unsafe { getrandom(dest.as_mut_ptr().cast(), dest.len(), 0) };
        match usize::try_from(written) {
            Ok(0) => return Err(Unspecified),
            Ok(count) => return Ok(count),
            Err(_) if was_interrupted() => {}
            Err(_) => return Err(Unspecified),
        }
    }
}

// Whether the last call of the system ended since a signal came.
#[cfg(target_os = "linux")]
fn was_interrupted() -> bool {
    const EINTR: i32 = 4;
    // SAFETY: the C library gives the place of this thread's number.
    unsafe { *__errno_location() == EINTR }
}

#[cfg(target_os = "linux")]
extern "C" {
    // As <sys/random.h> declares it.
    fn getrandom(buf: *mut c_void, buflen: usize, flags: u32) -> isize;
    // As <errno.h> of glibc and of musl has it.
    fn __errno_location() -> *mut i32;
}

// macOS writes all that it is asked for or nothing, and at most 256 bytes at once.
#[cfg(target_os = "macos")]
fn some_random(dest: &mut [u8]) -> Result<usize, Unspecified> {
    const MOST: usize = 256;
    let count = dest.len().min(MOST);
    // SAFETY: `dest` is lent for writing.
    match unsafe { getentropy(dest.as_mut_ptr().cast(), count) } {
        0 => Ok(count),
        _ => Err(Unspecified),
    }
}

#[cfg(target_os = "macos")]
extern "C" {
    // As <sys/random.h> declares it.
    fn getentropy(buffer: *mut c_void, size: usize) -> i32;
}

// Windows writes all that it is asked for or nothing.
#[cfg(windows)]
fn some_random(dest: &mut [u8]) -> Result<usize, Unspecified> {
    const USE_SYSTEM_PREFERRED_RNG: u32 = 2;
    const MOST: usize = 1 << 30; // the count is of 32 bits
    let count = dest.len().min(MOST);
    let (none, buffer) = (core::ptr::null_mut(), dest.as_mut_ptr());
    // SAFETY: `dest` is lent for writing.
    match unsafe { BCryptGenRandom(none, buffer, count as u32, USE_SYSTEM_PREFERRED_RNG) } {
        0 => Ok(count),
        _ => Err(Unspecified),
    }
}

#[cfg(windows)]
#[link(name = "bcrypt")]
extern "system" {
    // As <bcrypt.h> declares it.
    fn BCryptGenRandom(algorithm: *mut c_void, buffer: *mut u8, count: u32, flags: u32) -> i32;
}

// What no other crate can name, so that none has a source or a value of its own.
mod sealed {
    use crate::error::Unspecified;
    use core::fmt;

    pub trait SecureRandom: fmt::Debug {
        fn fill_impl(&self, dest: &mut [u8]) -> Result<(), Unspecified>;
    }

    pub trait RandomlyConstructable: Sized {
        fn zero() -> Self;
        fn as_mut_bytes(&mut self) -> &mut [u8];
    }

    impl<const LEN: usize> RandomlyConstructable for [u8; LEN] {
        fn zero() -> Self {
            [0; LEN]
        }

        fn as_mut_bytes(&mut self) -> &mut [u8] {
            self
        }
    }
}
