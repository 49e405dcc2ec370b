// SPDX-License-Identifier: ISC
//! One-time passwords: HOTP (RFC 4226) and TOTP (RFC 6238).
//!
//! A server that shares a key with a user's device looks for the password that the user typed among
//! those of the time, of the step before it and of the step after it:
//!
//! ```
//! use core::num::NonZeroU32;
//! use yezdopin::hmac::HMAC_SHA1_FOR_LEGACY_USE_ONLY;
//! use yezdopin::tokens::otp::{find_totp, totp, Digits, Key};
//!
//! let key = Key::new(HMAC_SHA1_FOR_LEGACY_USE_ONLY, b"12345678901234567890")?;
//! let step = NonZeroU32::new(30).unwrap();
//! let typed = totp(&key, 59, step, Digits::Six);
//! assert_eq!(typed.as_ref(), "287082");
//! assert_eq!(find_totp(&key, 89, step, 1, 1, Digits::Six, typed.as_ref()), Some(1));
//! # Ok::<(), yezdopin::tokens::otp::ShortKey>(())
//! ```
//!
//! A password is for one use: keep the counter or the step, and refuse one that is not above the
//! last. Most devices have SHA-1, whose faults don't reach HMAC.

use crate::calls;
use crate::{done, hmac};
use core::num::NonZeroU32;
use core::{fmt, str};

/// How many digits a one-time password has.
#[derive(Clone, Copy, Debug, PartialEq, Eq)]
pub enum Digits {
    /// Six, as in most systems.
    Six = 6,
    /// Seven.
    Seven = 7,
    /// Eight.
    Eight = 8,
}

const MAX_DIGITS: usize = Digits::Eight as usize;

/// The fewest bytes of a key (RFC 4226, section 4).
pub const MIN_KEY_LEN: usize = 16;

/// A key of less than [`MIN_KEY_LEN`] bytes, which [`Key::new`] refuses, or an empty one.
#[derive(Clone, Copy, Debug, PartialEq, Eq)]
pub struct ShortKey;

impl fmt::Display for ShortKey {
    fn fmt(&self, f: &mut fmt::Formatter<'_>) -> fmt::Result {
        write!(
            f,
            "a key of one-time passwords has at least {MIN_KEY_LEN} bytes"
        )
    }
}

#[cfg(feature = "std")]
impl std::error::Error for ShortKey {}

/// The bytes that a server and a device share, and the algorithm of their passwords. Debug shows
/// the algorithm alone.
#[derive(Clone, Copy)]
pub struct Key<'a> {
    algorithm: hmac::Algorithm,
    value: &'a [u8],
}

impl<'a> Key<'a> {
    /// The key of the bytes `value`, of which there must be [`MIN_KEY_LEN`] or more.
    pub fn new(algorithm: hmac::Algorithm, value: &'a [u8]) -> Result<Self, ShortKey> {
        match value.len() {
            MIN_KEY_LEN.. => Ok(Key { algorithm, value }),
            _ => Err(ShortKey),
        }
    }

    /// The key of the bytes `value`, also where it is short, as devices may have it. An empty one
    /// is refused: everybody has it.
    pub fn of_any_length(algorithm: hmac::Algorithm, value: &'a [u8]) -> Result<Self, ShortKey> {
        match value {
            [] => Err(ShortKey),
            _ => Ok(Key { algorithm, value }),
        }
    }

    /// The algorithm.
    pub fn algorithm(&self) -> hmac::Algorithm {
        self.algorithm
    }

    // The algorithm's number and the bytes, as the calls take them.
    fn parts(&self) -> (u32, *const u8, usize) {
        let number = self.algorithm.digest_algorithm().number;
        (number, self.value.as_ptr(), self.value.len())
    }
}

impl fmt::Debug for Key<'_> {
    fn fmt(&self, f: &mut fmt::Formatter<'_>) -> fmt::Result {
        let algorithm = self.algorithm.digest_algorithm();
        f.debug_struct("Key").field("algorithm", algorithm).finish()
    }
}

/// A one-time password: as text, its digits with leading zeros, which Debug doesn't show.
#[derive(Clone, Copy)]
pub struct Password {
    text: [u8; MAX_DIGITS],
    digits: Digits,
}

impl Password {
    // What a call writes into room for the digits.
    fn written(digits: Digits, write: impl FnOnce(*mut u8, usize) -> i32) -> Self {
        let mut text = [0; MAX_DIGITS];
        done(write(text.as_mut_ptr(), digits as usize)).expect("the key is within the limit");
        Password { text, digits }
    }
}

impl AsRef<str> for Password {
    fn as_ref(&self) -> &str {
        str::from_utf8(&self.text[..self.digits as usize]).expect("digits are ASCII")
    }
}

impl fmt::Display for Password {
    fn fmt(&self, f: &mut fmt::Formatter<'_>) -> fmt::Result {
        f.pad(self.as_ref())
    }
}

impl fmt::Debug for Password {
    fn fmt(&self, f: &mut fmt::Formatter<'_>) -> fmt::Result {
        let mut fields = f.debug_struct("Password");
        fields.field("digits", &self.digits).finish_non_exhaustive()
    }
}

/// The one-time password of a counter (RFC 4226, section 5.3).
///
/// # Panics
///
/// Where the key is past the limit of [`digest`](crate::digest::digest()), as for each call here
/// that gives a password.
pub fn hotp(key: &Key<'_>, counter: u64, digits: Digits) -> Password {
    let (algorithm, value, len) = key.parts();
    // SAFETY: the key is lent for the call, and `text` has room for `digits` bytes.
    Password::written(digits, |text, digits| unsafe {
        calls::yz_hotp(algorithm, value, len, counter, text, digits)
    })
}

/// The one-time password of a time in seconds since 1970 (RFC 6238, section 4.2). A step has 30
/// seconds for the most part.
pub fn totp(key: &Key<'_>, time: u64, step: NonZeroU32, digits: Digits) -> Password {
    let (algorithm, value, len) = key.parts();
    // SAFETY: the key is lent for the call, and `text` has room for `digits` bytes.
    Password::written(digits, |text, digits| unsafe {
        calls::yz_totp(algorithm, value, len, time, step.get(), text, digits)
    })
}

/// The first of `count` counters from `first` on whose one-time password the text is, with each of
/// its `digits` (RFC 4226, section 7.4).
///
/// `None` exactly where the text is the password of no such counter. None is above 2^64 - 1.
pub fn find_hotp(key: &Key<'_>, first: u64, count: u64, digits: Digits, text: &str) -> Option<u64> {
    let (algorithm, value, len) = key.parts();
    // SAFETY: key and text are lent for the call, and `found` for writing.
    counter(|found| unsafe {
        calls::yz_hotp_find(
            algorithm,
            value,
            len,
            first,
            count,
            digits as usize,
            text.as_ptr(),
            text.len(),
            found,
        )
    })
}

/// The first step whose one-time password the text is, with each of its `digits`, among the step of
/// a time in seconds since 1970, `back` steps before it and `ahead` after it (RFC 6238, section
/// 5.2). A step is its number since 1970.
///
/// `None` exactly where the text is the password of no such step.
pub fn find_totp(
    key: &Key<'_>,
    time: u64,
    step: NonZeroU32,
    back: u32,
    ahead: u32,
    digits: Digits,
    text: &str,
) -> Option<u64> {
    let (algorithm, value, len) = key.parts();
    // SAFETY: key and text are lent for the call, and `found` for writing.
    counter(|found| unsafe {
        calls::yz_totp_find(
            algorithm,
            value,
            len,
            time,
            step.get(),
            back,
            ahead,
            digits as usize,
            text.as_ptr(),
            text.len(),
            found,
        )
    })
}

// The counter that a call finds.
fn counter(find: impl FnOnce(*mut u64) -> i32) -> Option<u64> {
    let mut found = 0;
    done(find(&mut found)).ok().map(|()| found)
}
