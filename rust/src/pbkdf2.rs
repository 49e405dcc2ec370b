// SPDX-License-Identifier: ISC
//! Keys from passwords: PBKDF2 (RFC 2898, section 5.2).
//!
//! ```
//! use std::num::NonZeroU32;
//! use yezdopin::pbkdf2::{derive, verify, PBKDF2_HMAC_SHA256};
//!
//! let iterations = NonZeroU32::new(100_000).unwrap();
//! let mut stored = [0; 32];
//! derive(PBKDF2_HMAC_SHA256, iterations, b"a salt", b"a password", &mut stored);
//! verify(PBKDF2_HMAC_SHA256, iterations, b"a salt", b"a password", &stored)?;
//! # Ok::<(), yezdopin::error::Unspecified>(())
//! ```

use crate::error::Unspecified;
use crate::{calls, digest, done};
use core::num::NonZeroU32;

/// An algorithm: one of the statics of this module, PBKDF2 over an HMAC algorithm.
#[derive(Clone, Copy, Debug, PartialEq, Eq)]
pub struct Algorithm(&'static digest::Algorithm);

pbkdf2_algorithms!();

/// Fills `out` with the key that is derived from `secret`, for each digest of it as many HMACs as
/// `iterations` says.
///
/// # Panics
///
/// Where `secret` is past the limit of [`digest`](crate::digest::digest()), `salt` past that of
/// [`hmac::sign`](crate::hmac::sign), or `out` has more bytes than `2^32 - 1` digests.
pub fn derive(
    algorithm: Algorithm,
    iterations: NonZeroU32,
    salt: &[u8],
    secret: &[u8],
    out: &mut [u8],
) {
    // SAFETY: all are lent for the call, `out` for writing.
    let status = unsafe {
        calls::yz_pbkdf2_derive(
            algorithm.0.number,
            iterations.get(),
            salt.as_ptr(),
            salt.len(),
            secret.as_ptr(),
            secret.len(),
            out.as_mut_ptr(),
            out.len(),
        )
    };
    done(status).expect("secret, salt and output are within the limits");
}

/// Ok exactly where `previously_derived` isn't empty and is what [`derive()`] gives for its length.
pub fn verify(
    algorithm: Algorithm,
    iterations: NonZeroU32,
    salt: &[u8],
    secret: &[u8],
    previously_derived: &[u8],
) -> Result<(), Unspecified> {
    // SAFETY: all are lent for the call.
    done(unsafe {
        calls::yz_pbkdf2_verify(
            algorithm.0.number,
            iterations.get(),
            salt.as_ptr(),
            salt.len(),
            secret.as_ptr(),
            secret.len(),
            previously_derived.as_ptr(),
            previously_derived.len(),
        )
    })
}
