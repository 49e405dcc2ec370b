// SPDX-License-Identifier: ISC
//! The headers with which GitHub, Stripe and others sign what they send to a webhook. `ring` has no
//! such module.
//!
//! ```
//! use yezdopin::webhook::verify_github;
//!
//! let (secret, body) = (b"It's a Secret to Everybody", b"Hello, World!");
//! let header = b"sha256=757107ea0eb2509fc211221cce984b8a37570b6d7586c22c46f4379c8b043e17";
//! verify_github(secret, body, header)?;
//! assert!(verify_github(secret, b"Hello, world!", header).is_err());
//! # Ok::<(), yezdopin::error::Unspecified>(())
//! ```
//!
//! A body is the bytes of the request, before anything reads them as JSON. An empty secret is
//! refused: everybody can sign under it.

use crate::error::Unspecified;
use crate::{calls, done, hmac};
use core::time::Duration;

/// Ok exactly where `header` is `prefix` and behind it the tag of `body` (RFC 2104, section 2) in
/// hex digits, in lower case. All bytes of the tag are compared, whatever the header is.
pub fn verify_hex(
    algorithm: hmac::Algorithm,
    secret: &[u8],
    prefix: &[u8],
    body: &[u8],
    header: &[u8],
) -> Result<(), Unspecified> {
    // SAFETY: all are lent for the call.
    done(unsafe {
        calls::yz_webhook_verify_hex(
            algorithm.digest_algorithm().number,
            secret.as_ptr(),
            secret.len(),
            prefix.as_ptr(),
            prefix.len(),
            body.as_ptr(),
            body.len(),
            header.as_ptr(),
            header.len(),
        )
    })
}

/// Ok exactly where `header` is what GitHub sends as `X-Hub-Signature-256` with `body`: `sha256=`
/// and the body's tag by HMAC with SHA-256 in hex digits. The secret is the webhook's.
pub fn verify_github(secret: &[u8], body: &[u8], header: &[u8]) -> Result<(), Unspecified> {
    let (value, value_len) = (secret.as_ptr(), secret.len());
    let (text, text_len) = (header.as_ptr(), header.len());
    // SAFETY: all are lent for the call.
    done(unsafe {
        calls::yz_webhook_verify_github(value, value_len, body.as_ptr(), body.len(), text, text_len)
    })
}

/// Ok exactly where `header` is what Stripe sends as `Stripe-Signature` with `body`, signed no more
/// than `tolerance` before `now`, which is in seconds since 1970; of the tolerance whole seconds
/// count. The secret is the endpoint's, with its `whsec_`.
///
/// ```
/// use std::time::{Duration, SystemTime};
/// use yezdopin::webhook::verify_stripe;
///
/// let now = SystemTime::UNIX_EPOCH.elapsed().unwrap().as_secs();
/// let is_right = |body: &[u8], header: &[u8]| {
///     verify_stripe(b"whsec_..", body, header, now, Duration::from_secs(300)).is_ok()
/// };
/// assert!(!is_right(b"{}", b"t=1492774577,v1=00"));
/// ```
///
/// A header may be sent again within the tolerance: keep the ids of events.
pub fn verify_stripe(
    secret: &[u8],
    body: &[u8],
    header: &[u8],
    now: u64,
    tolerance: Duration,
) -> Result<(), Unspecified> {
    // SAFETY: all are lent for the call.
    done(unsafe {
        calls::yz_webhook_verify_stripe(
            secret.as_ptr(),
            secret.len(),
            body.as_ptr(),
            body.len(),
            header.as_ptr(),
            header.len(),
            now,
            tolerance.as_secs(),
        )
    })
}
