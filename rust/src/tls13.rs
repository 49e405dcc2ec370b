// SPDX-License-Identifier: ISC
//! Finished messages and PSK binders of TLS 1.3 (RFC 8446, sections 4.4.4 and 4.2.11.2). `ring` has
//! no such module.
//!
//! ```
//! use yezdopin::digest::{digest, SHA256};
//! use yezdopin::hkdf::HKDF_SHA256;
//! use yezdopin::tls13::{binder_key, finished, verify_finished, Psk};
//!
//! let key = binder_key(HKDF_SHA256, b"a key that both have", Psk::External)?;
//! let client_hello = digest(&SHA256, b"up to the binders");
//! let binder = finished(&key, client_hello.as_ref())?;
//! verify_finished(&key, client_hello.as_ref(), binder.as_ref())?;
//! # Ok::<(), yezdopin::error::Unspecified>(())
//! ```
//!
//! A base key is a traffic secret, or for a binder the binder key. The hash of the transcript is
//! that of the messages before the Finished, and for a binder that of the ClientHello up to the
//! binders.

use crate::digest::Digest;
use crate::error::Unspecified;
use crate::hkdf::{self, Prk};
use crate::hmac::Tag;
use crate::{calls, done};

/// Where a PSK comes from (RFC 8446, section 7.1).
#[derive(Clone, Copy, Debug, PartialEq, Eq)]
pub enum Psk {
    /// From elsewhere: both parties had it before.
    External,
    /// From a ticket of an earlier connection.
    Resumption,
}

/// The verify_data of a Finished, or a binder (RFC 8446, section 4.4.4), by the algorithm of
/// `base_key`.
///
/// Refused exactly where `base_key` or `transcript_hash` has not as many bytes as a digest.
pub fn finished(base_key: &Prk, transcript_hash: &[u8]) -> Result<Tag, Unspecified> {
    let (algorithm, key, key_len) = base_key.parts();
    let (hash, hash_len) = (transcript_hash.as_ptr(), transcript_hash.len());
    let digest = algorithm.hmac_algorithm().digest_algorithm();
    // SAFETY: key and hash are lent for the call, and `out` has room for `len` bytes.
    let made = Digest::written(digest, |out, len| unsafe {
        calls::yz_tls13_finished(algorithm.number(), key, key_len, hash, hash_len, out, len)
    });
    made.map(Tag)
}

/// Ok exactly where `verify_data` is what [`finished()`] gives, which is refused where that is. All
/// of its bytes are compared.
pub fn verify_finished(
    base_key: &Prk,
    transcript_hash: &[u8],
    verify_data: &[u8],
) -> Result<(), Unspecified> {
    let (algorithm, key, key_len) = base_key.parts();
    // SAFETY: all are lent for the call.
    done(unsafe {
        calls::yz_tls13_finished_verify(
            algorithm.number(),
            key,
            key_len,
            transcript_hash.as_ptr(),
            transcript_hash.len(),
            verify_data.as_ptr(),
            verify_data.len(),
        )
    })
}

/// The base key of the binders of a PSK (RFC 8446, section 7.1), which is wiped when it is dropped.
///
/// Refused where `psk` is empty, or past the limit of [`hmac::sign`](crate::hmac::sign).
pub fn binder_key(algorithm: hkdf::Algorithm, psk: &[u8], from: Psk) -> Result<Prk, Unspecified> {
    let is_external = from == Psk::External;
    // SAFETY: the PSK is lent for the call, and `out` has room for `len` bytes.
    Prk::written(algorithm, |out, len| unsafe {
        let (psk, psk_len) = (psk.as_ptr(), psk.len());
        calls::yz_tls13_binder_key(algorithm.number(), psk, psk_len, is_external, out, len)
    })
}
