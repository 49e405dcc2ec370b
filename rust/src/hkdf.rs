// SPDX-License-Identifier: ISC
//! Keys from secrets: HKDF (RFC 5869).
//!
//! A secret is extracted once with a salt, and keys of any lengths are then expanded from what that
//! gives:
//!
//! ```
//! use yezdopin::{hkdf, hmac};
//!
//! /// A number of bytes.
//! struct Length(usize);
//!
//! impl hkdf::KeyType for Length {
//!     fn len(&self) -> usize {
//!         self.0
//!     }
//! }
//!
//! let prk = hkdf::Salt::new(hkdf::HKDF_SHA256, b"a salt").extract(b"a secret");
//! let mut key = [0; 16];
//! prk.expand(&[b"a purpose"], Length(16))?.fill(&mut key)?;
//! let signing_key: hmac::Key = prk.expand(&[b"tags"], hmac::HMAC_SHA256)?.into();
//! # Ok::<(), yezdopin::error::Unspecified>(())
//! ```

use crate::calls;
use crate::digest::Digest;
use crate::error::Unspecified;
use crate::{done, hmac};
use alloc::vec;
use alloc::vec::Vec;
use core::fmt;

// The most digests of an output (RFC 5869, section 2.3).
const MAX_ROUNDS: usize = 255;

/// An algorithm: one of the statics of this module, HKDF over an HMAC algorithm.
#[derive(Clone, Copy, Debug, PartialEq, Eq)]
pub struct Algorithm(hmac::Algorithm);

impl Algorithm {
    /// The HMAC algorithm that it runs.
    pub fn hmac_algorithm(&self) -> hmac::Algorithm {
        self.0
    }

    pub(crate) fn number(&self) -> u32 {
        self.0.digest_algorithm().number
    }
}

hkdf_algorithms!();

/// What says how long an output is: algorithms, and types of the caller.
// As in `ring`, it has no `is_empty`.
#[allow(clippy::len_without_is_empty)]
pub trait KeyType {
    /// The number of bytes.
    fn len(&self) -> usize;
}

impl KeyType for Algorithm {
    /// The bytes of a salt or a PRK of its own: as many as a digest has.
    fn len(&self) -> usize {
        self.0.len()
    }
}

// Bytes of a secret, which are cleared when they are dropped.
#[derive(Clone)]
pub(crate) struct Secret(Vec<u8>);

impl Secret {
    pub(crate) fn bytes(&self) -> &[u8] {
        &self.0
    }
}

impl Drop for Secret {
    fn drop(&mut self) {
        calls::clear_bytes(&mut self.0);
    }
}

/// A salt (RFC 5869, section 2.2), which is wiped when it is dropped.
pub struct Salt {
    value: Secret,
    algorithm: Algorithm,
}

impl Salt {
    /// The salt of the bytes `value`. An empty one is as one of a digest's length of zeros (RFC
    /// 5869, section 2.2).
    pub fn new(algorithm: Algorithm, value: &[u8]) -> Self {
        let value = Secret(value.to_vec());
        Salt { value, algorithm }
    }

    /// The PRK of a secret: HKDF's extract (RFC 5869, section 2.2).
    ///
    /// # Panics
    ///
    /// Where the salt is past the limit of [`digest`](crate::digest::digest), or the secret past
    /// that of [`hmac::sign`].
    pub fn extract(&self, secret: &[u8]) -> Prk {
        let (salt, number) = (&self.value.0, self.algorithm.number());
        // SAFETY: salt and secret are lent for the call, and `out` has room for `len` bytes.
        let made = Digest::written(self.algorithm.0.digest_algorithm(), |out, len| unsafe {
            let (secret, secret_len) = (secret.as_ptr(), secret.len());
            calls::yz_hkdf_extract(
                number,
                salt.as_ptr(),
                salt.len(),
                secret,
                secret_len,
                out,
                len,
            )
        });
        let made = made.expect("salt and secret are within the limit");
        Prk::new_less_safe(self.algorithm, made.as_ref())
    }

    /// The algorithm that it extracts by.
    pub fn algorithm(&self) -> Algorithm {
        self.algorithm
    }
}

impl fmt::Debug for Salt {
    fn fmt(&self, f: &mut fmt::Formatter<'_>) -> fmt::Result {
        f.debug_tuple("Salt")
            .field(&KeyText(self.algorithm))
            .finish()
    }
}

// What Debug gives of a salt's or a PRK's bytes: that they are a key, and its algorithm.
struct KeyText(Algorithm);

impl fmt::Debug for KeyText {
    fn fmt(&self, f: &mut fmt::Formatter<'_>) -> fmt::Result {
        f.debug_struct("Key")
            .field("algorithm", self.0 .0.digest_algorithm())
            .finish()
    }
}

/// A pseudorandom key (PRK; RFC 5869, section 2.2), from which outputs are expanded. It is wiped
/// when it is dropped.
#[derive(Clone)]
pub struct Prk {
    value: Secret,
    algorithm: Algorithm,
}

impl Prk {
    /// The PRK of the bytes `value`, which it is for the caller to know to be random enough (RFC
    /// 5869, section 3.3).
    pub fn new_less_safe(algorithm: Algorithm, value: &[u8]) -> Self {
        let value = Secret(value.to_vec());
        Prk { value, algorithm }
    }

    // What a call writes into room for a digest, and whether it did.
    pub(crate) fn written(
        algorithm: Algorithm,
        write: impl FnOnce(*mut u8, usize) -> i32,
    ) -> Result<Self, Unspecified> {
        let mut value = Secret(vec![0; algorithm.len()]);
        done(write(value.0.as_mut_ptr(), value.0.len()))?;
        Ok(Prk { value, algorithm })
    }

    // The algorithm and the bytes, as the calls take them.
    pub(crate) fn parts(&self) -> (Algorithm, *const u8, usize) {
        let value = self.value.bytes();
        (self.algorithm, value.as_ptr(), value.len())
    }

    /// Asks for as many bytes as `len` says (RFC 5869, section 2.3). The info is the joined bytes
    /// of all pieces.
    ///
    /// Refused where more bytes are asked for than 255 digests have.
    pub fn expand<'a, L: KeyType>(
        &'a self,
        info: &'a [&'a [u8]],
        len: L,
    ) -> Result<Okm<'a, L>, Unspecified> {
        let len_cached = len.len();
        if len_cached > MAX_ROUNDS * self.algorithm.0.len() {
            return Err(Unspecified);
        }
        let prk = self;
        Ok(Okm {
            prk,
            info,
            len,
            len_cached,
        })
    }
}

impl Prk {
    /// Fills `out` with HKDF-Expand-Label of TLS 1.3 and QUIC (RFC 8446, section 7.1). `ring` has
    /// no such call.
    ///
    /// | Parameter           | RFC 8446, section 7.1              |
    /// |---------------------|------------------------------------|
    /// | the PRK             | Secret                             |
    /// | `label`             | Label, without the prefix `tls13 ` |
    /// | `context`           | Context                            |
    /// | the length of `out` | Length                             |
    ///
    /// Refused where the label has not 1 to 249 bytes, the context has more than 255 bytes or `out`
    /// more than 255 digests, with `out` unchanged.
    pub fn expand_label(
        &self,
        label: &[u8],
        context: &[u8],
        out: &mut [u8],
    ) -> Result<(), Unspecified> {
        // SAFETY: all are lent for the call, `out` for writing.
        done(unsafe {
            calls::yz_hkdf_expand_label(
                self.algorithm.number(),
                self.value.0.as_ptr(),
                self.value.0.len(),
                label.as_ptr(),
                label.len(),
                context.as_ptr(),
                context.len(),
                out.as_mut_ptr(),
                out.len(),
            )
        })
    }
}

impl fmt::Debug for Prk {
    fn fmt(&self, f: &mut fmt::Formatter<'_>) -> fmt::Result {
        f.debug_tuple("Prk")
            .field(&KeyText(self.algorithm))
            .finish()
    }
}

/// An output that was asked for, and not yet given (OKM; RFC 5869, section 2.3).
#[derive(Debug)]
pub struct Okm<'a, L: KeyType> {
    prk: &'a Prk,
    info: &'a [&'a [u8]],
    len: L,
    // The name stands in the text of Debug, which is `ring`'s.
    len_cached: usize,
}

impl<L: KeyType> Okm<'_, L> {
    /// What was asked for.
    pub fn len(&self) -> &L {
        &self.len
    }

    /// Writes the output over the whole of `out`: refused where it has another length than was
    /// asked for, or PRK or info is past its limit, of about `2^61` bytes or more.
    pub fn fill(self, out: &mut [u8]) -> Result<(), Unspecified> {
        if out.len() != self.len_cached {
            return Err(Unspecified);
        }
        let (prk, info) = (&self.prk.value.0, self.info.concat());
        // SAFETY: all are lent for the call, `out` for writing.
        done(unsafe {
            calls::yz_hkdf_expand(
                self.prk.algorithm.number(),
                prk.as_ptr(),
                prk.len(),
                info.as_ptr(),
                info.len(),
                out.as_mut_ptr(),
                out.len(),
            )
        })
    }

    // All bytes that were asked for.
    pub(crate) fn whole(self) -> Secret {
        let mut value = Secret(vec![0; self.len_cached]);
        self.fill(&mut value.0)
            .expect("the info is within the limit");
        value
    }
}

impl From<Okm<'_, Algorithm>> for Salt {
    fn from(okm: Okm<'_, Algorithm>) -> Self {
        Salt::new(*okm.len(), okm.whole().bytes())
    }
}

impl From<Okm<'_, Algorithm>> for Prk {
    fn from(okm: Okm<'_, Algorithm>) -> Self {
        Prk::new_less_safe(*okm.len(), okm.whole().bytes())
    }
}
