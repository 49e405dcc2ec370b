// SPDX-License-Identifier: ISC
//! Tags of messages under keys: HMAC (RFC 2104, FIPS 198-1).
//!
//! A tag under a random key, and its verification:
//!
//! ```
//! use yezdopin::{hmac, rand};
//!
//! let rng = rand::SystemRandom::new();
//! let key = hmac::Key::generate(hmac::HMAC_SHA256, &rng)?;
//! let tag = hmac::sign(&key, b"hello, world");
//! hmac::verify(&key, b"hello, world", tag.as_ref())?;
//! # Ok::<(), yezdopin::error::Unspecified>(())
//! ```
//!
//! Two parties that share the bytes of a key, the message of one in pieces:
//!
//! ```
//! use yezdopin::rand::SecureRandom;
//! use yezdopin::{digest, hmac, rand};
//!
//! let mut key_value = [0; digest::SHA256_OUTPUT_LEN];
//! rand::SystemRandom::new().fill(&mut key_value)?;
//!
//! let signing_key = hmac::Key::new(hmac::HMAC_SHA256, &key_value);
//! let mut context = hmac::Context::with_key(&signing_key);
//! for piece in ["hello", ", ", "world"] {
//!     context.update(piece.as_bytes());
//! }
//! let tag = context.sign();
//!
//! let verification_key = hmac::Key::new(hmac::HMAC_SHA256, &key_value);
//! hmac::verify(&verification_key, b"hello, world", tag.as_ref())?;
//! # Ok::<(), yezdopin::error::Unspecified>(())
//! ```

use crate::calls::{self, HmacContext, HmacKey};
use crate::digest::{self, Digest};
use crate::error::Unspecified;
use crate::{done, hkdf, rand};
use core::fmt;

/// An algorithm: one of the statics of this module, HMAC over a digest algorithm.
#[derive(Clone, Copy, Debug, PartialEq, Eq)]
pub struct Algorithm(&'static digest::Algorithm);

impl Algorithm {
    /// The digest algorithm that it runs twice.
    pub fn digest_algorithm(&self) -> &'static digest::Algorithm {
        self.0
    }
}

hmac_algorithms!();

/// A tag: as a slice, as many bytes as a digest of its algorithm has.
#[derive(Clone, Copy, Debug)]
pub struct Tag(pub(crate) Digest);

impl AsRef<[u8]> for Tag {
    fn as_ref(&self) -> &[u8] {
        self.0.as_ref()
    }
}

/// A key, whose two blocks (RFC 2104, section 4) are run once for all tags under it. It serves for
/// signing and for verification, and is wiped when it is dropped.
#[derive(Clone)]
pub struct Key {
    raw: HmacKey,
    algorithm: Algorithm,
}

impl Key {
    /// A random key of as many bytes as a digest has (RFC 2104, section 3), which no one is told.
    ///
    /// Refused where `rng` is.
    pub fn generate(
        algorithm: Algorithm,
        rng: &dyn rand::SecureRandom,
    ) -> Result<Self, Unspecified> {
        let mut room = [0; digest::MAX_OUTPUT_LEN];
        let value = &mut room[..algorithm.0.output_len()];
        let key = rng.fill(value).map(|()| Key::new(algorithm, value));
        calls::clear_bytes(&mut room);
        key
    }

    /// The key of the bytes `key_value`. Of one past a block's length its digest is taken (RFC
    /// 2104, section 2).
    ///
    /// # Panics
    ///
    /// Where `key_value` is past the limit of [`digest::digest`].
    pub fn new(algorithm: Algorithm, key_value: &[u8]) -> Self {
        let mut key = Key {
            raw: HmacKey::NONE,
            algorithm,
        };
        let (value, len) = (key_value.as_ptr(), key_value.len());
        // SAFETY: the value is lent for the call, and `raw` is ours.
        let status =
            unsafe { calls::yz_hmac_key_init(algorithm.0.number, value, len, &mut key.raw) };
        done(status).expect("the key is within the limit");
        key
    }

    /// The algorithm of its tags.
    pub fn algorithm(&self) -> Algorithm {
        self.algorithm
    }
}

impl fmt::Debug for Key {
    fn fmt(&self, f: &mut fmt::Formatter<'_>) -> fmt::Result {
        f.debug_struct("Key")
            .field("algorithm", self.algorithm.0)
            .finish()
    }
}

impl hkdf::KeyType for Algorithm {
    /// The bytes of a key of its own: as many as a digest has.
    fn len(&self) -> usize {
        self.0.output_len()
    }
}

impl From<hkdf::Okm<'_, Algorithm>> for Key {
    fn from(okm: hkdf::Okm<'_, Algorithm>) -> Self {
        Key::new(*okm.len(), okm.whole().bytes())
    }
}

impl Drop for Key {
    fn drop(&mut self) {
        calls::clear(&mut self.raw);
    }
}

/// The tag of `data` under `key` (RFC 2104, section 2).
///
/// # Panics
///
/// Where `data` and a block of the key before it are past the limit of [`digest::digest`].
pub fn sign(key: &Key, data: &[u8]) -> Tag {
    // SAFETY: key and data are lent for the call, and `out` has room for `len` bytes.
    let made = Digest::written(key.algorithm.0, |out, len| unsafe {
        calls::yz_hmac_key_sign(&key.raw, data.as_ptr(), data.len(), out, len)
    });
    Tag(made.expect("the message is within the limit"))
}

/// Ok exactly where `tag` is the whole tag of `data` under `key`.
pub fn verify(key: &Key, data: &[u8], tag: &[u8]) -> Result<(), Unspecified> {
    let (tag, tag_len) = (tag.as_ptr(), tag.len());
    // SAFETY: all are lent for the call.
    done(unsafe { calls::yz_hmac_key_verify(&key.raw, data.as_ptr(), data.len(), tag, tag_len) })
}

/// The tag of a message in pieces. A clone goes on by itself.
#[derive(Clone)]
pub struct Context {
    raw: HmacContext,
    algorithm: Algorithm,
}

impl Context {
    /// A context of the empty message under `signing_key`.
    pub fn with_key(signing_key: &Key) -> Self {
        let mut raw = HmacContext::NONE;
        // SAFETY: the key is lent for the call, and `raw` is ours.
        let status = unsafe { calls::yz_hmac_init(&signing_key.raw, &mut raw) };
        done(status).expect("the key was made");
        Context {
            raw,
            algorithm: signing_key.algorithm,
        }
    }

    /// Adds `data` to the message.
    pub fn update(&mut self, data: &[u8]) {
        // SAFETY: `raw` is ours, and the data is lent for the call.
        let status = unsafe { calls::yz_hmac_update(&mut self.raw, data.as_ptr(), data.len()) };
        done(status).expect("the context was begun");
    }

    /// The tag of the message.
    ///
    /// # Panics
    ///
    /// Where the message is longer than the limit of [`sign`].
    pub fn sign(self) -> Tag {
        // SAFETY: `raw` is ours, and `out` has room for `len` bytes.
        let made = Digest::written(self.algorithm.0, |out, len| unsafe {
            calls::yz_hmac_final(&self.raw, out, len)
        });
        Tag(made.expect("the message is within the limit"))
    }
}

impl fmt::Debug for Context {
    fn fmt(&self, f: &mut fmt::Formatter<'_>) -> fmt::Result {
        f.debug_struct("Context")
            .field("algorithm", self.algorithm.0)
            .finish()
    }
}

impl Drop for Context {
    fn drop(&mut self) {
        calls::clear(&mut self.raw);
    }
}
