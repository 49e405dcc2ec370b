// SPDX-License-Identifier: ISC
//! Digests (FIPS 180-4).

use crate::calls::{self, DigestContext, Message};
use crate::done;
use crate::error::Unspecified;
use alloc::vec;
use alloc::vec::Vec;
use core::fmt;

/// The bytes of the longest block (FIPS 180-4, figure 1).
pub const MAX_BLOCK_LEN: usize = 128;

/// The bytes of the longest digest (FIPS 180-4, figure 1).
pub const MAX_OUTPUT_LEN: usize = 64;

/// The bytes of the longest chaining value, which FIPS 180-4 calls a hash value (section 6).
pub const MAX_CHAINING_LEN: usize = MAX_OUTPUT_LEN;

/// An algorithm: one of the statics of this module. Debug gives its name, as `SHA256`.
#[derive(Clone, Copy, PartialEq, Eq)]
pub struct Algorithm {
    pub(crate) number: u32,
    output_len: usize,
    chaining_len: usize,
    block_len: usize,
    name: &'static str,
}

impl Algorithm {
    /// The bytes of a digest.
    pub fn output_len(&self) -> usize {
        self.output_len
    }

    /// The bytes of a chaining value, of which a digest is the front.
    pub fn chaining_len(&self) -> usize {
        self.chaining_len
    }

    /// The bytes of a block.
    pub fn block_len(&self) -> usize {
        self.block_len
    }
}

impl fmt::Debug for Algorithm {
    fn fmt(&self, f: &mut fmt::Formatter<'_>) -> fmt::Result {
        f.write_str(self.name)
    }
}

digest_algorithms!();

/// A digest: as a slice, the bytes that its algorithm gives. Debug has its algorithm and its bytes
/// in hex digits, as `SHA1:a9993e..`.
#[derive(Clone, Copy)]
pub struct Digest {
    bytes: [u8; MAX_OUTPUT_LEN],
    algorithm: &'static Algorithm,
}

impl Digest {
    /// Its algorithm.
    pub fn algorithm(&self) -> &'static Algorithm {
        self.algorithm
    }

    // What a call writes into room for a digest, and whether it did.
    pub(crate) fn written(
        algorithm: &'static Algorithm,
        write: impl FnOnce(*mut u8, usize) -> i32,
    ) -> Result<Self, Unspecified> {
        let mut bytes = [0; MAX_OUTPUT_LEN];
        done(write(bytes.as_mut_ptr(), algorithm.output_len))?;
        Ok(Digest { bytes, algorithm })
    }
}

impl AsRef<[u8]> for Digest {
    fn as_ref(&self) -> &[u8] {
        &self.bytes[..self.algorithm.output_len]
    }
}

impl fmt::Debug for Digest {
    fn fmt(&self, f: &mut fmt::Formatter<'_>) -> fmt::Result {
        write!(f, "{:?}:", self.algorithm)?;
        self.as_ref()
            .iter()
            .try_for_each(|byte| write!(f, "{byte:02x}"))
    }
}

/// The digest of `data`.
///
/// # Panics
///
/// Where `data` is past the limit (FIPS 180-4, section 1): `2^61 - 1` bytes under SHA-1 and
/// SHA-256, and `2^125 - 1` bytes under the others.
pub fn digest(algorithm: &'static Algorithm, data: &[u8]) -> Digest {
    let number = algorithm.number;
    // SAFETY: the data is lent for the call, and `out` has room for `len` bytes.
    Digest::written(algorithm, |out, len| unsafe {
        calls::yz_digest(number, data.as_ptr(), data.len(), out, len)
    })
    .expect("the message is within the limit")
}

/// Makes `out` the digests of the messages, each at its message's place, by one call.
///
/// Of four messages or more under SHA-1 and SHA-256, four at a time are made side by side. It is an
/// error, with `out` as it was, where `out` has not as many places as there are messages, or a
/// message is past the algorithm's limit.
///
/// ```
/// use yezdopin::digest::{digest, digest_each, SHA256};
///
/// let mut digests = [digest(&SHA256, b""); 4];
/// digest_each(&SHA256, &[b"a", b"bc", b"", b"abc"], &mut digests)?;
/// assert_eq!(digests[3].as_ref()[..2], [0xba, 0x78]);
/// # Ok::<(), yezdopin::error::Unspecified>(())
/// ```
pub fn digest_each(
    algorithm: &'static Algorithm,
    messages: &[&[u8]],
    out: &mut [Digest],
) -> Result<(), Unspecified> {
    if out.len() != messages.len() {
        return Err(Unspecified);
    }
    let place = |message: &&[u8]| Message {
        bytes: message.as_ptr(),
        len: message.len(),
    };
    let places: Vec<Message> = messages.iter().map(place).collect();
    let (number, len) = (algorithm.number, algorithm.output_len);
    let mut made = vec![0; places.len() * len];
    // SAFETY: the messages are lent for the call, `places` has them all, and `made` has room for
    // `len` bytes of each.
    done(unsafe {
        let (bytes, bytes_len) = (made.as_mut_ptr(), made.len());
        calls::yz_digest_each(number, places.as_ptr(), places.len(), bytes, bytes_len)
    })?;
    for (digest, written) in out.iter_mut().zip(made.chunks_exact(len)) {
        let mut bytes = [0; MAX_OUTPUT_LEN];
        bytes[..len].copy_from_slice(written);
        *digest = Digest { bytes, algorithm };
    }
    Ok(())
}

/// The digest of a message in pieces. A clone goes on by itself.
#[derive(Clone)]
pub struct Context {
    raw: DigestContext,
    algorithm: &'static Algorithm,
}

impl Context {
    /// A context of the empty message.
    pub fn new(algorithm: &'static Algorithm) -> Self {
        let mut raw = DigestContext::NONE;
        // SAFETY: `raw` is ours.
        let status = unsafe { calls::yz_digest_init(algorithm.number, &mut raw) };
        done(status).expect("each constant names an algorithm");
        Context { raw, algorithm }
    }

    /// Adds `data` to the message.
    pub fn update(&mut self, data: &[u8]) {
        // SAFETY: `raw` is ours, and the data is lent for the call.
        let status = unsafe { calls::yz_digest_update(&mut self.raw, data.as_ptr(), data.len()) };
        done(status).expect("the context was begun");
    }

    /// The digest of the message.
    ///
    /// # Panics
    ///
    /// Where the message is longer than the limit of [`digest`].
    pub fn finish(self) -> Digest {
        // SAFETY: `raw` is ours, and `out` has room for `len` bytes.
        Digest::written(self.algorithm, |out, len| unsafe {
            calls::yz_digest_final(&self.raw, out, len)
        })
        .expect("the message is within the limit")
    }

    /// The algorithm of the digest.
    pub fn algorithm(&self) -> &'static Algorithm {
        self.algorithm
    }
}

impl Drop for Context {
    fn drop(&mut self) {
        calls::clear(&mut self.raw);
    }
}
