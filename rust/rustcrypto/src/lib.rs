// SPDX-License-Identifier: ISC
//! RustCrypto's traits of digests, tags (`digest` 0.10) and password hashes over the proved library
//! of [`yezdopin`].
//!
//! A type of this crate stands where code generic over these traits takes one of `sha1`, `sha2`, or
//! `hmac::Hmac` over them: `hmac::SimpleHmac<Sha256>`, `hkdf::SimpleHkdf<Sha256>` and
//! `pbkdf2::pbkdf2::<HmacSha256>` run over it.
//!
//! ```
//! use digest::{Digest, Mac};
//! use yezdopin_rustcrypto::{HmacSha256, Sha256};
//!
//! assert_eq!(Sha256::digest(b"hello, world")[..2], [0x09, 0xca]);
//!
//! let mut mac = HmacSha256::new_from_slice(b"a key")?;
//! mac.update(b"a message");
//! let tag = mac.clone().finalize().into_bytes();
//! assert!(mac.verify(&tag).is_ok());
//! # Ok::<(), digest::InvalidLength>(())
//! ```
//!
//! [`Pbkdf2`] tests passwords against PHC strings, by `PasswordVerifier` of `password-hash`, 0.4 or
//! 0.5:
//!
//! ```
//! use yezdopin_rustcrypto::password_hash::PasswordHash;
//! use yezdopin_rustcrypto::{PasswordVerifier, Pbkdf2};
//!
//! let kept = "$pbkdf2-sha256$i=1000,l=32$AAECAwQFBgcICQoLDA0ODw\
//!             $ppsXnjrdPB4KryJ6DrOqKqhkWrhv7PbKAMF1Eml8cZ4";
//! let verifier = Pbkdf2 { max_iterations: 2_000_000 };
//! let hash = PasswordHash::new(kept)?;
//! verifier.verify_password(b"correct horse battery staple", &hash)?;
//! assert!(verifier.verify_password(b"another", &hash).is_err());
//! # Ok::<(), yezdopin_rustcrypto::password_hash::Error>(())
//! ```
//!
//! As the types of `yezdopin` below them, they panic on a message past the standard's limit, of
//! about `2^61` bytes or more, and are wiped when they are dropped.
#![deny(missing_docs)]
#![forbid(unsafe_code)]

// What digests and tags have alike: their lengths, and Debug without the message, which may be
// secret.
macro_rules! lengths {
    ($name:ident, $output_len:ty, $block_len:ty) => {
        impl std::fmt::Debug for $name {
            fn fmt(&self, f: &mut std::fmt::Formatter<'_>) -> std::fmt::Result {
                f.debug_struct(stringify!($name)).finish_non_exhaustive()
            }
        }

        impl digest::OutputSizeUser for $name {
            type OutputSize = $output_len;
        }

        impl digest::crypto_common::BlockSizeUser for $name {
            type BlockSize = $block_len;
        }
    };
}

#[macro_use]
mod rows;

mod digests;
mod passwords;
mod tags;

pub use digest::{self, Digest};
pub use digests::*;
pub use password_hash::{self, PasswordVerifier};
pub use passwords::Pbkdf2;
pub use tags::*;
