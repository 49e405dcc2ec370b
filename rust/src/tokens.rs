// SPDX-License-Identifier: ISC
//! Signed tokens and one-time passwords, both under HMAC. `ring` has no such modules.
//!
//! ```
//! use yezdopin::rand::{self, SystemRandom};
//! use yezdopin::tokens::jws::{sign, verify, Alg, Key};
//!
//! let secret: [u8; 32] = rand::generate(&SystemRandom::new())?.expose();
//! let key = Key::new(Alg::Hs256, &secret)?;
//! let token = sign(br#"{"sub":"alice"}"#, &key);
//! assert_eq!(verify(&token, &key).unwrap(), br#"{"sub":"alice"}"#);
//! assert!(verify(&token[1..], &key).is_err());
//! # Ok::<(), yezdopin::error::Unspecified>(())
//! ```

pub mod jws;
pub mod otp;

use core::fmt;

/// Why a call refuses. Each says which of these it gives.
#[derive(Clone, Copy, Debug, PartialEq, Eq)]
#[non_exhaustive]
pub enum TokenError {
    /// The text is no token that the key signed. Nothing says why.
    Invalid,
    /// The buffer is too short.
    NoRoom,
    /// The payload is longer than HMAC admits.
    TooLong,
}

/// One line for a log. It shows nothing of the token.
impl fmt::Display for TokenError {
    fn fmt(&self, f: &mut fmt::Formatter<'_>) -> fmt::Result {
        f.write_str(match self {
            TokenError::Invalid => "not a valid token",
            TokenError::NoRoom => "no room for the token",
            TokenError::TooLong => "too long to be signed",
        })
    }
}

#[cfg(feature = "std")]
impl std::error::Error for TokenError {}
