// SPDX-License-Identifier: ISC
//! JSON Web Signatures in the compact form (RFC 7515), of which JSON Web Tokens are made, under
//! HMAC (RFC 7518, section 3.2). [`sign`] and [`verify`] take memory, and these calls none:
//!
//! ```
//! use yezdopin::tokens::jws::{sign_in_place, verify_in_place, Alg, Key};
//!
//! let key = Key::new(Alg::Hs256, b"a key of thirty-two random bytes")?;
//! let (mut token, mut payload) = ([0; 100], [0; 100]);
//! let token = sign_in_place(b"{}", &key, &mut token)?;
//! assert_eq!(verify_in_place(token, &key, &mut payload)?, b"{}");
//! # Ok::<(), Box<dyn std::error::Error>>(())
//! ```
//!
//! A payload is any bytes. No call reads the claims in it: whether a token has expired is for the
//! caller to test, and for whom it was made.

use super::TokenError;
use crate::calls;
use crate::error::Unspecified;
use crate::hmac;
use alloc::string::String;
use alloc::vec;
use alloc::vec::Vec;
use core::fmt;
use core::str;

macro_rules! algorithms {
    ($($(#[$doc:meta])* $variant:ident $name:literal $hmac:ident;)*) => {
        /// An algorithm of signatures, as a header's `alg` names it (RFC 7518, section 3.2).
        #[derive(Clone, Copy, Debug, PartialEq, Eq)]
        pub enum Alg {
            $($(#[$doc])* $variant,)*
        }

        impl Alg {
            /// The name in a header's `alg`.
            pub fn name(self) -> &'static str {
                match self {
                    $(Alg::$variant => $name,)*
                }
            }

            /// The HMAC algorithm.
            pub fn hmac_algorithm(self) -> hmac::Algorithm {
                match self {
                    $(Alg::$variant => hmac::$hmac,)*
                }
            }
        }
    };
}

each_token!(algorithms);

impl Alg {
    /// The least bytes of a key, as many as a digest has (RFC 7518, section 3.2).
    pub fn min_key_len(self) -> usize {
        self.hmac_algorithm().digest_algorithm().output_len()
    }
}

/// The bytes of a key, and the one algorithm that it is for. Debug shows the algorithm alone.
#[derive(Clone, Copy)]
pub struct Key<'a> {
    alg: Alg,
    value: &'a [u8],
}

impl<'a> Key<'a> {
    /// The key of the bytes `value` for `alg`.
    ///
    /// Refused exactly where they are fewer than [`Alg::min_key_len`].
    pub fn new(alg: Alg, value: &'a [u8]) -> Result<Self, Unspecified> {
        match value.len() < alg.min_key_len() {
            true => Err(Unspecified),
            false => Ok(Key { alg, value }),
        }
    }

    /// The algorithm that it is for.
    pub fn alg(&self) -> Alg {
        self.alg
    }

    // The algorithm's number and the bytes, as the calls take them.
    fn parts(&self) -> (u32, *const u8, usize) {
        let algorithm = self.alg.hmac_algorithm();
        let number = algorithm.digest_algorithm().number;
        (number, self.value.as_ptr(), self.value.len())
    }
}

impl fmt::Debug for Key<'_> {
    fn fmt(&self, f: &mut fmt::Formatter<'_>) -> fmt::Result {
        f.debug_struct("Key").field("alg", &self.alg).finish()
    }
}

// The symbols of some bytes in base64url without padding (RFC 7515, section 2).
fn base64url_len(len: usize) -> Option<usize> {
    (len / 3).checked_mul(4)?.checked_add((len % 3 * 4 + 2) / 3)
}

/// The bytes of the token of a payload of `payload_len` bytes. `None` where they are above
/// `usize::MAX`.
pub fn token_len(alg: Alg, payload_len: usize) -> Option<usize> {
    const HEADER_LEN: usize = 36;
    let signature_len = base64url_len(alg.min_key_len())?;
    base64url_len(payload_len)?.checked_add(HEADER_LEN + 1 + 1 + signature_len)
}

/// The token of a payload, under the header `{"alg":"HS256","typ":"JWT"}` or that of the key's
/// algorithm (RFC 7515, section 5.1).
///
/// # Panics
///
/// Where the payload is longer than HMAC admits, as [`hmac::sign`].
pub fn sign(payload: &[u8], key: &Key<'_>) -> String {
    let len = token_len(key.alg, payload.len()).expect("the payload is within the limit");
    let mut token = vec![0; len];
    sign_in_place(payload, key, &mut token).expect("the payload is within the limit");
    String::from_utf8(token).expect("a token is ASCII")
}

/// Writes the token that [`sign()`] gives to the start of `out`, and returns it. The rest of `out`
/// is unchanged, and after a refusal all of it is.
///
/// Refused as `NoRoom` where `out` has fewer than [`token_len`] bytes, and as `TooLong`.
pub fn sign_in_place<'a>(
    payload: &[u8],
    key: &Key<'_>,
    out: &'a mut [u8],
) -> Result<&'a str, TokenError> {
    let (algorithm, value, value_len) = key.parts();
    let mut len = 0;
    // SAFETY: all are lent for the call, `out` for writing.
    let status = unsafe {
        calls::yz_jws_sign(
            algorithm,
            value,
            value_len,
            payload.as_ptr(),
            payload.len(),
            out.as_mut_ptr(),
            out.len(),
            &mut len,
        )
    };
    match status {
        calls::YZ_OK => Ok(str::from_utf8(&out[..len]).expect("a token is ASCII")),
        calls::YZ_WRONG_LENGTH => Err(TokenError::NoRoom),
        _ => Err(TokenError::TooLong),
    }
}

/// The payload of a token that the key signed (RFC 7515, section 5.2).
///
/// Refused as `Invalid` exactly where the text is no such token: its header is
/// `{"alg":"HS256","typ":"JWT"}`, `{"typ":"JWT","alg":"HS256"}` or `{"alg":"HS256"}`, letter by
/// letter, with the name of the key's algorithm, as most systems write it. The whole tag is
/// compared, and the header is read only where it is right.
pub fn verify(token: &str, key: &Key<'_>) -> Result<Vec<u8>, TokenError> {
    let mut payload = vec![0; token.len()];
    let len = verify_in_place(token, key, &mut payload)?.len();
    payload.truncate(len);
    Ok(payload)
}

/// Writes the payload that [`verify()`] gives to the start of `out`, and returns it. The rest of
/// `out` is unchanged, and after a refusal all of it is.
///
/// Refused as `NoRoom` exactly where `out` is shorter than the token, though the payload is shorter
/// than that, and else as `Invalid`.
pub fn verify_in_place<'a>(
    token: &str,
    key: &Key<'_>,
    out: &'a mut [u8],
) -> Result<&'a [u8], TokenError> {
    let (algorithm, value, value_len) = key.parts();
    let mut len = 0;
    // SAFETY: all are lent for the call, `out` for writing.
    let status = unsafe {
        calls::yz_jws_verify(
            algorithm,
            value,
            value_len,
            token.as_ptr(),
            token.len(),
            out.as_mut_ptr(),
            out.len(),
            &mut len,
        )
    };
    match status {
        calls::YZ_OK => Ok(&out[..len]),
        calls::YZ_WRONG_LENGTH => Err(TokenError::NoRoom),
        _ => Err(TokenError::Invalid),
    }
}
