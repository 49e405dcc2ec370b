// SPDX-License-Identifier: ISC
//! Password hashes in PHC strings: `password_hash::PasswordVerifier`.

use password_hash::errors::InvalidValue;
use password_hash::{Error, PasswordHash, PasswordVerifier, Result};
use yezdopin::password_hash::{verify, HashError};

/// PBKDF2 over HMAC-SHA-256 and HMAC-SHA-512, by what a PHC string names, for strings with at most
/// so many iterations.
///
/// A string without a count of iterations, for which RustCrypto's `pbkdf2` has a default, is
/// refused, by `Error::Algorithm` as each that the library doesn't read.
#[derive(Clone, Copy, Debug, PartialEq, Eq)]
pub struct Pbkdf2 {
    /// The most iterations of a string that is tested: whoever wrote it chose the time of a test.
    pub max_iterations: u32,
}

impl PasswordVerifier for Pbkdf2 {
    fn verify_password(&self, password: &[u8], hash: &PasswordHash<'_>) -> Result<()> {
        verify(&hash.to_string(), password, self.max_iterations).map_err(|error| match error {
            HashError::WrongPassword => Error::Password,
            HashError::TooManyIterations => Error::ParamValueInvalid(InvalidValue::TooLong),
            _ => Error::Algorithm,
        })
    }
}
