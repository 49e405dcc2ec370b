// SPDX-License-Identifier: ISC
//! Comparison that reads every pair of bytes.

use crate::calls;
use crate::error::Unspecified;

/// Ok exactly where both are equal. Where the lengths agree it reads all bytes of both.
pub fn verify_slices_are_equal(a: &[u8], b: &[u8]) -> Result<(), Unspecified> {
    // SAFETY: both are lent for the call.
    match unsafe { calls::yz_equal(a.as_ptr(), a.len(), b.as_ptr(), b.len()) } {
        true => Ok(()),
        false => Err(Unspecified),
    }
}
