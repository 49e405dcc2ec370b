// SPDX-License-Identifier: ISC
//! Errors.

use core::array::TryFromSliceError;
use core::fmt;

/// An error that tells no cause. A caller's own error takes it by `From<Unspecified>`, so that `?`
/// turns one into the other.
#[derive(Clone, Copy, Debug, PartialEq, Eq)]
pub struct Unspecified;

impl fmt::Display for Unspecified {
    fn fmt(&self, f: &mut fmt::Formatter<'_>) -> fmt::Result {
        // As `ring` has it, since logs and tests compare it.
        f.write_str("ring::error::Unspecified")
    }
}

#[cfg(feature = "std")]
impl std::error::Error for Unspecified {}

impl From<TryFromSliceError> for Unspecified {
    fn from(_: TryFromSliceError) -> Self {
        Unspecified
    }
}
