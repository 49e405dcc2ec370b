// SPDX-License-Identifier: ISC
//! Digests (FIPS 180-4).

use digest::{consts, FixedOutput, FixedOutputReset, HashMarker, Output, Reset, Update};
use std::{io, mem};
use yezdopin::digest::Context;

macro_rules! digests {
    ($(
        $(#[$doc:meta])*
        $name:ident $text:literal: $algorithm:ident, $output_len:ty, $block_len:ty;
    )*) => {$(
        $(#[$doc])*
        #[derive(Clone)]
        pub struct $name(Context);

        impl Default for $name {
            fn default() -> Self {
                $name(Context::new(&yezdopin::digest::$algorithm))
            }
        }

        lengths!($name, $output_len, $block_len);

        impl HashMarker for $name {}

        impl Update for $name {
            fn update(&mut self, data: &[u8]) {
                self.0.update(data);
            }
        }

        impl FixedOutput for $name {
            fn finalize_into(self, out: &mut Output<Self>) {
                out.copy_from_slice(self.0.finish().as_ref());
            }
        }

        impl Reset for $name {
            fn reset(&mut self) {
                *self = Self::default();
            }
        }

        impl FixedOutputReset for $name {
            fn finalize_into_reset(&mut self, out: &mut Output<Self>) {
                mem::take(self).finalize_into(out);
            }
        }

        /// Adds what is written to the message.
        impl io::Write for $name {
            fn write(&mut self, data: &[u8]) -> io::Result<usize> {
                self.0.update(data);
                Ok(data.len())
            }

            fn flush(&mut self) -> io::Result<()> {
                Ok(())
            }
        }
    )*};
}

each_digest!(digests);
