// SPDX-License-Identifier: ISC
//! Tags: HMAC (RFC 2104).

use digest::consts;
use digest::crypto_common::KeySizeUser;
use digest::{FixedOutput, FixedOutputReset, InvalidLength, Key, KeyInit, MacMarker, Output};
use digest::{Reset, Update};
use std::mem;
use yezdopin::hmac;

macro_rules! tags {
    ($(
        $(#[$doc:meta])*
        $name:ident $text:literal: $algorithm:ident, $output_len:ty, $block_len:ty;
    )*) => {$(
        $(#[$doc])*
        #[derive(Clone)]
        pub struct $name {
            key: hmac::Key,
            context: hmac::Context,
        }

        impl $name {
            fn with_value(value: &[u8]) -> Self {
                let key = hmac::Key::new(hmac::$algorithm, value);
                let context = hmac::Context::with_key(&key);
                $name { key, context }
            }

            // The context so far, in whose place stands one of the empty message.
            fn take_context(&mut self) -> hmac::Context {
                mem::replace(&mut self.context, hmac::Context::with_key(&self.key))
            }
        }

        lengths!($name, $output_len, $block_len);

        impl MacMarker for $name {}

        // As `hmac::Hmac` has it: a key of a block's length is used as it is.
        impl KeySizeUser for $name {
            type KeySize = $block_len;
        }

        impl KeyInit for $name {
            fn new(key: &Key<Self>) -> Self {
                Self::with_value(key)
            }

            /// The key of bytes of any length, which is never refused.
            fn new_from_slice(key: &[u8]) -> Result<Self, InvalidLength> {
                Ok(Self::with_value(key))
            }
        }

        impl Update for $name {
            fn update(&mut self, data: &[u8]) {
                self.context.update(data);
            }
        }

        impl FixedOutput for $name {
            fn finalize_into(self, out: &mut Output<Self>) {
                out.copy_from_slice(self.context.sign().as_ref());
            }
        }

        impl Reset for $name {
            fn reset(&mut self) {
                self.take_context();
            }
        }

        impl FixedOutputReset for $name {
            fn finalize_into_reset(&mut self, out: &mut Output<Self>) {
                out.copy_from_slice(self.take_context().sign().as_ref());
            }
        }
    )*};
}

each_tag!(tags);
