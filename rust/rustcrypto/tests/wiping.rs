// SPDX-License-Identifier: ISC
//! What digests and tags leave in the memory that they free: an allocator looks at the block of
//! each before it takes it back.

#[path = "../../tests/shared/freed.rs"]
mod freed;

use digest::{FixedOutputReset, Mac, Reset, Update};

include!("../src/rows.rs");

// Drops a value, of whose bytes the drop must change so many, all to zeros.
fn wiped<T>(value: T, least: usize) {
    let count = freed::wiped(value);
    assert!(count >= least, "{count} bytes are wiped, not {least}");
}

fn digests<D: Update + Default + Clone + Reset>() {
    let mut running = D::default();
    running.update(&[0xaa; 100]);
    wiped(running.clone(), 50);
    running.update(&[0xaa; 100]);
    wiped(running, 50);
}

// A tag has a key and a context, each of which has the words of the key.
fn tags<M: Mac + digest::KeyInit + Clone + FixedOutputReset>(least: usize) {
    let mut mac = <M as Mac>::new_from_slice(&[0xaa; 48]).unwrap();
    Mac::update(&mut mac, &[0xaa; 100]);
    wiped(mac.clone(), least);
    mac.finalize_fixed_reset();
    wiped(mac, least);
}

macro_rules! each_is_wiped {
    ($($(#[$doc:meta])* $name:ident $text:literal: $algorithm:ident, $output:ty, $block:ty;)*) => {
        $(digests::<yezdopin_rustcrypto::$name>();)*
    };
}

macro_rules! each_tag_is_wiped {
    ($($(#[$doc:meta])* $name:ident $text:literal: $algorithm:ident, $output:ty, $block:ty;)*) => {$(
        // Four chaining values, of which a few bytes may be zeros before.
        let digest = yezdopin::hmac::$algorithm.digest_algorithm();
        tags::<yezdopin_rustcrypto::$name>(4 * digest.chaining_len() * 15 / 16);
    )*};
}

#[test]
fn digests_and_tags_are_wiped() {
    each_digest!(each_is_wiped);
    each_tag!(each_tag_is_wiped);
}
