// SPDX-License-Identifier: ISC
//! RustCrypto's own tests of its traits over the types of `yezdopin_rustcrypto`, and what it builds
//! over them beside its own hash functions. The script of this name runs it.

use digest::dev::{feed_rand_16mib, fixed_reset_test};
use digest::{new_mac_test, new_resettable_mac_test, new_test, Digest};
use hkdf::{Hkdf, SimpleHkdf};
use hmac::{Hmac, SimpleHmac};
use std::io;
use std::num::NonZeroU32;
use yezdopin_rustcrypto::*;

#[path = "../../rust/tests/shared/algorithms.rs"]
mod algorithms;

// RustCrypto's hash functions, which have the names of ours.
mod theirs {
    pub use sha1::Sha1;
    pub use sha2::*;
}

include!("../../rust/rustcrypto/src/rows.rs");

// The tests of RustCrypto's vectors, which the script makes of the files' names.
include!("vectors.in");

// The digest of 16 MiB and some bytes that `digest` makes up.
fn of_16_mib<D: Digest + digest::Update>() -> Vec<u8> {
    let mut hasher = D::new();
    feed_rand_16mib(&mut hasher);
    hasher.finalize().to_vec()
}

macro_rules! long_messages_agree {
    ($($(#[$doc:meta])* $name:ident $text:literal: $algorithm:ident, $output:ty, $block:ty;)*) => {
        $(assert_eq!(of_16_mib::<$name>(), of_16_mib::<theirs::$name>());)*
    };
}

#[test]
fn long_messages() {
    each_digest!(long_messages_agree);
}

#[test]
fn readers_are_copied_into_digests() {
    let mut hasher = Sha256::new();
    io::copy(&mut &b"hello, world"[..], &mut hasher).unwrap();
    assert_eq!(hasher.finalize(), Sha256::digest(b"hello, world"));
}

macro_rules! hkdf_agrees {
    ($($(#[$doc:meta])* $name:ident $text:literal: $algorithm:ident, $output:ty, $block:ty;)*) => {$(
        for length in [42, 129, 255 * <$name as Digest>::output_size()] {
            let (salt, secret) = (Some(&b"a salt"[..]), b"a secret");
            let (mut ours, mut theirs) = (vec![0; length], vec![0; length]);
            let expanded = SimpleHkdf::<$name>::new(salt, secret).expand(b"info", &mut ours);
            let wanted = Hkdf::<theirs::$name>::new(salt, secret).expand(b"info", &mut theirs);
            assert!(expanded.is_ok() && wanted.is_ok());
            assert_eq!(ours, theirs);
        }
    )*};
}

#[test]
fn hkdf_over_our_digests() {
    each_digest!(hkdf_agrees);
}

const ITERATIONS: u32 = 10;

// A key by RustCrypto's PBKDF2 over a type of tags.
macro_rules! derived_over {
    ($mac:ty) => {{
        let mut key = [0; 100];
        // Version 0.12 answers a result, which only a key's length makes an error.
        let _ = pbkdf2::pbkdf2::<$mac>(b"a password", b"a salt", ITERATIONS, &mut key);
        key
    }};
}

// The same key by the library's call.
fn derived(algorithm: yezdopin::pbkdf2::Algorithm) -> [u8; 100] {
    let iterations = NonZeroU32::new(ITERATIONS).unwrap();
    let mut key = [0; 100];
    yezdopin::pbkdf2::derive(algorithm, iterations, b"a salt", b"a password", &mut key);
    key
}

macro_rules! pbkdf2_agrees_over_digests {
    ($($(#[$doc:meta])* $name:ident $text:literal: $algorithm:ident, $output:ty, $block:ty;)*) => {$(
        let theirs = derived_over!(Hmac<theirs::$name>);
        assert_eq!(derived_over!(SimpleHmac<$name>), theirs);
        if let Some(keyed) = algorithms::all_keyed().iter().find(|it| it.name == $text) {
            assert_eq!(derived(keyed.pbkdf2), theirs);
        }
    )*};
}

macro_rules! pbkdf2_agrees_over_tags {
    ($($(#[$doc:meta])* $name:ident $text:literal: $algorithm:ident, $output:ty, $block:ty;)*) => {
        $(assert_eq!(derived_over!($name), derived(algorithms::keyed_named($text).pbkdf2));)*
    };
}

#[test]
fn pbkdf2_over_our_digests_and_tags() {
    each_digest!(pbkdf2_agrees_over_digests);
    each_tag!(pbkdf2_agrees_over_tags);
}

#[test]
fn password_hashes_of_pbkdf2() {
    use password_hash::{Error, Ident, PasswordHasher, PasswordVerifier, Salt};

    let salt = Salt::new("AAECAwQFBgcICQoLDA0ODw").unwrap();
    for algorithm in ["pbkdf2-sha256", "pbkdf2-sha512"] {
        for output_length in [10, 20, 32, 63, 64] {
            let params = pbkdf2::Params { rounds: 1000, output_length };
            let name = Some(Ident::new(algorithm).unwrap());
            let hash = pbkdf2::Pbkdf2
                .hash_password_customized(b"password", name, None, params, salt)
                .unwrap();
            let verify = |max_iterations, password| {
                yezdopin_rustcrypto::Pbkdf2 { max_iterations }.verify_password(password, &hash)
            };
            assert_eq!(verify(1000, b"password"), Ok(()));
            assert_eq!(verify(1000, b"passwore"), Err(Error::Password));
            assert!(matches!(verify(999, b"password"), Err(Error::ParamValueInvalid(_))));
        }
    }
}
