// SPDX-License-Identifier: ISC
//! The algorithms by the names that lines of vectors have, and a number of bytes.
#![allow(dead_code)]

use yezdopin::{digest, hkdf, hmac, pbkdf2, tokens::jws};

include!("../../src/rows.rs");

macro_rules! digests {
    ($($text:literal $name:ident $len:ident: $($bytes:literal),*;)*) => {
        /// Each digest algorithm with its name, and its lengths as tools/rows.py has them: of a
        /// digest, of a chaining value and of a block.
        pub fn digests() -> Vec<(&'static str, &'static digest::Algorithm, [usize; 3])> {
            $(assert_eq!(digest::$len, [$($bytes),*][0]);)*
            vec![$(($text, &digest::$name, [$($bytes),*]),)*]
        }
    };
}

each_digest!(digests);

/// An algorithm with HMAC, HKDF and PBKDF2.
pub struct Keyed {
    pub name: &'static str,
    pub digest: &'static digest::Algorithm,
    pub hmac: hmac::Algorithm,
    pub hkdf: hkdf::Algorithm,
    pub pbkdf2: pbkdf2::Algorithm,
}

macro_rules! all_keyed {
    ($($text:literal $digest:ident $hmac:ident $hkdf:ident $pbkdf2:ident;)*) => {
        pub fn all_keyed() -> Vec<Keyed> {
            vec![$(Keyed {
                name: $text,
                digest: &digest::$digest,
                hmac: hmac::$hmac,
                hkdf: hkdf::$hkdf,
                pbkdf2: pbkdf2::$pbkdf2,
            },)*]
        }
    };
}

each_keyed!(all_keyed);

macro_rules! tokens {
    ($($(#[$doc:meta])* $variant:ident $name:literal $hmac:ident;)*) => {
        pub fn token_named(name: &str) -> jws::Alg {
            match name {
                $($name => jws::Alg::$variant,)*
                _ => panic!("{name}"),
            }
        }
    };
}

each_token!(tokens);

pub fn digest_named(name: &str) -> &'static digest::Algorithm {
    digests().iter().find(|it| it.0 == name).unwrap().1
}

pub fn keyed_named(name: &str) -> Keyed {
    let found = all_keyed().into_iter().find(|it| it.name == name);
    found.unwrap_or_else(|| panic!("{name}"))
}

/// A number of bytes.
pub struct Length(pub usize);

impl hkdf::KeyType for Length {
    fn len(&self) -> usize {
        self.0
    }
}
