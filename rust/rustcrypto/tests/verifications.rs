// SPDX-License-Identifier: ISC
//! The tags and password hashes of the table of tests/verifications, the file VERIFICATIONS, by
//! RustCrypto's traits, beside the answers below them.

#[path = "../../tests/shared/values.rs"]
mod values;

use digest::{KeyInit, Mac};
use values::Values;
use yezdopin_rustcrypto::password_hash::PasswordHash;
use yezdopin_rustcrypto::{PasswordVerifier, Pbkdf2};

include!("../src/rows.rs");

fn is_tag<M: Mac + KeyInit + Clone>(key: &[u8], message: &[u8], tag: &[u8]) -> bool {
    let mut mac = <M as Mac>::new_from_slice(key).unwrap();
    let (first, rest) = message.split_at(message.len() / 3);
    mac.update(first);
    mac.update(rest);
    let is_right = mac.clone().verify_slice(tag).is_ok();
    // The first bytes of a tag by the calls for tags that are cut, whose least length is one byte.
    let whole = mac.clone().finalize().into_bytes();
    let is_first = !tag.is_empty() && whole.starts_with(tag);
    assert_eq!(mac.verify_truncated_left(tag).is_ok(), is_first);
    is_right
}

macro_rules! tags {
    ($($(#[$doc:meta])* $name:ident $text:literal: $algorithm:ident, $output:ty, $block:ty;)*) => {
        fn hmac_verify(name: &str, key: &[u8], message: &[u8], tag: &[u8]) -> bool {
            match name {
                $($text => is_tag::<yezdopin_rustcrypto::$name>(key, message, tag),)*
                _ => panic!("{name}"),
            }
        }
    };
}

each_tag!(tags);

// Whether a PHC string is that of a password. Texts of other schemes are none.
fn password_verify(text: &[u8], password: &[u8], max_iterations: u32) -> bool {
    let text = match std::str::from_utf8(text) {
        Ok(text) => text,
        Err(_) => return false,
    };
    let verifier = Pbkdf2 { max_iterations };
    let verify = |hash| verifier.verify_password(password, &hash).is_ok();
    PasswordHash::new(text).map_or(false, verify)
}

#[test]
fn each_call_of_the_table() {
    let text = match std::env::var("VERIFICATIONS") {
        Ok(name) => std::fs::read_to_string(name).unwrap(),
        Err(_) => return println!("left out: `make` has the table"),
    };
    let (mut values, mut tags, mut hashes, mut last) = (Values::default(), 0, 0, "");
    for line in text.lines() {
        let words: Vec<&str> = last.split(' ').collect();
        if let Some(named) = line.strip_prefix("let ") {
            values.take(named);
        } else if !line.starts_with("#= ") {
            last = line;
        } else if words[0] == "hmac-verify" {
            let fields: Vec<_> = words[2..].iter().map(|it| values.of(it)).collect();
            let is_right = hmac_verify(words[1], &fields[0], &fields[1], &fields[2]);
            assert_eq!(is_right, line == "#= match", "{last:.400}");
            tags += 1;
        } else if words[0] == "password-verify" {
            let (text, password) = (values.of(words[1]), values.of(words[2]));
            let is_phc = text.windows(3).any(|it| it == b"$i=");
            let is_right = password_verify(&text, &password, words[3].parse().unwrap());
            assert_eq!(is_right, is_phc && line == "#= match", "{last:.400}");
            hashes += 1;
        }
    }
    assert!(tags > 10000 && hashes > 10000);
}
