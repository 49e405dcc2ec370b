// SPDX-License-Identifier: ISC
//! The traits over values of FIPS 180-4 and RFC 4231, and that each way to end or to begin anew
//! leaves an object of the empty message.

use digest::{Digest, FixedOutputReset, Mac, Reset, Update};
use std::io::Write;
use yezdopin_rustcrypto::password_hash::PasswordHash;
use yezdopin_rustcrypto::{HmacSha256, PasswordVerifier, Pbkdf2, Sha512_256};

include!("../src/rows.rs");

const LONG: [u8; 1000] = [0x61; 1000];

fn hex(bytes: &[u8]) -> String {
    bytes.iter().map(|it| format!("{it:02x}")).collect()
}

// A digest of "abc", which begins with these digits, after each way to begin anew.
fn digests<D: Digest + FixedOutputReset + Reset + Clone + Default + Write>(of_abc: &str) {
    let is_of_abc = |made: &[u8]| {
        assert_eq!(made.len(), <D as Digest>::output_size());
        assert_eq!(hex(made)[..of_abc.len()], *of_abc);
    };
    is_of_abc(&D::digest(b"abc"));
    let mut running = D::new();
    Digest::update(&mut running, LONG);
    Digest::reset(&mut running);
    Digest::update(&mut running, b"abc");
    is_of_abc(&running.finalize_reset());
    Digest::update(&mut running, b"a");
    running.write_all(b"bc").unwrap();
    running.flush().unwrap();
    is_of_abc(&running.clone().finalize());
    let copy = running.clone();
    Digest::update(&mut running, LONG);
    is_of_abc(&copy.finalize_fixed());
    assert!(!hex(&running.finalize_fixed_reset()).starts_with(of_abc));
    Digest::update(&mut running, b"abc");
    is_of_abc(&running.finalize());
}

// The answer in a file of vectors/ to a call.
fn answer(file: &str, call: &str) -> String {
    let folder = concat!(env!("CARGO_MANIFEST_DIR"), "/../../vectors");
    let text = std::fs::read_to_string(format!("{folder}/{file}")).unwrap();
    let (_, found) = text.split_once(&format!("{call}\n#= ")).expect(call);
    found[..found.find(' ').unwrap()].to_string()
}

macro_rules! each_of_abc {
    ($($(#[$doc:meta])* $name:ident $text:literal: $algorithm:ident, $output:ty, $block:ty;)*) => {
        $(digests::<yezdopin_rustcrypto::$name>(&answer(
            "digest.txt",
            concat!("digest ", $text, " 616263"),
        ));)*
    };
}

#[test]
fn digests_of_fips_180_4() {
    each_digest!(each_of_abc);
}

const KEY: &[u8] = b"Jefe";
const MESSAGE: &[u8] = b"what do ya want for nothing?";

// The tag of RFC 4231, test case 2 (of RFC 2202 for SHA-1), after each way to begin anew.
fn tags<M>(wanted: &str)
where
    M: Mac + FixedOutputReset + Reset + Clone + digest::KeyInit,
{
    let made = |mut mac: M| {
        Mac::update(&mut mac, MESSAGE);
        hex(&mac.finalize().into_bytes())
    };
    let begun = || <M as Mac>::new_from_slice(KEY).unwrap();
    assert_eq!(made(begun()), wanted);
    let mut mac = begun();
    Mac::update(&mut mac, &LONG);
    Mac::reset(&mut mac);
    assert_eq!(made(mac.clone()), wanted);
    Mac::update(&mut mac, MESSAGE);
    assert_eq!(hex(&mac.finalize_reset().into_bytes()), wanted);
    Mac::update(&mut mac, MESSAGE);
    assert_eq!(hex(&mac.finalize_fixed_reset()), wanted);
    assert_eq!(made(mac.clone()), wanted);
    Mac::update(&mut mac, MESSAGE);
    let tag = mac.clone().finalize().into_bytes();
    assert!(mac.clone().verify(&tag).is_ok());
    assert!(mac.clone().verify_slice(&tag).is_ok());
    for wrong in [&tag[..0], &tag[1..], &tag[..tag.len() - 1]] {
        assert!(mac.clone().verify_slice(wrong).is_err());
    }
    let mut changed = tag.clone();
    for at in 0..changed.len() {
        changed[at] ^= 1;
        assert!(mac.clone().verify(&changed).is_err());
        changed[at] ^= 1;
    }
    assert!(mac.verify(&tag).is_ok());
}

macro_rules! each_of_jefe {
    ($($(#[$doc:meta])* $name:ident $text:literal: $algorithm:ident, $output:ty, $block:ty;)*) => {
        $(tags::<yezdopin_rustcrypto::$name>(&answer(
            "hmac.txt",
            &format!("hmac {} {} {}", $text, hex(KEY), hex(MESSAGE)),
        ));)*
    };
}

#[test]
fn tags_of_rfc_4231() {
    each_tag!(each_of_jefe);
}

#[test]
fn keys_of_a_block() {
    let mut of_block = [0; 64];
    of_block[..KEY.len()].copy_from_slice(KEY);
    let mac = <HmacSha256 as Mac>::new(&of_block.into()).chain_update(MESSAGE);
    let tag = mac.finalize().into_bytes();
    assert!(hex(&tag).starts_with("5bdcc146bf60754e"));
}

#[test]
fn texts_show_no_secret() {
    let mut mac = <HmacSha256 as Mac>::new_from_slice(KEY).unwrap();
    Update::update(&mut mac, MESSAGE);
    assert_eq!(format!("{mac:?}"), "HmacSha256 { .. }");
    assert_eq!(format!("{:?}", Sha512_256::new()), "Sha512_256 { .. }");
}

#[test]
fn password_hashes() {
    let kept = "$pbkdf2-sha256$i=1000,l=32$AAECAwQFBgcICQoLDA0ODw\
                $ppsXnjrdPB4KryJ6DrOqKqhkWrhv7PbKAMF1Eml8cZ4";
    let hash = PasswordHash::new(kept).unwrap();
    let password = b"correct horse battery staple";
    let under = |max_iterations| Pbkdf2 { max_iterations };
    assert!(under(1000).verify_password(password, &hash).is_ok());
    assert!(under(999).verify_password(password, &hash).is_err());
    for wrong in [&password[..0], &password[1..], &password[..27]] {
        assert!(under(1000).verify_password(wrong, &hash).is_err());
    }
}
