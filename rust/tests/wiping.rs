// SPDX-License-Identifier: ISC
//! What a key, a context, a salt and a PRK leave in the memory that they free, and what each call
//! leaves there that is given a secret: an allocator looks at each block before it takes it back.

#[path = "shared/algorithms.rs"]
mod algorithms;
#[path = "shared/freed.rs"]
mod freed;

use algorithms::{all_keyed, Length};
use freed::{freed_with_secret, wiped, MADE, MASK, SECRET};
use std::num::NonZeroU32;
use std::sync::{Mutex, MutexGuard};
use std::time::Duration;
use yezdopin::tls13::{self, Psk};
use yezdopin::tokens::{jws, otp};
use yezdopin::{digest, hkdf, hmac, password_hash, pbkdf2, webhook};

// One test at a time.
static TURN: Mutex<()> = Mutex::new(());

fn turn() -> MutexGuard<'static, ()> {
    TURN.lock().unwrap_or_else(|it| it.into_inner())
}

#[test]
fn keys() {
    let _turn = turn();
    for it in all_keyed() {
        // Two chaining values, of which a few bytes may be zeros before.
        let least = 2 * it.digest.chaining_len() * 15 / 16;
        assert!(wiped(hmac::Key::new(it.hmac, &SECRET)) >= least);
    }
}

#[test]
fn contexts() {
    let _turn = turn();
    let mut context = digest::Context::new(&digest::SHA512);
    context.update(&[0xaa; 100]);
    assert!(wiped(context.clone()) >= 160);
    assert!(wiped(context) >= 160);
    let mut context = hmac::Context::with_key(&hmac::Key::new(hmac::HMAC_SHA512, &SECRET));
    context.update(&[0xaa; 100]);
    assert!(wiped(context) >= 220);
}

#[test]
fn salts_and_prks() {
    let _turn = turn();
    assert_eq!(freed_with_secret(|| drop(SECRET.to_vec())), 1);
    assert_eq!(
        freed_with_secret(|| drop(hkdf::Salt::new(hkdf::HKDF_SHA256, &SECRET))),
        0
    );
    for it in all_keyed() {
        let prk = || hkdf::Prk::new_less_safe(it.hkdf, &SECRET);
        assert_eq!(freed_with_secret(|| drop(prk())), 0);
        assert_eq!(freed_with_secret(|| drop(prk().clone())), 0);
    }
}

// Looks also for the output that is expanded for an info.
fn look_for_output(prk: &hkdf::Prk, info: &[u8]) {
    let mut out = [0; 48];
    let infos = [info];
    let okm = prk.expand(&infos, Length(out.len())).unwrap();
    okm.fill(&mut out).unwrap();
    *MADE.lock().unwrap() = out.map(|it| it ^ MASK);
    assert_eq!(freed_with_secret(|| drop(out.to_vec())), 1);
}

#[test]
fn values_of_outputs() {
    let _turn = turn();
    for it in all_keyed() {
        let prk = hkdf::Prk::new_less_safe(it.hkdf, &SECRET);
        look_for_output(&prk, b"info");
        let freed = freed_with_secret(|| {
            let okm = || prk.expand(&[b"in", b"fo"], it.hkdf).unwrap();
            let (salt, other) = (hkdf::Salt::from(okm()), hkdf::Prk::from(okm()));
            drop(hmac::Key::from(prk.expand(&[b"info"], it.hmac).unwrap()));
            drop((salt.extract(b"secret"), other.clone()));
        });
        assert_eq!(freed, 0);
    }
    *MADE.lock().unwrap() = [0; 48];
}

// Looks also for the key of a PSK's binders.
#[test]
fn keys_of_binders() {
    let _turn = turn();
    for it in all_keyed() {
        let (nothing, len) = (digest::digest(it.digest, b""), it.digest.output_len());
        let early_secret = hkdf::Salt::new(it.hkdf, &[]).extract(&SECRET);
        let mut made = [0; digest::MAX_OUTPUT_LEN];
        early_secret
            .expand_label(b"res binder", nothing.as_ref(), &mut made[..len])
            .unwrap();
        *MADE.lock().unwrap() = std::array::from_fn(|at| made[at % len] ^ MASK);
        assert_eq!(freed_with_secret(|| drop(made[..len].to_vec())), 1);
        let freed = freed_with_secret(|| {
            let key = tls13::binder_key(it.hkdf, &SECRET, Psk::Resumption).unwrap();
            let data = tls13::finished(&key, nothing.as_ref()).unwrap();
            tls13::verify_finished(&key.clone(), nothing.as_ref(), data.as_ref()).unwrap();
            assert!(tls13::verify_finished(&key, nothing.as_ref(), &SECRET).is_err());
        });
        assert_eq!(freed, 0);
    }
    *MADE.lock().unwrap() = [0; 48];
}

#[test]
fn calls_that_are_given_secrets() {
    let _turn = turn();
    let iterations = NonZeroU32::new(3).unwrap();
    let key = jws::Key::new(jws::Alg::Hs384, &SECRET).unwrap();
    let device = otp::Key::new(hmac::HMAC_SHA256, &SECRET).unwrap();
    let (token, password) = (
        jws::sign(b"{}", &key),
        otp::hotp(&device, 7, otp::Digits::Six),
    );
    let mut text = [0; password_hash::MAX_TEXT_LEN];
    let scheme = password_hash::Scheme::PhcSha256;
    let text = password_hash::new(scheme, &SECRET, b"salt", iterations, &mut text).unwrap();
    let freed = freed_with_secret(|| {
        let tag = hmac::sign(&hmac::Key::new(hmac::HMAC_SHA512, &SECRET), b"message");
        let other = hmac::Key::new(hmac::HMAC_SHA512, &SECRET);
        hmac::verify(&other, b"message", tag.as_ref()).unwrap();
        assert!(hmac::verify(&other, b"message", &SECRET).is_err());
        assert_eq!(jws::verify(&token, &key).unwrap(), b"{}");
        assert!(jws::verify(&token[1..], &key).is_err());
        let found = otp::find_hotp(&device, 0, 9, otp::Digits::Six, password.as_ref());
        assert_eq!(found, Some(7));
        let algorithm = pbkdf2::PBKDF2_HMAC_SHA256;
        assert!(pbkdf2::verify(algorithm, iterations, b"salt", &SECRET, b"key").is_err());
        let no_tag = b"t=0,v1=00";
        assert!(webhook::verify_github(&SECRET, b"body", no_tag).is_err());
        assert!(webhook::verify_stripe(&SECRET, b"body", no_tag, 0, Duration::MAX).is_err());
        password_hash::verify(text, &SECRET, 3).unwrap();
        assert!(password_hash::verify(text, &SECRET[1..], 3).is_err());
        let mut out = [0; password_hash::MAX_TEXT_LEN];
        password_hash::new(scheme, &SECRET, b"salt", iterations, &mut out).unwrap();
    });
    assert_eq!(freed, 0);
    // A payload is the caller's.
    let token = jws::sign(&SECRET, &key);
    assert_eq!(freed_with_secret(|| drop(jws::verify(&token, &key))), 1);
}
