// SPDX-License-Identifier: ISC
//! The table of tests/verifications, the file VERIFICATIONS: each call in all ways that the crate
//! has for it, which must agree, beside the answer below the call.

#[path = "shared/algorithms.rs"]
mod algorithms;
#[path = "shared/values.rs"]
mod values;

use algorithms::{keyed_named, token_named};
use std::collections::BTreeSet;
use std::fmt::Debug;
use std::num::NonZeroU32;
use std::str;
use std::time::Duration;
use values::Values;
use yezdopin::constant_time::verify_slices_are_equal;
use yezdopin::tokens::{jws, otp};
use yezdopin::{hkdf, hmac, merkle, password_hash, pbkdf2, tls13, webhook};

// What no call is to write over.
const UNWRITTEN: u8 = 7;

// The words of calls, and how those end that the crate's types leave no place for: a hash is an
// array of 32 bytes.
const WORDS: [&str; 13] = [
    "hmac-verify",
    "pbkdf2-verify",
    "jws-verify",
    "hotp-find",
    "totp-find",
    "merkle-inclusion",
    "merkle-consistency",
    "password-verify",
    "webhook-hex",
    "webhook-github",
    "webhook-stripe",
    "tls13-finished",
    "equal",
];
const OTHER_LENGTHS: &str = "-of-other-lengths";

fn hash(values: &Values, field: &str) -> merkle::Hash {
    values.of(field).try_into().unwrap()
}

fn hashes(values: &Values, field: &str) -> Vec<merkle::Hash> {
    let bytes = values.of(field);
    let all = bytes.chunks(merkle::HASH_LEN);
    all.map(|it| it.try_into().unwrap()).collect()
}

fn digits_of(field: &str) -> otp::Digits {
    match field {
        "6" => otp::Digits::Six,
        "7" => otp::Digits::Seven,
        "8" => otp::Digits::Eight,
        _ => panic!("{field}"),
    }
}

fn number<T: str::FromStr>(field: &str) -> T
where
    T::Err: Debug,
{
    field.parse().unwrap()
}

// The answer on which two ways of a call agree.
fn agreed<T: PartialEq + Debug>(one: T, other: T) -> T {
    assert_eq!(one, other, "two ways of one call differ");
    one
}

fn verdict(is_right: bool) -> String {
    if is_right { "match" } else { "mismatch" }.to_string()
}

fn hmac_verify(values: &Values, fields: &[&str]) -> bool {
    let key = hmac::Key::new(keyed_named(fields[0]).hmac, &values.of(fields[1]));
    let (message, tag) = (values.of(fields[2]), values.of(fields[3]));
    let mut context = hmac::Context::with_key(&key);
    let (first, rest) = message.split_at(message.len() / 3);
    context.update(first);
    context.update(rest);
    agreed(
        hmac::verify(&key, &message, &tag).is_ok(),
        verify_slices_are_equal(context.sign().as_ref(), &tag).is_ok(),
    )
}

fn pbkdf2_verify(values: &Values, fields: &[&str]) -> bool {
    let iterations: NonZeroU32 = number(fields[1]);
    let (secret, salt) = (values.of(fields[2]), values.of(fields[3]));
    let value = values.of(fields[4]);
    let algorithm = keyed_named(fields[0]).pbkdf2;
    pbkdf2::verify(algorithm, iterations, &salt, &secret, &value).is_ok()
}

// The payload, by both calls. Text that is no UTF-8 and a short key can't be given to them.
fn jws_verify(values: &Values, fields: &[&str]) -> Option<Vec<u8>> {
    let (value, token) = (values.of(fields[1]), values.of(fields[2]));
    let key = jws::Key::new(token_named(fields[0]), &value).ok()?;
    let token = str::from_utf8(&token).ok()?;
    let mut room = vec![UNWRITTEN; token.len()];
    let made = jws::verify_in_place(token, &key, &mut room).ok();
    let made = agreed(jws::verify(token, &key).ok(), made.map(<[u8]>::to_vec));
    let rest = &room[made.as_ref().map_or(0, Vec::len)..];
    assert!(
        rest.iter().all(|it| *it == UNWRITTEN),
        "the rest is written"
    );
    made
}

fn hotp_find(values: &Values, fields: &[&str]) -> Option<u64> {
    let (value, text) = (values.of(fields[1]), values.of(fields[5]));
    let key = otp::Key::of_any_length(keyed_named(fields[0]).hmac, &value).ok()?;
    let (first, count) = (number(fields[2]), number(fields[3]));
    let text = str::from_utf8(&text).ok()?;
    otp::find_hotp(&key, first, count, digits_of(fields[4]), text)
}

fn totp_find(values: &Values, fields: &[&str]) -> Option<u64> {
    let (value, text) = (values.of(fields[1]), values.of(fields[7]));
    let key = otp::Key::of_any_length(keyed_named(fields[0]).hmac, &value).ok()?;
    let (time, step) = (number(fields[2]), number(fields[3]));
    let (back, ahead) = (number(fields[4]), number(fields[5]));
    let text = str::from_utf8(&text).ok()?;
    otp::find_totp(&key, time, step, back, ahead, digits_of(fields[6]), text)
}

fn merkle_inclusion(values: &Values, fields: &[&str]) -> bool {
    let (leaf, root) = (hash(values, fields[0]), hash(values, fields[4]));
    let (index, size) = (number(fields[1]), number(fields[2]));
    merkle::verify_inclusion(&leaf, index, size, &hashes(values, fields[3]), &root).is_ok()
}

fn merkle_consistency(values: &Values, fields: &[&str]) -> bool {
    let (first, second) = (hash(values, fields[1]), hash(values, fields[3]));
    let (small, great) = (number(fields[0]), number(fields[2]));
    let path = hashes(values, fields[4]);
    merkle::verify_consistency(small, &first, great, &second, &path).is_ok()
}

fn password_verify(values: &Values, fields: &[&str]) -> bool {
    let (text, password) = (values.of(fields[0]), values.of(fields[1]));
    let verify = |text| password_hash::verify(text, &password, number(fields[2]));
    str::from_utf8(&text).map_or(false, |text| verify(text).is_ok())
}

fn webhook_hex(values: &Values, fields: &[&str]) -> bool {
    let algorithm = keyed_named(fields[0]).hmac;
    let (prefix, secret) = (values.of(fields[1]), values.of(fields[2]));
    let (body, header) = (values.of(fields[3]), values.of(fields[4]));
    webhook::verify_hex(algorithm, &secret, &prefix, &body, &header).is_ok()
}

fn webhook_github(values: &Values, fields: &[&str]) -> bool {
    let (secret, body) = (values.of(fields[0]), values.of(fields[1]));
    webhook::verify_github(&secret, &body, &values.of(fields[2])).is_ok()
}

fn webhook_stripe(values: &Values, fields: &[&str]) -> bool {
    let (secret, body) = (values.of(fields[0]), values.of(fields[1]));
    let (header, tolerance) = (values.of(fields[2]), Duration::from_secs(number(fields[4])));
    webhook::verify_stripe(&secret, &body, &header, number(fields[3]), tolerance).is_ok()
}

fn tls13_finished(values: &Values, fields: &[&str]) -> bool {
    let algorithm = keyed_named(fields[0]).hkdf;
    let base_key = hkdf::Prk::new_less_safe(algorithm, &values.of(fields[1]));
    let (transcript, data) = (values.of(fields[2]), values.of(fields[3]));
    let made = tls13::finished(&base_key, &transcript);
    agreed(
        tls13::verify_finished(&base_key, &transcript, &data).is_ok(),
        made.map_or(false, |it| it.as_ref() == data),
    )
}

// The answer to a call as the table has it, but for a payload, which is compared here.
fn answer(values: &Values, word: &str, fields: &[&str], wanted: &str) -> String {
    let found = |it: Option<u64>| it.map_or(verdict(false), |it| it.to_string());
    match word {
        "hmac-verify" => verdict(hmac_verify(values, fields)),
        "pbkdf2-verify" => verdict(pbkdf2_verify(values, fields)),
        "jws-verify" => match jws_verify(values, fields) {
            Some(payload) if wanted == "mismatch" || payload != values.of(wanted) => {
                "another payload".to_string()
            }
            Some(_) => wanted.to_string(),
            None => verdict(false),
        },
        "hotp-find" => found(hotp_find(values, fields)),
        "totp-find" => found(totp_find(values, fields)),
        "merkle-inclusion" => verdict(merkle_inclusion(values, fields)),
        "merkle-consistency" => verdict(merkle_consistency(values, fields)),
        "password-verify" => verdict(password_verify(values, fields)),
        "webhook-hex" => verdict(webhook_hex(values, fields)),
        "webhook-github" => verdict(webhook_github(values, fields)),
        "webhook-stripe" => verdict(webhook_stripe(values, fields)),
        "tls13-finished" => verdict(tls13_finished(values, fields)),
        "equal" => {
            let (a, b) = (values.of(fields[0]), values.of(fields[1]));
            verdict(verify_slices_are_equal(&a, &b).is_ok())
        }
        _ => panic!("{word}"),
    }
}

#[test]
fn each_call_of_the_table() {
    let text = match std::env::var("VERIFICATIONS") {
        Ok(name) => std::fs::read_to_string(name).unwrap(),
        Err(_) => return println!("left out: `make` has the table"),
    };
    let (mut values, mut seen, mut last) = (Values::default(), BTreeSet::new(), "");
    for line in text.lines() {
        let fields: Vec<&str> = last.split(' ').collect();
        if let Some(named) = line.strip_prefix("let ") {
            values.take(named);
        } else if let Some(wanted) = line.strip_prefix("#= ") {
            if fields[0].ends_with(OTHER_LENGTHS) {
                continue;
            }
            let got = answer(&values, fields[0], &fields[1..], wanted);
            assert_eq!(got, wanted, "{last:.400}");
            seen.insert(fields[0]);
        } else {
            last = line;
        }
    }
    assert_eq!(seen, BTreeSet::from(WORDS));
}
