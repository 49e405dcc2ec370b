// SPDX-License-Identifier: ISC
//! Finished messages and PSK binders of TLS 1.3: the traces of RFC 8448, a reading of RFC 8446 over
//! HMAC, what is near a right verify_data, and what is refused.

#[path = "shared/algorithms.rs"]
mod algorithms;
#[path = "shared/values.rs"]
mod values;

use algorithms::{all_keyed, Keyed};
use std::collections::HashMap;
use values::bytes;
use yezdopin::digest::digest;
use yezdopin::error::Unspecified;
use yezdopin::tls13::{binder_key, finished, verify_finished, Psk};
use yezdopin::{hkdf, hmac};

const TRACES: &str = concat!(env!("CARGO_MANIFEST_DIR"), "/../vectors/schedules");
const PSKS: [(Psk, &[u8]); 2] = [
    (Psk::External, b"ext binder"),
    (Psk::Resumption, b"res binder"),
];

fn tag(it: &Keyed, key: &[u8], message: &[u8]) -> Vec<u8> {
    let key = hmac::Key::new(it.hmac, key);
    hmac::sign(&key, message).as_ref().to_vec()
}

// HKDF-Expand-Label (RFC 8446, section 7.1) to a digest's length, which is one block of HKDF.
fn expand_label(it: &Keyed, secret: &[u8], label: &[u8], context: &[u8]) -> Vec<u8> {
    let (len, label_len) = (it.digest.output_len() as u8, label.len() as u8 + 6);
    let front = [&[0, len, label_len][..], b"tls13 ", label].concat();
    let info = [&front[..], &[context.len() as u8], context, &[1]].concat();
    tag(it, secret, &info)
}

// RFC 8446, section 4.4.4.
fn verify_data(it: &Keyed, base_key: &[u8], transcript_hash: &[u8]) -> Vec<u8> {
    tag(
        it,
        &expand_label(it, base_key, b"finished", b""),
        transcript_hash,
    )
}

fn prk(it: &Keyed, value: &[u8]) -> hkdf::Prk {
    hkdf::Prk::new_less_safe(it.hkdf, value)
}

fn is_made(base_key: &hkdf::Prk, transcript_hash: &[u8], wanted: &[u8]) {
    let made = finished(base_key, transcript_hash).unwrap();
    assert_eq!(made.as_ref(), wanted);
    assert_eq!(verify_finished(base_key, transcript_hash, wanted), Ok(()));
}

// What is near some bytes: each cut, each byte changed, and longer ones.
fn near(value: &[u8]) -> Vec<Vec<u8>> {
    let mut found = vec![
        [value, b"\0"].concat(),
        [value, value].concat(),
        value[1..].to_vec(),
    ];
    for at in 0..value.len() {
        found.push(value[..at].to_vec());
        let mut other = value.to_vec();
        other[at] ^= 1 << (at % 8);
        found.push(other);
    }
    found
}

// The base key of a trace's Finished, which another line has, or of its binder.
fn base_key_of(head: &str, answers: &HashMap<&str, &str>) -> hkdf::Prk {
    match answers.get(&*format!("{head} secret")) {
        Some(secret) => hkdf::Prk::new_less_safe(hkdf::HKDF_SHA256, &bytes(secret)),
        None => {
            assert!(head.ends_with("res-binder -"));
            let psk = head.split(' ').nth(2).unwrap();
            binder_key(hkdf::HKDF_SHA256, &bytes(psk), Psk::Resumption).unwrap()
        }
    }
}

#[test]
fn traces_of_rfc_8448() {
    let mut seen = 0;
    for entry in std::fs::read_dir(TRACES).unwrap() {
        let text = std::fs::read_to_string(entry.unwrap().path()).unwrap();
        let lines: Vec<&str> = text.lines().collect();
        let pairs = lines.windows(2);
        let answers: HashMap<&str, &str> = pairs
            .filter_map(|it| Some((it[0], it[1].strip_prefix("#= ")?)))
            .collect();
        for (line, wanted) in &answers {
            if let Some((head, covered)) = line.split_once(" finished:") {
                let base_key = base_key_of(head, &answers);
                is_made(&base_key, &bytes(covered), &bytes(wanted));
                seen += 1;
            }
        }
    }
    assert_eq!(seen, 11);
}

#[test]
fn beside_hmac() {
    for it in all_keyed() {
        let len = it.digest.output_len();
        for seed in 0..20 {
            let key: Vec<u8> = (0..len).map(|at| (7 * at + 13 * seed) as u8).collect();
            let hash = digest(it.digest, &key);
            let (hash, base_key) = (hash.as_ref(), prk(&it, &key));
            is_made(&base_key, hash, &verify_data(&it, &key, hash));
        }
        let empty = digest(it.digest, b"");
        for psk in [1, 16, 32, 64, 65, 128, 129, 5000].map(|len| vec![7; len]) {
            let early_secret = tag(&it, &vec![0; len], &psk);
            for (from, label) in PSKS {
                let made = binder_key(it.hkdf, &psk, from).unwrap();
                let wanted = expand_label(&it, &early_secret, label, empty.as_ref());
                is_made(
                    &made,
                    empty.as_ref(),
                    &verify_data(&it, &wanted, empty.as_ref()),
                );
            }
        }
    }
}

#[test]
fn near_a_finished() {
    for it in all_keyed() {
        let len = it.digest.output_len();
        let (key, hash) = (vec![7; len], vec![9; len]);
        let right = verify_data(&it, &key, &hash);
        let base_key = prk(&it, &key);
        for other in near(&right) {
            assert_eq!(verify_finished(&base_key, &hash, &other), Err(Unspecified));
        }
        for other in near(&key) {
            let refused = verify_finished(&prk(&it, &other), &hash, &right);
            assert_eq!(refused, Err(Unspecified));
        }
        for other in near(&hash) {
            let refused = verify_finished(&base_key, &other, &right);
            assert_eq!(refused, Err(Unspecified));
        }
        let refused = verify_finished(&prk(&it, &hash), &key, &right);
        assert_eq!(refused, Err(Unspecified));
    }
}

#[test]
fn other_lengths() {
    for it in all_keyed() {
        let len = it.digest.output_len();
        let right = vec![7; len];
        for other in [0, 1, len - 1, len + 1, 2 * len, 5000].map(|len| vec![7; len]) {
            for (key, hash) in [(&right, &other), (&other, &right), (&other, &other)] {
                let made = finished(&prk(&it, key), hash);
                assert_eq!(made.map(|_| ()), Err(Unspecified));
                let data = verify_data(&it, key, hash);
                let verified = verify_finished(&prk(&it, key), hash, &data);
                assert_eq!(verified, Err(Unspecified));
            }
        }
        for (from, _) in PSKS {
            let refused = binder_key(it.hkdf, b"", from);
            assert_eq!(refused.map(|_| ()), Err(Unspecified));
        }
    }
}
