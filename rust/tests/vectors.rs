// SPDX-License-Identifier: ISC
//! The lines of vectors/, whose answers come from standards and from other implementations, and
//! what they don't show: copies, keys that are made of outputs, comparison.

#[path = "shared/algorithms.rs"]
mod algorithms;
#[path = "shared/values.rs"]
mod values;

use algorithms::{all_keyed, digest_named, digests, keyed_named, Length};
use std::num::NonZeroU32;
use values::bytes;
use yezdopin::constant_time::verify_slices_are_equal;
use yezdopin::error::Unspecified;
use yezdopin::{digest, hkdf, hmac, pbkdf2};

const FOLDER: &str = concat!(env!("CARGO_MANIFEST_DIR"), "/../vectors");

fn hex(bytes: &[u8]) -> String {
    match bytes {
        [] => "-".to_string(),
        _ => bytes.iter().map(|byte| format!("{byte:02x}")).collect(),
    }
}

fn pieces(field: &str) -> Vec<Vec<u8>> {
    field.split(',').map(bytes).collect()
}

fn key_named(name: &str, value: &str) -> hmac::Key {
    hmac::Key::new(keyed_named(name).hmac, &bytes(value))
}

fn verdict(result: Result<(), Unspecified>) -> String {
    if result.is_ok() { "match" } else { "mismatch" }.to_string()
}

fn digest_of(name: &str, field: &str) -> String {
    let algorithm = digest_named(name);
    let mut context = digest::Context::new(algorithm);
    for piece in pieces(field) {
        context.update(&piece);
    }
    let whole = digest::digest(algorithm, &pieces(field).concat());
    let made = context.finish();
    assert_eq!(made.as_ref(), whole.as_ref());
    hex(made.as_ref())
}

fn tag_of(name: &str, key: &str, field: &str) -> String {
    let key = key_named(name, key);
    let mut context = hmac::Context::with_key(&key);
    for piece in pieces(field) {
        context.update(&piece);
    }
    let made = context.sign();
    hmac::verify(&key, &pieces(field).concat(), made.as_ref()).unwrap();
    hex(made.as_ref())
}

fn output_of(name: &str, salt: &str, secret: &str, info: &str, len: &str) -> String {
    let prk = hkdf::Salt::new(keyed_named(name).hkdf, &bytes(salt)).extract(&bytes(secret));
    let info = pieces(info);
    let info: Vec<&[u8]> = info.iter().map(|piece| &piece[..]).collect();
    let mut out = vec![0; len.parse().unwrap()];
    match prk.expand(&info, Length(out.len())) {
        Ok(okm) => okm.fill(&mut out).unwrap(),
        Err(Unspecified) => return "refused".to_string(),
    }
    hex(&out)
}

fn labelled_of(name: &str, secret: &str, label: &str, context: &str, len: &str) -> String {
    let prk = hkdf::Prk::new_less_safe(keyed_named(name).hkdf, &bytes(secret));
    let mut out = vec![0; len.parse().unwrap()];
    prk.expand_label(&bytes(label), &bytes(context), &mut out)
        .unwrap();
    hex(&out)
}

fn derived_of(name: &str, iterations: &str, secret: &str, salt: &str, len: &str) -> String {
    let iterations: NonZeroU32 = iterations.parse().unwrap();
    let mut out = vec![0; len.parse().unwrap()];
    pbkdf2::derive(
        keyed_named(name).pbkdf2,
        iterations,
        &bytes(salt),
        &bytes(secret),
        &mut out,
    );
    hex(&out)
}

fn derived_is(name: &str, iterations: &str, secret: &str, salt: &str, value: &str) -> String {
    let iterations: NonZeroU32 = iterations.parse().unwrap();
    let (salt, secret) = (bytes(salt), bytes(secret));
    verdict(pbkdf2::verify(
        keyed_named(name).pbkdf2,
        iterations,
        &salt,
        &secret,
        &bytes(value),
    ))
}

fn answer(line: &str) -> String {
    let fields: Vec<&str> = line.split(' ').collect();
    match fields[..] {
        ["digest", name, message] => digest_of(name, message),
        ["hmac", name, key, message] => tag_of(name, key, message),
        ["hmac-verify", name, key, message, tag] => {
            let message = pieces(message).concat();
            verdict(hmac::verify(&key_named(name, key), &message, &bytes(tag)))
        }
        ["hkdf", name, salt, secret, info, len] => output_of(name, salt, secret, info, len),
        ["expand-label", name, secret, label, context, len] => {
            labelled_of(name, secret, label, context, len)
        }
        ["pbkdf2", name, times, secret, salt, len] => derived_of(name, times, secret, salt, len),
        ["pbkdf2-verify", name, times, secret, salt, value] => {
            derived_is(name, times, secret, salt, value)
        }
        _ => panic!("{line}"),
    }
}

// Whether a line is of a call that the crate has: those of whole key schedules are not.
fn has_call(line: &str) -> bool {
    let others = ["extract ", "packet ", "quic ", "tls13 "];
    !others.iter().any(|word| line.starts_with(word))
}

// The answers that agree in a file.
fn agreeing(text: &str) -> usize {
    let (mut seen, mut last) = (0, "");
    for line in text.lines() {
        if let Some(wanted) = line.strip_prefix("#= ").filter(|_| has_call(last)) {
            let wanted = wanted.split(' ').next().unwrap();
            let got = answer(last);
            // A verification doesn't tell its cause.
            let is_refused = got == "mismatch" && wanted == "refused";
            assert!(got == wanted || is_refused, "{last}: {got}");
            seen += 1;
        } else if !line.is_empty() && !line.starts_with('#') {
            last = line;
        }
    }
    seen
}

#[test]
fn vectors() {
    for folder in [FOLDER.to_string(), format!("{FOLDER}/schedules")] {
        let mut seen = 0;
        for entry in std::fs::read_dir(folder).unwrap() {
            let path = entry.unwrap().path();
            // Other folders have lines of other programs.
            if path.is_file() {
                seen += agreeing(&std::fs::read_to_string(path).unwrap());
            }
        }
        assert!(seen > 0);
    }
}

#[test]
fn digests_of_several_messages() {
    let (mut lines, mut last) = (Vec::new(), String::new());
    let text = std::fs::read_to_string(format!("{FOLDER}/digest.txt")).unwrap();
    for line in text.lines() {
        if let Some(wanted) = line.strip_prefix("#= ") {
            let fields: Vec<String> = last.split(' ').map(str::to_string).collect();
            let wanted = wanted.split(' ').next().unwrap().to_string();
            lines.push((fields[1].clone(), pieces(&fields[2]).concat(), wanted));
        } else if !line.is_empty() && !line.starts_with('#') {
            last = line.to_string();
        }
    }
    for (name, algorithm, _) in digests() {
        let lines: Vec<_> = lines.iter().filter(|line| line.0 == name).collect();
        assert!(lines.len() > 4);
        for count in [0, 1, 3, 4, 5, lines.len()] {
            let messages: Vec<&[u8]> = lines[..count].iter().map(|line| &line.1[..]).collect();
            let mut digests = vec![digest::digest(&digest::SHA512, b"another"); count];
            digest::digest_each(algorithm, &messages, &mut digests).unwrap();
            for (made, line) in digests.iter().zip(&lines) {
                assert_eq!(hex(made.as_ref()), line.2);
                assert!(made.algorithm() == algorithm);
            }
        }
    }
    let sha1 = &digest::SHA1_FOR_LEGACY_USE_ONLY;
    let three: [&[u8]; 3] = [b"a", b"b", b"c"];
    let mut two = [digest::digest(&digest::SHA256, b"abc"); 2];
    for count in [0, 1, 3] {
        assert!(digest::digest_each(sha1, &three[..count], &mut two).is_err());
        assert!(two.iter().all(|made| made.as_ref()[0] == 0xba));
    }
}

#[test]
fn labels_within_their_limits() {
    for it in all_keyed() {
        let prk = hkdf::Prk::new_less_safe(it.hkdf, b"some bytes");
        let most = 255 * hkdf::KeyType::len(&it.hkdf);
        let (label, context, mut out) = (vec![7; 250], vec![7; 256], vec![7; most + 1]);
        for (label, context, len) in [
            (&label[..0], &context[..0], 32),
            (&label[..250], &context[..0], 32),
            (&label[..1], &context[..256], 32),
            (&label[..1], &context[..0], most + 1),
        ] {
            assert!(prk.expand_label(label, context, &mut out[..len]).is_err());
            assert!(out.iter().all(|byte| *byte == 7));
        }
        let (longest_label, longest_context) = (&label[..249], &context[..255]);
        prk.expand_label(longest_label, longest_context, &mut out[..most])
            .unwrap();
        assert!(out.iter().any(|byte| *byte != 7));
    }
}

#[test]
fn copies_go_on_by_themselves() {
    let message: Vec<u8> = (0..1000u32).map(|number| number as u8).collect();
    for it in all_keyed() {
        let whole = digest::digest(it.digest, &message);
        let key = hmac::Key::new(it.hmac, b"key");
        let mut context = digest::Context::new(it.digest);
        let mut tags = hmac::Context::with_key(&key);
        for piece in message.chunks(37) {
            context.update(piece);
            tags.update(piece);
            let (mut other, mut other_tags) = (context.clone(), tags.clone());
            other.update(b"another");
            other_tags.update(b"another");
        }
        assert_eq!(context.finish().as_ref(), whole.as_ref());
        assert_eq!(
            tags.sign().as_ref(),
            hmac::sign(&key.clone(), &message).as_ref()
        );
    }
}

// What a PRK gives for an info, which is passed in pieces.
fn expanded(prk: &hkdf::Prk, info: &[&[u8]], len: usize) -> Vec<u8> {
    let mut out = vec![0; len];
    let okm = prk.expand(info, Length(len)).unwrap();
    okm.fill(&mut out).unwrap();
    out
}

#[test]
fn keys_of_outputs() {
    for it in all_keyed() {
        let prk = hkdf::Prk::new_less_safe(it.hkdf, b"some bytes");
        let len = it.digest.output_len();
        let value = expanded(&prk, &[b"in", b"fo"], len);
        let key = hmac::Key::from(prk.expand(&[b"info"], it.hmac).unwrap());
        let plain = hmac::Key::new(it.hmac, &value);
        assert_eq!(
            hmac::sign(&key, b"message").as_ref(),
            hmac::sign(&plain, b"message").as_ref()
        );
        let salt = hkdf::Salt::from(prk.expand(&[b"info"], it.hkdf).unwrap());
        let plain = hkdf::Salt::new(it.hkdf, &value);
        assert_eq!(
            expanded(&salt.extract(b"secret"), &[], 9),
            expanded(&plain.extract(b"secret"), &[], 9)
        );
        for other in [8, 10] {
            let okm = prk.expand(&[], Length(9)).unwrap();
            assert!(okm.fill(&mut vec![0; other]).is_err());
        }
        assert!(prk.expand(&[], Length(255 * len + 1)).is_err());
    }
}

#[test]
fn lengths() {
    for (_, algorithm, [output_len, chaining_len, block_len]) in digests() {
        assert_eq!(algorithm.output_len(), output_len);
        assert_eq!(algorithm.chaining_len(), chaining_len);
        assert_eq!(algorithm.block_len(), block_len);
        assert_eq!(digest::digest(algorithm, b"").as_ref().len(), output_len);
    }
}

#[test]
fn comparison_and_version() {
    assert!(verify_slices_are_equal(b"same", b"same").is_ok());
    assert!(verify_slices_are_equal(b"same", b"sane").is_err());
    assert!(verify_slices_are_equal(b"same", b"sam").is_err());
    let abc = digest::digest(&digest::SHA1_FOR_LEGACY_USE_ONLY, b"abc");
    // FIPS 180-4's example.
    assert_eq!(
        format!("{abc:?}"),
        "SHA1:a9993e364706816aba3e25717850c26c9cd0d89d"
    );
    let parts: Vec<u32> = env!("CARGO_PKG_VERSION")
        .split('.')
        .map(|it| it.parse().unwrap())
        .collect();
    assert_eq!(
        yezdopin::library_version(),
        parts[0] << 16 | parts[1] << 8 | parts[2]
    );
    assert!(yezdopin::is_supported());
}
