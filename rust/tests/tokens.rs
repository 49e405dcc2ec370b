// SPDX-License-Identifier: ISC
//! Signed tokens and one-time passwords: the RFCs' examples, tokens beside a reading of RFC 7515
//! over HMAC, altered tokens, rooms, the ends of 64 bits, and what is refused.

use std::fmt::Debug;
use std::num::NonZeroU32;
use yezdopin::error::Unspecified;
use yezdopin::hmac;
use yezdopin::tokens::jws::{self, Alg};
use yezdopin::tokens::otp::{self, Digits};
use yezdopin::tokens::TokenError::{self, Invalid, NoRoom, TooLong};

const ALGS: [Alg; 3] = [Alg::Hs256, Alg::Hs384, Alg::Hs512];
const USUAL: [&str; 3] = [
    r#"{"alg":"%","typ":"JWT"}"#,
    r#"{"typ":"JWT","alg":"%"}"#,
    r#"{"alg":"%"}"#,
];
const SYMBOLS: &str = "ABCDEFGHIJKLMNOPQRSTUVWXYZabcdefghijklmnopqrstuvwxyz0123456789-_";
const ALTERED: usize = 5000;

fn prints(value: &dyn Debug, text: &str) {
    assert_eq!(format!("{value:?}"), text);
}

fn may_cross_threads<T: Send + Sync>() {}

// Numbers below a bound, the same in each run (Marsaglia, Xorshift RNGs).
struct Numbers(u64);

impl Numbers {
    fn below(&mut self, bound: usize) -> usize {
        self.0 ^= self.0 << 13;
        self.0 ^= self.0 >> 7;
        self.0 ^= self.0 << 17;
        (self.0 % bound as u64) as usize
    }

    fn bytes(&mut self, len: usize) -> Vec<u8> {
        (0..len).map(|_| self.below(256) as u8).collect()
    }
}

// RFC 7515, section 2: base64url without padding.
fn base64url(bytes: &[u8]) -> String {
    let symbols = SYMBOLS.as_bytes();
    let mut text = String::new();
    for group in bytes.chunks(3) {
        let mut word = [0; 4];
        word[1..1 + group.len()].copy_from_slice(group);
        let word = u32::from_be_bytes(word);
        for place in 0..=group.len() {
            let symbol = word >> (18 - 6 * place) & 63;
            text.push(symbols[symbol as usize].into());
        }
    }
    text
}

// RFC 7515, section 5.1.
fn signed(alg: Alg, key: &[u8], header: &str, payload: &[u8]) -> String {
    let header = header.replace('%', alg.name());
    let text = base64url(header.as_bytes()) + "." + &base64url(payload);
    let tag = hmac::sign(&hmac::Key::new(alg.hmac_algorithm(), key), text.as_bytes());
    text + "." + &base64url(tag.as_ref())
}

fn key(alg: Alg, value: &[u8]) -> jws::Key<'_> {
    jws::Key::new(alg, value).unwrap()
}

// A token is refused, and the buffer is as it was.
fn is_refused(token: &str, key: &jws::Key<'_>) {
    let mut room = vec![7; token.len()];
    assert_eq!(jws::verify(token, key), Err(Invalid), "{token}");
    assert_eq!(jws::verify_in_place(token, key, &mut room), Err(Invalid));
    assert!(room.iter().all(|&byte| byte == 7));
}

#[test]
fn beside_hmac() {
    let mut numbers = Numbers(7515);
    for alg in ALGS {
        for len in (0..70).chain([1000, 20_000]) {
            let extra = numbers.below(100);
            let (value, payload) = (numbers.bytes(alg.min_key_len() + extra), numbers.bytes(len));
            let key = key(alg, &value);
            let token = signed(alg, &value, USUAL[0], &payload);
            assert_eq!(jws::sign(&payload, &key), token);
            assert_eq!(jws::token_len(alg, len), Some(token.len()));
            for header in USUAL {
                let token = signed(alg, &value, header, &payload);
                assert_eq!(jws::verify(&token, &key), Ok(payload.clone()));
            }
        }
    }
}

#[test]
fn rooms() {
    let value = [7; 64];
    for alg in ALGS {
        let key = key(alg, &value);
        for payload in [&b""[..], b"{}", b"a payload"] {
            let token = jws::sign(payload, &key);
            let mut room = [7; 300];
            assert_eq!(jws::sign_in_place(payload, &key, &mut room), Ok(&token[..]));
            assert!(room[token.len()..].iter().all(|&byte| byte == 7));
            let mut room = vec![7; token.len() - 1];
            assert_eq!(jws::sign_in_place(payload, &key, &mut room), Err(NoRoom));
            assert_eq!(jws::verify_in_place(&token, &key, &mut room), Err(NoRoom));
            assert_eq!(jws::verify_in_place(&token, &key, &mut []), Err(NoRoom));
            assert!(room.iter().all(|&byte| byte == 7));
            room.push(7);
            assert_eq!(jws::verify_in_place(&token, &key, &mut room), Ok(payload));
            assert!(room[payload.len()..].iter().all(|&byte| byte == 7));
        }
    }
    assert_eq!(jws::token_len(Alg::Hs256, usize::MAX), None);
    assert_eq!(jws::token_len(Alg::Hs512, usize::MAX / 4 * 3), None);
}

#[test]
fn altered_tokens() {
    let (mut numbers, mut count) = (Numbers(7797), 0);
    let symbols: Vec<char> = (SYMBOLS.to_owned() + ".=$\n é").chars().collect();
    while count < ALTERED {
        let (alg, header) = (ALGS[numbers.below(3)], USUAL[numbers.below(3)]);
        let (value, len) = (numbers.bytes(64), numbers.below(40));
        let token = signed(alg, &value, header, &numbers.bytes(len));
        let (a, b) = (numbers.below(token.len()), numbers.below(token.len() + 1));
        let (at, end) = (a.min(b), a.max(b));
        let symbol = symbols[numbers.below(symbols.len())];
        let altered = match numbers.below(5) {
            0 => format!("{}{symbol}{}", &token[..a], &token[a + 1..]),
            1 => format!("{}{symbol}{}", &token[..a], &token[a..]),
            2 => token[..at].to_owned() + &token[end..],
            3 => token[..end].to_owned() + &token[at..],
            _ => token[..end].to_owned(),
        };
        if altered != token {
            is_refused(&altered, &key(alg, &value));
            count += 1;
        }
    }
}

#[test]
fn other_headers_and_algorithms() {
    let value = [7; 64];
    for alg in ALGS {
        for header in [
            "",
            "{}",
            r#"{"alg":"none"}"#,
            r#"{"alg":"%","kid":"a"}"#,
            r#"{"alg": "%"}"#,
            r#"{"typ":"JWT","alg":"%"} "#,
        ] {
            is_refused(&signed(alg, &value, header, b"{}"), &key(alg, &value));
        }
        for other in ALGS.iter().filter(|&&it| it != alg) {
            let named = USUAL[0].replace('%', other.name());
            is_refused(&signed(alg, &value, &named, b"{}"), &key(alg, &value));
            is_refused(&signed(alg, &value, &named, b"{}"), &key(*other, &value));
            is_refused(&jws::sign(b"{}", &key(alg, &value)), &key(*other, &value));
        }
    }
    for text in ["", ".", "..", "...", "é.é.é"] {
        is_refused(text, &key(Alg::Hs256, &value));
    }
}

// RFC 7515, A.1: its header has a line feed, which is none of the three.
#[test]
fn rfc_7515() {
    let header = "{\"typ\":\"JWT\",\r\n \"alg\":\"HS256\"}";
    let claims = b"{\"iss\":\"joe\",\r\n \"exp\":1300819380,\r\n \
                   \"http://example.com/is_root\":true}";
    let value = [
        3, 35, 53, 75, 43, 15, 165, 188, 131, 126, 6, 101, 119, 123, 166, 143, 90, 179, 40, 230,
        240, 84, 201, 40, 169, 15, 132, 178, 210, 80, 46, 191, 211, 251, 90, 146, 210, 6, 71, 239,
        150, 138, 180, 195, 119, 98, 61, 34, 61, 46, 33, 114, 5, 46, 79, 8, 192, 205, 154, 245,
        103, 208, 128, 163,
    ];
    let token = "eyJ0eXAiOiJKV1QiLA0KICJhbGciOiJIUzI1NiJ9.\
        eyJpc3MiOiJqb2UiLA0KICJleHAiOjEzMDA4MTkzODAsDQogImh0dHA6Ly9leGFtcGxlLmNvbS9pc19yb290Ijp0\
        cnVlfQ.dBjftJeZ4CVP-mB92K27uhbUJU1p1r_wW1gFWFOEjXk";
    assert_eq!(signed(Alg::Hs256, &value, header, claims), token);
    is_refused(token, &key(Alg::Hs256, &value));
}

#[test]
fn short_keys() {
    for (alg, least) in ALGS.into_iter().zip([32, 48, 64]) {
        assert_eq!(alg.min_key_len(), least);
        for len in [0, 1, least - 1] {
            let refused = jws::Key::new(alg, &[7; 64][..len]);
            assert_eq!(refused.map(|_| ()), Err(Unspecified));
        }
        assert_eq!(key(alg, &[7; 64][..least]).alg(), alg);
    }
}

#[test]
fn a_long_token() {
    let (value, payload) = ([7; 64], vec![0; 1_000_000]);
    let key = key(Alg::Hs512, &value);
    let token = jws::sign(&payload, &key);
    assert_eq!(token, signed(Alg::Hs512, &value, USUAL[0], &payload));
    assert_eq!(jws::verify(&token, &key), Ok(payload));
    is_refused(&token[..token.len() - 1], &key);
}

#[test]
fn texts() {
    let value = [7; 64];
    prints(&key(Alg::Hs384, &value), "Key { alg: Hs384 }");
    prints(
        &otp::Key::new(hmac::HMAC_SHA256, &value).unwrap(),
        "Key { algorithm: SHA256 }",
    );
    let password = otp::hotp(&sha1_key(), 1, Digits::Seven);
    prints(&password, "Password { digits: Seven, .. }");
    assert_eq!(format!("{password:>9}"), "  4287082");
    prints(&Invalid, "Invalid");
    assert_eq!(Invalid.to_string(), "not a valid token");
    assert_eq!(NoRoom.to_string(), "no room for the token");
    assert_eq!(TooLong.to_string(), "too long to be signed");
    let boxed: Box<dyn std::error::Error + Send + Sync> = Invalid.into();
    assert_eq!(boxed.to_string(), "not a valid token");
    may_cross_threads::<jws::Key<'_>>();
    may_cross_threads::<otp::Key<'_>>();
    may_cross_threads::<TokenError>();
}

fn sha1_key() -> otp::Key<'static> {
    otp::Key::new(hmac::HMAC_SHA1_FOR_LEGACY_USE_ONLY, b"12345678901234567890").unwrap()
}

// RFC 4226, section 4, asks for 128 bits.
#[test]
fn short_keys_of_passwords() {
    let value = *b"12345678901234567890";
    for len in 0..=20 {
        let (algorithm, value) = (hmac::HMAC_SHA256, &value[..len]);
        match otp::Key::new(algorithm, value) {
            Ok(key) => {
                assert!(len >= 16);
                assert_eq!(key.algorithm(), algorithm);
            }
            Err(refused) => {
                assert!(len < 16);
                prints(&refused, "ShortKey");
                let said = "a key of one-time passwords has at least 16 bytes";
                assert_eq!(refused.to_string(), said);
                let boxed: Box<dyn std::error::Error + Send + Sync> = refused.into();
                assert_eq!(boxed.to_string(), said);
            }
        }
        let key = match otp::Key::of_any_length(algorithm, value) {
            Ok(key) => key,
            Err(otp::ShortKey) => {
                assert_eq!(len, 0);
                continue;
            }
        };
        assert!(len > 0);
        let password = otp::hotp(&key, 7, Digits::Six);
        let message = 7u64.to_be_bytes();
        let tag = hmac::sign(&hmac::Key::new(algorithm, value), &message);
        let tag = tag.as_ref();
        let at = usize::from(tag[tag.len() - 1] & 15);
        let number = u32::from_be_bytes(tag[at..at + 4].try_into().unwrap()) & 0x7fff_ffff;
        assert_eq!(password.as_ref(), format!("{:06}", number % 1_000_000));
    }
}

fn seconds(step: u32) -> NonZeroU32 {
    NonZeroU32::new(step).unwrap()
}

// RFC 4226, appendix D.
#[test]
fn rfc_4226() {
    let key = sha1_key();
    let wanted = [
        "755224", "287082", "359152", "969429", "338314", "254676", "287922", "162583", "399871",
        "520489",
    ];
    for (counter, text) in (0..).zip(wanted) {
        assert_eq!(otp::hotp(&key, counter, Digits::Six).as_ref(), text);
        for first in 0..10 {
            for count in 0..10 {
                let is_in = first <= counter && counter < first + count;
                let found = otp::find_hotp(&key, first, count, Digits::Six, text);
                assert_eq!(found, is_in.then_some(counter));
            }
        }
        assert_eq!(otp::find_hotp(&key, counter, 1, Digits::Seven, text), None);
    }
}

// RFC 6238, appendix B, with the keys of its errata.
#[test]
fn rfc_6238() {
    let seed = "1234567890".repeat(7);
    let keys = [
        (hmac::HMAC_SHA1_FOR_LEGACY_USE_ONLY, 20),
        (hmac::HMAC_SHA256, 32),
        (hmac::HMAC_SHA512, 64),
    ]
    .map(|(algorithm, len)| otp::Key::new(algorithm, &seed.as_bytes()[..len]).unwrap());
    let wanted = [
        (59, ["94287082", "46119246", "90693936"]),
        (1_111_111_109, ["07081804", "68084774", "25091201"]),
        (1_111_111_111, ["14050471", "67062674", "99943326"]),
        (1_234_567_890, ["89005924", "91819424", "93441116"]),
        (2_000_000_000, ["69279037", "90698825", "38618901"]),
        (20_000_000_000, ["65353130", "77737706", "47863826"]),
    ];
    let step = seconds(30);
    for (time, texts) in wanted {
        for (key, text) in keys.iter().zip(texts) {
            assert_eq!(otp::totp(key, time, step, Digits::Eight).as_ref(), text);
            let found = |time, back, ahead, text| {
                otp::find_totp(key, time, step, back, ahead, Digits::Eight, text)
            };
            assert_eq!(found(time, 0, 0, text), Some(time / 30));
            assert_eq!(found(time + 30, 1, 0, text), Some(time / 30));
            assert_eq!(found(time - 30, 0, 1, text), Some(time / 30));
            assert_eq!(found(time + 60, 1, 9, text), None);
            assert_eq!(found(time - 30, 9, 0, text), None);
            for wrong in [
                &text[1..],
                &format!("0{text}"),
                &format!("{text}\0"),
                "",
                "é",
            ] {
                assert_eq!(found(time, 1, 1, wrong), None);
            }
        }
    }
}

#[test]
fn ends_of_64_bits() {
    let (key, step) = (sha1_key(), seconds(1));
    let last = otp::hotp(&key, u64::MAX, Digits::Six);
    let first = otp::hotp(&key, 0, Digits::Six);
    let (last, first) = (last.as_ref(), first.as_ref());
    for start in [u64::MAX, u64::MAX - 1, u64::MAX - 9] {
        let left = u64::MAX - start;
        for count in [left + 1, 100, u64::MAX] {
            let found = |text| otp::find_hotp(&key, start, count, Digits::Six, text);
            assert_eq!(found(last), Some(u64::MAX));
            assert_eq!(found(first), None);
        }
        assert_eq!(otp::find_hotp(&key, start, left, Digits::Six, last), None);
    }
    let found =
        |time, back, ahead, text| otp::find_totp(&key, time, step, back, ahead, Digits::Six, text);
    assert_eq!(found(u64::MAX, 0, u32::MAX, last), Some(u64::MAX));
    assert_eq!(found(u64::MAX - 1, 0, 1, last), Some(u64::MAX));
    assert_eq!(found(u64::MAX, 9, u32::MAX, first), None);
    assert_eq!(found(5, u32::MAX, 0, first), Some(0));
    assert_eq!(otp::totp(&key, u64::MAX, step, Digits::Six).as_ref(), last);
}
