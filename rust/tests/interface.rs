// SPDX-License-Identifier: ISC
//! What callers of `ring` write beside the calls that vectors/ tries: random keys and values,
//! errors of their own, sources and contexts in other threads, texts.

#[path = "shared/algorithms.rs"]
mod algorithms;

use algorithms::{all_keyed, digests};
use std::convert::TryFrom;
use std::fmt::Debug;
use std::time::{Duration, Instant};
use yezdopin::error::Unspecified;
use yezdopin::rand::{self, SecureRandom, SystemRandom};
use yezdopin::{digest, hkdf, hmac, password_hash, pbkdf2, tls13, tokens};

// The most bytes that one getrandom(2) writes, by its page; newer kernels write more.
const MOST_AT_ONCE: usize = (1 << 25) - 1;

#[derive(Debug, PartialEq)]
struct CallersError;

impl From<Unspecified> for CallersError {
    fn from(_: Unspecified) -> Self {
        CallersError
    }
}

fn front_of(bytes: &[u8]) -> Result<[u8; 4], Unspecified> {
    Ok(<[u8; 4]>::try_from(bytes)?)
}

fn tag_is_right(key: &hmac::Key, tag: &[u8]) -> Result<(), CallersError> {
    hmac::verify(key, b"message", tag)?;
    Ok(())
}

fn prints(value: &dyn Debug, text: &str) {
    assert_eq!(format!("{value:?}"), text);
}

fn may_cross_threads<T: Send + Sync>() {}

#[test]
fn random_keys() {
    let rng = SystemRandom::new();
    for algorithm in all_keyed().iter().map(|it| it.hmac) {
        let key = hmac::Key::generate(algorithm, &rng).unwrap();
        let other = hmac::Key::generate(algorithm, &rng.clone()).unwrap();
        assert!(key.algorithm() == algorithm);
        let tag = hmac::sign(&key, b"message");
        assert_eq!(tag_is_right(&key, tag.as_ref()), Ok(()));
        assert_eq!(tag_is_right(&other, tag.as_ref()), Err(CallersError));
    }
}

#[test]
fn random_bytes_of_any_length() {
    let rng: &dyn SecureRandom = &SystemRandom::new();
    for len in [0, 1, 3, 255, 256, 257, 65537, MOST_AT_ONCE + 4096] {
        let mut bytes = vec![0; len];
        rng.fill(&mut bytes).unwrap();
        // All 64 last bytes are zeros once in 2^512 times.
        assert!(len < 64 || bytes[len - 64..].iter().any(|&byte| byte != 0));
    }
    let [first, second]: [[u8; 32]; 2] = [(); 2].map(|()| rand::generate(rng).unwrap().expose());
    assert_ne!(first, second);
}

#[test]
fn errors() {
    assert_eq!(front_of(b"four"), Ok(*b"four"));
    assert_eq!(front_of(b"three"), Err(Unspecified));
    let boxed: Box<dyn std::error::Error + Send + Sync> = Unspecified.into();
    assert_eq!(boxed.to_string(), "ring::error::Unspecified");
}

#[test]
fn texts() {
    for (name, algorithm, _) in digests() {
        prints(algorithm, name);
    }
    for it in all_keyed() {
        prints(&it.hmac, &format!("Algorithm({})", it.name));
        prints(&it.hkdf, &format!("Algorithm(Algorithm({}))", it.name));
    }
    let key = hmac::Key::new(hmac::HMAC_SHA256, b"a secret");
    prints(&key, "Key { algorithm: SHA256 }");
    let context = hmac::Context::with_key(&key);
    prints(&context, "Context { algorithm: SHA256 }");
    let salt = hkdf::Salt::new(hkdf::HKDF_SHA512, b"a salt");
    prints(&salt, "Salt(Key { algorithm: SHA512 })");
    let prk = salt.extract(b"a secret");
    prints(&prk, "Prk(Key { algorithm: SHA512 })");
    prints(
        &prk.expand(&[b"a"], hmac::HMAC_SHA256).unwrap(),
        "Okm { prk: Prk(Key { algorithm: SHA512 }), info: [[97]], len: Algorithm(SHA256), \
         len_cached: 32 }",
    );
    let key = tls13::binder_key(hkdf::HKDF_SHA512, b"a PSK", tls13::Psk::External).unwrap();
    prints(&key, "Prk(Key { algorithm: SHA512 })");
    prints(&tls13::Psk::External, "External");
    prints(&SystemRandom::new(), "SystemRandom(())");
}

#[test]
fn values_cross_threads() {
    may_cross_threads::<digest::Context>();
    may_cross_threads::<digest::Digest>();
    may_cross_threads::<hmac::Key>();
    may_cross_threads::<hmac::Context>();
    may_cross_threads::<hkdf::Salt>();
    may_cross_threads::<hkdf::Prk>();
    may_cross_threads::<hkdf::Okm<'_, hmac::Algorithm>>();
    may_cross_threads::<tokens::jws::Key<'_>>();
    may_cross_threads::<tokens::otp::Key<'_>>();
    may_cross_threads::<tokens::otp::Password>();
    may_cross_threads::<password_hash::Salt>();
    may_cross_threads::<pbkdf2::Algorithm>();
    may_cross_threads::<SystemRandom>();
    may_cross_threads::<tls13::Psk>();
    may_cross_threads::<Unspecified>();
}

// Each thread has a message of its own. They share a key, as one reference and as clones. A busy
// machine makes few rounds in the time, so there is a least number of them too. Most pieces are
// short, so that the calls of two threads often begin beside each other.
#[test]
fn keys_of_several_threads() {
    let key = hmac::Key::new(hmac::HMAC_SHA256, b"a key");
    let verify_all = |seed: u8| {
        let (message, own) = ([seed; 20_000], key.clone());
        let other = hmac::Key::new(hmac::HMAC_SHA256, &[seed]);
        let begin = Instant::now();
        for (round, count) in (0..300).chain([20_000]).cycle().enumerate() {
            if round >= 30_000 && begin.elapsed() > Duration::from_millis(500) {
                break;
            }
            let piece = &message[..count];
            let (tag, of_other) = (hmac::sign(&key, piece), hmac::sign(&other, piece));
            assert_eq!(tag.as_ref(), hmac::sign(&own, piece).as_ref());
            assert!(hmac::verify(&key, piece, tag.as_ref()).is_ok());
            assert!(hmac::verify(&other, piece, of_other.as_ref()).is_ok());
            assert!(hmac::verify(&key, piece, of_other.as_ref()).is_err());
        }
    };
    std::thread::scope(|scope| {
        let verify_all = &verify_all;
        let threads: Vec<_> = (0..4)
            .map(|seed| scope.spawn(move || verify_all(seed)))
            .collect();
        for thread in threads {
            thread.join().unwrap();
        }
    });
}

// A hash of Django 3.2.25.
const KEPT: &str = "pbkdf2_sha1$1000$kXq0Wz3vT9bYh2LrE8mNpA$2U/l/68EaoUIrkh0GedCmjQYvmg=";

#[test]
fn refused_password_hashes() {
    use yezdopin::password_hash::{verify, HashError, MAX_TEXT_LEN};

    let password = b"correct horse battery staple";
    assert_eq!(verify(KEPT, password, 1000), Ok(()));
    assert_eq!(
        verify(KEPT, password, 999),
        Err(HashError::TooManyIterations)
    );
    assert_eq!(verify(KEPT, b"", 1000), Err(HashError::WrongPassword));
    assert_eq!(
        verify(&KEPT[1..], password, 1000),
        Err(HashError::BadFormat)
    );
    let longest = "a".repeat(MAX_TEXT_LEN);
    assert_eq!(verify(&longest, password, 1000), Err(HashError::BadFormat));
    assert_eq!(
        verify(&(longest + "a"), password, 1000),
        Err(HashError::TextTooLong)
    );
    prints(&HashError::WrongPassword, "WrongPassword");
    assert_eq!(HashError::BadFormat.to_string(), "no password hash has the text");
}

#[test]
fn names_of_schemes() {
    use std::collections::HashSet;
    use yezdopin::password_hash::{Scheme, UnknownScheme, SCHEMES};

    let names: HashSet<String> = SCHEMES.iter().map(Scheme::to_string).collect();
    assert_eq!(names.len(), 12);
    for scheme in SCHEMES {
        assert_eq!(scheme.to_string().parse(), Ok(scheme));
        assert_eq!(scheme.name(), scheme.to_string());
    }
    assert_eq!(format!("{:12}|", Scheme::Mosquitto), "mosquitto   |");
    for name in ["", "Mosquitto", "mosquitto ", "sha256"] {
        assert_eq!(name.parse::<Scheme>(), Err(UnknownScheme));
    }
    assert_eq!(
        UnknownScheme.to_string(),
        "no scheme of password hashes has this name"
    );
}

#[test]
fn told_of_password_hashes() {
    use std::num::NonZeroU32;
    use yezdopin::password_hash::{
        info, is_supported, new, HashError, Info, MAX_TEXT_LEN, SCHEMES,
    };

    for scheme in SCHEMES {
        for iterations in [1, 10, 1000].map(|it| NonZeroU32::new(it).unwrap()) {
            let mut text = [0; MAX_TEXT_LEN];
            let kept = new(scheme, b"", b"a salt", iterations, &mut text).unwrap();
            assert_eq!(info(kept), Ok(Info { scheme, iterations }));
            assert!(is_supported(kept));
        }
    }
    assert_eq!(info(""), Err(HashError::BadFormat));
    assert!(!is_supported("") && !is_supported("!") && !is_supported("md5$salt$00"));
    let longest = "a".repeat(MAX_TEXT_LEN);
    assert_eq!(info(&longest), Err(HashError::BadFormat));
    assert_eq!(info(&(longest + "a")), Err(HashError::TextTooLong));
}

// The most iterations that a text can name take a quarter of an hour and more. Above the limit none
// is made.
#[test]
fn iterations_above_the_limit() {
    use std::num::NonZeroU32;
    use std::sync::mpsc::channel;
    use std::time::Duration;
    use yezdopin::password_hash::{new, verify, HashError, MAX_TEXT_LEN, SCHEMES};

    let (sender, receiver) = channel();
    std::thread::spawn(move || {
        for scheme in SCHEMES {
            let mut text = [0; MAX_TEXT_LEN];
            let iterations = NonZeroU32::new(77777).unwrap();
            let kept = new(scheme, b"", b"a salt", iterations, &mut text).unwrap();
            let kept = kept.replace("77777", "4294967295");
            sender.send(verify(&kept, b"", 1)).unwrap();
        }
    });
    for scheme in SCHEMES {
        let answer = receiver.recv_timeout(Duration::from_secs(30));
        assert_eq!(answer, Ok(Err(HashError::TooManyIterations)), "{scheme}");
    }
}

#[test]
fn new_salts() {
    use yezdopin::password_hash::{new_salt, Salt, MAX_SALT_LEN, RANDOM_LEN, SCHEMES};

    let rng = SystemRandom::new();
    for scheme in SCHEMES {
        let name = scheme.name();
        let (zeros, ones) = (Salt::of(scheme, [0; 16]), Salt::of(scheme, [255; 16]));
        let salts = [(); 20].map(|_| new_salt(scheme, &rng).unwrap());
        if name.starts_with("django") || name.starts_with("werkzeug") {
            // What Python's divmod makes of the bytes as one number.
            assert_eq!(zeros.as_ref(), [b'a'; MAX_SALT_LEN]);
            assert_eq!(ones.as_ref(), b"hMRph3WiXjUVPDfwqnceXh");
            for salt in &salts {
                assert_eq!(salt.as_ref().len(), MAX_SALT_LEN);
                assert!(salt.as_ref().iter().all(u8::is_ascii_alphanumeric));
            }
        } else {
            assert_eq!(zeros.as_ref(), [0; RANDOM_LEN]);
            assert_eq!(ones.as_ref(), [255; RANDOM_LEN]);
        }
        for i in 0..salts.len() {
            assert!(!salts[..i].contains(&salts[i]));
        }
    }
}

#[test]
fn new_password_hashes() {
    use std::num::NonZeroU32;
    use yezdopin::password_hash::{new, verify, HashError, Scheme, MAX_TEXT_LEN, SCHEMES};

    let password = b"correct horse battery staple";
    let iterations = NonZeroU32::new(1000).unwrap();
    for scheme in SCHEMES {
        let mut text = [7; MAX_TEXT_LEN];
        let kept: &str = new(scheme, password, b"a salt", iterations, &mut text).unwrap();
        assert_eq!(verify(kept, password, 1000), Ok(()));
        let len = kept.len();
        assert!(text[len..].iter().all(|&byte| byte == 7));
        let mut room = vec![7; len - 1];
        assert_eq!(
            new(scheme, password, b"a salt", iterations, &mut room),
            Err(HashError::NoRoom)
        );
        assert!(room.iter().all(|&byte| byte == 7));
        assert_eq!(
            new(scheme, password, b"", iterations, &mut text),
            Err(HashError::BadSalt)
        );
    }
    // Django's own, as ../../vectors/password_hashes has it.
    let mut text = [0; MAX_TEXT_LEN];
    let salt = b"kXq0Wz3vT9bYh2LrE8mNpA";
    assert_eq!(
        new(Scheme::DjangoSha1, password, salt, iterations, &mut text),
        Ok(KEPT)
    );
    // Not UTF-8: a text has it in base64, or not at all.
    let mut text = [7; MAX_TEXT_LEN];
    assert!(new(Scheme::Mosquitto, password, b"\xff", iterations, &mut text).is_ok());
    for scheme in SCHEMES[..4].iter().chain([&Scheme::WerkzeugSha1]) {
        let mut text = [7; MAX_TEXT_LEN];
        assert_eq!(
            new(*scheme, password, b"\xff", iterations, &mut text),
            Err(HashError::BadSalt)
        );
        assert_eq!(text, [7; MAX_TEXT_LEN]);
    }
    assert_eq!(
        new(Scheme::DjangoSha1, password, b"a$b", iterations, &mut text),
        Err(HashError::BadSalt)
    );
    prints(&HashError::NoRoom, "NoRoom");
    assert_eq!(HashError::NoRoom.to_string(), "no room for the text");
}
