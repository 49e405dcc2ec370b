// SPDX-License-Identifier: ISC
//! Answers lines of ./bench (docs/LINES.md) by the crate `ring`, without numbers of blocks. How it
//! reads a line is its own work; bytes, verdicts and refusals are `ring`'s.

use ring::error::Unspecified;
use ring::{digest, hkdf, hmac, pbkdf2};
use std::io::{self, BufRead, Write};
use std::num::NonZeroU32;

/// A number of bytes.
struct Length(usize);

impl hkdf::KeyType for Length {
    fn len(&self) -> usize {
        self.0
    }
}

/// Bytes as an answer.
fn hex(bytes: &[u8]) -> String {
    match bytes {
        [] => "-".to_string(),
        _ => bytes.iter().map(|b| format!("{:02x}", b)).collect(),
    }
}

/// The bytes that hex digits stand for.
fn digits(text: &str) -> Option<Vec<u8>> {
    let value = |c: &u8| char::from(*c).to_digit(16).map(|d| d as u8);
    let pair = |p: &[u8]| Some(value(p.first()?)? << 4 | value(p.get(1)?)?);
    text.as_bytes().chunks(2).map(pair).collect()
}

/// A field of bytes.
fn bytes(text: &str) -> Option<Vec<u8>> {
    match text {
        "" => None,
        "-" => Some(Vec::new()),
        _ => digits(text),
    }
}

/// A field of pieces.
fn pieces(text: &str) -> Option<Vec<Vec<u8>>> {
    match text {
        "" => None,
        "-" => Some(Vec::new()),
        _ => text.split(',').map(digits).collect(),
    }
}

/// A number in decimal, without a sign or a leading zero.
fn number(text: &str) -> Option<u32> {
    let plain = text.bytes().all(|c| c.is_ascii_digit()) && (text == "0" || !text.starts_with('0'));
    text.parse().ok().filter(|_| plain)
}

fn length(text: &str) -> Option<usize> {
    number(text).filter(|n| *n <= 65536).map(|n| n as usize)
}

// Those of rust/src, whose statics have the same names.
include!("rows.rs");

macro_rules! digests {
    ($($text:literal $name:ident $len:ident: $($bytes:literal),*;)*) => {
        fn digest_algorithm(name: &str) -> Option<&'static digest::Algorithm> {
            Some(match name {
                $($text => &digest::$name,)*
                _ => return None,
            })
        }
    };
}

each_digest!(digests);

macro_rules! all_keyed {
    ($($text:literal $digest:ident $hmac:ident $hkdf:ident $pbkdf2:ident;)*) => {
        /// The algorithms of tags, of HKDF and of PBKDF2.
        fn keyed(name: &str) -> Option<(hmac::Algorithm, hkdf::Algorithm, pbkdf2::Algorithm)> {
            Some(match name {
                $($text => (hmac::$hmac, hkdf::$hkdf, pbkdf2::$pbkdf2),)*
                _ => return None,
            })
        }
    };
}

each_keyed!(all_keyed);

fn verdict(is_match: bool) -> String {
    if is_match { "match" } else { "mismatch" }.to_string()
}

/// Output of HKDF, or its refusal.
fn output(
    alg: hkdf::Algorithm,
    salt: &[u8],
    secret: &[u8],
    info: &[Vec<u8>],
    len: usize,
) -> String {
    let info: Vec<&[u8]> = info.iter().map(|piece| &piece[..]).collect();
    let (prk, mut out) = (hkdf::Salt::new(alg, salt).extract(secret), vec![0; len]);
    let okm = prk.expand(&info, Length(len));
    match okm.and_then(|okm| okm.fill(&mut out)) {
        Ok(()) => hex(&out),
        Err(_) => "refused".to_string(),
    }
}

/// How a verification of PBKDF2 ends. `ring` has one error for a mismatch and a refusal, and no line
/// is long enough for another refusal than that of no bytes.
fn verified(result: Result<(), Unspecified>, value: &[u8]) -> String {
    match result {
        Err(Unspecified) if value.is_empty() => "refused".to_string(),
        result => verdict(result.is_ok()),
    }
}

/// The answer to a line, or nothing if it has none of the forms.
fn answer(line: &str) -> Option<String> {
    let fields: Vec<&str> = line.split(' ').collect();
    Some(match fields[..] {
        ["digest", name, message] => {
            let mut context = digest::Context::new(digest_algorithm(name)?);
            for piece in pieces(message)? {
                context.update(&piece);
            }
            hex(context.finish().as_ref())
        }
        ["hmac", name, key, message] => {
            let key = hmac::Key::new(keyed(name)?.0, &bytes(key)?);
            let mut context = hmac::Context::with_key(&key);
            for piece in pieces(message)? {
                context.update(&piece);
            }
            hex(context.sign().as_ref())
        }
        ["hmac-verify", name, key, message, tag] => {
            let key = hmac::Key::new(keyed(name)?.0, &bytes(key)?);
            verdict(hmac::verify(&key, &pieces(message)?.concat(), &bytes(tag)?).is_ok())
        }
        ["hkdf", name, salt, secret, info, len] => {
            let (salt, secret, info) = (bytes(salt)?, bytes(secret)?, pieces(info)?);
            output(keyed(name)?.1, &salt, &secret, &info, length(len)?)
        }
        ["pbkdf2", name, iterations, secret, salt, len] => {
            let (alg, iterations) = (keyed(name)?.2, NonZeroU32::new(number(iterations)?)?);
            let (secret, salt, mut out) = (bytes(secret)?, bytes(salt)?, vec![0; length(len)?]);
            pbkdf2::derive(alg, iterations, &salt, &secret, &mut out);
            hex(&out)
        }
        ["pbkdf2-verify", name, iterations, secret, salt, value] => {
            let (alg, iterations) = (keyed(name)?.2, NonZeroU32::new(number(iterations)?)?);
            let (secret, salt, value) = (bytes(secret)?, bytes(salt)?, bytes(value)?);
            verified(
                pbkdf2::verify(alg, iterations, &salt, &secret, &value),
                &value,
            )
        }
        _ => return None,
    })
}

fn main() -> io::Result<()> {
    let (mut input, mut line) = (io::stdin().lock(), Vec::new());
    let mut output = io::BufWriter::new(io::stdout().lock());
    while input.read_until(b'\n', &mut line)? > 0 {
        let text = line.strip_suffix(b"\n").unwrap_or(&line);
        let text = text.strip_suffix(b"\r").unwrap_or(text);
        if !text.is_empty() && text[0] != b'#' {
            let answer = answer(&String::from_utf8_lossy(text));
            writeln!(output, "{}", answer.as_deref().unwrap_or("bad line"))?;
        }
        line.clear();
    }
    output.flush()
}
