// SPDX-License-Identifier: ISC
//! Headers of webhooks: GitHub's example, a header of Python's `hmac` in Stripe's form, tags over
//! HMAC, what is near a right header, times at the ends of 64 bits, what is refused, and the
//! endpoint of the crate's page.

#[path = "shared/algorithms.rs"]
mod algorithms;
#[path = "shared/values.rs"]
mod values;

use algorithms::all_keyed;
use std::time::Duration;
use values::bytes;
use yezdopin::error::Unspecified;
use yezdopin::hmac;
use yezdopin::webhook::{verify_github, verify_hex, verify_stripe};

const EXAMPLES: &str = concat!(env!("CARGO_MANIFEST_DIR"), "/../vectors/tokens/github.txt");
const SECRET: &[u8] = b"It's a Secret to Everybody";
const BODY: &[u8] = b"Hello, World!";
const GITHUB: &str = "sha256=757107ea0eb2509fc211221cce984b8a37570b6d7586c22c46f4379c8b043e17";
const ENDPOINT: &[u8] = b"whsec_a secret of the endpoint";
const EVENT: &[u8] = br#"{"id": "evt_1"}"#;
const NOW: u64 = 1_700_000_000;
const REFUSED: Result<(), Unspecified> = Err(Unspecified);

fn hex_tag(algorithm: hmac::Algorithm, secret: &[u8], body: &[u8]) -> String {
    let tag = hmac::sign(&hmac::Key::new(algorithm, secret), body);
    let digits = tag.as_ref().iter().map(|byte| format!("{byte:02x}"));
    digits.collect()
}

fn stripe_tag(secret: &[u8], body: &[u8], time: u64) -> String {
    let signed = [time.to_string().as_bytes(), b".", body].concat();
    hex_tag(hmac::HMAC_SHA256, secret, &signed)
}

fn stripe_header(secret: &[u8], body: &[u8], time: u64) -> String {
    format!("t={time},v1={}", stripe_tag(secret, body, time))
}

// What is near a header: each cut, each letter changed, and longer ones.
fn near(header: &str) -> Vec<Vec<u8>> {
    let (header, mut found) = (header.as_bytes(), Vec::new());
    for at in 0..header.len() {
        found.push(header[..at].to_vec());
        found.push([&header[..at], &header[at + 1..]].concat());
        for other in [header[at] ^ 1, header[at] ^ 0x20] {
            found.push([&header[..at], &[other], &header[at + 1..]].concat());
        }
    }
    for more in [&b"\0"[..], b" ", b"0", b"\n", b",", b"\xff", header] {
        found.push([header, more].concat());
        found.push([more, header].concat());
    }
    found
}

#[test]
fn githubs_example() {
    let text = std::fs::read_to_string(EXAMPLES).unwrap();
    let lines: Vec<&str> = text.lines().collect();
    let mut accepted = Vec::new();
    for pair in lines.windows(2) {
        if let ["github", secret, body, header] = pair[0].split(' ').collect::<Vec<_>>()[..] {
            let verified = verify_github(&bytes(secret), &bytes(body), header.as_bytes());
            assert_eq!(verified.is_ok(), pair[1] == "#= ok");
            accepted.push(verified.is_ok());
        }
    }
    assert!(accepted.contains(&true) && accepted.contains(&false));
    assert_eq!(verify_github(SECRET, BODY, GITHUB.as_bytes()), Ok(()));
}

#[test]
fn near_githubs() {
    for other in near(GITHUB) {
        assert_eq!(verify_github(SECRET, BODY, &other), REFUSED, "{other:?}");
    }
    for at in 0..BODY.len() {
        assert_eq!(
            verify_github(SECRET, &BODY[..at], GITHUB.as_bytes()),
            REFUSED
        );
        assert_eq!(
            verify_github(&SECRET[..at], BODY, GITHUB.as_bytes()),
            REFUSED
        );
    }
    assert_eq!(verify_github(BODY, SECRET, GITHUB.as_bytes()), REFUSED);
    let of_sha1 = hex_tag(hmac::HMAC_SHA1_FOR_LEGACY_USE_ONLY, SECRET, BODY);
    for other in [format!("sha1={of_sha1}"), format!("sha256={of_sha1}")] {
        assert_eq!(verify_github(SECRET, BODY, other.as_bytes()), REFUSED);
    }
}

#[test]
fn prefixes_and_algorithms() {
    let bodies = [0, 1, 55, 64, 111, 128, 2048, 70_000].map(|len| vec![7; len]);
    let algorithms = all_keyed();
    let each = algorithms.iter();
    for (keyed, body) in each.flat_map(|it| bodies.iter().map(move |body| (it, body))) {
        let tag = hex_tag(keyed.hmac, SECRET, body);
        for prefix in [&b""[..], b"sha256=", b"v0:", b"\xff\0", &[b'x'; 300]] {
            let header = [prefix, tag.as_bytes()].concat();
            let verified = |header: &[u8]| verify_hex(keyed.hmac, SECRET, prefix, body, header);
            assert_eq!(verified(&header), Ok(()));
            for at in [0, 1, prefix.len(), header.len() - 1] {
                assert_eq!(verified(&header[..at]), REFUSED);
            }
            for other in [[&header[..], b"0"].concat(), [prefix, &header].concat()] {
                assert_eq!(verified(&other).is_ok(), other == header);
            }
            assert_eq!(verified(tag.as_bytes()).is_ok(), prefix.is_empty());
            assert_eq!(verified(tag.to_uppercase().as_bytes()), REFUSED);
            for other in algorithms.iter().filter(|it| it.name != keyed.name) {
                assert_eq!(
                    verify_hex(other.hmac, SECRET, prefix, body, &header),
                    REFUSED
                );
            }
        }
        assert_eq!(
            verify_hex(keyed.hmac, body, b"", SECRET, tag.as_bytes()),
            REFUSED
        );
    }
}

#[test]
fn empty_secrets() {
    let header = format!("sha256={}", hex_tag(hmac::HMAC_SHA256, b"", BODY));
    assert_eq!(verify_github(b"", BODY, header.as_bytes()), REFUSED);
    let verified = verify_hex(hmac::HMAC_SHA256, b"", b"sha256=", BODY, header.as_bytes());
    assert_eq!(verified, REFUSED);
    let header = stripe_header(b"", EVENT, NOW);
    let tolerance = Duration::from_secs(300);
    assert_eq!(
        verify_stripe(b"", EVENT, header.as_bytes(), NOW, tolerance),
        REFUSED
    );
    let header = format!("sha256={}", hex_tag(hmac::HMAC_SHA256, b"1", BODY));
    assert_eq!(verify_github(b"1", BODY, header.as_bytes()), Ok(()));
}

// Verified at a time under a tolerance in seconds.
fn stripes(header: &str, now: u64, tolerance: u64) -> bool {
    let tolerance = Duration::from_secs(tolerance);
    verify_stripe(ENDPOINT, EVENT, header.as_bytes(), now, tolerance).is_ok()
}

// The header is that of Python's `hmac`.
#[test]
fn a_header_in_stripes_form() {
    let header = "t=1700000000,v1=f37b771c93f4717052e0e137f14c2ae8478503ad5e3f382a67864020958fb9fa";
    assert_eq!(stripe_header(ENDPOINT, EVENT, NOW), header);
    assert!(stripes(header, NOW, 300));
    let right = stripe_tag(ENDPOINT, EVENT, NOW);
    let other = "0".repeat(64);
    for (items, is_right) in [
        (format!("t={NOW},v0={other},v1={other},v1={right}"), true),
        (format!("t={NOW},v1={right},v0={other}"), true),
        (format!("t={NOW},v1={right},"), true),
        (format!("t={NOW},v0={right}"), false),
        (format!("t={NOW},v1={other}"), false),
        (format!("t={NOW}, v1={right}"), false),
        (format!("t={NOW},v1={}", right.to_uppercase()), false),
        (format!("t={NOW}"), false),
        (format!("v1={right},t={NOW}"), false),
        (format!("t=0{NOW},v1={right}"), false),
        (format!("t=+{NOW},v1={right}"), false),
        (format!("t={NOW}0000000000000000000,v1={right}"), false),
        (format!("t=,v1={right}"), false),
        (right, false),
        (String::new(), false),
    ] {
        assert_eq!(stripes(&items, NOW, 300), is_right, "{items}");
    }
}

#[test]
fn near_stripes() {
    let right = stripe_header(ENDPOINT, EVENT, NOW);
    let (time, item) = right.split_once(',').unwrap();
    let tolerance = Duration::from_secs(300);
    for other in near(&right) {
        // What stands beside the right item changes nothing.
        let mut items = other.split(|byte| *byte == b',');
        let is_first = items.next() == Some(time.as_bytes());
        let is_right = is_first && items.any(|it| it == item.as_bytes());
        let verified = verify_stripe(ENDPOINT, EVENT, &other, NOW, tolerance);
        assert_eq!(verified.is_ok(), is_right, "{other:?}");
    }
    let right = right.as_bytes();
    assert_eq!(
        verify_stripe(EVENT, ENDPOINT, right, NOW, tolerance),
        REFUSED
    );
    assert_eq!(
        verify_stripe(ENDPOINT, &EVENT[1..], right, NOW, tolerance),
        REFUSED
    );
    assert_eq!(
        verify_stripe(&ENDPOINT[1..], EVENT, right, NOW, tolerance),
        REFUSED
    );
}

// A header is as old as the tolerance at most, and may be of later.
#[test]
fn times() {
    let header = stripe_header(ENDPOINT, EVENT, NOW);
    for (now, tolerance, is_right) in [
        (NOW, 300, true),
        (NOW + 300, 300, true),
        (NOW + 301, 300, false),
        (NOW, 0, true),
        (NOW + 1, 0, false),
        (0, 0, true),
        (1000 * NOW, 300, false),
        (300, NOW, true),
        (2 * NOW, NOW, true),
        (2 * NOW + 1, NOW, false),
        (u64::MAX, u64::MAX, true),
        (u64::MAX, u64::MAX - NOW, true),
        (u64::MAX, u64::MAX - NOW - 1, false),
    ] {
        assert_eq!(
            stripes(&header, now, tolerance),
            is_right,
            "{now} {tolerance}"
        );
    }
    for time in [0, 1, 9, 10, u64::MAX - 1, u64::MAX] {
        let header = stripe_header(ENDPOINT, EVENT, time);
        assert!(stripes(&header, time, 0));
        assert!(stripes(&header, u64::MAX, u64::MAX - time));
        if let Some(less) = (u64::MAX - time).checked_sub(1) {
            assert!(!stripes(&header, u64::MAX, less));
        }
    }
}

// Of a tolerance whole seconds count.
#[test]
fn parts_of_seconds() {
    let header = stripe_header(ENDPOINT, EVENT, NOW);
    for (tolerance, is_right) in [
        (Duration::from_millis(1999), true),
        (Duration::from_millis(1000), true),
        (Duration::from_millis(999), false),
        (Duration::MAX, true),
    ] {
        let verified = verify_stripe(ENDPOINT, EVENT, header.as_bytes(), NOW + 1, tolerance);
        assert_eq!(verified.is_ok(), is_right);
    }
}

mod page {
    use yezdopin::webhook;

    pub fn status(secret: &[u8], body: &[u8], header: Option<&[u8]>) -> u16 {
        match webhook::verify_github(secret, body, header.unwrap_or(b"")) {
            Ok(()) => 204,
            Err(_) => 403,
        }
    }
}

#[test]
fn the_pages_endpoint() {
    let folder = concat!(env!("CARGO_MANIFEST_DIR"), "/");
    let text = |name| std::fs::read_to_string(format!("{folder}{name}")).unwrap();
    let unindented = |text: String| text.replace("\n    ", "\n");
    let page = text("README.md");
    let blocks = page
        .split("```rust\n")
        .map(|it| it.split("```").next().unwrap());
    let block = blocks.filter(|it| it.contains("fn status")).last().unwrap();
    let shown = block.replace("\nfn ", "\npub fn ");
    assert!(
        unindented(text("tests/webhook.rs")).contains(&shown),
        "{shown}"
    );
    let header = GITHUB.as_bytes();
    assert_eq!(page::status(SECRET, BODY, Some(header)), 204);
    for other in [None, Some(&b""[..]), Some(&header[1..])] {
        assert_eq!(page::status(SECRET, BODY, other), 403);
    }
    assert_eq!(page::status(SECRET, b"", Some(header)), 403);
}
