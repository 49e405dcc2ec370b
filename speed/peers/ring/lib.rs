// SPDX-License-Identifier: ISC
//! The work of c/speed by `ring`.

mod peer;

use peer::{Inputs, Peer};
use ring::{digest, hkdf, hmac, pbkdf2};
use std::num::NonZeroU32;

struct Length(usize);

impl hkdf::KeyType for Length {
    fn len(&self) -> usize {
        self.0
    }
}

struct Ring {
    digest: &'static digest::Algorithm,
    hmac: hmac::Algorithm,
    hkdf: hkdf::Algorithm,
    pbkdf2: pbkdf2::Algorithm,
    digest_len: usize,
    inputs: Inputs,
    running: digest::Context,
    ready: hmac::Key,
}

impl Peer for Ring {
    fn digest(&mut self, message: &[u8], out: &mut [u8]) {
        out.copy_from_slice(digest::digest(self.digest, message).as_ref());
    }

    fn pieces(&mut self, message: &[u8], len: usize, out: &mut [u8]) {
        let mut context = digest::Context::new(self.digest);
        for piece in message.chunks(len) {
            context.update(piece);
        }
        out.copy_from_slice(context.finish().as_ref());
    }

    fn update(&mut self, piece: &[u8]) {
        self.running.update(piece);
    }

    fn tag(&mut self, message: &[u8], out: &mut [u8]) {
        let key = hmac::Key::new(self.hmac, self.inputs.key);
        out.copy_from_slice(hmac::sign(&key, message).as_ref());
    }

    fn tag_under_key(&mut self, message: &[u8], out: &mut [u8]) {
        out.copy_from_slice(hmac::sign(&self.ready, message).as_ref());
    }

    fn hkdf(&mut self, out: &mut [u8]) {
        let info = [self.inputs.info];
        let prk = hkdf::Salt::new(self.hkdf, self.inputs.salt).extract(self.inputs.key);
        let okm = prk.expand(&info, Length(out.len())).unwrap();
        okm.fill(out).unwrap();
    }

    fn pbkdf2(&mut self, out: &mut [u8]) {
        let iterations = NonZeroU32::new(self.inputs.iterations).unwrap();
        pbkdf2::derive(
            self.pbkdf2,
            iterations,
            self.inputs.salt,
            self.inputs.key,
            out,
        );
    }

    fn digest_len(&self) -> usize {
        self.digest_len
    }
}

/// The work over the hash function with digests of so many bytes.
pub fn begin(digest_len: usize, inputs: Inputs) -> Box<dyn Peer> {
    let (digest, hmac, hkdf, pbkdf2) = match digest_len {
        20 => (
            &digest::SHA1_FOR_LEGACY_USE_ONLY,
            hmac::HMAC_SHA1_FOR_LEGACY_USE_ONLY,
            hkdf::HKDF_SHA1_FOR_LEGACY_USE_ONLY,
            pbkdf2::PBKDF2_HMAC_SHA1,
        ),
        32 => (
            &digest::SHA256,
            hmac::HMAC_SHA256,
            hkdf::HKDF_SHA256,
            pbkdf2::PBKDF2_HMAC_SHA256,
        ),
        _ => (
            &digest::SHA512,
            hmac::HMAC_SHA512,
            hkdf::HKDF_SHA512,
            pbkdf2::PBKDF2_HMAC_SHA512,
        ),
    };
    let (running, ready) = (
        digest::Context::new(digest),
        hmac::Key::new(hmac, inputs.key),
    );
    Box::new(Ring {
        digest,
        hmac,
        hkdf,
        pbkdf2,
        digest_len,
        inputs,
        running,
        ready,
    })
}
