// SPDX-License-Identifier: ISC
//! The work of c/speed by RustCrypto's `sha1`, `sha2`, `hmac`, `hkdf` and `pbkdf2`.

mod peer;

use hkdf::{Hkdf, HmacImpl};
use hmac::digest::{Digest, FixedOutput, KeyInit, Update};
use hmac::{Hmac, Mac};
use peer::{Inputs, Peer};
use sha1::Sha1;
use sha2::{Sha256, Sha512};

/// The work over a hash function `D` and its HMAC.
struct RustCrypto<D, M> {
    inputs: Inputs,
    running: D,
    ready: M,
}

impl<D, M> Peer for RustCrypto<D, M>
where
    D: Digest + Clone,
    M: HmacImpl<D> + Mac + KeyInit + Update + FixedOutput + Clone + Sync,
{
    fn digest(&mut self, message: &[u8], out: &mut [u8]) {
        out.copy_from_slice(&D::digest(message));
    }

    fn pieces(&mut self, message: &[u8], len: usize, out: &mut [u8]) {
        let mut context = D::new();
        for piece in message.chunks(len) {
            Digest::update(&mut context, piece);
        }
        out.copy_from_slice(&context.finalize());
    }

    fn update(&mut self, piece: &[u8]) {
        Digest::update(&mut self.running, piece);
    }

    fn tag(&mut self, message: &[u8], out: &mut [u8]) {
        let mut context = <M as KeyInit>::new_from_slice(self.inputs.key).unwrap();
        Mac::update(&mut context, message);
        out.copy_from_slice(&Mac::finalize(context).into_bytes());
    }

    fn tag_under_key(&mut self, message: &[u8], out: &mut [u8]) {
        let mut context = self.ready.clone();
        Mac::update(&mut context, message);
        out.copy_from_slice(&Mac::finalize(context).into_bytes());
    }

    fn hkdf(&mut self, out: &mut [u8]) {
        let prk = Hkdf::<D, M>::new(Some(self.inputs.salt), self.inputs.key);
        prk.expand(self.inputs.info, out).unwrap();
    }

    fn pbkdf2(&mut self, out: &mut [u8]) {
        // It returns a Result from version 0.12 on, of an error for a key that is too long.
        let _ = pbkdf2::pbkdf2::<M>(
            self.inputs.key,
            self.inputs.salt,
            self.inputs.iterations,
            out,
        );
    }

    fn digest_len(&self) -> usize {
        <D as Digest>::output_size()
    }
}

/// The work over the hash function with digests of so many bytes.
pub fn begin(digest_len: usize, inputs: Inputs) -> Box<dyn Peer> {
    match digest_len {
        20 => made::<Sha1, Hmac<Sha1>>(inputs),
        32 => made::<Sha256, Hmac<Sha256>>(inputs),
        _ => made::<Sha512, Hmac<Sha512>>(inputs),
    }
}

fn made<D, M>(inputs: Inputs) -> Box<dyn Peer>
where
    D: Digest + Clone + 'static,
    M: HmacImpl<D> + Mac + KeyInit + Update + FixedOutput + Clone + Sync + 'static,
{
    let ready = <M as KeyInit>::new_from_slice(inputs.key).unwrap();
    Box::new(RustCrypto::<D, M> {
        inputs,
        running: D::new(),
        ready,
    })
}
