// SPDX-License-Identifier: ISC
//! The two functions by which c/speed/crates.c calls a peer, which is a `Box<dyn Peer>` of the
//! crate's own `begin`.

use std::slice::{from_raw_parts, from_raw_parts_mut};

// Kinds of steps, as c/speed/speed.h has them.
const DIGEST: u32 = 0;
const PIECES: u32 = 1;
const UPDATE: u32 = 2;
const TAG: u32 = 3;
const TAG_UNDER_KEY: u32 = 4;
const HKDF: u32 = 5;
const PBKDF2: u32 = 6;
const EACH: u32 = 8;

/// The inputs of all steps.
pub struct Inputs {
    pub key: &'static [u8],
    pub salt: &'static [u8],
    pub info: &'static [u8],
    pub iterations: u32,
}

/// The work over a hash function. What a call makes is written to `out`.
pub trait Peer {
    fn digest(&mut self, message: &[u8], out: &mut [u8]);
    fn pieces(&mut self, message: &[u8], len: usize, out: &mut [u8]);
    fn update(&mut self, piece: &[u8]);
    fn tag(&mut self, message: &[u8], out: &mut [u8]);
    fn tag_under_key(&mut self, message: &[u8], out: &mut [u8]);
    fn hkdf(&mut self, out: &mut [u8]);
    fn pbkdf2(&mut self, out: &mut [u8]);
    fn digest_len(&self) -> usize;
}

/// Makes a peer for the hash function with digests of so many bytes, and drops the one before.
///
/// # Safety
///
/// `before` is null or of an earlier call, and the inputs stay as long as the program runs.
#[no_mangle]
#[rustfmt::skip]
pub unsafe extern "C" fn peer_begin(
    before: *mut Box<dyn Peer>, digest_len: usize, key: *const u8, key_len: usize, salt: *const u8,
    salt_len: usize, info: *const u8, info_len: usize, iterations: u32,
) -> *mut Box<dyn Peer> {
    if !before.is_null() {
        drop(Box::from_raw(before));
    }
    Box::into_raw(Box::new(crate::begin(digest_len, Inputs {
        key: from_raw_parts(key, key_len),
        salt: from_raw_parts(salt, salt_len),
        info: from_raw_parts(info, info_len),
        iterations,
    })))
}

/// Does a step of a kind of c/speed/speed.h, and says whether the peer has that kind.
///
/// # Safety
///
/// `peer` is of `peer_begin`, the messages have at least `count * stride` bytes, and a result fits.
#[no_mangle]
#[rustfmt::skip]
pub unsafe extern "C" fn peer_run(
    peer: *mut Box<dyn Peer>, kind: u32, count: usize, len: usize, stride: usize,
    messages: *const u8, out: *mut u8,
) -> bool {
    let peer = &mut *peer;
    let made = peer.digest_len();
    let message = from_raw_parts(messages, len);
    match kind {
        DIGEST => peer.digest(message, from_raw_parts_mut(out, made)),
        PIECES => {
            let whole = from_raw_parts(messages, count * len);
            peer.pieces(whole, len, from_raw_parts_mut(out, made));
        }
        UPDATE => peer.update(message),
        TAG => peer.tag(message, from_raw_parts_mut(out, made)),
        TAG_UNDER_KEY => peer.tag_under_key(message, from_raw_parts_mut(out, made)),
        HKDF => peer.hkdf(from_raw_parts_mut(out, len)),
        PBKDF2 => peer.pbkdf2(from_raw_parts_mut(out, count * made)),
        EACH => for i in 0..count {
            let message = from_raw_parts(messages.add(i * stride), len);
            peer.digest(message, from_raw_parts_mut(out.add(i * made), made));
        },
        _ => return false,
    }
    true
}
