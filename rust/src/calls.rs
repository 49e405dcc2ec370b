// SPDX-License-Identifier: ISC
//! The calls as `yezdopin.h` declares them, and those statuses that are told apart.

// statuses: made by tools/lists.py
pub const YZ_OK: i32 = 0;
pub const YZ_WRONG_LENGTH: i32 = 4;
pub const YZ_BAD_FORMAT: i32 = 5;
pub const YZ_TOO_MANY_ITERATIONS: i32 = 6;
pub const YZ_BAD_SALT: i32 = 7;
// /statuses

/// What is held by plain bytes, any of which are a value of it.
///
/// # Safety
///
/// The type has no padding, and any bytes are a value of it.
pub unsafe trait Plain {}

// Contexts and keys: numbers, with those of none, and the size in yezdopin.h, which is that of the
// members.
macro_rules! plain {
    ($($name:ident of $size:literal { $($member:ident: $type:ty = $none:expr,)* })*) => {$(
        #[repr(C)]
        #[derive(Clone, Copy)]
        pub struct $name {
            $($member: $type,)*
        }

        impl $name {
            pub const NONE: Self = $name { $($member: $none,)* };
        }

        const _: () = assert!(core::mem::size_of::<$name>() == $size);

        // SAFETY: they are numbers without gaps between them.
        unsafe impl Plain for $name {}
    )*};
}

plain! {
    DigestContext of 216 {
        algorithm: u32 = 0,
        num_pending: u32 = 0,
        completed_low: u64 = 0,
        completed_high: u64 = 0,
        words: [u64; 8] = [0; 8],
        pending: [u8; 128] = [0; 128],
    }
    HmacKey of 136 {
        algorithm: u32 = 0,
        reserved: u32 = 0,
        inner: [u64; 8] = [0; 8],
        outer: [u64; 8] = [0; 8],
    }
    HmacContext of 280 {
        inner: DigestContext = DigestContext::NONE,
        outer: [u64; 8] = [0; 8],
    }
}

/// A message of several, whose pointer is never NULL.
#[repr(C)]
pub struct Message {
    pub bytes: *const u8,
    pub len: usize,
}

const _: () = assert!(core::mem::size_of::<Message>() == 16);

/// Writes zeros over a value, by a call that no compiler leaves out.
pub fn clear<T: Plain>(value: &mut T) {
    let bytes: *mut T = value;
    // SAFETY: the value is lent for writing, and zeros are a value of it.
    unsafe { yz_clear(bytes.cast(), core::mem::size_of::<T>()) }
}

/// The same of bytes.
pub fn clear_bytes(bytes: &mut [u8]) {
    // SAFETY: they are lent for writing.
    unsafe { yz_clear(bytes.as_mut_ptr(), bytes.len()) }
}

extern "C" {
    // calls: made by tools/lists.py
    pub fn yz_version() -> u32;
    pub fn yz_digest(
        algorithm: u32,
        message: *const u8,
        message_len: usize,
        out: *mut u8,
        out_len: usize,
    ) -> i32;
    pub fn yz_digest_each(
        algorithm: u32,
        messages: *const Message,
        count: usize,
        out: *mut u8,
        out_len: usize,
    ) -> i32;
    pub fn yz_digest_init(algorithm: u32, context: *mut DigestContext) -> i32;
    pub fn yz_digest_update(context: *mut DigestContext, input: *const u8, input_len: usize)
        -> i32;
    pub fn yz_digest_final(context: *const DigestContext, out: *mut u8, out_len: usize) -> i32;
    pub fn yz_hmac_key_init(
        algorithm: u32,
        value: *const u8,
        value_len: usize,
        key: *mut HmacKey,
    ) -> i32;
    pub fn yz_hmac_key_sign(
        key: *const HmacKey,
        message: *const u8,
        message_len: usize,
        out: *mut u8,
        out_len: usize,
    ) -> i32;
    pub fn yz_hmac_key_verify(
        key: *const HmacKey,
        message: *const u8,
        message_len: usize,
        tag: *const u8,
        tag_len: usize,
    ) -> i32;
    pub fn yz_hmac_init(key: *const HmacKey, context: *mut HmacContext) -> i32;
    pub fn yz_hmac_update(context: *mut HmacContext, input: *const u8, input_len: usize) -> i32;
    pub fn yz_hmac_final(context: *const HmacContext, out: *mut u8, out_len: usize) -> i32;
    pub fn yz_hkdf_extract(
        algorithm: u32,
        salt: *const u8,
        salt_len: usize,
        secret: *const u8,
        secret_len: usize,
        out: *mut u8,
        out_len: usize,
    ) -> i32;
    pub fn yz_hkdf_expand(
        algorithm: u32,
        prk: *const u8,
        prk_len: usize,
        info: *const u8,
        info_len: usize,
        out: *mut u8,
        out_len: usize,
    ) -> i32;
    pub fn yz_hkdf_expand_label(
        algorithm: u32,
        secret: *const u8,
        secret_len: usize,
        label: *const u8,
        label_len: usize,
        context: *const u8,
        context_len: usize,
        out: *mut u8,
        out_len: usize,
    ) -> i32;
    pub fn yz_tls13_finished(
        algorithm: u32,
        base_key: *const u8,
        base_key_len: usize,
        transcript_hash: *const u8,
        transcript_hash_len: usize,
        out: *mut u8,
        out_len: usize,
    ) -> i32;
    pub fn yz_tls13_finished_verify(
        algorithm: u32,
        base_key: *const u8,
        base_key_len: usize,
        transcript_hash: *const u8,
        transcript_hash_len: usize,
        verify_data: *const u8,
        verify_data_len: usize,
    ) -> i32;
    pub fn yz_tls13_binder_key(
        algorithm: u32,
        psk: *const u8,
        psk_len: usize,
        is_external: bool,
        out: *mut u8,
        out_len: usize,
    ) -> i32;
    pub fn yz_pbkdf2_derive(
        algorithm: u32,
        iterations: u32,
        salt: *const u8,
        salt_len: usize,
        secret: *const u8,
        secret_len: usize,
        out: *mut u8,
        out_len: usize,
    ) -> i32;
    pub fn yz_pbkdf2_verify(
        algorithm: u32,
        iterations: u32,
        salt: *const u8,
        salt_len: usize,
        secret: *const u8,
        secret_len: usize,
        derived: *const u8,
        derived_len: usize,
    ) -> i32;
    pub fn yz_password_hash_verify(
        text: *const u8,
        text_len: usize,
        password: *const u8,
        password_len: usize,
        max_iterations: u32,
    ) -> i32;
    pub fn yz_password_hash_info(
        text: *const u8,
        text_len: usize,
        scheme: *mut u32,
        iterations: *mut u32,
    ) -> i32;
    pub fn yz_password_hash_salt(
        scheme: u32,
        random: *const u8,
        random_len: usize,
        salt: *mut u8,
        salt_room: usize,
        salt_len: *mut usize,
    ) -> i32;
    pub fn yz_password_hash_new(
        scheme: u32,
        iterations: u32,
        salt: *const u8,
        salt_len: usize,
        password: *const u8,
        password_len: usize,
        text: *mut u8,
        text_room: usize,
        text_len: *mut usize,
    ) -> i32;
    pub fn yz_merkle_leaf(entry: *const u8, entry_len: usize, hash: *mut [u8; 32]) -> i32;
    pub fn yz_merkle_verify_inclusion(
        hash: *const [u8; 32],
        index: u64,
        size: u64,
        path: *const [u8; 32],
        path_count: usize,
        root: *const [u8; 32],
    ) -> i32;
    pub fn yz_merkle_verify_consistency(
        first_size: u64,
        first: *const [u8; 32],
        second_size: u64,
        second: *const [u8; 32],
        path: *const [u8; 32],
        path_count: usize,
    ) -> i32;
    pub fn yz_merkle_root(leaves: *const [u8; 32], count: usize, root: *mut [u8; 32]) -> i32;
    pub fn yz_merkle_inclusion_path(
        leaves: *const [u8; 32],
        count: usize,
        index: usize,
        path: *mut [u8; 32],
        path_room: usize,
        path_count: *mut usize,
    ) -> i32;
    pub fn yz_merkle_consistency_path(
        leaves: *const [u8; 32],
        count: usize,
        first_size: usize,
        path: *mut [u8; 32],
        path_room: usize,
        path_count: *mut usize,
    ) -> i32;
    pub fn yz_jws_sign(
        algorithm: u32,
        key: *const u8,
        key_len: usize,
        payload: *const u8,
        payload_len: usize,
        token: *mut u8,
        token_room: usize,
        token_len: *mut usize,
    ) -> i32;
    pub fn yz_jws_verify(
        algorithm: u32,
        key: *const u8,
        key_len: usize,
        token: *const u8,
        token_len: usize,
        payload: *mut u8,
        payload_room: usize,
        payload_len: *mut usize,
    ) -> i32;
    pub fn yz_hotp(
        algorithm: u32,
        key: *const u8,
        key_len: usize,
        counter: u64,
        text: *mut u8,
        digits: usize,
    ) -> i32;
    pub fn yz_totp(
        algorithm: u32,
        key: *const u8,
        key_len: usize,
        time: u64,
        step: u32,
        text: *mut u8,
        digits: usize,
    ) -> i32;
    pub fn yz_hotp_find(
        algorithm: u32,
        key: *const u8,
        key_len: usize,
        first: u64,
        count: u64,
        digits: usize,
        text: *const u8,
        text_len: usize,
        counter: *mut u64,
    ) -> i32;
    pub fn yz_totp_find(
        algorithm: u32,
        key: *const u8,
        key_len: usize,
        time: u64,
        step: u32,
        back: u32,
        ahead: u32,
        digits: usize,
        text: *const u8,
        text_len: usize,
        counter: *mut u64,
    ) -> i32;
    pub fn yz_webhook_verify_hex(
        algorithm: u32,
        secret: *const u8,
        secret_len: usize,
        prefix: *const u8,
        prefix_len: usize,
        body: *const u8,
        body_len: usize,
        header: *const u8,
        header_len: usize,
    ) -> i32;
    pub fn yz_webhook_verify_github(
        secret: *const u8,
        secret_len: usize,
        body: *const u8,
        body_len: usize,
        header: *const u8,
        header_len: usize,
    ) -> i32;
    pub fn yz_webhook_verify_stripe(
        secret: *const u8,
        secret_len: usize,
        body: *const u8,
        body_len: usize,
        header: *const u8,
        header_len: usize,
        now: u64,
        tolerance: u64,
    ) -> i32;
    pub fn yz_equal(a: *const u8, a_len: usize, b: *const u8, b_len: usize) -> bool;
    fn yz_clear(bytes: *mut u8, bytes_len: usize);
    // /calls
}
