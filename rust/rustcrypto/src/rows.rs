// SPDX-License-Identifier: ISC
// Made by tools/lists.py, of tools/rows.py. The types, which each macro passes to another: the type
// with its comment, the algorithm's name, its static in `yezdopin`, and the bytes of an output and
// of a block. Tests include this file too.

#[allow(unused_macros)]
macro_rules! each_digest {
    ($use:ident) => { $use! {
        /// SHA-1 (FIPS 180-4, section 6.1), which is broken: for what must still read old data.
        Sha1 "SHA1": SHA1_FOR_LEGACY_USE_ONLY, consts::U20, consts::U64;
        /// SHA-256 (FIPS 180-4, section 6.2).
        Sha256 "SHA256": SHA256, consts::U32, consts::U64;
        /// SHA-384 (FIPS 180-4, section 6.5).
        Sha384 "SHA384": SHA384, consts::U48, consts::U128;
        /// SHA-512 (FIPS 180-4, section 6.4).
        Sha512 "SHA512": SHA512, consts::U64, consts::U128;
        /// SHA-512/256 (FIPS 180-4, section 6.7).
        Sha512_256 "SHA512_256": SHA512_256, consts::U32, consts::U128;
    }};
}

#[allow(unused_macros)]
macro_rules! each_tag {
    ($use:ident) => { $use! {
        /// HMAC over SHA-1: for what must still read old data.
        HmacSha1 "SHA1": HMAC_SHA1_FOR_LEGACY_USE_ONLY, consts::U20, consts::U64;
        /// HMAC over SHA-256.
        HmacSha256 "SHA256": HMAC_SHA256, consts::U32, consts::U64;
        /// HMAC over SHA-384.
        HmacSha384 "SHA384": HMAC_SHA384, consts::U48, consts::U128;
        /// HMAC over SHA-512.
        HmacSha512 "SHA512": HMAC_SHA512, consts::U64, consts::U128;
    }};
}
