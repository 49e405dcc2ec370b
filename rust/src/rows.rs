// SPDX-License-Identifier: ISC
// Made by tools/lists.py, of tools/rows.py. The algorithms: the statics of each module, and rows of
// these, which a macro passes to another. Tests include this file too.

#[allow(unused_macros)]
macro_rules! digest_algorithms {
    () => {
        /// The bytes of a digest by SHA-1 (FIPS 180-4, section 6.1).
        pub const SHA1_OUTPUT_LEN: usize = 20;
        /// SHA-1 (FIPS 180-4, section 6.1), which is broken: for what must still read old data.
        pub static SHA1_FOR_LEGACY_USE_ONLY: Algorithm = Algorithm {
            number: 1,
            output_len: SHA1_OUTPUT_LEN,
            chaining_len: 20,
            block_len: 64,
            name: "SHA1",
        };
        /// The bytes of a digest by SHA-256 (FIPS 180-4, section 6.2).
        pub const SHA256_OUTPUT_LEN: usize = 32;
        /// SHA-256 (FIPS 180-4, section 6.2).
        pub static SHA256: Algorithm = Algorithm {
            number: 2,
            output_len: SHA256_OUTPUT_LEN,
            chaining_len: 32,
            block_len: 64,
            name: "SHA256",
        };
        /// The bytes of a digest by SHA-384 (FIPS 180-4, section 6.5).
        pub const SHA384_OUTPUT_LEN: usize = 48;
        /// SHA-384 (FIPS 180-4, section 6.5).
        pub static SHA384: Algorithm = Algorithm {
            number: 3,
            output_len: SHA384_OUTPUT_LEN,
            chaining_len: 64,
            block_len: 128,
            name: "SHA384",
        };
        /// The bytes of a digest by SHA-512 (FIPS 180-4, section 6.4).
        pub const SHA512_OUTPUT_LEN: usize = 64;
        /// SHA-512 (FIPS 180-4, section 6.4).
        pub static SHA512: Algorithm = Algorithm {
            number: 4,
            output_len: SHA512_OUTPUT_LEN,
            chaining_len: 64,
            block_len: 128,
            name: "SHA512",
        };
        /// The bytes of a digest by SHA-512/256 (FIPS 180-4, section 6.7).
        pub const SHA512_256_OUTPUT_LEN: usize = 32;
        /// SHA-512/256 (FIPS 180-4, section 6.7).
        pub static SHA512_256: Algorithm = Algorithm {
            number: 5,
            output_len: SHA512_256_OUTPUT_LEN,
            chaining_len: 64,
            block_len: 128,
            name: "SHA512_256",
        };
    };
}

#[allow(unused_macros)]
macro_rules! hmac_algorithms {
    () => {
        /// HMAC over SHA-1: for what must still read old data.
        pub static HMAC_SHA1_FOR_LEGACY_USE_ONLY: Algorithm =
            Algorithm(&digest::SHA1_FOR_LEGACY_USE_ONLY);
        /// HMAC over SHA-256.
        pub static HMAC_SHA256: Algorithm =
            Algorithm(&digest::SHA256);
        /// HMAC over SHA-384.
        pub static HMAC_SHA384: Algorithm =
            Algorithm(&digest::SHA384);
        /// HMAC over SHA-512.
        pub static HMAC_SHA512: Algorithm =
            Algorithm(&digest::SHA512);
    };
}

#[allow(unused_macros)]
macro_rules! hkdf_algorithms {
    () => {
        /// HKDF over HMAC-SHA-1: for what must still read old data.
        pub static HKDF_SHA1_FOR_LEGACY_USE_ONLY: Algorithm =
            Algorithm(hmac::HMAC_SHA1_FOR_LEGACY_USE_ONLY);
        /// HKDF over HMAC-SHA-256.
        pub static HKDF_SHA256: Algorithm =
            Algorithm(hmac::HMAC_SHA256);
        /// HKDF over HMAC-SHA-384.
        pub static HKDF_SHA384: Algorithm =
            Algorithm(hmac::HMAC_SHA384);
        /// HKDF over HMAC-SHA-512.
        pub static HKDF_SHA512: Algorithm =
            Algorithm(hmac::HMAC_SHA512);
    };
}

#[allow(unused_macros)]
macro_rules! pbkdf2_algorithms {
    () => {
        /// PBKDF2 over HMAC-SHA-1.
        pub static PBKDF2_HMAC_SHA1: Algorithm =
            Algorithm(&digest::SHA1_FOR_LEGACY_USE_ONLY);
        /// PBKDF2 over HMAC-SHA-256.
        pub static PBKDF2_HMAC_SHA256: Algorithm =
            Algorithm(&digest::SHA256);
        /// PBKDF2 over HMAC-SHA-384.
        pub static PBKDF2_HMAC_SHA384: Algorithm =
            Algorithm(&digest::SHA384);
        /// PBKDF2 over HMAC-SHA-512.
        pub static PBKDF2_HMAC_SHA512: Algorithm =
            Algorithm(&digest::SHA512);
    };
}

// The name, the static, the constant of a digest's length, and the bytes of a digest, of a chaining
// value and of a block.
#[allow(unused_macros)]
macro_rules! each_digest {
    ($use:ident) => { $use! {
        "SHA1" SHA1_FOR_LEGACY_USE_ONLY SHA1_OUTPUT_LEN: 20, 20, 64;
        "SHA256" SHA256 SHA256_OUTPUT_LEN: 32, 32, 64;
        "SHA384" SHA384 SHA384_OUTPUT_LEN: 48, 64, 128;
        "SHA512" SHA512 SHA512_OUTPUT_LEN: 64, 64, 128;
        "SHA512_256" SHA512_256 SHA512_256_OUTPUT_LEN: 32, 64, 128;
    }};
}

// The name, the static of the digest, and those of HMAC, HKDF and PBKDF2.
#[allow(unused_macros)]
macro_rules! each_keyed {
    ($use:ident) => { $use! {
        "SHA1" SHA1_FOR_LEGACY_USE_ONLY
        HMAC_SHA1_FOR_LEGACY_USE_ONLY HKDF_SHA1_FOR_LEGACY_USE_ONLY
        PBKDF2_HMAC_SHA1;
        "SHA256" SHA256
        HMAC_SHA256 HKDF_SHA256
        PBKDF2_HMAC_SHA256;
        "SHA384" SHA384
        HMAC_SHA384 HKDF_SHA384
        PBKDF2_HMAC_SHA384;
        "SHA512" SHA512
        HMAC_SHA512 HKDF_SHA512
        PBKDF2_HMAC_SHA512;
    }};
}

// The variant with its comment, the name in tokens, and the static of HMAC.
#[allow(unused_macros)]
macro_rules! each_token {
    ($use:ident) => { $use! {
        /// `HS256`: HMAC with SHA-256.
        Hs256 "HS256" HMAC_SHA256;
        /// `HS384`: HMAC with SHA-384.
        Hs384 "HS384" HMAC_SHA384;
        /// `HS512`: HMAC with SHA-512.
        Hs512 "HS512" HMAC_SHA512;
    }};
}
