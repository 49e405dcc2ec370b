// SPDX-License-Identifier: ISC
//! Password hashes by PBKDF2 as other systems keep them: Django, Werkzeug, RustCrypto's PHC
//! strings, Mosquitto, passlib and PostgreSQL. `ring` has no such module.
//!
//! ```
//! use yezdopin::password_hash::{verify, HashError};
//!
//! let kept = "pbkdf2_sha1$1000$kXq0Wz3vT9bYh2LrE8mNpA$2U/l/68EaoUIrkh0GedCmjQYvmg=";
//! verify(kept, b"correct horse battery staple", 2_000_000)?;
//! assert_eq!(verify(kept, b"another", 2_000_000), Err(HashError::WrongPassword));
//! # Ok::<(), HashError>(())
//! ```
//!
//! A table may hold texts of other hashes too, bcrypt's or Argon2's. At a login a password is hashed
//! anew where its text is of one of these, of another scheme than new ones, or names fewer
//! iterations:
//!
//! ```
//! use core::num::NonZeroU32;
//! use yezdopin::password_hash::{
//!     info, is_supported, new, new_salt, verify, HashError, Info, Scheme, MAX_TEXT_LEN,
//! };
//! use yezdopin::rand::SystemRandom;
//!
//! const LIMIT: u32 = 10_000_000;
//!
//! /// Whether the password is that of the row. `others` tests rows of other hashes, and `keep` gets
//! /// a new row where this one is old.
//! fn log_in(
//!     row: &str,
//!     password: &[u8],
//!     wanted: Info,
//!     others: impl Fn(&str, &[u8]) -> bool,
//!     keep: impl FnOnce(&str),
//! ) -> Result<bool, HashError> {
//!     let is_right = if is_supported(row) {
//!         verify(row, password, LIMIT).is_ok()
//!     } else {
//!         others(row, password)
//!     };
//!     let is_new = info(row).map_or(false, |found| {
//!         found.scheme == wanted.scheme && found.iterations >= wanted.iterations
//!     });
//!     if is_right && !is_new {
//!         let salt = new_salt(wanted.scheme, &SystemRandom::new()).expect("random bytes");
//!         let mut text = [0; MAX_TEXT_LEN];
//!         keep(new(wanted.scheme, password, salt.as_ref(), wanted.iterations, &mut text)?);
//!     }
//!     Ok(is_right)
//! }
//!
//! # let wanted = Info { scheme: Scheme::DjangoSha256, iterations: NonZeroU32::new(9).unwrap() };
//! # let others = |row: &str, password: &[u8]| row == "other" && password == b"pw";
//! # let mut kept = String::new();
//! # for row in ["", "!", "$2b$12$R9h/cIPz0gi.URNNX3kh2O", "x".repeat(2000).as_str()] {
//! #     assert_eq!(log_in(row, b"pw", wanted, others, |_| unreachable!()), Ok(false));
//! # }
//! # assert_eq!(log_in("other", b"pw", wanted, others, |row| kept = row.to_owned()), Ok(true));
//! # assert_eq!(info(&kept), Ok(wanted));
//! # assert_eq!(log_in(&kept, b"pw", wanted, others, |_| unreachable!()), Ok(true));
//! # assert_eq!(log_in(&kept, b"px", wanted, others, |_| unreachable!()), Ok(false));
//! # let costly = kept.replace("$9$", "$4294967295$");
//! # assert_eq!(log_in(&costly, b"pw", wanted, others, |_| unreachable!()), Ok(false));
//! ```
//!
//! PostgreSQL prepares a password that is not ASCII by SASLprep (RFC 4013). No call does so here:
//! the caller prepares it for [`Scheme::Postgresql`].

use crate::calls;
use crate::error::Unspecified;
use crate::rand::{self, SecureRandom};
use core::fmt;
use core::num::NonZeroU32;
use core::str;

/// The most bytes of a text.
pub const MAX_TEXT_LEN: usize = 1024;

/// The bytes of which a salt is made.
pub const RANDOM_LEN: usize = 16;

/// The most bytes of a salt that [`new_salt`] makes.
pub const MAX_SALT_LEN: usize = 22;

/// Why a call refuses. Each says which of these it gives.
#[derive(Clone, Copy, Debug, PartialEq, Eq)]
#[non_exhaustive]
pub enum HashError {
    /// The text has more than [`MAX_TEXT_LEN`] bytes.
    TextTooLong,
    /// No hash has this text.
    BadFormat,
    /// The text names more iterations than the caller's limit.
    TooManyIterations,
    /// The hash is of another password, or the password is longer than PBKDF2 admits.
    WrongPassword,
    /// A new text is longer than the buffer, or than [`MAX_TEXT_LEN`] bytes.
    NoRoom,
    /// The salt is empty, or where the scheme writes it as it is, has a dollar sign or is no UTF-8.
    BadSalt,
    /// The password or the salt of a new hash is longer than PBKDF2 admits.
    TooLong,
}

impl fmt::Display for HashError {
    fn fmt(&self, f: &mut fmt::Formatter<'_>) -> fmt::Result {
        f.write_str(match self {
            HashError::TextTooLong => "the text of a password hash is too long",
            // texts: made by tools/lists.py
            HashError::BadFormat => "no password hash has the text",
            HashError::TooManyIterations => "the text has more iterations than the caller takes",
            HashError::BadSalt => "a new password hash can't have the salt",
            // /texts
            HashError::WrongPassword => "wrong password",
            HashError::NoRoom => "no room for the text",
            HashError::TooLong => "the password or the salt is too long",
        })
    }
}

#[cfg(feature = "std")]
impl std::error::Error for HashError {}

/// Whose text it is, and its digest algorithm. The number is that of C.
///
/// `Display` writes the scheme's name and `FromStr` reads it, as the other packages have it:
///
/// ```
/// use yezdopin::password_hash::Scheme;
///
/// assert_eq!(Scheme::DjangoSha256.to_string(), "django-sha256");
/// assert_eq!("postgresql".parse(), Ok(Scheme::Postgresql));
/// ```
#[derive(Clone, Copy, Debug, PartialEq, Eq)]
#[non_exhaustive]
pub enum Scheme {
    // variants: made by tools/lists.py
    /// Django's `PBKDF2PasswordHasher`.
    DjangoSha256 = 1,
    /// Django's `PBKDF2SHA1PasswordHasher`.
    DjangoSha1 = 2,
    /// Werkzeug's `pbkdf2:sha256`.
    WerkzeugSha256 = 3,
    /// Werkzeug's `pbkdf2:sha512`.
    WerkzeugSha512 = 4,
    /// A PHC string, `$pbkdf2-sha256$i=..,l=32`.
    PhcSha256 = 5,
    /// A PHC string, `$pbkdf2-sha512$i=..,l=32`.
    PhcSha512 = 6,
    /// Mosquitto's, by SHA-512.
    Mosquitto = 7,
    /// passlib's `pbkdf2_sha1`.
    PasslibSha1 = 8,
    /// passlib's `pbkdf2_sha256`.
    PasslibSha256 = 9,
    /// passlib's `pbkdf2_sha512`.
    PasslibSha512 = 10,
    /// PostgreSQL's, for a role: `SCRAM-SHA-256$..`.
    Postgresql = 11,
    /// Werkzeug's `pbkdf2:sha1`.
    WerkzeugSha1 = 12,
    // /variants
}

/// All schemes, by their numbers.
// schemes: made by tools/lists.py
pub const SCHEMES: [Scheme; 12] = [
    Scheme::DjangoSha256,
    Scheme::DjangoSha1,
    Scheme::WerkzeugSha256,
    Scheme::WerkzeugSha512,
    Scheme::PhcSha256,
    Scheme::PhcSha512,
    Scheme::Mosquitto,
    Scheme::PasslibSha1,
    Scheme::PasslibSha256,
    Scheme::PasslibSha512,
    Scheme::Postgresql,
    Scheme::WerkzeugSha1,
];
// /schemes

impl Scheme {
    /// The name: `django-sha256`, `postgresql`.
    pub fn name(self) -> &'static str {
        use Scheme::*;
        match self {
            // names: made by tools/lists.py
            DjangoSha256 => "django-sha256",
            DjangoSha1 => "django-sha1",
            WerkzeugSha256 => "werkzeug-sha256",
            WerkzeugSha512 => "werkzeug-sha512",
            PhcSha256 => "phc-sha256",
            PhcSha512 => "phc-sha512",
            Mosquitto => "mosquitto",
            PasslibSha1 => "passlib-sha1",
            PasslibSha256 => "passlib-sha256",
            PasslibSha512 => "passlib-sha512",
            Postgresql => "postgresql",
            WerkzeugSha1 => "werkzeug-sha1",
            // /names
        }
    }

    /// Whether its text has the salt as it is.
    fn writes_salt(self) -> bool {
        use Scheme::*;
        matches!(
            self,
            DjangoSha256 | DjangoSha1 | WerkzeugSha256 | WerkzeugSha512 | WerkzeugSha1
        )
    }
}

impl fmt::Display for Scheme {
    fn fmt(&self, f: &mut fmt::Formatter<'_>) -> fmt::Result {
        f.pad(self.name())
    }
}

/// A name that no scheme has.
#[derive(Clone, Copy, Debug, PartialEq, Eq)]
pub struct UnknownScheme;

impl fmt::Display for UnknownScheme {
    fn fmt(&self, f: &mut fmt::Formatter<'_>) -> fmt::Result {
        f.write_str("no scheme of password hashes has this name")
    }
}

#[cfg(feature = "std")]
impl std::error::Error for UnknownScheme {}

impl str::FromStr for Scheme {
    type Err = UnknownScheme;

    fn from_str(name: &str) -> Result<Self, UnknownScheme> {
        let found = SCHEMES.iter().find(|it| it.name() == name);
        found.copied().ok_or(UnknownScheme)
    }
}

/// Ok exactly where the hash of `text` is that of `password`, and names at most `max_iterations`.
///
/// Whoever wrote the text chose its iterations, and so the time of a test. The limit is tested
/// before anything is derived.
///
/// Refused as `TextTooLong`, `BadFormat`, `TooManyIterations` or `WrongPassword`, in this order.
pub fn verify(text: &str, password: &[u8], max_iterations: u32) -> Result<(), HashError> {
    // SAFETY: both are lent for the call.
    let status = unsafe {
        calls::yz_password_hash_verify(
            text.as_ptr(),
            text.len(),
            password.as_ptr(),
            password.len(),
            max_iterations,
        )
    };
    match status {
        calls::YZ_OK => Ok(()),
        calls::YZ_WRONG_LENGTH => Err(HashError::TextTooLong),
        calls::YZ_BAD_FORMAT => Err(HashError::BadFormat),
        calls::YZ_TOO_MANY_ITERATIONS => Err(HashError::TooManyIterations),
        _ => Err(HashError::WrongPassword),
    }
}

/// What [`info`] tells of a text.
#[derive(Clone, Copy, Debug, PartialEq, Eq)]
pub struct Info {
    /// The scheme.
    pub scheme: Scheme,
    /// The number of iterations that the text names.
    pub iterations: NonZeroU32,
}

/// Of which scheme a text is, and how many iterations it names. It derives nothing.
///
/// Refused as `TextTooLong` or `BadFormat`.
pub fn info(text: &str) -> Result<Info, HashError> {
    let (mut scheme, mut iterations) = (0, 0);
    // SAFETY: all are lent for the call.
    let status = unsafe {
        calls::yz_password_hash_info(text.as_ptr(), text.len(), &mut scheme, &mut iterations)
    };
    match status {
        calls::YZ_OK => Info::of(scheme, iterations).ok_or(HashError::BadFormat),
        calls::YZ_WRONG_LENGTH => Err(HashError::TextTooLong),
        _ => Err(HashError::BadFormat),
    }
}

/// Whether a text is of one of [`SCHEMES`], so that [`info`] is Ok, and [`verify`] tests a password
/// against it where its iterations are within the limit.
///
/// ```
/// use yezdopin::password_hash::is_supported;
///
/// assert!(is_supported("pbkdf2_sha1$1000$kXq0Wz3vT9bYh2LrE8mNpA$2U/l/68EaoUIrkh0GedCmjQYvmg="));
/// assert!(!is_supported("$2b$12$R9h/cIPz0gi.URNNX3kh2OPST9/PgBkqquzi.Ss7KIUgO2t0jWMUW"));
/// ```
pub fn is_supported(text: &str) -> bool {
    info(text).is_ok()
}

impl Info {
    fn of(scheme: u32, iterations: u32) -> Option<Info> {
        Some(Info {
            scheme: *SCHEMES.iter().find(|it| **it as u32 == scheme)?,
            iterations: NonZeroU32::new(iterations)?,
        })
    }
}

/// A salt. [`Salt::as_ref`](AsRef::as_ref) has its bytes.
#[derive(Clone, Copy, Debug, PartialEq, Eq)]
pub struct Salt {
    bytes: [u8; MAX_SALT_LEN],
    len: usize,
}

impl Salt {
    /// The salt for a new hash of `scheme` that `random` makes, which should be random: 22 letters
    /// and digits for Django and Werkzeug, which write it as it is, and else the bytes themselves.
    pub fn of(scheme: Scheme, random: [u8; RANDOM_LEN]) -> Salt {
        let (mut bytes, mut len) = ([0; MAX_SALT_LEN], 0);
        // SAFETY: all are lent for the call.
        let status = unsafe {
            calls::yz_password_hash_salt(
                scheme as u32,
                random.as_ptr(),
                random.len(),
                bytes.as_mut_ptr(),
                bytes.len(),
                &mut len,
            )
        };
        assert_eq!(status, calls::YZ_OK); // a scheme, 16 bytes, and room for each salt
        Salt { bytes, len }
    }
}

impl AsRef<[u8]> for Salt {
    fn as_ref(&self) -> &[u8] {
        &self.bytes[..self.len]
    }
}

/// A salt for a new hash of `scheme`, of 16 bytes of `rng`.
///
/// Refused where `rng` gives none.
pub fn new_salt(scheme: Scheme, rng: &dyn SecureRandom) -> Result<Salt, Unspecified> {
    Ok(Salt::of(scheme, rand::generate(rng)?.expose()))
}

/// Writes the text of the hash of `password` to the start of `out`, and returns it. The rest of
/// `out` is unchanged, and after a refusal all of it is.
///
/// `salt` should be random, and of this hash alone, as [`new_salt`] makes one.
///
/// ```
/// use core::num::NonZeroU32;
/// use yezdopin::password_hash::{new, Scheme, MAX_TEXT_LEN};
///
/// let mut text = [0; MAX_TEXT_LEN];
/// let iterations = NonZeroU32::new(1000).unwrap();
/// let salt = b"kXq0Wz3vT9bYh2LrE8mNpA";
/// let password = b"correct horse battery staple";
/// let kept = new(Scheme::DjangoSha1, password, salt, iterations, &mut text)?;
/// assert_eq!(kept, "pbkdf2_sha1$1000$kXq0Wz3vT9bYh2LrE8mNpA$2U/l/68EaoUIrkh0GedCmjQYvmg=");
/// # Ok::<(), yezdopin::password_hash::HashError>(())
/// ```
///
/// Refused as `NoRoom`, `BadSalt` or `TooLong`.
pub fn new<'a>(
    scheme: Scheme,
    password: &[u8],
    salt: &[u8],
    iterations: NonZeroU32,
    out: &'a mut [u8],
) -> Result<&'a str, HashError> {
    if scheme.writes_salt() && str::from_utf8(salt).is_err() {
        return Err(HashError::BadSalt);
    }
    let mut len = 0;
    // SAFETY: all are lent for the call.
    let status = unsafe {
        calls::yz_password_hash_new(
            scheme as u32,
            iterations.get(),
            salt.as_ptr(),
            salt.len(),
            password.as_ptr(),
            password.len(),
            out.as_mut_ptr(),
            out.len(),
            &mut len,
        )
    };
    match status {
        calls::YZ_OK => str::from_utf8(&out[..len]).map_err(|_| HashError::BadSalt),
        calls::YZ_WRONG_LENGTH => Err(HashError::NoRoom),
        calls::YZ_BAD_SALT => Err(HashError::BadSalt),
        _ => Err(HashError::TooLong),
    }
}
