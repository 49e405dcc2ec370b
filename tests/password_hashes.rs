// SPDX-License-Identifier: ISC
// RustCrypto's `pbkdf2` as a peer of tests/password_hashes.py, which builds it with Debian's
// packages. A line is `make HASH SALT PASSWORD` with the salt as base64, or `verify TEXT PASSWORD`;
// passwords are hex digits.
use pbkdf2::password_hash::{Ident, PasswordHash, PasswordHasher, PasswordVerifier, Salt};
use pbkdf2::{Params, Pbkdf2};
use std::io::stdin;

fn bytes_in(digits: &str) -> Vec<u8> {
    let places = (0..digits.trim_matches('-').len()).step_by(2);
    places.map(|at| u8::from_str_radix(&digits[at..at + 2], 16).unwrap()).collect()
}

fn main() {
    for line in stdin().lines() {
        let line = line.unwrap();
        let words: Vec<&str> = line.split(' ').collect();
        match words[..] {
            ["make", hash, salt, password] => {
                let params = Params { rounds: 1000, output_length: 32 };
                let salt = Salt::new(salt).unwrap();
                let made = Pbkdf2.hash_password_customized(
                    &bytes_in(password),
                    Some(Ident::new(hash).unwrap()),
                    None,
                    params,
                    salt,
                );
                println!("{}", made.unwrap());
            }
            ["verify", text, password] => {
                let text = PasswordHash::new(text).unwrap();
                println!("{}", Pbkdf2.verify_password(&bytes_in(password), &text).is_ok());
            }
            _ => panic!("{line}"),
        }
    }
}
