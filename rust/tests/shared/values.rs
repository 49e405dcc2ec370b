// SPDX-License-Identifier: ISC
//! The bytes of fields of lines: hex digits, and those that a line of tests/verifications names.
#![allow(dead_code)]

use std::collections::HashMap;

pub fn bytes(hex: &str) -> Vec<u8> {
    let digits = hex.trim_start_matches('-');
    let pairs = (0..digits.len()).step_by(2);
    pairs
        .map(|at| u8::from_str_radix(&digits[at..at + 2], 16).unwrap())
        .collect()
}

/// The bytes that lines name.
#[derive(Default)]
pub struct Values(HashMap<String, Vec<u8>>);

impl Values {
    /// Takes the bytes of a line, a name and hex digits.
    pub fn take(&mut self, named: &str) {
        let (name, digits) = named.split_once(' ').unwrap();
        self.0.insert(name.to_string(), bytes(digits));
    }

    /// The bytes of a field: hex digits, or named ones with an edit.
    pub fn of(&self, field: &str) -> Vec<u8> {
        let rest = match field.strip_prefix('@') {
            Some(rest) => rest,
            None => return bytes(field),
        };
        let end = rest.find(&['=', '<', '>', '+'][..]).unwrap_or(rest.len());
        let (name, edit) = rest.split_at(end);
        let value = &self.0[name];
        match edit.chars().next() {
            None => value.clone(),
            Some('<') => value[..edit[1..].parse().unwrap()].to_vec(),
            Some('>') => value[edit[1..].parse().unwrap()..].to_vec(),
            Some('+') => [&value[..], &bytes(&edit[1..])].concat(),
            _ => {
                let (at, byte) = edit[1..].split_once(':').unwrap();
                let mut changed = value.clone();
                changed[at.parse::<usize>().unwrap()] = bytes(byte)[0];
                changed
            }
        }
    }
}
