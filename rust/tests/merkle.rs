// SPDX-License-Identifier: ISC
//! Merkle trees: the roots and paths of Certificate Transparency's merkle_verifier_test.go, and
//! what is refused.

#[path = "shared/values.rs"]
mod values;

use std::collections::HashMap;
use std::convert::TryInto;
use values::bytes;
use yezdopin::error::Unspecified;
use yezdopin::merkle::{self, Hash};

// The tree of vectors/merkle: what stands behind the word of each line that begins with it.
fn lines_of(word: &str) -> Vec<Vec<&'static str>> {
    let text = include_str!("../../vectors/merkle/certificate_transparency.txt");
    let lines = text.lines().map(|line| line.split(' ').collect::<Vec<_>>());
    let found = lines.filter(|line| line[0] == word);
    found.map(|line| line[1..].to_vec()).collect()
}

fn hash(digits: &str) -> Hash {
    bytes(digits).try_into().unwrap()
}

fn leaves() -> Vec<Hash> {
    let entries = lines_of("entry");
    entries.iter().map(|it| merkle::leaf_hash(&bytes(it[0]))).collect()
}

// The roots of the trees over the first entries, from none to all.
fn known_roots() -> Vec<Hash> {
    lines_of("root").iter().map(|it| hash(it[1])).collect()
}

// Two numbers of each proof of a kind, and its hashes.
fn proofs(word: &str) -> Vec<(usize, usize, Vec<Hash>)> {
    let nodes: HashMap<_, _> = lines_of("node").iter().map(|it| (it[0], hash(it[1]))).collect();
    let number = |text: &str| text.parse().unwrap();
    let proof = |it: &Vec<&str>| {
        let path = it[2..].iter().map(|name| nodes[name]).collect();
        (number(it[0]), number(it[1]), path)
    };
    lines_of(word).iter().map(proof).collect()
}

#[test]
fn roots() {
    let leaves = leaves();
    for (size, root) in known_roots().iter().enumerate() {
        assert_eq!(merkle::root(&leaves[..size]), *root);
    }
}

#[test]
fn paths_of_leaves() {
    let leaves = leaves();
    for (index, size, path) in proofs("inclusion") {
        let (leaf, root) = (&leaves[index], merkle::root(&leaves[..size]));
        let verify = |index, size, path: &[Hash], root: &Hash| {
            merkle::verify_inclusion(leaf, index as u64, size as u64, path, root)
        };
        assert_eq!(
            merkle::inclusion_path(&leaves[..size], index),
            Ok(path.clone())
        );
        assert_eq!(verify(index, size, &path, &root), Ok(()));
        assert_eq!(verify(size, size, &path, &root), Err(Unspecified));
        assert_eq!(verify(index, size, &path, &[7; 32]), Err(Unspecified));
        let longer = [&path[..], &[[7; 32]]].concat();
        assert_eq!(verify(index, size, &longer, &root), Err(Unspecified));
    }
}

#[test]
fn paths_of_first_trees() {
    let leaves = leaves();
    let roots = known_roots();
    for (first_size, size, path) in proofs("consistency") {
        let (first, root) = (roots[first_size], roots[size]);
        let verify = |first_size, first: &Hash, path: &[Hash]| {
            merkle::verify_consistency(first_size as u64, first, size as u64, &root, path)
        };
        let made = merkle::consistency_path(&leaves[..size], first_size);
        assert_eq!(made, Ok(path.clone()));
        assert_eq!(verify(first_size, &first, &path), Ok(()));
        assert_eq!(verify(first_size, &root, &path), Err(Unspecified));
        assert_eq!(verify(first_size, &first, &path[1..]), Err(Unspecified));
        assert_eq!(verify(0, &first, &path), Err(Unspecified));
        assert_eq!(verify(size, &root, &[]), Err(Unspecified));
    }
}

#[test]
fn what_has_no_path() {
    let leaves = leaves();
    for size in 0..=8 {
        let leaves = &leaves[..size];
        assert_eq!(merkle::inclusion_path(leaves, size), Err(Unspecified));
        assert_eq!(merkle::inclusion_path(leaves, usize::MAX), Err(Unspecified));
        assert_eq!(merkle::consistency_path(leaves, 0), Err(Unspecified));
        assert_eq!(merkle::consistency_path(leaves, size), Err(Unspecified));
    }
}
