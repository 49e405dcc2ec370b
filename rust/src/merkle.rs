// SPDX-License-Identifier: ISC
//! Merkle trees of transparency logs (RFC 9162, section 2.1; RFC 6962 defines the same). `ring` has
//! no such module.
//!
//! ```
//! use yezdopin::merkle;
//!
//! let entries: [&[u8]; 3] = [b"one", b"two", b"three"];
//! let leaves = entries.map(merkle::leaf_hash);
//! let root = merkle::root(&leaves);
//! let path = merkle::inclusion_path(&leaves, 2)?;
//! merkle::verify_inclusion(&leaves[2], 2, 3, &path, &root)?;
//! assert!(merkle::verify_inclusion(&leaves[1], 2, 3, &path, &root).is_err());
//!
//! let first = merkle::root(&leaves[..2]);
//! merkle::verify_consistency(2, &first, 3, &root, &merkle::consistency_path(&leaves, 2)?)?;
//! # Ok::<(), yezdopin::error::Unspecified>(())
//! ```
//!
//! That a root is the log's is for the caller to know: who signed it, and whether others see the
//! same.

use crate::calls;
use crate::done;
use crate::error::Unspecified;
use alloc::vec::Vec;

/// The bytes of a hash.
pub const HASH_LEN: usize = 32;

/// The most hashes of a path.
pub const MAX_PATH_LEN: usize = 65;

/// A hash: of a leaf, of a node, or of a whole tree, its root.
pub type Hash = [u8; HASH_LEN];

/// The hash of an entry as a leaf (RFC 9162, section 2.1.1), which is not its digest: a byte 0
/// stands before it.
///
/// # Panics
///
/// Where the entry has more than `2^61 - 2` bytes.
pub fn leaf_hash(entry: &[u8]) -> Hash {
    let mut hash = [0; HASH_LEN];
    // SAFETY: the entry is lent for the call, and `hash` for writing.
    let status = unsafe { calls::yz_merkle_leaf(entry.as_ptr(), entry.len(), &mut hash) };
    done(status).expect("the entry is within the limit");
    hash
}

/// Ok exactly where `path` proves that a leaf of this hash is at `index` in the tree of `size`
/// leaves with this root (RFC 9162, section 2.1.3.2).
pub fn verify_inclusion(
    hash: &Hash,
    index: u64,
    size: u64,
    path: &[Hash],
    root: &Hash,
) -> Result<(), Unspecified> {
    let (hashes, count) = (path.as_ptr(), path.len());
    // SAFETY: all are lent for the call.
    done(unsafe { calls::yz_merkle_verify_inclusion(hash, index, size, hashes, count, root) })
}

/// Ok exactly where `path` proves that the tree of `first_size` leaves with the root `first` is the
/// beginning of the tree of `second_size` leaves with the root `second` (RFC 9162, section
/// 2.1.4.2).
///
/// There is no proof for an empty tree, or for two of one size: a caller compares their roots.
pub fn verify_consistency(
    first_size: u64,
    first: &Hash,
    second_size: u64,
    second: &Hash,
    path: &[Hash],
) -> Result<(), Unspecified> {
    // SAFETY: all are lent for the call.
    done(unsafe {
        calls::yz_merkle_verify_consistency(
            first_size,
            first,
            second_size,
            second,
            path.as_ptr(),
            path.len(),
        )
    })
}

/// The root of the tree over the hashes of leaves (RFC 9162, section 2.1.1).
pub fn root(leaves: &[Hash]) -> Hash {
    let mut root = [0; HASH_LEN];
    // SAFETY: the leaves are lent for the call, and `root` for writing.
    let status = unsafe { calls::yz_merkle_root(leaves.as_ptr(), leaves.len(), &mut root) };
    done(status).expect("it is never refused");
    root
}

/// The path that proves that the leaf at `index` is in the tree over `leaves` (RFC 9162, section
/// 2.1.3.1).
///
/// Refused where there is no such leaf.
pub fn inclusion_path(leaves: &[Hash], index: usize) -> Result<Vec<Hash>, Unspecified> {
    // SAFETY: the leaves are lent for the call, and `path` has room for MAX_PATH_LEN hashes.
    written(|path, count| unsafe {
        let (hashes, len) = (leaves.as_ptr(), leaves.len());
        calls::yz_merkle_inclusion_path(hashes, len, index, path, MAX_PATH_LEN, count)
    })
}

/// The path that proves that the tree over the first `first_size` of `leaves` is the beginning of
/// the tree over all (RFC 9162, section 2.1.4.1).
///
/// Refused where `first_size` is 0 or not below the number of leaves.
pub fn consistency_path(leaves: &[Hash], first_size: usize) -> Result<Vec<Hash>, Unspecified> {
    // SAFETY: the leaves are lent for the call, and `path` has room for MAX_PATH_LEN hashes.
    written(|path, count| unsafe {
        let (hashes, len) = (leaves.as_ptr(), leaves.len());
        calls::yz_merkle_consistency_path(hashes, len, first_size, path, MAX_PATH_LEN, count)
    })
}

// The path that a call writes.
fn written(call: impl FnOnce(*mut Hash, *mut usize) -> i32) -> Result<Vec<Hash>, Unspecified> {
    let (mut path, mut count) = ([[0; HASH_LEN]; MAX_PATH_LEN], 0);
    done(call(path.as_mut_ptr(), &mut count))?;
    Ok(path[..count].to_vec())
}
