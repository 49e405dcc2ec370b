// SPDX-License-Identifier: ISC
// Merkle trees of transparency logs (RFC 9162, the same as in RFC 6962). A proof comes from others:
// what is no hash and no size of a tree proves nothing, and a verification answers false.

import * as calls from "./calls.js";
import { outOfRange, wrongType, wrongValue } from "./errors.js";
import { bytesOf, bytesOrText, uint64Of } from "./inputs.js";

const { HASH_LEN } = calls;

// A copy of a hash, or null where it has another length.
function hashOf(data, argument) {
  const bytes = bytesOf(data, argument);
  return bytes.length === HASH_LEN ? bytes.slice() : null;
}

// The hashes of an iterable in a row, or null where one of them has another length.
function hashesOf(iterable, argument) {
  // Text and views iterate too, but not over hashes.
  const isOther = typeof iterable === "object" && !ArrayBuffer.isView(iterable);
  if (!isOther || typeof iterable?.[Symbol.iterator] !== "function") {
    throw wrongType(argument, "an iterable of hashes", iterable);
  }
  const hashes = Array.from(iterable, (it) => hashOf(it, argument));
  if (hashes.includes(null)) return null;
  const row = new Uint8Array(hashes.length * HASH_LEN);
  hashes.forEach((it, i) => row.set(it, i * HASH_LEN));
  return row;
}

function leavesOf(iterable) {
  const leaves = hashesOf(iterable, "leaves");
  if (leaves === null) throw wrongValue("leaves", `: each hash has ${HASH_LEN} bytes`);
  return leaves;
}

// The path that a call makes of hashes of leaves, and of an index or a count of leaves.
function pathBy(call, leaves, value, argument, least) {
  const number = uint64Of(value, argument);
  const path = number === null ? null : call(leaves, number);
  if (path !== null) return path;
  throw outOfRange(argument, `>= ${least} && < ${leaves.length / HASH_LEN}`, value);
}

// What a call answers to words that are all there.
const verdictBy = (call, words) => !words.includes(null) && call(...words);

export const merkle = Object.freeze({
  leaf: (entry) => calls.merkleLeaf(bytesOrText(entry, "entry")),

  root: (leaves) => calls.merkleRoot(leavesOf(leaves)),

  inclusionPath: (leaves, index) =>
    pathBy(calls.merkleInclusionPath, leavesOf(leaves), index, "index", 0),

  consistencyPath: (leaves, firstSize) =>
    pathBy(calls.merkleConsistencyPath, leavesOf(leaves), firstSize, "firstSize", 1),

  verifyInclusion: (hash, index, size, path, root) => verdictBy(calls.merkleVerifyInclusion, [
    hashOf(hash, "hash"), uint64Of(index, "index"), uint64Of(size, "size"),
    hashesOf(path, "path"), hashOf(root, "root"),
  ]),

  verifyConsistency: (firstSize, first, secondSize, second, path) =>
    verdictBy(calls.merkleVerifyConsistency, [
      uint64Of(firstSize, "firstSize"), hashOf(first, "first"),
      uint64Of(secondSize, "secondSize"), hashOf(second, "second"), hashesOf(path, "path"),
    ]),
});
