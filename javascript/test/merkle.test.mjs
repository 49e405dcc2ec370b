// SPDX-License-Identifier: ISC
// node --test: the Merkle trees of the package in the folder PACKAGE: the roots and paths of
// Certificate Transparency's merkle_verifier_test.go, trees and altered proofs beside RFC 9162's
// definitions over node:crypto, what is no proof, and what raises.

import assert from "node:assert/strict";
import crypto from "node:crypto";
import { readFileSync } from "node:fs";
import { test } from "node:test";
import { isWiped, main, yz } from "./package.mjs";
import { hex } from "./vectors.mjs";

const { VECTORS } = process.env, { merkle } = yz;
// The tree of vectors/merkle: what stands behind the word of each line that begins with it.
const LINES = readFileSync(`${VECTORS}/merkle/certificate_transparency.txt`, "utf8").split("\n")
  .map((line) => line.split(" "));
const linesOf = (word) => LINES.filter(([first]) => first === word).map(([, ...rest]) => rest);
const unhex = (text) => Buffer.from(text.replace("-", ""), "hex");
const ENTRIES = linesOf("entry").map(([it]) => unhex(it));
const ROOTS = linesOf("root").map(([, root]) => unhex(root));
const NODES = Object.fromEntries(linesOf("node").map(([name, it]) => [name, unhex(it)]));
const [PATHS, PROOFS] = ["inclusion", "consistency"].map((word) => linesOf(word).map(
  ([first, size, ...names]) => [+first, +size, names.map((it) => NODES[it])]));
const LEAVES = ENTRIES.map((it) => merkle.leaf(it));
const PATH_OF_FIRST = PATHS[0][2];
// What is an index and a size of no tree, and what is no hash.
const NO_SIZES = [-1, -1n, -(2n ** 64n), 2n ** 64n, 2n ** 64n + 1n, 2n ** 200n];
const NO_HASHES = [0, 31, 33, 64].map((len) => Buffer.alloc(len));

// RFC 9162, 2.1, over node:crypto. `half` is the largest power of two below a count (2.1.1).
const sha256 = (...parts) => crypto.createHash("sha256").update(Buffer.concat(parts)).digest();
const node = (left, right) => sha256(Buffer.of(1), left, right);
const half = (count) => 2 ** (Math.ceil(Math.log2(count)) - 1);
const split = (leaves) =>
  [leaves.slice(0, half(leaves.length)), leaves.slice(half(leaves.length))];

function rootOf(leaves) {
  if (leaves.length < 2) return leaves[0] ?? sha256();
  return node(...split(leaves).map(rootOf));
}

function pathOf(index, leaves) {
  if (leaves.length < 2) return [];
  const [front, back] = split(leaves);
  return index < front.length ? [...pathOf(index, front), rootOf(back)]
    : [...pathOf(index - front.length, back), rootOf(front)];
}

function proofOf(first, leaves, isWhole = true) {
  if (first === leaves.length) return isWhole ? [] : [rootOf(leaves)];
  const [front, back] = split(leaves);
  return first <= front.length ? [...proofOf(first, front, isWhole), rootOf(back)]
    : [...proofOf(first - front.length, back, false), rootOf(front)];
}

// The steps 4 of 2.1.3.2 and 6 of 2.1.4.2: the values that a path leads to from those of `starts`,
// or null where it has another length. A node on the left is joined to all, one on the right to the
// last.
function climbed(fn, sn, path, starts) {
  let values = [...starts];
  for (const it of path) {
    if (sn === 0n) return null;
    if (fn % 2n === 1n || fn === sn) {
      values = values.map((value) => node(it, value));
      while (fn !== 0n && fn % 2n === 0n) [fn, sn] = [fn / 2n, sn / 2n];
    } else {
      values[values.length - 1] = node(values.at(-1), it);
    }
    [fn, sn] = [fn / 2n, sn / 2n];
  }
  return sn === 0n ? values : null;
}

function isIncluded(hash, index, size, path, root) {
  const [fn, sn] = [BigInt(index), BigInt(size) - 1n];
  return fn <= sn && climbed(fn, sn, path, [hash])?.[0].equals(root) === true;
}

function isConsistent(firstSize, first, secondSize, second, path) {
  const m = BigInt(firstSize), n = BigInt(secondSize);
  if (m === 0n || m >= n) return false;
  const isPower = (m & (m - 1n)) === 0n, [start, ...rest] = isPower ? [first, ...path] : path;
  if (start === undefined) return false;
  let [fn, sn] = [m - 1n, n - 1n];
  while (fn % 2n === 1n) [fn, sn] = [fn / 2n, sn / 2n];
  const ends = climbed(fn, sn, rest, [start, start]);
  return ends !== null && ends[0].equals(first) && ends[1].equals(second);
}

test("the roots and paths of Certificate Transparency", () => {
  for (const [size, root] of ROOTS.entries()) {
    assert.deepEqual(merkle.root(LEAVES.slice(0, size)), root);
    assert.deepEqual(merkle.root(new Set(LEAVES.slice(0, size))), root);
  }
  for (const [index, size, path] of PATHS) {
    const leaf = LEAVES[index], root = ROOTS[size];
    assert.deepEqual(merkle.inclusionPath(LEAVES.slice(0, size), index), path);
    for (const [at, count] of [[index, size], [BigInt(index), BigInt(size)]]) {
      assert.equal(merkle.verifyInclusion(leaf, at, count, path, root), true);
    }
    for (const wrong of [[...path, root], [root, ...path], path.slice(1), [...path].reverse()]) {
      if (hex(Buffer.concat(wrong)) === hex(Buffer.concat(path))) continue;
      assert.equal(merkle.verifyInclusion(leaf, index, size, wrong, root), false);
    }
  }
  for (const [first, size, path] of PROOFS) {
    const roots = [ROOTS[first], ROOTS[size]];
    const verify = (it) => merkle.verifyConsistency(first, roots[0], BigInt(size), roots[1], it);
    assert.deepEqual(merkle.consistencyPath(LEAVES.slice(0, size), BigInt(first)), path);
    assert.equal(verify(path), true);
    for (const wrong of [[...path, ROOTS[0]], path.slice(1), [...path].reverse(), []]) {
      assert.equal(verify(wrong), false);
    }
  }
});

test("the example of docs/MERKLE.md knows the entries", async () => {
  const page = readFileSync(`${VECTORS}/../docs/MERKLE.md`, "utf8");
  const text = page.match(/^```js\n(.*?)^```$/ms)[1].replace('"yezdopin"', JSON.stringify(main));
  const { isLogged } = await import(
    `data:text/javascript,${encodeURIComponent(`${text}export { isLogged };`)}`);
  for (const [index, size, path] of PATHS) {
    assert.equal(isLogged(ENTRIES[index], index, BigInt(size), path, ROOTS[size]), true);
    assert.equal(isLogged("another", index, BigInt(size), path, ROOTS[size]), false);
  }
});

test("trees of each size up to 70, and one of 5,000, beside the RFC's definitions", () => {
  const leaves = Array.from({ length: 5000 }, (_, i) => merkle.leaf(Buffer.alloc(i % 90, i)));
  leaves.forEach((it, i) =>
    assert.deepEqual(it, sha256(Buffer.of(0), Buffer.alloc(i % 90, i))));
  for (const size of [...Array(71).keys(), 5000]) {
    const some = leaves.slice(0, size), root = rootOf(some);
    assert.deepEqual(merkle.root(some), root);
    const step = size === 5000 ? 613 : 1;
    for (let at = 0; at < size; at += step) {
      const path = pathOf(at, some);
      assert.deepEqual(merkle.inclusionPath(some, at), path);
      assert.equal(merkle.verifyInclusion(some[at], at, size, path, root), true);
      if (at === 0) continue;
      const proof = proofOf(at, some), first = rootOf(some.slice(0, at));
      assert.deepEqual(merkle.consistencyPath(some, at), proof);
      assert.equal(merkle.verifyConsistency(at, first, size, root, proof), true);
    }
  }
});

// Numbers that are the same at each run.
let seed = 71;
function below(bound) {
  seed = (Math.imul(seed, 1664525) + 1013904223) >>> 0;
  return Math.floor(seed / 2 ** 32 * bound);
}
const random = () => crypto.createHash("sha256").update(String(below(2 ** 32))).digest();

// A path with a hash more, one less, one twice, one of another value, or turned round; or itself.
function changed(path) {
  const at = below(path.length), it = path[at];
  const [before, behind] = [path.slice(0, at), path.slice(at + 1)];
  switch (below(8)) {
    case 0: return [...before, random(), ...path.slice(at)];
    case 1: return [...before, ...behind];
    case 2: return it ? [...before, it, it, ...behind] : path;
    case 3: return it ? [...before, Buffer.from(it.map((b) => b ^ 1 << below(8))), ...behind] : [];
    case 4: return [...path].reverse();
    default: return path;
  }
}

// A number that is near another one, or far from it, and mostly a BigInt.
const near = (it) => {
  const other = [it + 1, it - 1, 2 * it, 0][below(4)], number = below(4) ? it : other;
  return below(3) ? BigInt(number) : number;
};
const MOST = 2n ** 64n - 1n;
const far = () => [2n ** 53n - 1n, 2n ** 53n, 2n ** 53n + 1n, 2n ** 63n, MOST - 1n, MOST,
  2n ** BigInt(below(64))][below(7)];

test("10,000 altered proofs beside the RFC's steps", () => {
  const leaves = Array.from({ length: 40 }, random), count = { true: 0, false: 0 };
  const roots = Array.from({ length: 41 }, (_, size) => rootOf(leaves.slice(0, size)));
  const isSize = (it) => it >= 0 && it <= MOST;
  for (let turn = 0; turn < 5000; turn++) {
    const size = 2 + below(39), at = below(size), some = leaves.slice(0, size);
    const [one, other] = below(8) ? [near(at), near(size)] : [near(at), far()];
    const words = [below(9) ? leaves[at] : random(), one, other, changed(pathOf(at, some)),
      roots[below(9) ? size : below(41)]];
    const told = isSize(one) && isSize(other) && isIncluded(...words);
    assert.equal(merkle.verifyInclusion(...words), told);
    count[told]++;
    const first = 1 + below(size - 1), proof = proofOf(first, some);
    const [m, n] = below(8) ? [near(first), near(size)] : [near(first), far()];
    const pair = [m, roots[below(9) ? first : below(41)], n, roots[size], changed(proof)];
    const wanted = isSize(m) && isSize(n) && isConsistent(...pair);
    assert.equal(merkle.verifyConsistency(...pair), wanted);
    count[wanted]++;
  }
  console.log(`${count.true} proofs are right, ${count.false} are not`);
  assert.ok(count.true > 500 && count.false > 5000);
});

test("indices and sizes from 2^53 to 2^64 - 1", () => {
  // The last leaf of a tree of 2^k leaves is on the right at each step, the first on the left.
  for (const k of [52, 53, 54, 63]) {
    const path = Array.from({ length: k }, random), leaf = random(), size = 2n ** BigInt(k);
    const last = path.reduce((value, it) => node(it, value), leaf);
    const first = path.reduce((value, it) => node(value, it), leaf);
    assert.equal(merkle.verifyInclusion(leaf, size - 1n, size, path, last), true);
    assert.equal(merkle.verifyInclusion(leaf, size - 2n, size, path, last), false);
    assert.equal(merkle.verifyInclusion(leaf, 0, size, path, first), true);
    assert.equal(merkle.verifyConsistency(1, leaf, size, first, path), true);
    assert.equal(merkle.verifyConsistency(1, leaf, size, last, path), false);
  }
  // The leaf behind 2^64 - 2 others, the last of 2^64 - 1: a node at each level but the last.
  const path = Array.from({ length: 63 }, random), leaf = random();
  const root = path.reduce((value, it) => node(it, value), leaf);
  assert.equal(isIncluded(leaf, MOST - 1n, MOST, path, root), true);
  assert.equal(merkle.verifyInclusion(leaf, MOST - 1n, MOST, path, root), true);
  assert.equal(merkle.verifyInclusion(leaf, MOST, MOST, path, root), false);
  assert.equal(merkle.verifyInclusion(leaf, MOST - 1n, 2n ** 64n, path, root), false);
  // 2^53 + 1 is not what a number says: it is refused before it is rounded to another leaf.
  assert.equal(2 ** 53, 2 ** 53 + 1);
  const most = Number.MAX_SAFE_INTEGER, row = Array.from({ length: 53 }, random);
  const top = row.reduce((value, it) => node(it, value), leaf);
  assert.equal(merkle.verifyInclusion(leaf, most, 2n ** 53n, row, top), true);
  for (const wrong of [2 ** 53, 2 ** 64, -(2 ** 53), 1.5, NaN, Infinity]) {
    for (const call of [() => merkle.verifyInclusion(leaf, wrong, 8, row, top),
      () => merkle.verifyInclusion(leaf, 0, wrong, row, top),
      () => merkle.verifyConsistency(wrong, leaf, 8, top, row),
      () => merkle.verifyConsistency(1, leaf, wrong, top, row),
      () => merkle.inclusionPath(LEAVES, wrong), () => merkle.consistencyPath(LEAVES, wrong)]) {
      assert.throws(call, { name: "RangeError", code: "ERR_OUT_OF_RANGE" });
    }
  }
});

test("what no tree has proves nothing", () => {
  const path = PATH_OF_FIRST;
  for (const wrong of [...NO_SIZES, 8, 8n, MOST]) {
    assert.equal(merkle.verifyInclusion(LEAVES[0], wrong, 8, path, ROOTS[8]), false);
    assert.equal(merkle.verifyConsistency(wrong, ROOTS[1], 8, ROOTS[8], path), false);
  }
  for (const wrong of [...NO_SIZES, 0, 1, 9, 16, MOST]) {
    assert.equal(merkle.verifyInclusion(LEAVES[0], 0, wrong, path, ROOTS[8]), false);
    assert.equal(merkle.verifyConsistency(1, ROOTS[1], wrong, ROOTS[8], path), false);
  }
  assert.equal(merkle.verifyConsistency(0, ROOTS[0], 8, ROOTS[8], []), false);
  assert.equal(merkle.verifyConsistency(8, ROOTS[8], 8, ROOTS[8], []), false);
  for (const wrong of NO_HASHES) {
    const others = [path[0], wrong, path[2]];
    assert.equal(merkle.verifyInclusion(wrong, 0, 8, path, ROOTS[8]), false);
    assert.equal(merkle.verifyInclusion(LEAVES[0], 0, 8, path, wrong), false);
    assert.equal(merkle.verifyInclusion(LEAVES[0], 0, 8, others, ROOTS[8]), false);
    assert.equal(merkle.verifyConsistency(1, wrong, 8, ROOTS[8], path), false);
    assert.equal(merkle.verifyConsistency(1, ROOTS[1], 8, wrong, path), false);
    assert.equal(merkle.verifyConsistency(1, ROOTS[1], 8, ROOTS[8], others), false);
  }
  const long = Array(100000).fill(ROOTS[0]);
  assert.equal(merkle.verifyInclusion(LEAVES[0], 0, 8, long, ROOTS[8]), false);
});

test("leaves that have no path", () => {
  for (let size = 0; size <= 8; size++) {
    const leaves = LEAVES.slice(0, size), wanted = { name: "RangeError", code: "ERR_OUT_OF_RANGE" };
    for (const index of [size, size + 1, 2 ** 32, MOST, ...NO_SIZES]) {
      assert.throws(() => merkle.inclusionPath(leaves, index), wanted);
      assert.throws(() => merkle.consistencyPath(leaves, index), wanted);
    }
    assert.throws(() => merkle.consistencyPath(leaves, 0), wanted);
  }
  for (const wrong of NO_HASHES) {
    for (const call of [() => merkle.root([LEAVES[0], wrong]),
      () => merkle.inclusionPath([wrong], 0),
      () => merkle.consistencyPath([LEAVES[0], wrong], 1)]) {
      assert.throws(call, { code: "ERR_INVALID_ARG_VALUE", message: /32 bytes/ });
    }
  }
});

test("wrong types are refused", () => {
  const path = PATH_OF_FIRST, [leaf] = LEAVES, root = ROOTS[8];
  const detached = new Uint8Array(32);
  structuredClone(detached.buffer, { transfer: [detached.buffer] });
  const calls = [null, undefined, 7, {}, [7]].flatMap((it) => [
    () => merkle.leaf(it), () => merkle.root([it]), () => merkle.inclusionPath([it], 0),
    () => merkle.verifyInclusion(it, 0, 8, path, root),
    () => merkle.verifyInclusion(leaf, 0, 8, path, it),
    () => merkle.verifyInclusion(leaf, 0, 8, [...path, it], root),
    () => merkle.verifyConsistency(1, it, 8, root, path),
    () => merkle.verifyConsistency(1, leaf, 8, it, path),
  ]);
  for (const it of [null, undefined, 7, "", "text", new Uint8Array(0), path[0], {},
    new DataView(new ArrayBuffer(32)), { length: 1, 0: leaf }, () => {}]) {
    calls.push(() => merkle.root(it), () => merkle.inclusionPath(it, 0),
      () => merkle.consistencyPath(it, 1), () => merkle.verifyInclusion(leaf, 0, 1, it, leaf),
      () => merkle.verifyConsistency(1, leaf, 8, root, it));
  }
  for (const it of ["0", null, undefined, {}, true, new Number(0), Symbol("0")]) {
    calls.push(() => merkle.inclusionPath(LEAVES, it), () => merkle.consistencyPath(LEAVES, it),
      () => merkle.verifyInclusion(leaf, it, 8, path, root),
      () => merkle.verifyInclusion(leaf, 0, it, path, root),
      () => merkle.verifyConsistency(it, leaf, 8, root, path),
      () => merkle.verifyConsistency(1, leaf, it, root, path));
  }
  // Text is no hash, also where nothing of the rest is a tree's.
  calls.push(() => merkle.verifyInclusion(hex(leaf), 0, 8, path, root), () => merkle.root(["a"]),
    () => merkle.verifyInclusion(leaf, -1, 8, path, "root"), () => merkle.root([detached]),
    () => merkle.verifyInclusion(leaf, 0, 8, path.map(hex), root));
  for (const call of calls) assert.throws(call, TypeError, String(call));
});

test("hashes of each kind, which are read at once", () => {
  const shared = new Uint8Array(new SharedArrayBuffer(40)), [leaf] = LEAVES, root = ROOTS[8];
  shared.set(leaf, 3);
  const words = new Uint32Array(leaf.buffer.slice(leaf.byteOffset, leaf.byteOffset + 32));
  for (const it of [shared.subarray(3, 35), new DataView(shared.buffer, 3, 32), words,
    words.buffer]) {
    assert.equal(merkle.verifyInclusion(it, 0, 8, PATH_OF_FIRST, root), true);
    assert.deepEqual(merkle.root([it]), leaf);
  }
  // A path whose hashes are read from one buffer that changes.
  function* reading(path, buffer = Buffer.alloc(32)) {
    for (const it of path) {
      it.copy(buffer);
      yield buffer;
    }
  }
  assert.equal(merkle.verifyInclusion(leaf, 0, 8, reading(PATH_OF_FIRST), root), true);
  assert.deepEqual(merkle.root(reading(LEAVES)), root);
  class Lying extends Uint8Array {
    get length() { return 5; }
    get byteLength() { return 5; }
    slice() { return this; }
    [Symbol.iterator]() { throw new Error("asked"); }
  }
  assert.equal(merkle.verifyInclusion(Lying.from(leaf), 0, 8, PATH_OF_FIRST, root), true);
});

test("answers are bytes of their own, and no call leaves a byte in the module's memory", () => {
  const path = merkle.inclusionPath(LEAVES, 5);
  for (const it of [...path, merkle.leaf("entry"), merkle.root([]), LEAVES[0],
    ...merkle.consistencyPath(LEAVES, 3)]) {
    assert.ok(Buffer.isBuffer(it) && it.length === 32 && it.buffer.byteLength === 32);
  }
  const leaves = Array.from({ length: 3000 }, random), root = merkle.root(leaves);
  const calls = [
    () => merkle.leaf(crypto.randomBytes(300)), () => merkle.leaf(crypto.randomBytes(1 << 20)),
    () => merkle.root(leaves), () => merkle.inclusionPath(leaves, 2999),
    () => merkle.consistencyPath(leaves, 2047),
    () => merkle.verifyInclusion(leaves[1], 1, 3000, pathOf(1, leaves), root),
    () => merkle.verifyInclusion(leaves[1], 1, 3000, [], root),
    () => merkle.verifyConsistency(2, rootOf(leaves.slice(0, 2)), 3000, root,
      proofOf(2, leaves)),
    () => assert.throws(() => merkle.inclusionPath(leaves, 3000), RangeError),
  ];
  for (const call of calls) {
    call();
    assert.ok(isWiped(), String(call));
  }
});
