// SPDX-License-Identifier: ISC
// node lowered.mjs [--callers] MODULE64 MODULE32 [TURNS]: both modules side by side, by calls at
// random, on garbage too. After each call the answers and the whole memories must be the same, or
// with --callers, of modules that are compiled otherwise, the memories of callers, past the stack
// and the constants. It ends with status 1 where they aren't.

import { createHmac } from "node:crypto";
import { readFileSync } from "node:fs";

const words = process.argv.slice(2), isOfCallers = words[0] === "--callers";
const [file64, file32, turns = "20000"] = isOfCallers ? words.slice(1) : words;
const both = [file64, file32].map((file) =>
  new WebAssembly.Instance(new WebAssembly.Module(readFileSync(file))).exports);
const memories = both.map((it) => new Uint8Array(it.memory.buffer));

let seed = 12345;
function below(bound) {
  seed = (Math.imul(seed, 1664525) + 1013904223) >>> 0;
  return Math.floor(seed / 2 ** 32 * bound);
}

// Places past the constants: three of inputs, one of outputs, two of contexts, two of keys, and one
// each of numbers and of a header.
const BASE = Math.max(
  ...both.map((it) => Math.ceil(Number(it.__heap_base?.value ?? 0) / 64) * 64));
const INPUTS = [BASE, BASE + 1024, BASE + 2048];
const OUTPUT = BASE + 4096;
const CONTEXTS = [BASE + 8192, BASE + 8200];
const KEYS = [BASE + 9216, BASE + 9224];
const TEXT_LEN = BASE + 10240;
const HEADER = BASE + 10752;
const LIST = BASE + 12288;
const END = BASE + 12544;

const oneOf = (list) => list[below(list.length)];
const input = () => [BigInt(oneOf(INPUTS) + below(8)), BigInt(below(below(2) ? 700 : 70))];
const algorithm = () => below(20) ? 1 + below(5) : below(8);
const output = (n) => [
  BigInt(OUTPUT + below(8)), below(10) ? both[0].yz_output_len(n) : BigInt(below(80)),
];
const longOutput = () => [BigInt(OUTPUT + below(8)), BigInt(below(600))];
const context = () => BigInt(oneOf(CONTEXTS));
const key = () => BigInt(oneOf(KEYS));
// A number of a scheme of password hashes, and wrong ones.
const scheme = () => below(14);
// Mostly the text that yz_password_hash_new has written.
const text = () => below(4) === 0 ? input() : [BigInt(OUTPUT),
  BigInt.asUintN(11, new DataView(both[0].memory.buffer).getBigUint64(TEXT_LEN, true))];
// Hashes in a row, room for a path, and an index or a size of a tree.
const hashes = () => [BigInt(oneOf(INPUTS) + below(8)), BigInt(below(20))];
const path = () => [BigInt(OUTPUT + below(8)), below(10) ? 65n : BigInt(below(4))];
const number = () => below(10) ? BigInt(below(20)) : 2n ** BigInt(below(64)) - BigInt(below(2));
const keyOfTokens = () => below(8) ? [BigInt(INPUTS[0]), 64n] : input();
const payload = () => [BigInt(oneOf(INPUTS) + below(8)), BigInt(below(600))];
const signed = () => below(4) === 0 ? input() : [BigInt(OUTPUT),
  BigInt.asUintN(10, new DataView(both[0].memory.buffer).getBigUint64(TEXT_LEN + 40, true))];
const digits = () => [BigInt(OUTPUT), BigInt(5 + below(5))];
const password = () => below(4) === 0 ? input() : digits();
// As many bytes as a digest has.
const digest = (n) =>
  [BigInt(oneOf(INPUTS) + below(8)), below(20) ? both[0].yz_output_len(n) : BigInt(below(80))];
const bytesAt = ([place, len]) => memories[0].slice(Number(place), Number(place + len));
// A header that is written to both memories: the right one of a secret and a body under SHA-256, and
// one time in four another.
function header(front, secret, before, body) {
  const tag = createHmac("sha256", bytesAt(secret)).update(before).update(bytesAt(body))
    .digest("hex");
  const text = Buffer.concat([Buffer.from(front), Buffer.from(tag)]);
  if (below(4) === 0) text[below(text.length)] ^= 1 << below(8);
  for (const it of memories) it.set(text, HEADER);
  return [BigInt(HEADER), BigInt(text.length)];
}
// The arguments of a call with so many inputs, an algorithm before them and an output behind.
const withInputs = (count) => (n = algorithm()) =>
  [n, ...Array.from({ length: count }, input).flat(), ...output(n)];

// Messages in a list, which is written before the call.
function messages(n) {
  const count = below(17), len = BigInt(count) * both[0].yz_output_len(n);
  for (let i = 0; i < 2 * count; i += 2) {
    const parts = below(3) ? input() : [BigInt(INPUTS[0]), 700n];
    for (const it of memories) {
      const view = new DataView(it.buffer);
      parts.forEach((word, j) => view.setBigUint64(LIST + 8 * (i + j), word, true));
    }
  }
  return [BigInt(LIST), BigInt(count), BigInt(OUTPUT), below(9) ? len : len + 1n];
}

const CALLS = {
  yz_digest: withInputs(1),
  yz_digest_each: (n = algorithm()) => [n, ...messages(n)],
  yz_digest_init: () => [algorithm(), context()],
  yz_digest_update: () => [context(), ...input()],
  yz_digest_final: () => [context(), ...output(algorithm())],
  yz_hmac_sign: withInputs(2),
  yz_hmac_verify: withInputs(2),
  yz_hmac_key_init: () => [algorithm(), ...input(), key()],
  yz_hmac_init: () => [key(), context()],
  yz_hmac_update: () => [context(), ...input()],
  yz_hmac_final: () => [context(), ...output(algorithm())],
  yz_hkdf: () => [algorithm(), ...input(), ...input(), ...input(), ...longOutput()],
  yz_hkdf_extract: withInputs(2),
  yz_hkdf_expand: () => [algorithm(), ...input(), ...input(), ...longOutput()],
  yz_hkdf_expand_label: () =>
    [algorithm(), ...input(), ...input(), ...input(), ...longOutput()],
  yz_password_hash_new: () => [scheme(), below(4), ...input(), ...input(), BigInt(OUTPUT),
    below(4) ? 1024n : BigInt(below(200)), BigInt(TEXT_LEN)],
  yz_password_hash_info: () => [...text(), BigInt(TEXT_LEN + 8), BigInt(TEXT_LEN + 16)],
  yz_password_hash_salt: () => [scheme(), BigInt(oneOf(INPUTS)), below(4) ? 16n : 15n,
    BigInt(INPUTS[0]), BigInt(below(40)), BigInt(TEXT_LEN + 24)],
  yz_password_hash_verify: () => [...text(), ...input(), below(4)],
  yz_pbkdf2_derive: () => [algorithm(), below(4), ...input(), ...input(), ...longOutput()],
  yz_pbkdf2_verify: () => [algorithm(), below(4), ...input(), ...input(), ...longOutput()],
  yz_merkle_leaf: () => [...input(), BigInt(OUTPUT + below(8))],
  yz_merkle_root: () => [...hashes(), BigInt(OUTPUT + below(8))],
  yz_merkle_inclusion_path: () => [...hashes(), number(), ...path(), BigInt(TEXT_LEN + 32)],
  yz_merkle_consistency_path: () => [...hashes(), number(), ...path(), BigInt(TEXT_LEN + 32)],
  // One time in four a tree of one leaf, whose root that is.
  yz_merkle_verify_inclusion: () => below(4) === 0
    ? [BigInt(INPUTS[0]), 0n, 1n, BigInt(INPUTS[1]), 0n, BigInt(INPUTS[0])]
    : [BigInt(INPUTS[0]), number(), number(), ...hashes(), BigInt(oneOf(INPUTS))],
  yz_merkle_verify_consistency: () =>
    [number(), BigInt(INPUTS[0]), number(), BigInt(oneOf(INPUTS)), ...hashes()],
  // Mostly the key of the others, and the text that yz_jws_sign or yz_hotp has written.
  yz_jws_sign: () => [oneOf([2, 3, algorithm()]), ...keyOfTokens(), ...payload(), BigInt(OUTPUT),
    below(4) ? 1024n : BigInt(below(200)), BigInt(TEXT_LEN + 40)],
  yz_jws_verify: () => [oneOf([2, 3, algorithm()]), ...keyOfTokens(), ...signed(),
    BigInt(INPUTS[2]), below(9) ? 1024n : BigInt(below(200)), BigInt(TEXT_LEN + 48)],
  yz_hotp: () => [algorithm(), ...keyOfTokens(), number(), ...digits()],
  yz_totp: () => [algorithm(), ...keyOfTokens(), number(), below(60), ...digits()],
  yz_hotp_find: () => [algorithm(), ...keyOfTokens(), number(), BigInt(below(20)),
    BigInt(5 + below(5)), ...password(), BigInt(TEXT_LEN + 56)],
  yz_totp_find: () => [algorithm(), ...keyOfTokens(), number(), below(60), below(4), below(4),
    BigInt(5 + below(5)), ...password(), BigInt(TEXT_LEN + 56)],
  yz_webhook_verify_hex: () => {
    const n = oneOf([2, algorithm()]), secret = input(), body = input(), prefix = input();
    return [n, ...secret, ...prefix, ...body, ...header(bytesAt(prefix), secret, "", body)];
  },
  yz_webhook_verify_github: () => {
    const secret = input(), body = input();
    return [...secret, ...body, ...header("sha256=", secret, "", body)];
  },
  yz_webhook_verify_stripe: () => {
    const secret = input(), body = input(), time = number();
    const text = header(`t=${time},v1=`, secret, `${time}.`, body);
    return [...secret, ...body, ...text, time + BigInt(below(3)), BigInt(below(3))];
  },
  yz_tls13_finished: () => {
    const n = algorithm();
    return [n, ...digest(n), ...digest(n), ...output(n)];
  },
  // Mostly over what yz_tls13_finished writes.
  yz_tls13_finished_verify: () => {
    const n = algorithm(), words = [n, ...digest(n), ...digest(n)];
    const data = [BigInt(OUTPUT), both[0].yz_output_len(n)];
    if (below(4)) both.forEach((it) => it.yz_tls13_finished(...words, ...data));
    return [...words, ...data];
  },
  yz_tls13_binder_key: () => {
    const n = algorithm();
    return [n, ...input(), below(2), ...output(n)];
  },
  yz_equal: () => {
    const [at, len] = input();
    return [at, len, BigInt(oneOf(INPUTS)), below(4) ? len : len + 1n];
  },
  yz_output_len: () => [algorithm()],
  yz_version: () => [],
};

function fail(what) {
  console.log(`the modules differ: ${what}`);
  process.exit(1);
}

// Only the module with vectors has the call.
if (both[1].yz_digest_each === undefined) delete CALLS.yz_digest_each;

const compared = isOfCallers ? memories.map((it) => it.subarray(BASE)) : memories;
const isSame = () => Buffer.compare(...compared) === 0;

// The same exports, of those that the lowered one kept, which are all that are tried.
const kept = Object.keys(both[1]).sort().join();
const tried = [...Object.keys(CALLS), "__heap_base", "memory"].sort().join();
if (kept !== tried) fail(`exports ${kept} in place of ${tried}`);
if (!isOfCallers && both[0].__heap_base.value !== both[1].__heap_base.value) {
  fail("where the constants end");
}
if (!isSame()) fail("the memories before any call");

const names = Object.keys(CALLS), answers = new Map();
for (let turn = 0; turn < Number(turns); turn++) {
  if (turn % 50 === 0) {
    for (let at = BASE; at < END; at++) memories[0][at] = memories[1][at] = below(256);
  }
  // What may be a context's or a key's first words.
  if (turn % 7 === 0) {
    const words = [1 + turn % 5, 0, 0, 0, turn % 64, 0, 0, 0];
    for (const it of memories) for (const at of [...CONTEXTS, ...KEYS]) it.set(words, at);
  }
  const name = oneOf(names), given = CALLS[name]();
  const [one, other] = both.map((it) => it[name](...given));
  if (one !== other) fail(`${name}(${given}) answers ${one} and ${other}`);
  if (!isSame()) fail(`${name}(${given}) leaves other memories`);
  const kind = name.endsWith("_len") || name === "yz_version" ? "a number" : `status ${one}`;
  answers.set(kind, (answers.get(kind) ?? 0) + 1);
}
const counts = [...answers].sort().map(([kind, count]) => `${count} ${kind}`).join(", ");
console.log(`${turns} calls are the same in both: ${counts}`);
