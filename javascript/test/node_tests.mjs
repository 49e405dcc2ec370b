// SPDX-License-Identifier: ISC
// node node_tests.mjs FOLDER: Node's own tests of what the package has, out of Node's source in
// FOLDER, over the package in the folder PACKAGE, by statements.cjs. What differs is listed in
// DIFFERENT with its reason: the list must be whole, and each of its lines must differ. It ends
// with status 1 where that isn't so.

import { execFileSync } from "node:child_process";

const FILES = [
  "parallel/test-crypto-hash.js",
  "parallel/test-crypto-hash-stream-pipe.js",
  "parallel/test-crypto-hmac.js",
  "parallel/test-crypto-hkdf.js",
  "parallel/test-crypto-lazy-transform-writable.js",
  "parallel/test-crypto-oneshot-hash.js",
  "parallel/test-crypto-pbkdf2.js",
  "parallel/test-webcrypto-digest.js",
  "sequential/test-crypto-timing-safe-equal.js",
];
const EMPTY_TAG = "a second `digest` of an Hmac gives an empty tag in Node, and an error here: "
  + "an empty tag equals another empty one";
const LONG_INFO = "an `info` of 1,025 bytes under an unknown digest: Node refuses the length, "
  + "which RFC 5869 does not limit, and this package the digest";
const DIFFERENT = {
  "parallel/test-crypto-hmac.js": {
    421: EMPTY_TAG, 426: EMPTY_TAG, 439: EMPTY_TAG, 444: EMPTY_TAG,
  },
  "parallel/test-crypto-hkdf.js": { 101: LONG_INFO, 106: LONG_INFO },
};

const statements = new URL("statements.cjs", import.meta.url).pathname;
let total = 0, faults = 0;
const reasons = new Map();

for (const file of FILES) {
  const words = ["--expose-internals", statements, `${process.argv[2]}/test/${file}`];
  const said = execFileSync(process.execPath, words, { encoding: "utf8" });
  const { count, differences } = JSON.parse(said.trim().split("\n").at(-1));
  const left = new Map(Object.entries(DIFFERENT[file] ?? {}));
  for (const { line, what } of differences) {
    const reason = left.get(String(line));
    left.delete(String(line));
    if (reason === undefined) console.log(`NOT LISTED: ${file}:${line} ${what}`, ++faults);
    else reasons.set(reason, (reasons.get(reason) ?? 0) + 1);
  }
  for (const line of left.keys()) console.log(`NOT DIFFERENT: ${file}:${line}`, ++faults);
  console.log(`${file}: ${count} assertions, ${differences.length} differ`);
  total += count;
}
for (const [reason, count] of reasons) console.log(`${count} times: ${reason}`);
const differ = [...reasons.values()].reduce((sum, it) => sum + it, 0);
console.log(`${total} assertions of Node's tests, ${differ} differ as listed, ${faults} faults`);
process.exitCode = faults === 0 ? 0 : 1;
