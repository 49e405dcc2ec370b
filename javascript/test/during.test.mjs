// SPDX-License-Identifier: ISC
// node --test: what callers do with their buffers once a call has begun, and other threads while it
// runs; and what calls on keys, tokens, trees and passwords leave in memory.

import assert from "node:assert/strict";
import crypto from "node:crypto";
import { once } from "node:events";
import { test } from "node:test";
import { pathToFileURL } from "node:url";
import { Worker } from "node:worker_threads";
import { TAGS, instances, isWiped, titleOf, yz } from "./package.mjs";

const { PACKAGE } = process.env;
const LONG = 300 * 1024; // `subtle` gives it to a worker
const HASHES = Object.fromEntries(TAGS.map((it) => [it, titleOf(it)]));

// What a caller does with a buffer: zeros are written, it is moved away, or it becomes shorter.
const SPOILERS = [
  (buffer) => new Uint8Array(buffer).fill(0),
  (buffer) => structuredClone(buffer, { transfer: [buffer] }),
  ...("resizable" in ArrayBuffer.prototype ? [(buffer) => buffer.resize(1)] : []),
];
// A buffer of these bytes, which can become shorter where the engine has such.
function bufferOf(bytes) {
  const buffer = new ArrayBuffer(bytes.length, { maxByteLength: bytes.length });
  new Uint8Array(buffer).set(bytes);
  return buffer;
}

const called = (call) => new Promise((resolve, reject) =>
  call((error, answer) => error ? reject(error) : resolve(answer)));
const key = crypto.randomBytes(32), salt = crypto.randomBytes(20);
const imported = (bytes, name, use, hash = "SHA-256") => yz.subtle.importKey(
  "raw", bytes, name === "HMAC" ? { name, hash } : name, false, [use]);

test("what a call is given may be spoilt once it has begun", async () => {
  const message = crypto.randomBytes(LONG), short = message.subarray(0, 100);
  const text = yz.passwordHash.newSync("phc-sha256", key, { iterations: 9, salt });
  const [signing, deriving] = [await imported(key, "HMAC", "sign"),
    await imported(key, "PBKDF2", "deriveBits")];
  const expanding = await imported(key, "HKDF", "deriveBits");
  const verifying = await imported(key, "HMAC", "verify");
  const hkdf = { name: "HKDF", hash: "SHA-256" };
  const pbkdf2 = { name: "PBKDF2", hash: "SHA-256", iterations: 9 };
  const tagOf = (it) => crypto.createHmac("sha256", key).update(it).digest();
  const bits = (it) => Buffer.from(it).toString("hex");
  // Each call's inputs, what it begins with them, and its answer.
  const calls = [
    [[message], (it) => yz.subtle.digest("SHA-256", it).then(bits)],
    [[short], (it) => yz.subtle.digest("SHA-256", it).then(bits)],
    [[message], (it) => yz.subtle.sign("HMAC", signing, it).then(bits)],
    [[tagOf(message), message], (...them) => yz.subtle.verify("HMAC", verifying, ...them)],
    [[tagOf(short), short], (...them) => yz.subtle.verify("HMAC", verifying, ...them)],
    [[salt, short], (one, other) =>
      yz.subtle.deriveBits({ ...hkdf, salt: one, info: other }, expanding, 256).then(bits)],
    [[salt], (it) => yz.subtle.deriveBits({ ...pbkdf2, salt: it }, deriving, 256).then(bits)],
    [[key], async (it) => {
      const made = await imported(it, "HMAC", "sign");
      return bits(await yz.subtle.sign("HMAC", made, message));
    }],
    [[key, salt], (one, other) =>
      called((done) => yz.pbkdf2(one, other, 9, 32, "sha256", done)).then(bits)],
    [[key, salt, short], (...them) =>
      called((done) => yz.hkdf("sha256", ...them, 32, done)).then(bits)],
    [[Buffer.from(text), key], (...them) =>
      yz.passwordHash.verify(...them, { maxIterations: 9 })],
    [[key, salt], (one, other) =>
      yz.passwordHash.new("phc-sha256", one, { iterations: 9, salt: other })],
    [[message, short], async (...them) => {
      const running = yz.createHash("sha256");
      for (const it of them) running.update(new Uint8Array(it));
      return running.copy().digest("hex");
    }],
  ];
  for (const [inputs, call] of calls) {
    const wanted = await call(...inputs.map(bufferOf));
    assert.notEqual(wanted, false, String(call));
    for (const spoil of SPOILERS) {
      const buffers = inputs.map(bufferOf), answer = call(...buffers);
      buffers.forEach(spoil);
      assert.equal(await answer, wanted, `${spoil} after ${call}`);
    }
  }
});

test("a shared token that others write is accepted with its own payload alone", async (t) => {
  const payload = new Uint8Array(LONG), token = Buffer.from(yz.jws.sign("HS256", key, payload));
  const shared = new Uint8Array(new SharedArrayBuffer(token.length)), place = token.length >> 1;
  shared.set(token);
  const program = `import { parentPort, workerData } from "node:worker_threads";
    parentPort.postMessage("writes");
    for (;;) for (const it of [0x42, 0x41]) workerData.shared[workerData.place] = it;`;
  const url = new URL(`data:text/javascript,${encodeURIComponent(program)}`);
  const worker = new Worker(url, { workerData: { shared, place } });
  t.after(() => worker.terminate());
  await once(worker, "message");
  let accepted = 0;
  for (let count = 0; count < 300; count++) {
    const found = yz.jws.verify("HS256", key, shared);
    if (found === null) continue;
    accepted++;
    assert.ok(found.equals(payload), "another payload");
  }
  console.log(`${accepted} of 300 were accepted`);
});

test("calls that are done where they are asked for wipe their words", async () => {
  const { jobsOf } = await import(pathToFileURL(`${PACKAGE}/jobs.js`).href);
  const calls = {
    hmac: (n, value, message) => Uint8Array.of(value[0], message[0]),
    fails: () => { throw new RangeError("no"); },
  };
  const secret = () => new Uint8Array(40).fill(0xaa);
  for (const maker of [null, async () => { throw new Error("no worker here"); }]) {
    const run = jobsOf(calls, maker), words = [secret(), secret(), secret(), secret()];
    assert.deepEqual(await run("hmac", [2, words[0], words[1]]), Uint8Array.of(0xaa, 0xaa));
    await assert.rejects(run("fails", [2, words[2], words[3]]), RangeError);
    for (const it of words) assert.ok(it.every((byte) => byte === 0));
  }
});

test("calls on tokens, trees and keys leave no byte in the module's memory", async () => {
  const { jws, merkle, otp, subtle } = yz, long = crypto.randomBytes(70000);
  const secret = () => crypto.randomBytes(64), leaves = [1, 2, 3].map((it) => merkle.leaf(`${it}`));
  const calls = [
    () => merkle.leaf(long), () => merkle.root(leaves),
    () => merkle.inclusionPath(leaves, 1), () => merkle.consistencyPath(leaves, 2),
    () => assert.throws(() => merkle.inclusionPath(leaves, 3), RangeError),
    () => merkle.verifyInclusion(leaves[0], 0, 3, merkle.inclusionPath(leaves, 0), leaves[1]),
    () => merkle.verifyConsistency(2, leaves[0], 3, leaves[1], leaves),
  ];
  for (const [name, hash] of Object.entries(HASHES)) {
    const window = { first: 0, count: 20 }, times = { time: 59 };
    const importing = (bytes, of, use) => imported(bytes, of, use, hash);
    calls.push(
      () => otp.hotp(name, secret(), 7), () => otp.totp(name, secret(), 59),
      () => otp.findHotp(name, secret(), "123456", window),
      () => otp.findTotp(name, secret(), "no otp", times),
      () => assert.throws(() => otp.hotp(name, "short", 7), RangeError),
      async () => subtle.sign("HMAC", await importing(secret(), "HMAC", "sign"), long),
      async () => subtle.verify(
        "HMAC", await importing(secret(), "HMAC", "verify"), secret(), long),
      async () => subtle.deriveBits({ name: "HKDF", hash, salt, info: long },
        await importing(secret(), "HKDF", "deriveBits"), 64),
      async () => subtle.deriveBits({ name: "PBKDF2", hash, salt, iterations: 2 },
        await importing(secret(), "PBKDF2", "deriveBits"), 64));
    if (name === "sha1") continue;
    const algorithm = `HS${hash.slice(4)}`;
    calls.push(
      () => jws.sign(algorithm, secret(), long),
      () => jws.verify(algorithm, key.toString("hex"),
        jws.sign(algorithm, key.toString("hex"), long)),
      () => jws.verify(algorithm, secret(), jws.sign(algorithm, secret(), long)),
      () => assert.throws(() => jws.sign(algorithm, "short", long), RangeError));
  }
  assert.equal(Object.keys(HASHES).length, TAGS.length);
  const count = instances.length;
  for (const call of calls) {
    await call();
    assert.ok(isWiped(), String(call));
  }
  assert.equal(instances.length, count);
});

test("keys and running digests are of one thread", async () => {
  const made = await imported(key, "HMAC", "sign");
  await assert.rejects(async () => yz.subtle.sign("HMAC", structuredClone(made), key), TypeError);
  for (const it of [yz.createHash("sha256"), yz.createHmac("sha256", key)]) {
    it.update("abc");
    let other = null;
    try {
      other = structuredClone(it);
    } catch (error) {
      assert.equal(error.name, "DataCloneError");
    }
    assert.equal(other?.digest, undefined);
    assert.equal(it.digest().length, 32);
  }
});
