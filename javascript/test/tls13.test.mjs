// SPDX-License-Identifier: ISC
// node --test: Finished messages and PSK binders of TLS 1.3 by the package in the folder PACKAGE:
// the traces of RFC 8448, a reading of RFC 8446 over node:crypto, what is near a right verify_data,
// and what raises.

import assert from "node:assert/strict";
import crypto from "node:crypto";
import { test } from "node:test";
import { TAGS, instances, isWiped, linesOf, moduleBytes, unhex, yz } from "./package.mjs";
import { hex } from "./vectors.mjs";

const { PACKAGE } = process.env, NOTHING = Buffer.alloc(0);
const { binderKey, finished, verifyFinished } = yz.tls13;
const sizeOf = (name) => yz.digest(name, "").length;
const hmac = (name, key, message) => crypto.createHmac(name, key).update(message).digest();
const digest = (name, message) => crypto.createHash(name).update(message).digest();

// HKDF-Expand-Label (RFC 8446, 7.1) to a digest's length, by HKDF-Expand of node:crypto's HKDF,
// which is one block.
function expandLabel(name, secret, label, context) {
  const full = Buffer.from(`tls13 ${label}`), front = Buffer.of(0, sizeOf(name), full.length);
  const info = [front, full, Buffer.of(context.length), context, Buffer.of(1)];
  return hmac(name, secret, Buffer.concat(info));
}

// RFC 8446, 4.4.4.
const verifyData = (name, baseKey, hash) =>
  hmac(name, expandLabel(name, baseKey, "finished", NOTHING), hash);

// RFC 8446, 7.1.
const binderKeyOf = (name, psk, label) => expandLabel(
  name, hmac(name, Buffer.alloc(sizeOf(name)), psk), label, digest(name, NOTHING));

function isMade(name, baseKey, hash, wanted) {
  assert.equal(hex(finished(name, baseKey, hash)), hex(wanted));
  assert.equal(verifyFinished(name, baseKey, hash, wanted), true);
}

// What is near some bytes: each cut, each byte changed, and longer ones.
function near(value) {
  const found = [Buffer.concat([value, Buffer.of(0)]), Buffer.concat([value, value]),
    value.subarray(1), Buffer.alloc(value.length)];
  for (let at = 0; at < value.length; at++) {
    const changed = Buffer.from(value);
    changed[at] ^= 1 << at % 8;
    found.push(value.subarray(0, at), changed);
  }
  return found;
}

test("each Finished of the traces of RFC 8448, and the binder of section 4", () => {
  const lines = linesOf("schedules", "tls13");
  const secrets = new Map(lines.filter(({ words }) => words.at(-1) === "secret")
    .map(({ words, wanted }) => [words.slice(0, -1).join(" "), wanted]));
  let seen = 0, binders = 0;
  for (const { words: [name, psk, ...rest], wanted } of lines) {
    const [word, covered] = rest.at(-1).split(":");
    if (word !== "finished" || covered === undefined) continue;
    const known = secrets.get([name, psk, ...rest.slice(0, -1)].join(" "));
    const key = known === undefined ? binderKey(name, unhex(psk), { isExternal: false })
      : unhex(known);
    if (known === undefined) {
      const derived = linesOf("schedules", "expand-label")
        .find(({ words }) => words[2] === hex(Buffer.from("res binder")));
      assert.equal(hex(key), derived.wanted);
      binders++;
    }
    isMade(name, key, unhex(covered), unhex(wanted));
    seen++;
  }
  assert.deepEqual([seen, binders], [11, 1]);
});

test("beside RFC 8446 over node:crypto", () => {
  for (const name of TAGS) {
    const size = sizeOf(name);
    for (let turn = 0; turn < 50; turn++) {
      const [key, hash] = [crypto.randomBytes(size), crypto.randomBytes(size)];
      const right = verifyData(name, key, hash);
      isMade(name, key, hash, right);
      const [buffer, other] = [key, hash].map((it) => new Uint8Array(it).buffer);
      isMade({ name }, buffer, new DataView(other), right);
      assert.equal(verifyFinished(name, hash, key, right), false);
    }
    for (const len of [1, 16, 32, 48, 63, 64, 65, 128, 129, 5000]) {
      const psk = crypto.randomBytes(len);
      for (const [isExternal, label] of [[true, "ext binder"], [false, "res binder"]]) {
        const wanted = hex(binderKeyOf(name, psk, label));
        assert.equal(hex(binderKey(name, psk, { isExternal })), wanted);
        assert.equal(hex(binderKey(name, crypto.createSecretKey(psk), { isExternal })), wanted);
      }
    }
  }
});

test("what is near a Finished", () => {
  for (const name of TAGS) {
    const size = sizeOf(name), key = crypto.randomBytes(size), hash = crypto.randomBytes(size);
    const right = verifyData(name, key, hash);
    for (const it of near(right)) assert.equal(verifyFinished(name, key, hash, it), false);
    for (const it of near(key).filter(({ length }) => length === size)) {
      assert.equal(verifyFinished(name, it, hash, right), false);
    }
    for (const it of near(hash).filter(({ length }) => length === size)) {
      assert.equal(verifyFinished(name, key, it, right), false);
    }
  }
});

test("each refusal of TLS 1.3's calls", () => {
  const wrongLength = { name: "RangeError", code: "ERR_CRYPTO_INVALID_KEYLEN" };
  const wrongType = { name: "TypeError", code: "ERR_INVALID_ARG_TYPE" };
  for (const name of TAGS) {
    const right = Buffer.alloc(sizeOf(name)), data = verifyData(name, right, right);
    // A key and zeros behind it are one key to HMAC.
    for (const len of [0, 1, right.length - 1, right.length + 1, 2 * right.length, 5000]) {
      const other = Buffer.alloc(len);
      for (const words of [[other, right], [right, other], [other, other]]) {
        assert.throws(() => finished(name, ...words), wrongLength);
        assert.throws(() => verifyFinished(name, ...words, data), wrongLength);
      }
      assert.equal(verifyFinished(name, right, right, other), false);
    }
    for (const isExternal of [true, false]) {
      for (const psk of ["", NOTHING]) {
        assert.throws(() => binderKey(name, psk, { isExternal }), wrongLength);
      }
    }
  }
  const key = Buffer.alloc(32, 1);
  for (const name of ["md5", "sha512-256", ""]) {
    for (const call of [() => finished(name, key, key), () => verifyFinished(name, key, key, key),
      () => binderKey(name, key, { isExternal: true })]) {
      assert.throws(call, { name: "TypeError", code: "ERR_CRYPTO_INVALID_DIGEST" });
    }
  }
  for (const it of ["text", 7, null, undefined, {}, [1]]) {
    for (const call of [() => finished("sha256", it, key), () => finished("sha256", key, it),
      () => verifyFinished("sha256", it, key, key), () => verifyFinished("sha256", key, it, key),
      () => verifyFinished("sha256", key, key, it)]) {
      assert.throws(call, wrongType);
    }
    if (it === "text") continue;
    assert.throws(() => binderKey("sha256", it, { isExternal: true }), wrongType);
  }
  for (const options of [undefined, null, {}, { isExternal: "no" }, { isExternal: 1 }, true,
    { isExternal: null }]) {
    assert.throws(() => binderKey("sha256", key, options), wrongType);
  }
});

test("no call of TLS 1.3's leaves a byte in the module's memory", () => {
  const count = instances.length;
  for (const name of TAGS) {
    const secret = () => crypto.randomBytes(sizeOf(name)), key = secret(), hash = secret();
    for (const call of [() => finished(name, secret(), secret()),
      () => assert.equal(verifyFinished(name, key, hash, finished(name, key, hash)), true),
      () => verifyFinished(name, secret(), secret(), secret()),
      () => binderKey(name, crypto.randomBytes(300), { isExternal: true }),
      () => assert.throws(() => finished(name, crypto.randomBytes(99), secret()), RangeError),
      () => assert.throws(() => binderKey(name, "", { isExternal: false }), RangeError)]) {
      call();
      assert.ok(isWiped(), String(call));
    }
  }
  assert.equal(instances.length, count);
});

// The last, since it makes another instance of the module.
test("the same as browsers have it: answers are Uint8Arrays", async () => {
  const { $api, $calls } = await import(`${PACKAGE}/core.js`), { tls13, webhook } = $api;
  $calls.start(new WebAssembly.Module(moduleBytes));
  const key = crypto.randomBytes(32), words = ["sha256", key, digest("sha256", key)];
  const made = [tls13.finished(...words), tls13.binderKey("sha256", key, { isExternal: true })];
  for (const it of made) assert.equal(Object.getPrototypeOf(it), Uint8Array.prototype);
  assert.equal(hex(made[0]), hex(verifyData(...words)));
  assert.equal(hex(made[1]), hex(binderKeyOf("sha256", key, "ext binder")));
  assert.equal(tls13.verifyFinished(...words, made[0]), true);
  assert.equal(tls13.verifyFinished(...words, made[1]), false);
  const header = `t=7,v1=${hex(hmac("sha256", key, "7.{}"))}`;
  assert.equal(webhook.verifyStripe(key, "{}", header, { now: 307 }), true);
  assert.equal(webhook.verifyStripe(key, "{}", header, { now: 308 }), false);
  assert.throws(() => tls13.binderKey("sha256", crypto.createSecretKey(key), { isExternal: true }),
    TypeError);
});
