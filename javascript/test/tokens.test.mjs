// SPDX-License-Identifier: ISC
// node --test: the signed tokens and one-time passwords of the package in the folder PACKAGE: the
// vectors of the RFCs, readings of RFC 7515, RFC 4226 and RFC 6238 over node:crypto, 2,000 altered
// tokens, jsonwebtoken and jose (Debian: node-jose) where they are, what is refused, and what
// raises.

import assert from "node:assert/strict";
import crypto from "node:crypto";
import { createRequire } from "node:module";
import { test } from "node:test";
import { TAGS, isWiped, linesOf, moduleBytes, unhex, yz } from "./package.mjs";
import { hex } from "./vectors.mjs";

const { PACKAGE } = process.env, { jws, otp } = yz;
// RFC 7518, 3.2: HS256 is HMAC under SHA-256, and so with the others but SHA-1.
const HASHES = Object.fromEntries(TAGS.slice(1).map((it) => [it.replace("sha", "HS"), it]));
const NAMES = Object.keys(HASHES);
// The headers that are read, and others that a reader with memory for JSON takes.
const USUAL = [(alg) => `{"alg":"${alg}","typ":"JWT"}`, (alg) => `{"typ":"JWT","alg":"${alg}"}`,
  (alg) => `{"alg":"${alg}"}`];
const OTHERS = [(alg) => `{"alg":"${alg}","kid":"1"}`, (alg) => `{"alg": "${alg}"}`,
  (alg) => `{"alg":"${alg}","typ":"JWT","crit":["exp"]}`, () => '{"alg":"none"}', () => "{}",
  () => "", (alg) => `{"alg":"${alg}","alg":"none"}`, (alg) => `{"typ":"JOSE","alg":"${alg}"}`];

// RFC 7515, 5.1, over node:crypto.
const base64url = (data) => Buffer.from(data).toString("base64url");
function tokenOf(alg, key, header, payload) {
  const signed = `${base64url(header)}.${base64url(payload)}`;
  return `${signed}.${crypto.createHmac(HASHES[alg], key).update(signed).digest("base64url")}`;
}

// Numbers that are the same at each run.
let seed = 70;
function below(bound) {
  seed = (Math.imul(seed, 1664525) + 1013904223) >>> 0;
  return Math.floor(seed / 2 ** 32 * bound);
}
const oneOf = (list) => list[below(list.length)];
const random = (len) => Buffer.from(Array.from({ length: len }, () => below(256)));
const sizeOf = (alg) => Number(alg.slice(2)) / 8;
const keyFor = (alg) => random(sizeOf(alg) + oneOf([0, 0, 1, 64, 150]));

test("tokens beside RFC 7515 over node:crypto", () => {
  for (let turn = 0; turn < 600; turn++) {
    const alg = oneOf(NAMES), key = keyFor(alg), payload = random(below(below(9) ? 90 : 3000));
    const token = jws.sign(alg, key, payload);
    assert.equal(token, tokenOf(alg, key, USUAL[0](alg), payload));
    for (const header of USUAL) {
      const other = tokenOf(alg, key, header(alg), payload);
      for (const it of [other, Buffer.from(other)]) {
        assert.deepEqual(jws.verify(alg, key, it), payload);
      }
    }
    for (const header of OTHERS) {
      assert.equal(jws.verify(alg, key, tokenOf(alg, key, header(alg), payload)), null);
    }
    const another = oneOf(NAMES.filter((it) => it !== alg));
    const long = Buffer.concat([key, random(64)]);
    assert.equal(jws.verify(another, long, token), null);
    assert.equal(jws.verify(another, long, tokenOf(another, long, USUAL[0](alg), payload)), null);
    assert.equal(jws.verify(alg, long, token), null);
  }
  const long = crypto.randomBytes(1 << 20), key = random(32);
  assert.deepEqual(jws.verify("HS256", key, jws.sign("HS256", key, long)), long);
});

// A token with a change, of each kind that readers have taken.
function altered(token) {
  const at = below(token.length), parts = token.split("."), part = below(3);
  const behind = (it) => parts.map((one, i) => i === part ? it(one) : one).join(".");
  const symbols = "ABCDEFGHIJKLMNOPQRSTUVWXYZabcdefghijklmnopqrstuvwxyz0123456789-_+/=. \n\0%";
  switch (below(12)) {
    case 0: return token.slice(0, at) + oneOf(symbols) + token.slice(at + 1);
    case 1: return token.slice(0, at) + token.slice(at + 1);
    case 2: return token.slice(0, at) + oneOf(symbols) + token.slice(at);
    case 3: return token.slice(0, at);
    case 4: return behind((it) => `${it}=`);
    // Spare bits of the last symbol.
    case 5: return behind((it) => it.slice(0, -1) + oneOf(symbols));
    case 6: return parts.slice(0, 2).join(".");
    case 7: return `${parts[0]}.${parts[1]}.`;
    case 8: return [...parts].reverse().join(".");
    case 9: return `${token}.${oneOf(parts)}`;
    case 10: return `${base64url('{"alg":"none"}')}.${parts[1]}.${oneOf(["", parts[2]])}`;
    default: return token.replace(/[A-Za-z]/, (it) =>
      it === it.toLowerCase() ? it.toUpperCase() : it.toLowerCase());
  }
}

test("2,000 altered tokens", () => {
  let count = 0;
  while (count < 2000) {
    const alg = oneOf(NAMES), key = keyFor(alg);
    const token = tokenOf(alg, key, oneOf(USUAL)(alg), random(below(60))), other = altered(token);
    if (other === token) continue;
    assert.equal(jws.verify(alg, key, other), null, other);
    count++;
  }
});

test("the token of RFC 7515, A.1, whose header is none of those that are read", () => {
  const lines = linesOf("tokens", "jws").filter(({ words: [call] }) => call === "verify");
  for (const { words: [, alg, key, token], wanted } of lines) {
    assert.equal(jws.verify(alg, unhex(key), token), null);
    if (wanted.startsWith("not")) continue;
    // Its payload and key under a header that is.
    const made = jws.sign(alg, unhex(key), unhex(wanted));
    assert.equal(made.split(".")[1], token.split(".")[1]);
    assert.equal(hex(jws.verify(alg, unhex(key), made)), wanted);
    assert.equal(jws.verify(alg, unhex(key), token.replace(/^[^.]*/, made.split(".")[0])), null);
  }
  assert.ok(lines.length > 3);
});

// Another library, or why it is left out.
function optional(name) {
  try {
    return { it: createRequire(import.meta.url)(name) };
  } catch {
    return { skip: `${name} is not installed` };
  }
}

const claimsOf = () =>
  ({ sub: hex(random(below(20))), iat: below(2 ** 31), admin: below(2) === 1 });
const jsonwebtoken = optional("jsonwebtoken"), jose = optional("jose");

test("jsonwebtoken, both ways", { skip: jsonwebtoken.skip }, () => {
  const { sign, verify } = jsonwebtoken.it;
  for (let turn = 0; turn < 200; turn++) {
    const algorithm = oneOf(NAMES), key = keyFor(algorithm), claims = claimsOf();
    const theirs = sign(claims, key, { algorithm });
    assert.deepEqual(JSON.parse(jws.verify(algorithm, key, theirs)), claims);
    const ours = jws.sign(algorithm, key, JSON.stringify(claims));
    assert.deepEqual(verify(ours, key, { algorithms: [algorithm] }), claims);
    const named = sign(claims, key, { algorithm, keyid: "1" });
    assert.equal(jws.verify(algorithm, key, named), null);
  }
});

test("jose, both ways", { skip: jose.skip }, async () => {
  const { CompactSign, SignJWT, compactVerify, jwtVerify } = jose.it;
  for (let turn = 0; turn < 200; turn++) {
    const alg = oneOf(NAMES), key = keyFor(alg), payload = random(below(90)), claims = claimsOf();
    const theirs = (header) => new CompactSign(payload).setProtectedHeader(header).sign(key);
    for (const header of [{ alg, typ: "JWT" }, { typ: "JWT", alg }, { alg }]) {
      assert.deepEqual(jws.verify(alg, key, await theirs(header)), payload);
    }
    assert.equal(jws.verify(alg, key, await theirs({ alg, kid: "1" })), null);
    const token = await new SignJWT(claims).setProtectedHeader({ alg, typ: "JWT" }).sign(key);
    assert.equal(token, jws.sign(alg, key, JSON.stringify(claims)));
    const algorithms = [alg], read = await jwtVerify(token, key, { algorithms });
    assert.deepEqual(read.payload, claims);
    const ours = await compactVerify(jws.sign(alg, key, payload), key, { algorithms });
    assert.equal(hex(ours.payload), hex(payload));
  }
});

// RFC 4226, 5.3, over node:crypto.
function passwordOf(hash, key, counter, digits) {
  const message = Buffer.alloc(8);
  message.writeBigUInt64BE(BigInt(counter));
  const tag = crypto.createHmac(hash, key).update(message).digest();
  const number = tag.readUInt32BE(tag.at(-1) & 15) & 0x7fffffff;
  return String(number % 10 ** digits).padStart(digits, "0");
}

test("the one-time passwords of RFC 4226, D, and RFC 6238, B", () => {
  const count = { hotp: 0, totp: 0, find: 0 };
  for (const { words, wanted } of linesOf("tokens", "hotp")) {
    if (words[0] === "find") {
      const [, name, key, first, many, digits, text] = words;
      const window = { first: BigInt(first), count: +many, digits: +digits };
      const found = otp.findHotp(name, unhex(key), text, window);
      assert.equal(found, wanted === "none" ? null : BigInt(wanted));
      count.find++;
    } else {
      const [name, key, counter, digits] = words;
      const text = otp.hotp(name, unhex(key), +counter, { digits: +digits });
      assert.equal(text, wanted.padStart(+digits, "0"));
      count.hotp++;
    }
  }
  for (const { words, wanted } of linesOf("tokens", "totp")) {
    if (words[0] === "find") {
      const [, name, key, ...numbers] = words, text = numbers.pop();
      const [time, step, back, ahead, digits] = numbers.map(Number);
      const found = otp.findTotp(name, unhex(key), text, { time, step, back, ahead, digits });
      assert.equal(found, wanted === "none" ? null : BigInt(wanted));
      count.find++;
    } else {
      const [name, key, time, step, digits] = words;
      const options = { step: +step, digits: +digits };
      const text = otp.totp(name, unhex(key), BigInt(time), options);
      assert.equal(text, wanted.padStart(+digits, "0"));
      count.totp++;
    }
  }
  assert.ok(count.hotp >= 10 && count.totp >= 18 && count.find >= 28);
});

const MOST = 2n ** 64n - 1n;

test("one-time passwords beside RFC 4226 over node:crypto", () => {
  for (let turn = 0; turn < 1000; turn++) {
    const hash = oneOf(TAGS), key = random(1 + below(199)), digits = 6 + below(3);
    const counter = oneOf([below(2 ** 31), 2n ** BigInt(below(64)), MOST, 0, 2 ** 53 - 1]);
    const text = passwordOf(hash, key, counter, digits), whole = BigInt(counter);
    const form = { digits, allowShortKey: true };
    assert.equal(otp.hotp(hash, key, counter, form), text);
    const step = oneOf([1, 30, 60, 2 ** 32 - 1]), time = whole * BigInt(step);
    if (time + BigInt(step) <= MOST) {
      for (const it of [time, time + BigInt(step - 1)]) {
        assert.equal(otp.totp(hash, key, it, { step, ...form }), text);
      }
    }
    // The first counter of a window that ends behind it, or at the end of 64 bits.
    const before = BigInt(below(4)), first = whole < before ? 0n : whole - before;
    const found = otp.findHotp(hash, key, text, { first, count: before + 3n, ...form });
    let wanted = first;
    while (passwordOf(hash, key, wanted, digits) !== text) wanted++;
    assert.equal(found, wanted);
    if (first < whole && wanted === whole) {
      const count = whole - first;
      assert.equal(otp.findHotp(hash, key, text, { first, count, ...form }), null);
    }
  }
  for (let turn = 0; turn < 300; turn++) {
    const key = random(20), time = 2 ** 31 + below(2 ** 31), now = BigInt(Math.floor(time / 30));
    const back = below(3), ahead = below(3), away = BigInt(below(7) - 3);
    const text = passwordOf("sha1", key, now + away, 6);
    const found = otp.findTotp("sha1", key, text, { time, back, ahead });
    let wanted = null;
    for (let it = now + BigInt(ahead); it >= now - BigInt(back); it--) {
      if (passwordOf("sha1", key, it, 6) === text) wanted = it;
    }
    assert.equal(found, wanted);
    assert.equal(otp.totp("sha1", key, time), passwordOf("sha1", key, now, 6));
  }
});

test("what a user types that is no password", () => {
  const key = Buffer.alloc(20, 7), right = otp.hotp("sha1", key, 3);
  const window = { first: 0, count: 9 };
  assert.equal(otp.findHotp("sha1", key, right, window), 3n);
  assert.equal(otp.findHotp("sha1", key, Buffer.from(right), window), 3n);
  const wrong = ["", "1", right.slice(1), `${right}0`, `0${right}`, ` ${right}`, `${right}\n`,
    `${right}\0`, [...right].map((it) => String.fromCodePoint(0x660 + +it)).join(""), "abcdef"];
  for (const it of wrong) {
    assert.equal(otp.findHotp("sha1", key, it, window), null);
    assert.equal(otp.findTotp("sha1", key, it, { time: 90 }), null);
  }
  assert.equal(otp.findHotp("sha1", key, right, { first: 0, count: 0 }), null);
  assert.equal(otp.findHotp("sha1", key, right, { first: 0, count: 3 }), null);
  assert.equal(otp.findHotp("sha1", key, right, { first: 4, count: 3 }), null);
  assert.equal(otp.findTotp("sha1", key, right, { time: 119, back: 0, ahead: 0 }), 3n);
  assert.equal(otp.findTotp("sha1", key, right, { time: 120, back: 0, ahead: 9 }), null);
  // Where nothing is said, one step on each side.
  for (const [time, found] of [[59, null], [60, 3n], [149, 3n], [150, null]]) {
    assert.equal(otp.findTotp("sha1", key, right, { time }), found);
  }
});

test("each refusal of tokens", () => {
  const key = Buffer.alloc(64, 1), token = jws.sign("HS256", key, "a payload");
  for (const name of ["none", "HS1", "hs256", "sha256", "RS256", "", "toString", 2, null, undefined,
    {}, ["HS256"]]) {
    for (const call of [() => jws.sign(name, key, ""), () => jws.verify(name, key, token)]) {
      assert.throws(call, { name: "TypeError", code: "ERR_INVALID_ARG_VALUE" });
    }
  }
  for (const alg of NAMES) {
    const short = key.subarray(0, sizeOf(alg) - 1);
    for (const it of [short, "", "secret"]) {
      for (const call of [() => jws.sign(alg, it, ""), () => jws.verify(alg, it, token)]) {
        assert.throws(call, { name: "RangeError", code: "ERR_CRYPTO_INVALID_KEYLEN" });
      }
    }
    assert.equal(jws.verify(alg, key.subarray(0, sizeOf(alg)), "no token"), null);
  }
  for (const it of ["", ".", "..", "...", "a.b.c", "\u20ac", "\ud800", Buffer.alloc(300),
    new ArrayBuffer(0)]) {
    assert.equal(jws.verify("HS256", key, it), null);
  }
  for (const it of [null, undefined, 7, {}, [token], { token }, () => token]) {
    for (const call of [() => jws.verify("HS256", key, it), () => jws.sign("HS256", key, it),
      () => jws.sign("HS256", it, "")]) {
      assert.throws(call, { name: "TypeError", code: "ERR_INVALID_ARG_TYPE" });
    }
  }
  assert.deepEqual(jws.verify("HS256", crypto.createSecretKey(key), token),
    Buffer.from("a payload"));
});

const KEY = "a key of 20 letters.";
test("each refusal of one-time passwords", () => {
  const { hotp, totp, findHotp, findTotp } = otp, window = { first: 0, count: 1 };
  for (const digits of [0, 5, 9, 11, -6, 6.5, NaN, 2 ** 32 + 6]) {
    for (const call of [() => hotp("sha1", KEY, 0, { digits }),
      () => totp("sha1", KEY, 0, { digits }),
      () => findHotp("sha1", KEY, "123456", { ...window, digits }),
      () => findTotp("sha1", KEY, "123456", { time: 0, digits })]) {
      assert.throws(call, { name: "RangeError", code: "ERR_OUT_OF_RANGE" });
    }
  }
  for (const it of [-1, -1n, 2n ** 64n, 2 ** 53, 2 ** 64, 1.5, NaN, Infinity]) {
    for (const call of [() => hotp("sha1", KEY, it), () => totp("sha1", KEY, it),
      () => findHotp("sha1", KEY, "123456", { first: it, count: 1 }),
      () => findHotp("sha1", KEY, "123456", { first: 0, count: it }),
      () => findTotp("sha1", KEY, "123456", { time: it })]) {
      assert.throws(call, { name: "RangeError", code: "ERR_OUT_OF_RANGE" });
    }
  }
  for (const step of [0, -30, 0.5, 2 ** 32, 2 ** 32 + 30]) {
    assert.throws(() => totp("sha1", KEY, 0, { step }), RangeError);
    assert.throws(() => findTotp("sha1", KEY, "123456", { time: 0, step }), RangeError);
  }
  for (const it of [-1, 1.5, 2 ** 32]) {
    for (const sides of [{ back: it }, { ahead: it }]) {
      assert.throws(() => findTotp("sha1", KEY, "123456", { time: 0, ...sides }), RangeError);
    }
  }
  for (const it of ["0", null, undefined, {}, true, new Date()]) {
    for (const call of [() => hotp("sha1", KEY, it), () => totp("sha1", KEY, it),
      () => findHotp("sha1", KEY, "123456", { first: it, count: 1 }),
      () => findTotp("sha1", KEY, "123456", { time: it }),
      () => findTotp("sha1", KEY, "123456", { time: 0, back: it ?? "1" })]) {
      assert.throws(call, { name: "TypeError", code: "ERR_INVALID_ARG_TYPE" });
    }
  }
  for (const call of [() => hotp("sha512-256", KEY, 0), () => totp("md5", KEY, 0),
    () => hotp("sha1", 7, 0), () => findHotp("sha1", KEY, 123456, window),
    () => findHotp("sha1", KEY, "123456"), () => findTotp("sha1", KEY, "123456", {})]) {
    assert.throws(call, TypeError);
  }
});

test("a short key of one-time passwords has to be allowed", () => {
  for (const length of [0, 1, 15, 16]) {
    const key = random(length), text = passwordOf("sha1", key, 7, 6);
    const calls = [[(more) => otp.hotp("sha1", key, 7, more), text],
      [(more) => otp.totp("sha1", key, 7 * 30, more), text],
      [(more) => otp.findHotp("sha1", key, text, { first: 7, count: 1, ...more }), 7n],
      [(more) => otp.findTotp("sha1", key, text, { time: 7 * 30, back: 0, ...more }), 7n]];
    for (const [call, wanted] of calls) {
      if (length > 0) assert.equal(call({ allowShortKey: true }), wanted);
      else assert.throws(() => call({ allowShortKey: true }), { name: "RangeError",
        code: "ERR_CRYPTO_INVALID_KEYLEN", message: /empty/ });
      if (length === 16) assert.equal(call({}), wanted);
      else {
        for (const more of [{}, { allowShortKey: false }, { allowShortKey: "yes" }]) {
          const message = /at least 16 bytes/, code = "ERR_CRYPTO_INVALID_KEYLEN";
          assert.throws(() => call(more), { name: "RangeError", code, message });
        }
      }
    }
  }
});

test("an error of a token tells no text that may be a secret", () => {
  const secret = "a secret";
  for (const call of [() => jws.sign("HS256", secret, ""), () => jws.verify("HS256", secret, ""),
    () => jws.sign(secret, Buffer.alloc(32), ""), () => jws.verify("HS256", [secret], "")]) {
    assert.throws(call, (it) => !/a secr/.test(it.message));
  }
});

test("no call leaves a byte in the module's memory", () => {
  for (const alg of NAMES) {
    const key = crypto.randomBytes(200), payload = crypto.randomBytes(300);
    const token = jws.sign(alg, key, payload), hash = HASHES[alg];
    const text = otp.hotp(hash, key, 5, { digits: 8 });
    const calls = [
      () => jws.sign(alg, key, crypto.randomBytes(300)), () => jws.sign(alg, key, "x".repeat(1e5)),
      () => assert.deepEqual(jws.verify(alg, key, token), payload),
      () => assert.equal(jws.verify(alg, key, `${token}x`), null),
      () => assert.equal(jws.verify(alg, key, tokenOf(alg, key, OTHERS[0](alg), payload)), null),
      () => otp.hotp(hash, crypto.randomBytes(200), 5),
      () => otp.totp(hash, crypto.randomBytes(20), 5),
      () => assert.equal(otp.findHotp(hash, key, text, { first: 0, count: 9, digits: 8 }), 5n),
      () => otp.findTotp(hash, key, text, { time: 150, digits: 8 }),
      () => assert.equal(otp.findTotp(hash, key, "text", { time: 150 }), null),
    ];
    for (const call of calls) {
      call();
      assert.ok(isWiped(), String(call));
    }
  }
});

// The last, since it makes another instance of the module.
test("the same as browsers have it: answers are Uint8Arrays", async () => {
  const { $api, $calls } = await import(`${PACKAGE}/core.js`);
  $calls.start(new WebAssembly.Module(moduleBytes));
  const key = random(32), payload = random(50), token = $api.jws.sign("HS256", key, payload);
  const leaves = ["a", "b", "c"].map($api.merkle.leaf), read = $api.jws.verify("HS256", key, token);
  assert.equal(token, jws.sign("HS256", key, payload));
  assert.deepEqual(Buffer.from(read), payload);
  assert.equal($api.jws.verify("HS256", key, `${token}x`), null);
  assert.equal($api.otp.hotp("sha1", key, 5n), otp.hotp("sha1", key, 5));
  assert.throws(() => $api.jws.sign("HS256", crypto.createSecretKey(key), ""), TypeError);
  const hashes = [...leaves, $api.merkle.root(leaves), ...$api.merkle.inclusionPath(leaves, 1)];
  for (const it of [read, ...hashes]) assert.equal(Object.getPrototypeOf(it), Uint8Array.prototype);
  assert.deepEqual(hashes.map(hex),
    [...leaves, yz.merkle.root(leaves), ...yz.merkle.inclusionPath(leaves, 1)].map(hex));
});
