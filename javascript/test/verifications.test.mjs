// SPDX-License-Identifier: ISC
// node --test: the table of tests/verifications, the file VERIFICATIONS. Each call is made in all
// ways that the package has for it, over views and buffers of several kinds, and compared with the
// answer below it.

import assert from "node:assert/strict";
import crypto from "node:crypto";
import { readFileSync } from "node:fs";
import { test } from "node:test";
import { isWiped, yz } from "./package.mjs";

const values = new Map([["-", Buffer.alloc(0)]]);
const EDIT = /^@(v\d+)(?:=(\d+):(..)|<(\d+)|>(\d+)|\+(\w+))?$/;

// The bytes of a field: hex digits, or those that a line names, with an edit.
function of(field) {
  if (!field.startsWith("@")) return values.get(field) ?? Buffer.from(field, "hex");
  const [, name, at, byte, first, last, more] = EDIT.exec(field), value = values.get(name);
  if (at !== undefined) {
    const changed = Buffer.from(value);
    changed[at] = parseInt(byte, 16);
    return changed;
  }
  if (first !== undefined) return value.subarray(0, first);
  if (last !== undefined) return value.subarray(last);
  return Buffer.concat([value, Buffer.from(more ?? "", "hex")]);
}

// What a call is given in place of bytes, of one kind after another.
const KINDS = [
  (it) => it,
  (it) => new Uint8Array(it).buffer,
  (it) => new DataView(new Uint8Array([7, ...it, 7]).buffer, 1, it.length),
  (it) => {
    const shared = new Uint8Array(new SharedArrayBuffer(it.length + 3), 2, it.length);
    shared.set(it);
    return shared;
  },
  (it) => it.length % 2 === 0 ? new Uint16Array(new Uint8Array(it).buffer) : new Uint8Array(it),
];
// A message of another kind than a plain view is copied first: of long ones few are.
const kindOf = (count, it) => (it.length > 4096 && count % 50 ? KINDS[0] : KINDS[count % 5])(it);
let count = 0;
const given = (field) => kindOf(count, of(field));
const row = (bytes) => Array.from({ length: Math.ceil(bytes.length / 32) },
  (_, i) => kindOf(count + i, bytes.subarray(32 * i, 32 * i + 32)));

// What a call answers, or false where it is refused by an error of one of some names.
function refusedOr(names, call) {
  try {
    return call();
  } catch (error) {
    if (names.includes(error.name)) return false;
    throw error;
  }
}

async function agreed(...answers) {
  const found = await Promise.all(answers);
  for (const it of found) assert.deepEqual(it, found[0], "two ways of one call differ");
  return found[0];
}

// Fields as text, in a list, or none where one of them is not ASCII.
function textsOf(...fields) {
  const texts = fields.map((it) => of(it).toString("latin1"));
  return texts.some((it) => /[^\0-\x7f]/.test(it)) ? [] : [texts];
}

const keys = new Map();

// A key of `subtle`, which takes no empty one.
function subtleKey(name, field) {
  const made = keys.get(name + field) ?? yz.subtle.importKey("raw", of(field),
    { name: "HMAC", hash: name.replace("SHA", "SHA-") }, false, ["verify"]);
  keys.set(name + field, made);
  return made;
}

function tagInPieces(name, key, field, tag) {
  const message = of(field), first = Math.floor(message.length / 3);
  const running = yz.createHmac(name, given(key));
  const made = running.update(message.subarray(0, first)).update(message.subarray(first)).digest();
  return refusedOr(["RangeError"], () => yz.timingSafeEqual(made, given(tag)));
}

const CALLS = {
  "hmac-verify": async (name, key, message, tag) => agreed(
    yz.hmacVerify(name, given(key), given(message), given(tag)),
    tagInPieces(name, key, message, tag),
    ...(key === "-" ? [] : [yz.subtle.verify(
      "HMAC", await subtleKey(name, key), given(tag), given(message))])),
  "pbkdf2-verify": (name, iterations, secret, salt, value) =>
    yz.pbkdf2Verify(given(secret), given(salt), +iterations, given(value), name),
  "jws-verify": (alg, key, token) =>
    refusedOr(["RangeError"], () => yz.jws.verify(alg, given(key), given(token))) ?? false,
  "hotp-find": (name, key, first, count, digits, text) =>
    yz.otp.findHotp(name, given(key), given(text), { first: BigInt(first), count: BigInt(count),
      digits: +digits, allowShortKey: true }) ?? false,
  "totp-find": (name, key, time, step, back, ahead, digits, text) =>
    yz.otp.findTotp(name, given(key), given(text), { time: BigInt(time), step: +step, back: +back,
      ahead: +ahead, digits: +digits, allowShortKey: true }) ?? false,
  "merkle-inclusion": (hash, index, size, path, root) => yz.merkle.verifyInclusion(
    given(hash), BigInt(index), BigInt(size), row(of(path)), given(root)),
  "merkle-consistency": (firstSize, first, secondSize, second, path) =>
    yz.merkle.verifyConsistency(BigInt(firstSize), given(first), BigInt(secondSize), given(second),
      row(of(path))),
  "password-verify": async (text, password, most) => {
    const words = [given(text), given(password), { maxIterations: +most }];
    const names = ["RangeError", "TypeError"];
    const answer = refusedOr(names, () => yz.passwordHash.verifySync(...words));
    if (count % 8 !== 0) return answer;
    const later = yz.passwordHash.verify(...words).catch((error) => {
      if (names.includes(error.name)) return false;
      throw error;
    });
    return agreed(answer, later);
  },
  "webhook-hex": (name, prefix, secret, body, header) => agreed(
    ...[[given(header), given(prefix)], ...textsOf(header, prefix)].map(([it, front]) =>
      yz.webhook.verifyHex(name, given(secret), given(body), it, { prefix: front }))),
  "webhook-github": (secret, body, header) => agreed(...[[given(header)], ...textsOf(header)]
    .map(([it]) => yz.webhook.verifyGithub(given(secret), given(body), it))),
  "webhook-stripe": (secret, body, header, time, seconds) => {
    const options = { now: BigInt(time), tolerance: BigInt(seconds) };
    return agreed(...[[given(header)], ...textsOf(header)].map(([it]) =>
      yz.webhook.verifyStripe(given(secret), given(body), it, options)));
  },
  "tls13-finished": (name, key, transcript, data) => {
    const words = [name, given(key), given(transcript)];
    const made = refusedOr(["RangeError"], () => yz.tls13.finished(...words));
    return agreed(
      refusedOr(["RangeError"], () => yz.tls13.verifyFinished(...words, given(data))),
      made && refusedOr(["RangeError"], () => yz.timingSafeEqual(made, given(data))));
  },
  equal: (a, b) => refusedOr(["RangeError"], () => yz.timingSafeEqual(given(a), given(b))),
};
for (const word of ["merkle-inclusion", "merkle-consistency"]) {
  CALLS[`${word}-of-other-lengths`] = CALLS[word];
}

// Whether an answer is as the table has it.
function isWanted(answer, wanted) {
  if (typeof answer === "boolean") return wanted === (answer ? "match" : "mismatch");
  if (typeof answer === "bigint") return wanted === `${answer}`;
  return wanted !== "mismatch" && answer.equals(of(wanted));
}

const { VERIFICATIONS } = process.env, skip = !VERIFICATIONS && "`make js-test` has the table";
test("each call of the table of verifications is answered as it must be", { skip }, async () => {
  const counted = new Map(), wrong = [];
  let words;
  for (const line of readFileSync(VERIFICATIONS, "latin1").split("\n")) {
    if (line.startsWith("let ")) {
      const [, name, digits] = line.split(" ");
      values.set(name, Buffer.from(digits, "hex"));
    } else if (line.startsWith("#= ")) {
      const answer = await CALLS[words[0]](...words.slice(1));
      counted.set(words[0], (counted.get(words[0]) ?? 0) + 1);
      count++;
      const isRight = isWanted(answer, line.slice(3));
      if (!isRight) wrong.push(`${words.join(" ")}: ${answer}, not ${line}`);
      // The search takes longer than a call.
      if ((count % 16 === 0 || answer !== false) && !isWiped()) {
        wrong.push(`${words.join(" ")}: a byte is left in the module's memory`);
      }
    } else words = line.split(" ");
  }
  assert.equal(wrong.length, 0, wrong.slice(0, 5).join("\n"));
  assert.deepEqual([...counted.keys()].sort(), Object.keys(CALLS).sort());
});

test("calls that make an instance large verify each byte, and so do those behind them", () => {
  const LEN = (17 << 20) + 1, value = crypto.randomBytes(LEN), key = Buffer.alloc(64, 7);
  const changed = Buffer.from(value);
  changed[LEN - 1] ^= 1;
  const tag = crypto.createHmac("sha256", value).update("a").digest();
  const head = Buffer.from('{"alg":"HS256"}').toString("base64url");
  const signed = `${head}.${value.toString("base64url")}`;
  const signature = crypto.createHmac("sha256", key).update(signed).digest("base64url");
  const other = `${head}.${changed.toString("base64url")}.${signature}`;
  const derived = crypto.pbkdf2Sync("p", "s", 1, LEN, "sha512");
  const text = yz.passwordHash.newSync("phc-sha256", crypto.createHash("sha256").update(value)
    .digest(), { iterations: 2, salt: "salt" });
  // A password that is longer than a block stands for its digest.
  const most = { maxIterations: 2 };
  for (const [right, wrong] of [
    [() => yz.timingSafeEqual(value, value), () => yz.timingSafeEqual(value, changed)],
    [() => yz.hmacVerify("sha256", value, "a", tag),
      () => yz.hmacVerify("sha256", changed, "a", tag)],
    [() => yz.jws.verify("HS256", key, `${signed}.${signature}`).equals(value),
      () => yz.jws.verify("HS256", key, other) !== null],
    [() => yz.pbkdf2Verify("p", "s", 1, derived, "sha512"), () => {
      derived[LEN - 1] ^= 1;
      return yz.pbkdf2Verify("p", "s", 1, derived, "sha512");
    }],
    [() => yz.passwordHash.verifySync(text, value, most),
      () => yz.passwordHash.verifySync(text, changed, most)],
  ]) {
    assert.equal(right(), true, String(right));
    assert.equal(wrong(), false, String(wrong));
    assert.equal(yz.hmacVerify("sha256", "", "a", tag), false);
    assert.ok(isWiped());
  }
});
