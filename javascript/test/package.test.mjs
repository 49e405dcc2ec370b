// SPDX-License-Identifier: ISC
// node --test: the package in the folder PACKAGE, over the files of VECTORS.

import assert from "node:assert/strict";
import crypto from "node:crypto";
import { AsyncLocalStorage } from "node:async_hooks";
import { execFileSync } from "node:child_process";
import { once } from "node:events";
import { createReadStream, readFileSync } from "node:fs";
import { createRequire } from "node:module";
import { Readable } from "node:stream";
import { pipeline } from "node:stream/promises";
import { test } from "node:test";
import { promisify } from "node:util";
import { Worker } from "node:worker_threads";
import {
  NAMES, SHA256_OF_ABC, TAGS, instances, linesOf, main, theirs, titleOf, unhex, yz,
} from "./package.mjs";
import { FILES, hex, run } from "./vectors.mjs";

const { PACKAGE, VECTORS, VERSION } = process.env;

test("each vector, and WebCrypto's answers", async () => {
  const texts = FILES.map((it) => readFileSync(`${VECTORS}/${it}.txt`, "utf8"));
  const { agree, subtleAgrees, faults } = await run(yz, texts, crypto.webcrypto.subtle);
  console.log(`${agree} vectors agree, ${subtleAgrees} lines with WebCrypto`);
  assert.deepEqual(faults, []);
  const answers = texts.join("\n").match(/^#= /gm).length;
  assert.equal(agree, answers);
  assert.ok(answers > 300 && subtleAgrees > 200);
});

test("4,000 turns beside node:crypto", () => {
  let seed = 1;
  const below = (bound) => (seed = (Math.imul(seed, 1103515245) + 12345) >>> 0) % bound;
  for (let turn = 0; turn < 4000; turn++) {
    const name = NAMES[below(5)];
    const [a, b, c] = [600, 300, 200].map((len) => crypto.randomBytes(below(len)));
    assert.equal(hex(yz.digest(name, a)), theirs(name, a));
    const ours = yz.createHash(name), other = crypto.createHash(name);
    for (const it of [a, b, c]) ours.update(it), other.update(it);
    const copy = ours.copy();
    assert.equal(copy.digest("base64"), other.copy().digest("base64"));
    assert.equal(ours.copy().digest("base64url"), other.copy().digest("base64url"));
    assert.equal(ours.update(c).digest("hex"), other.update(c).digest("hex"));
    if (name === "sha512-256") continue;
    const tag = crypto.createHmac(name, a).update(b).update(c).digest();
    assert.equal(hex(yz.hmac(name, a, Buffer.concat([b, c]))), hex(tag));
    assert.equal(yz.createHmac(name, a).update(b).copy().update(c).digest("hex"), hex(tag));
    assert.equal(yz.hmacVerify(name, a, Buffer.concat([b, c]), tag), true);
    tag[below(tag.length)] ^= 1 << below(8);
    assert.equal(yz.hmacVerify(name, a, Buffer.concat([b, c]), tag), false);
    const len = 1 + below(300), derived = crypto.pbkdf2Sync(a, b, 3, len, name);
    assert.equal(hex(yz.pbkdf2Sync(a, b, 3, len, name)), hex(derived));
    assert.equal(yz.pbkdf2Verify(a, b, 3, derived, name), true);
    derived[below(len)] ^= 1 << below(8);
    assert.equal(yz.pbkdf2Verify(a, b, 3, derived, name), false);
    const okm = Buffer.from(crypto.hkdfSync(name, a, b, c, len));
    assert.equal(hex(yz.hkdfSync(name, a, b, c, len)), hex(okm));
    assert.equal(hex(yz.hkdfExpand(name, yz.hkdfExtract(name, a, b), c, len)), hex(okm));
  }
});

test("messages longer than the pieces that are copied in", () => {
  for (const len of [65535, 65536, 65537, 200000, 3 << 20]) {
    const message = crypto.randomBytes(len);
    for (const name of NAMES) {
      const running = yz.createHash(name);
      for (let at = 0; at < len; at += 100001) running.update(message.subarray(at, at + 100001));
      assert.equal(running.digest("hex"), theirs(name, message));
      assert.equal(hex(yz.digest(name, message)), theirs(name, message));
    }
    for (const name of TAGS) {
      const tag = crypto.createHmac(name, "key").update(message).digest();
      assert.equal(hex(yz.hmac(name, "key", message)), hex(tag));
      assert.equal(yz.hmacVerify(name, "key", message, tag), true);
      assert.equal(yz.hmacVerify(name, "key", message, tag.subarray(1)), false);
      tag[3] ^= 1;
      assert.equal(yz.hmacVerify(name, "key", message, tag), false);
    }
  }
});

test("names of algorithms", () => {
  for (const name of ["sha256", "SHA256", "SHA-256", "sha-256", { name: "SHA-256" }]) {
    assert.equal(yz.createHash(name).update("abc").digest("hex"), SHA256_OF_ABC);
  }
  assert.equal(hex(yz.digest("SHA-512/256", "abc")), theirs("sha512-256", "abc"));
  assert.deepEqual(yz.getHashes(), NAMES);
  const none = ["md5", "sha", "sha2-56", "sha--256", "toString", "", 2, null, undefined, {},
    { name: 2 }, ["sha256"], Symbol("sha256")];
  for (const name of none) {
    const isText = typeof (name?.name ?? name) === "string";
    for (const call of [() => yz.digest(name, ""), () => yz.createHash(name)]) {
      assert.throws(call, isText ? /not supported/ : { code: "ERR_INVALID_ARG_TYPE" });
    }
    for (const call of [() => yz.createHmac(name, ""), () => yz.hkdfSync(name, "", "", "", 1),
      () => yz.pbkdf2Sync("", "", 1, 1, name)]) {
      assert.throws(call, { name: "TypeError",
        code: isText ? "ERR_CRYPTO_INVALID_DIGEST" : "ERR_INVALID_ARG_TYPE" });
    }
  }
  for (const name of ["RSA-SHA256", "sha256WithRSAEncryption", "SHA2-256"]) {
    assert.equal(yz.hash(name, "abc"), SHA256_OF_ABC);
  }
});

test("each kind of input", () => {
  const bytes = new TextEncoder().encode("xabcx"), shared = new SharedArrayBuffer(5);
  new Uint8Array(shared).set(bytes);
  const words = new Uint16Array(bytes.slice(0, 4).buffer);
  const kinds = ["abc", bytes.subarray(1, 4), bytes.slice(1, 4).buffer, Buffer.from("abc"),
    new DataView(bytes.buffer, 1, 3), new Uint8Array(shared, 1, 3), new DataView(shared, 1, 3)];
  for (const it of kinds) {
    assert.equal(hex(yz.digest("sha256", it)), SHA256_OF_ABC);
    assert.equal(yz.createHash("sha256").update(it).digest("hex"), SHA256_OF_ABC);
  }
  assert.equal(hex(yz.digest("sha256", shared)), theirs("sha256", "xabcx"));
  assert.equal(hex(yz.digest("sha256", words)), theirs("sha256", "xabc"));
  const text = "\u00e9\ud83d\ude00";
  assert.equal(hex(yz.digest("sha256", text)), theirs("sha256", text));
  assert.equal(yz.createHash("sha256").update("abc", "utf8").digest("hex"), SHA256_OF_ABC);
});

test("what lies of itself is read as it is", () => {
  class Lying extends Uint8Array {
    get length() { return 1e6; }
    get byteLength() { return 1; }
    get byteOffset() { return 2; }
    get buffer() { return new ArrayBuffer(7); }
    get [Symbol.toStringTag]() { return "DataView"; }
    subarray() { return this; }
    slice() { return this; }
    keys() { throw new Error("asked"); }
    [Symbol.iterator]() { throw new Error("asked"); }
  }
  class LyingView extends DataView {
    get byteLength() { return 1; }
    get byteOffset() { return 0; }
    get buffer() { return new ArrayBuffer(7); }
    get [Symbol.toStringTag]() { return "Uint8Array"; }
  }
  class LyingBuffer extends ArrayBuffer {
    get byteLength() { return 1e6; }
    slice() { return new ArrayBuffer(7); }
  }
  const buffer = new LyingBuffer(3);
  new Uint8Array(buffer).set([97, 98, 99]);
  const view = new LyingView(Uint8Array.of(0, 97, 98, 99).buffer, 1);
  for (const it of [Lying.from([97, 98, 99]), view, buffer, new Lying(buffer)]) {
    assert.equal(hex(yz.digest("sha256", it)), SHA256_OF_ABC);
  }
  const key = Lying.from([1, 2, 3]), tag = crypto.createHmac("sha1", Buffer.of(1, 2, 3)).digest();
  assert.equal(hex(yz.hmac("sha1", key, "")), hex(tag));
  assert.equal(yz.hmacVerify("sha1", key, "", Lying.from(tag)), true);
  assert.equal(yz.timingSafeEqual(Lying.from(tag), tag), true);
});

test("what is no input is refused", () => {
  const pretenders = [3, null, undefined, {}, [97, 98], { length: 3 }, new Set(), () => {}, 5n,
    true, Object.create(Uint8Array.prototype), Object.create(DataView.prototype),
    Object.create(ArrayBuffer.prototype), { __proto__: ArrayBuffer.prototype, byteLength: 3 },
    new Proxy(new Uint8Array(3), {}), new Proxy(new ArrayBuffer(3), {})];
  for (const it of pretenders) {
    for (const call of [() => yz.digest("sha1", it), () => yz.createHmac("sha1", it),
      () => yz.createHash("sha1").update(it), () => yz.hkdfSync("sha1", "", it, "", 1),
      () => yz.pbkdf2Sync(it, "", 1, 1, "sha1"), () => yz.timingSafeEqual(it, new Uint8Array(3))]) {
      assert.throws(call, TypeError);
    }
  }
  // Text stands for no tag, no derived key and no PRK.
  assert.throws(() => yz.hmacVerify("sha1", "", "", "a"), TypeError);
  assert.throws(() => yz.pbkdf2Verify("", "", 1, "a", "sha1"), TypeError);
  assert.throws(() => yz.hkdfExpand("sha1", "a", "", 1), TypeError);
  assert.throws(() => yz.timingSafeEqual("a", "a"), TypeError);
});

test("detached buffers are refused", () => {
  for (const len of [0, 3]) {
    const buffer = new ArrayBuffer(len), views = [new Uint8Array(buffer), new DataView(buffer)];
    structuredClone(buffer, { transfer: [buffer] });
    for (const it of [buffer, ...views]) assert.throws(() => yz.digest("sha1", it), TypeError);
  }
});

const fixed = !("resizable" in ArrayBuffer.prototype) && "this Node has no buffers that shrink";
test("buffers that have shrunk are refused", { skip: fixed }, () => {
  const buffer = new ArrayBuffer(8, { maxByteLength: 16 });
  const views = [new Uint8Array(buffer, 2, 6), new DataView(buffer, 2, 6)];
  buffer.resize(4);
  for (const it of views) assert.throws(() => yz.digest("sha1", it), TypeError);
  assert.equal(hex(yz.digest("sha1", new Uint8Array(buffer))), theirs("sha1", Buffer.alloc(4)));
});

test("each refusal", () => {
  assert.throws(() => yz.createHmac("sha512-256", ""), TypeError);
  assert.throws(() => yz.hmac("sha512-256", "", ""), TypeError);
  assert.throws(() => yz.hkdfSync("sha512-256", "", "", "", 1), TypeError);
  assert.throws(() => yz.pbkdf2Verify("", "", 1, new Uint8Array(1), "sha512-256"), TypeError);
  for (const name of TAGS) {
    const most = 255 * yz.digest(name, "").length;
    assert.equal(yz.hkdfSync(name, "", "", "", most).byteLength, most);
    assert.throws(() => yz.hkdfSync(name, "", "", "", most + 1), RangeError);
    assert.throws(() => yz.hkdfExpand(name, new Uint8Array(0), "", most + 1), RangeError);
  }
  for (const len of [-1, 1.5, NaN, "3", undefined, 2 ** 53, 2 ** 31, 2 ** 32 + 8]) {
    const wanted = typeof len === "number" ? RangeError : TypeError;
    assert.throws(() => yz.hkdfSync("sha1", "", "", "", len), wanted);
    assert.throws(() => yz.pbkdf2Sync("", "", 1, len, "sha1"), wanted);
    assert.throws(() => yz.pbkdf2("", "", 1, len, "sha1", () => {}), wanted);
  }
  for (const iterations of [0, -1, 1.5, 2 ** 31, 2 ** 32, 2 ** 32 + 1, NaN, "1", undefined]) {
    const wanted = typeof iterations === "number" ? RangeError : TypeError;
    assert.throws(() => yz.pbkdf2Sync("", "", iterations, 1, "sha1"), wanted);
    assert.throws(() => yz.pbkdf2("", "", iterations, 1, "sha1", () => {}), wanted);
    assert.throws(() => yz.pbkdf2Verify("", "", iterations, new Uint8Array(1), "sha1"), wanted);
  }
  assert.equal(yz.pbkdf2Sync("", "", 1, 0, "sha1").length, 0);
  assert.equal(yz.pbkdf2Verify("", "", 1, new Uint8Array(0), "sha1"), false);
  assert.throws(() => yz.timingSafeEqual(new Uint8Array(1), new Uint8Array(2)), RangeError);
  assert.equal(yz.timingSafeEqual(Uint8Array.of(1, 2), Uint8Array.of(1, 2)), true);
  assert.equal(yz.timingSafeEqual(Uint8Array.of(1, 2), Uint8Array.of(1, 3)), false);
  assert.equal(yz.timingSafeEqual(new Uint8Array(0), new Uint8Array(0)), true);
});

test("Node's shape: Buffers, encodings, options, classes, keys as objects", () => {
  const message = "\u00e9 abc", ours = yz.createHash("sha256"), other = crypto.createHash("sha256");
  for (const it of [ours, other]) {
    it.update(message).update("6162", "hex").update("\u00e9", "Latin1");
  }
  for (const it of ["hex", "HEX", "base64", "base64url", "latin1", "binary", "ucs2", "buffer",
    undefined]) {
    assert.deepEqual(ours.copy().digest(it), other.copy().digest(it));
  }
  assert.ok(Buffer.isBuffer(ours.digest()));
  for (const call of [() => ours.digest(), () => ours.update(""), () => ours.copy()]) {
    assert.throws(call, { code: "ERR_CRYPTO_HASH_FINALIZED" });
  }
  for (const encoding of ["hex", "base64", "buffer", undefined]) {
    assert.deepEqual(yz.hash("sha1", "abc", encoding), crypto.createHash("sha1").update("abc")
      .digest(encoding ?? "hex"));
  }
  assert.throws(() => yz.createHash("sha1").digest("no such"), { code: "ERR_UNKNOWN_ENCODING" });
  assert.throws(() => yz.createHash("sha1").update("616", "hex"),
    { code: "ERR_INVALID_ARG_VALUE" });
  assert.throws(() => yz.createHash("sha1", { outputLength: 8 }), /XOF/);
  const tag = crypto.createHmac("sha256", "k").update("m").digest("hex");
  const key = crypto.createSecretKey(Buffer.from("k"));
  const { publicKey } = crypto.generateKeyPairSync("ed25519");
  assert.equal(yz.createHmac("sha256", key).update("m").digest("hex"), tag);
  assert.equal(yz.createHmac("sha256", "6b", { encoding: "hex" }).update("m").digest("hex"), tag);
  assert.deepEqual(yz.hkdfSync("sha256", key, "s", "i", 40),
    crypto.hkdfSync("sha256", "k", "s", "i", 40));
  assert.throws(() => yz.createHmac("sha256", publicKey),
    { code: "ERR_CRYPTO_INVALID_KEY_OBJECT_TYPE" });
  assert.ok(yz.Hash("sha1") instanceof yz.Hash && yz.createHmac("sha1", "") instanceof yz.Hmac);
  assert.equal(yz.default.createHash, yz.createHash);
});

test("streams", async () => {
  const pieces = () => Readable.from([Buffer.from("a"), "b", Buffer.from("c")]);
  const piped = yz.createHash("sha256");
  await pipeline(pieces(), piped);
  assert.throws(() => piped.digest("no such"), { code: "ERR_UNKNOWN_ENCODING" });
  assert.equal(piped.digest("hex"), SHA256_OF_ABC);
  assert.throws(() => piped.digest("hex"), { code: "ERR_CRYPTO_HASH_FINALIZED" });
  const read = pieces().pipe(yz.createHash("sha256")).setEncoding("hex");
  assert.equal((await read.toArray()).join(""), SHA256_OF_ABC);
  const tagged = yz.createHmac("sha1", "k");
  tagged.write("a");
  tagged.end("bc");
  assert.deepEqual(tagged.read(), crypto.createHmac("sha1", "k").update("abc").digest());
  const wrong = yz.createHash("sha1");
  wrong.digest();
  await assert.rejects(pipeline(pieces(), wrong), { code: "ERR_CRYPTO_HASH_FINALIZED" });
});

test("callbacks come later, in the caller's context, and the loop goes on", async () => {
  const later = promisify(yz.pbkdf2), words = ["p", "s", 200000, 40, "sha512"];
  let turns = 0;
  const timer = setInterval(() => turns++, 5);
  const all = await Promise.all(Array.from({ length: 6 }, () => later(...words)));
  clearInterval(timer);
  assert.ok(turns > 5);
  const wanted = crypto.pbkdf2Sync(...words);
  for (const it of all) assert.ok(Buffer.isBuffer(it) && it.equals(wanted));
  const password = Buffer.from("p"), changed = later(password, ...words.slice(1));
  password[0]++;
  assert.deepEqual(await changed, wanted);
  assert.deepEqual(await promisify(yz.hkdf)("sha1", "k", "s", "i", 99),
    crypto.hkdfSync("sha1", "k", "s", "i", 99));
  const store = new AsyncLocalStorage();
  const told = await store.run(5, () => new Promise((resolve) =>
    yz.pbkdf2("p", "s", 1, 1, "sha1", () => resolve(store.getStore()))));
  assert.equal(told, 5);
  for (const callback of [undefined, null, 5, {}]) {
    for (const call of [() => yz.pbkdf2("p", "s", 1, 1, "sha1", callback),
      () => yz.hkdf("sha1", "", "", "", 1, callback)]) {
      assert.throws(call, { code: "ERR_INVALID_ARG_TYPE" });
    }
  }
  await assert.rejects(later("p", "s", 1, 2 ** 31 - 1, "sha1"), { code: "ERR_YEZDOPIN" });
});

test("an error tells no text that may be a secret", () => {
  for (const call of [() => yz.timingSafeEqual("a secret", Buffer.alloc(1)),
    () => yz.hkdfExpand("sha1", "a secret", "", 1),
    () => yz.hmacVerify("sha1", "", "", "a secret")]) {
    assert.throws(call, (it) => it.code === "ERR_INVALID_ARG_TYPE" && !/a secr/.test(it.message));
  }
});

test("labels of TLS and QUIC, by the vectors of the RFCs", () => {
  const lines = linesOf("schedules", "expand-label");
  for (const { words: [name, secret, label, context, len], wanted } of lines) {
    const [it, labelBytes, contextBytes] = [secret, label, context].map(unhex);
    assert.equal(hex(yz.hkdfExpandLabel(name, it, labelBytes, contextBytes, +len)), wanted);
  }
  assert.ok(lines.length > 50);
  for (const label of ["", "x".repeat(250)]) {
    assert.throws(() => yz.hkdfExpandLabel("sha256", Buffer.alloc(32), label, "", 32), RangeError);
  }
});

// A refusal as the vectors have it.
const statusOf = ({ message }) =>
  /more iterations/.test(message) ? "too many iterations" : "not a password hash";

test("password hashes, by the vectors of other systems", async () => {
  const told = { true: "ok", false: "wrong password" }, count = {};
  for (const { words: [text, password, most], wanted } of linesOf("password_hashes", "verify")) {
    const words = [text, unhex(password), { maxIterations: +most }];
    const later = yz.passwordHash.verify(...words).then((it) => told[it], statusOf);
    let answer;
    try {
      answer = told[yz.passwordHash.verifySync(...words)];
    } catch (error) {
      answer = statusOf(error);
    }
    assert.ok(wanted.startsWith(answer), `${text}: ${answer}`);
    assert.equal(await later, answer);
    count[answer] = (count[answer] ?? 0) + 1;
  }
  assert.ok(count.ok > 9 && count["wrong password"] > 9 && count["too many iterations"] > 9);
  for (const { words: [text], wanted } of linesOf("password_hashes", "read")) {
    const [scheme, iterations] = wanted.split(" ");
    assert.equal(yz.passwordHash.isSupported(text), scheme !== "not", text);
    if (scheme === "not") assert.throws(() => yz.passwordHash.info(text), /no password hash/);
    else assert.deepEqual(yz.passwordHash.info(text), { scheme, iterations: +iterations });
  }
  const makes = linesOf("password_hashes", "make");
  for (const { words: [scheme, iterations, salt, password], wanted } of makes) {
    const options = { iterations: +iterations, salt: unhex(salt) };
    assert.equal(yz.passwordHash.newSync(scheme, unhex(password), options), wanted);
    assert.equal(await yz.passwordHash.new(scheme, unhex(password), options), wanted);
  }
  assert.ok(makes.length > 9);
});

test("the page's login, over a table of several schemes", async () => {
  const page = readFileSync(new URL("../README.md", import.meta.url), "utf8");
  const [, block] = /^```js\n(const LIMIT[^]*?)^```/m.exec(page);
  const logIn = new Function("passwordHash", `${block.replaceAll("600000", "10")}; return logIn;`)(
    yz.passwordHash);
  const others = async (row, password) => row === "$2b$other" && password === "pw";
  const made = (scheme, iterations) => yz.passwordHash.newSync(scheme, "pw", { iterations });
  for (const [row, isOld] of [[made("phc-sha256", 10), false], [made("phc-sha256", 9), true],
    [made("werkzeug-sha512", 20), true], ["$2b$other", true]]) {
    const kept = [];
    assert.equal(await logIn(row, "px", others, (it) => kept.push(it)), false);
    assert.deepEqual(kept, []);
    assert.equal(await logIn(row, "pw", others, (it) => kept.push(it)), true);
    assert.equal(kept.length, isOld ? 1 : 0, row);
    for (const it of kept) assert.equal(await logIn(it, "pw", others), true);
  }
  const costly = made("phc-sha256", 10).replace("i=10,", "i=4294967295,");
  for (const row of [null, undefined, "", "!", "x".repeat(5000), costly]) {
    assert.equal(await logIn(row, "pw", others), false);
  }
});

test("new password hashes have salts of their own, and refusals", async () => {
  for (const scheme of yz.passwordHash.SCHEMES) {
    const [one, other] = await Promise.all([1, 2].map(() =>
      yz.passwordHash.new(scheme, "pw", { iterations: 10 })));
    assert.notEqual(one, other);
    assert.deepEqual(yz.passwordHash.info(one), { scheme, iterations: 10 });
    for (const [word, isRight] of [["pw", true], ["px", false]]) {
      assert.equal(await yz.passwordHash.verify(one, word, { maxIterations: 10 }), isRight);
    }
  }
  const { isSupported, verify, newSync } = yz.passwordHash, { name: noLimit } = TypeError;
  for (const text of ["", "!", "$2b$12$R9h/cIPz0gi.URNNX3kh2O", "x".repeat(1025), new Uint8Array(9)]) {
    assert.equal(isSupported(text), false);
  }
  assert.throws(() => isSupported(null), TypeError);
  const most = { maxIterations: 9 };
  await assert.rejects(verify("nothing", "pw", most), /no password hash/);
  await assert.rejects(verify("x".repeat(1025), "pw", most), RangeError);
  for (const options of [undefined, {}, { maxIterations: "9" }]) {
    await assert.rejects(verify("nothing", "pw", options), { name: noLimit });
  }
  for (const maxIterations of [0, 2 ** 32, 1.5]) {
    await assert.rejects(verify("nothing", "pw", { maxIterations }), RangeError);
  }
  assert.throws(() => newSync("werkzeug-sha256", "pw", { iterations: 1, salt: "$" }), /the salt/);
  assert.throws(() => newSync("phc-sha256", "pw", { iterations: 1, salt: "" }), /the salt/);
  assert.throws(() => newSync("md5", "pw", { iterations: 1 }), { code: "ERR_INVALID_ARG_VALUE" });
  assert.throws(() => newSync("phc-sha256", "pw"), TypeError);
  // As Node 18 has it.
  const { crypto: usual } = globalThis;
  Object.defineProperty(globalThis, "crypto", { value: undefined, configurable: true });
  try {
    assert.throws(() => newSync("phc-sha256", "pw", { iterations: 1 }), /pass a salt/);
  } finally {
    Object.defineProperty(globalThis, "crypto", { value: usual, configurable: true });
  }
  // A caller that wipes the password behind the call changes nothing.
  const password = Buffer.from("pw"), options = { iterations: 1, salt: "salt" };
  const text = yz.passwordHash.new("phc-sha256", password, options);
  password.fill(0);
  assert.equal(await text, newSync("phc-sha256", "pw", options));
});

test("WebCrypto's shape beside WebCrypto", async () => {
  const theirSubtle = crypto.webcrypto.subtle, message = crypto.randomBytes(300000);
  const raw = crypto.randomBytes(20), salt = crypto.randomBytes(9), info = crypto.randomBytes(5);
  const imported = (subtle, name, uses) => subtle.importKey("raw", raw,
    name === "HMAC" ? { name, hash: "SHA-512" } : name, false, uses);
  for (const data of [message, message.subarray(0, 99)]) {
    const answers = await Promise.all([yz.subtle, theirSubtle].map(async (subtle) => {
      const key = await imported(subtle, "HMAC", ["sign", "verify"]);
      const tag = await subtle.sign("HMAC", key, data);
      assert.equal(await subtle.verify("HMAC", key, tag, data), true);
      assert.equal(await subtle.verify("HMAC", key, tag, data.subarray(1)), false);
      const hkdf = { name: "HKDF", hash: "SHA-256", salt, info };
      const pbkdf2 = { name: "PBKDF2", hash: "SHA-512", salt, iterations: 500 };
      return Promise.all([tag, subtle.digest("sha-1", data),
        subtle.deriveBits(hkdf, await imported(subtle, "HKDF", ["deriveBits"]), 256),
        subtle.deriveBits(pbkdf2, await imported(subtle, "PBKDF2", ["deriveBits"]), 800)]);
    }));
    assert.deepEqual(answers[0], answers[1]);
  }
  const refusals = [
    ["NotSupportedError", (it) => it.digest("MD5", message)],
    ["SyntaxError", (it) => imported(it, "HMAC", ["deriveBits"])],
    ["SyntaxError", (it) => imported(it, "HKDF", [])],
    ["DataError", (it) => it.importKey("raw", Buffer.alloc(0), { name: "HMAC", hash: "SHA-1" },
      false, ["sign"])],
    ["InvalidAccessError", async (it) =>
      it.sign("HMAC", await imported(it, "HMAC", ["verify"]), raw)],
    ["OperationError", async (it) => it.deriveBits(
      { name: "PBKDF2", hash: "SHA-1", salt, iterations: 1 },
      await imported(it, "PBKDF2", ["deriveBits"]), 7)],
  ];
  for (const [name, call] of refusals) {
    for (const it of [yz.subtle, theirSubtle]) await assert.rejects(call(it), { name });
  }
});

// Tags that are not the whole tag: none, shorter and longer ones, and with a byte changed.
function wrongTags(tag) {
  const changed = Array.from(tag, (byte, at) => {
    const other = Buffer.from(tag);
    other[at] ^= 1;
    return other;
  });
  return [Buffer.alloc(0), tag.subarray(0, 1), tag.subarray(0, -1), tag.subarray(1),
    Buffer.concat([tag, Buffer.alloc(1)]), Buffer.concat([tag, tag]), ...changed];
}

test("only the whole tag is right, around each length at which a call changes its way", async () => {
  const key = crypto.randomBytes(32);
  for (const name of TAGS) {
    const algorithm = { name: "HMAC", hash: titleOf(name) };
    const made = await yz.subtle.importKey("raw", key, algorithm, false, ["verify"]);
    for (const len of [0, 100, 65536, 65537, 262144, 262145]) {
      const message = crypto.randomBytes(len);
      const tag = crypto.createHmac(name, key).update(message).digest();
      const verifies = (it) => yz.subtle.verify("HMAC", made, it, message);
      assert.equal(yz.hmacVerify(name, key, message, tag), true);
      assert.equal(await verifies(tag), true);
      for (const it of wrongTags(tag)) assert.equal(yz.hmacVerify(name, key, message, it), false);
      for (const it of wrongTags(tag).slice(0, 8)) assert.equal(await verifies(it), false);
    }
  }
});

test("a key of WebCrypto's shape keeps its hash and its bytes", async () => {
  const raw = crypto.randomBytes(32), algorithm = { name: "HMAC", hash: { name: "SHA-256" } };
  const key = await yz.subtle.importKey("raw", raw, algorithm, false, ["sign"]);
  const wanted = crypto.createHmac("sha256", raw).update("abc").digest("hex");
  algorithm.hash.name = "SHA-1";
  raw.fill(0);
  for (const it of [key, key.algorithm, key.algorithm.hash, key.usages]) {
    assert.ok(Object.isFrozen(it));
  }
  assert.throws(() => { key.algorithm.hash.name = "SHA-1"; }, TypeError);
  const tag = await yz.subtle.sign("HMAC", key, Buffer.from("abc"));
  assert.equal(hex(new Uint8Array(tag)), wanted);
});

test("sources: blobs, streams and iterables, with progress", async () => {
  const message = crypto.randomBytes((9 << 20) + 5), wanted = theirs("sha256", message);
  const file = new URL(import.meta.url);
  const told = [], progress = (it) => told.push(it);
  const running = yz.createHash("sha256");
  const returned = await running.updateFrom(new Blob([message]), { progress });
  assert.equal(returned, running);
  assert.equal(running.copy().digest("hex"), wanted);
  assert.deepEqual(told, [4 << 20, 8 << 20, message.length]);
  const pieces = [message.subarray(0, 7), message.subarray(7)];
  async function* later() { yield* pieces; }
  for (const source of [new Blob([message]).stream(), pieces, later(), new Blob(pieces)]) {
    assert.equal((await yz.createHash("sha256").updateFrom(source)).digest("hex"), wanted);
  }
  const tag = crypto.createHmac("sha512", "k").update(message).digest("hex");
  assert.equal((await yz.createHmac("sha512", "k").updateFrom(pieces)).digest("hex"), tag);
  const read = await yz.createHash("sha1").updateFrom(createReadStream(file));
  assert.equal(read.digest("hex"), theirs("sha1", readFileSync(file)));
  const none = await yz.createHash("sha256").updateFrom(new Blob([]));
  assert.equal(none.digest("hex"), theirs("sha256", ""));
  for (const source of ["abc", new Uint8Array(3), null, 3, {}]) {
    await assert.rejects(yz.createHash("sha1").updateFrom(source), TypeError);
  }
});

test("a source that fails or is ended closes what read it", async () => {
  const piece = new Uint8Array(8), isClosed = /a source failed/;
  let isCancelled = false;
  const stream = () => new ReadableStream({
    pull: (it) => it.enqueue(piece), cancel: () => { isCancelled = true; },
  });
  async function* failing() { yield piece; throw new Error("no more"); }
  const wrong = yz.createHash("sha1");
  await assert.rejects(wrong.updateFrom(failing()), /no more/);
  assert.throws(() => wrong.digest(), isClosed);
  const odd = yz.createHash("sha1");
  await assert.rejects(odd.updateFrom([piece, 3]), TypeError);
  assert.throws(() => odd.update(""), isClosed);
  const ended = yz.createHash("sha1"), controller = new AbortController();
  await assert.rejects(ended.updateFrom(stream(), {
    signal: controller.signal, progress: (len) => { if (len > 80) controller.abort(); },
  }), { name: "AbortError" });
  assert.throws(() => ended.copy(), isClosed);
  assert.equal(isCancelled, true);
  const never = yz.createHash("sha1"), signal = AbortSignal.abort();
  await assert.rejects(never.updateFrom([piece], { signal }), { name: "AbortError" });
  const busy = yz.createHash("sha1");
  const reading = busy.updateFrom([piece], {
    progress: () => {
      for (const call of [() => busy.update(""), () => busy.digest(), () => busy.copy()]) {
        assert.throws(call, /is being read/);
      }
    },
  });
  await assert.rejects(busy.updateFrom([]), /is being read/);
  await reading;
  assert.equal(busy.digest("hex"), theirs("sha1", piece));
});

test("a source whose getter begins to read another one is refused", async () => {
  const running = yz.createHash("sha256");
  async function* later() { yield "a"; await null; yield "bc"; }
  let inner;
  const source = {
    get [Symbol.asyncIterator]() {
      inner ??= running.updateFrom(later());
      return later;
    },
  };
  const outer = running.updateFrom(source);
  assert.throws(() => running.digest(), /is being read/);
  await assert.rejects(outer, /is being read/);
  await inner;
  assert.equal(running.digest("hex"), SHA256_OF_ABC);
});

test("the version is the library's, and the package's", () => {
  const [major, minor, patch] = VERSION.split(".").map(Number);
  assert.equal(instances.at(-1).yz_version(), major * 0x10000 + minor * 0x100 + patch);
  assert.equal(JSON.parse(readFileSync(`${PACKAGE}/package.json`, "utf8")).version, VERSION);
});

test("four workers at once", async () => {
  const program = `import { parentPort } from "node:worker_threads";
    import { createHash } from ${JSON.stringify(main)};
    const running = createHash("sha256");
    for (let i = 0; i < 1000; i++) running.update(String(i));
    parentPort.postMessage(running.digest("hex"));`;
  const url = new URL(`data:text/javascript,${encodeURIComponent(program)}`);
  const answers = await Promise.all(Array.from({ length: 4 }, async () =>
    (await once(new Worker(url), "message"))[0]));
  const wanted = theirs("sha256", Array.from({ length: 1000 }, (_, i) => i).join(""));
  assert.deepEqual(answers, Array(4).fill(wanted));
});

test("where no worker can be made, the thread that asks does the work", () => {
  const program = `import { promisify } from "node:util";
    import { passwordHash, pbkdf2, subtle } from ${JSON.stringify(main)};
    const derived = await Promise.all([1, 2, 3].map((it) =>
      promisify(pbkdf2)("p", "s", it, 20, "sha512")));
    const refused = await passwordHash.verify("none", "", { maxIterations: 1 }).catch(String);
    const digest = await subtle.digest("SHA-1", new Uint8Array(300000));
    console.log(JSON.stringify([...derived.map((it) => it.toString("hex")), refused,
      Buffer.from(digest).toString("hex")]));`;
  const wanted = [1, 2, 3].map((it) => hex(crypto.pbkdf2Sync("p", "s", it, 20, "sha512")));
  const name = "--permission", isNew = process.allowedNodeEnvironmentFlags.has(name);
  const forbidding = [isNew ? name : "--experimental-permission", "--allow-fs-read=*"];
  for (const flags of [[], forbidding]) {
    const words = ["--no-warnings", ...flags, "--input-type=module", "-e", program];
    const [one, two, three, refused, digest] = JSON.parse(execFileSync(process.execPath, words));
    assert.deepEqual([one, two, three], wanted);
    assert.match(refused, /no password hash/);
    assert.equal(digest, theirs("sha1", Buffer.alloc(300000)));
  }
});

const skip = !process.features.require_module && "this Node requires no ES module";
test("require", { skip }, () => {
  const required = createRequire(import.meta.url)(`${PACKAGE}/node.js`);
  assert.equal(hex(required.digest("sha256", "abc")), SHA256_OF_ABC);
});
