// SPDX-License-Identifier: ISC
// What programs write with node:crypto, by it and by the package in the folder PACKAGE. Each call
// must give the same: a value of the same class and bytes, or an error of the same class and code.
// What differs is listed with its reason, and each call of the list must differ. It ends with
// status 1 where that isn't so.

import crypto from "node:crypto";
import { createReadStream } from "node:fs";
import { Readable } from "node:stream";
import { buffer } from "node:stream/consumers";
import { pipeline } from "node:stream/promises";
import { pathToFileURL } from "node:url";
import { promisify } from "node:util";

await import("./engine.cjs");
const yz = await import(pathToFileURL(`${process.env.PACKAGE}/node.js`).href);
const here = new URL(import.meta.url);
const bytes = Buffer.from("00ff10abc3a9e282ac", "hex"), key = Buffer.alloc(32, 7);
const secret = crypto.createSecretKey(key);
const { privateKey } = crypto.generateKeyPairSync("ed25519");
const hashed = (c) => c.createHash("sha256").update("abc");
const told = (call) => new Promise((resolve, reject) =>
  call((error, it) => error ? reject(error) : resolve(it)));
const hmacKey = (c, uses) => c.webcrypto.subtle.importKey("raw", key,
  { name: "HMAC", hash: "SHA-256" }, false, uses);

const CALLS = {
  "digest as hex": (c) => hashed(c).digest("hex"),
  "digest as base64": (c) => hashed(c).digest("base64"),
  "digest as base64url": (c) => hashed(c).digest("base64url"),
  "digest as latin1": (c) => hashed(c).digest("latin1"),
  "digest as binary": (c) => hashed(c).digest("binary"),
  "digest as a Buffer": (c) => hashed(c).digest(),
  "digest as 'buffer'": (c) => hashed(c).digest("buffer"),
  "digest().toString": (c) => hashed(c).digest().toString("hex"),
  "digest().equals": (c) => hashed(c).digest().equals(Buffer.alloc(32)),
  "digest().readUInt32BE": (c) => hashed(c).digest().readUInt32BE(0),
  "digest().subarray": (c) => hashed(c).digest().subarray(0, 8).toString("hex"),
  "digest().slice": (c) => hashed(c).digest().slice(0, 8).toString("base64"),
  "Buffer.concat of digests": (c) => Buffer.concat([hashed(c).digest(), hashed(c).digest()]),
  "JSON of a digest": (c) => JSON.stringify(hashed(c).digest()),
  "a digest in a template": (c) => `${hashed(c).digest()}`.length,
  "a digest and a text": (c) => (hashed(c).digest() + "").length,
  "names in capitals": (c) => c.createHash("SHA256").update("a").digest("hex"),
  "SHA-256": (c) => c.createHash("SHA-256").update("a").digest("hex"),
  "RSA-SHA256": (c) => c.createHash("RSA-SHA256").update("a").digest("hex"),
  ...Object.fromEntries(yz.getHashes().map((name) =>
    [name, (c) => c.createHash(name).update("a").digest("hex")])),
  "md5": (c) => c.createHash("md5").update("a").digest("hex"),
  "no such algorithm": (c) => c.createHash("no such"),
  "no algorithm": (c) => c.createHash(),
  "update of hex": (c) => c.createHash("sha1").update("00ff", "hex").digest("hex"),
  "update of base64": (c) => c.createHash("sha1").update("AAEC", "base64").digest("hex"),
  "update of latin1": (c) => c.createHash("sha1").update("\u00e9", "latin1").digest("hex"),
  "update of utf8": (c) => c.createHash("sha1").update("\u20ac", "utf8").digest("hex"),
  "update of utf16le": (c) => c.createHash("sha1").update("\u20ac", "utf16le").digest("hex"),
  "update of odd hex": (c) => c.createHash("sha1").update("0ff", "hex").digest("hex"),
  "update of a Uint16Array": (c) => c.createHash("sha1").update(Uint16Array.of(1, 2)).digest("hex"),
  "update of a DataView": (c) =>
    c.createHash("sha1").update(new DataView(new ArrayBuffer(3))).digest("hex"),
  "update of an ArrayBuffer": (c) =>
    c.createHash("sha1").update(new ArrayBuffer(3)).digest("hex"),
  "update of a number": (c) => c.createHash("sha1").update(5),
  "update of null": (c) => c.createHash("sha1").update(null),
  "update of an object": (c) => c.createHash("sha1").update({}),
  "update of nothing": (c) => c.createHash("sha1").update(),
  "update after digest": (c) => {
    const it = hashed(c);
    it.digest();
    return it.update("a");
  },
  "digest twice": (c) => {
    const it = hashed(c);
    it.digest();
    return it.digest();
  },
  "an Hmac's digest twice": (c) => {
    const it = c.createHmac("sha256", key);
    it.digest();
    return it.digest();
  },
  "copy": (c) => {
    const it = hashed(c), other = it.copy().update("d");
    return [it.digest("hex"), other.digest("hex")].join();
  },
  "copy after digest": (c) => {
    const it = hashed(c);
    it.digest();
    return it.copy();
  },
  "outputLength of SHA-256": (c) =>
    c.createHash("sha256", { outputLength: 16 }).update("a").digest("hex"),
  "instanceof Hash": (c) => hashed(c) instanceof c.Hash,
  "Hash without new": (c) => c.Hash("sha1").update("a").digest("hex"),
  "hash()": (c) => c.hash("sha1", "a"),
  "hash() as base64": (c) => c.hash("sha256", bytes, "base64"),
  "hash() as a Buffer": (c) => c.hash("sha256", bytes, "buffer"),
  "hash() in no encoding": (c) => c.hash("sha256", bytes, "no such"),
  "hash() of a number": (c) => c.hash("sha256", 5),
  "a file through pipeline": async (c) => {
    const it = c.createHash("sha256");
    await pipeline(createReadStream(here), it);
    return it.digest("hex");
  },
  "a file through pipe": async (c) =>
    buffer(createReadStream(here).pipe(c.createHash("sha512"))),
  "a stream's setEncoding": async (c) =>
    (await Readable.from(["a"]).pipe(c.createHash("sha1")).setEncoding("hex").toArray()).join(),
  "for await of a file": async (c) => {
    const it = c.createHash("sha256");
    for await (const piece of createReadStream(here)) it.update(piece);
    return it.digest("base64");
  },
  "write and end": async (c) => {
    const it = c.createHash("sha1");
    it.write("a");
    it.end("b");
    return it.read();
  },
  "a tag": (c) => c.createHmac("sha256", key).update("a").digest("hex"),
  "a tag by a text": (c) => c.createHmac("sha512", "a key").update("a").digest("base64url"),
  "a tag by a KeyObject": (c) => c.createHmac("sha1", secret).update("a").digest(),
  "a tag by a private key": (c) => c.createHmac("sha1", privateKey),
  "a tag by no key": (c) => c.createHmac("sha256"),
  "a tag by null": (c) => c.createHmac("sha256", null),
  "a tag by no such digest": (c) => c.createHmac("no such", key),
  "a tag by SHA-512/256": (c) => c.createHmac("sha512-256", key).update("a").digest("hex"),
  "timingSafeEqual of tags": (c) => c.timingSafeEqual(
    c.createHmac("sha256", key).digest(), c.createHmac("sha256", key).digest()),
  "timingSafeEqual of two lengths": (c) => c.timingSafeEqual(Buffer.alloc(1), Buffer.alloc(2)),
  "timingSafeEqual of texts": (c) => c.timingSafeEqual("a", "a"),
  "pbkdf2Sync": (c) => c.pbkdf2Sync("pw", "salt", 1000, 32, "sha256"),
  "pbkdf2Sync as hex": (c) => c.pbkdf2Sync("pw", "salt", 10, 64, "sha512").toString("hex"),
  "pbkdf2Sync of no digest": (c) => c.pbkdf2Sync("pw", "salt", 10, 64),
  "pbkdf2Sync of no iterations": (c) => c.pbkdf2Sync("pw", "salt", 0, 64, "sha1"),
  "pbkdf2Sync of 2^31 iterations": (c) => c.pbkdf2Sync("pw", "salt", 2 ** 31, 64, "sha1"),
  "pbkdf2 with a callback": (c) => told((it) => c.pbkdf2("pw", "salt", 10, 20, "sha1", it)),
  "promisify(pbkdf2)": (c) => promisify(c.pbkdf2)("pw", bytes, 1000, 32, "sha512"),
  "pbkdf2 without a callback": (c) => c.pbkdf2("pw", "salt", 10, 20, "sha1"),
  "hkdfSync": (c) => c.hkdfSync("sha256", key, "salt", "info", 42),
  "hkdfSync in a Buffer": (c) => Buffer.from(c.hkdfSync("sha512", key, "", "", 64)).toString("hex"),
  "hkdfSync by a KeyObject": (c) => c.hkdfSync("sha1", secret, bytes, "info", 20),
  "hkdfSync of too many bytes": (c) => c.hkdfSync("sha256", key, "", "", 8161),
  "hkdfSync of a long info": (c) => c.hkdfSync("sha256", key, "", Buffer.alloc(2000), 32),
  "hkdf with a callback": (c) => told((it) => c.hkdf("sha256", key, "", "info", 42, it)),
  "promisify(hkdf)": (c) => promisify(c.hkdf)("sha512", "a key", bytes, "info", 100),
  "getHashes": (c) => c.getHashes().includes("sha256"),
  "subtle.digest": (c) => c.webcrypto.subtle.digest("SHA-256", bytes),
  "subtle.digest of MD5": (c) => c.webcrypto.subtle.digest("MD5", bytes),
  "subtle.sign": async (c) =>
    c.webcrypto.subtle.sign("HMAC", await hmacKey(c, ["sign"]), bytes),
  "subtle.verify": async (c) =>
    c.webcrypto.subtle.verify("HMAC", await hmacKey(c, ["verify"]), bytes, bytes),
  "default export": async (c) => c.default.createHash("sha1").digest("hex"),
};

const LACKED = ["randomBytes", "randomUUID", "getRandomValues", "createSecretKey", "KeyObject",
  "constants", "scryptSync", "getFips"];
for (const name of LACKED) CALLS[`export ${name}`] = (c) => name in c;

const OTHER_PARTS = "node:crypto's parts that are no digests are not here: import them from there";
const DIFFERENT = {
  "md5": "the package has no MD5",
  "update of an ArrayBuffer": "is taken here",
  "an Hmac's digest twice": "throws here; Node gives an empty tag",
  "a tag by SHA-512/256": "is refused: HMAC has no vectors under it",
  "hkdfSync of a long info": "is taken here: RFC 5869 has no limit",
  ...Object.fromEntries(LACKED.map((name) => [`export ${name}`, OTHER_PARTS])),
};

// What a call gives, as text.
async function outcomeOf(call, party) {
  try {
    const it = await call(party);
    if (Buffer.isBuffer(it)) return `Buffer ${it.toString("hex")}`;
    if (it instanceof ArrayBuffer) return `ArrayBuffer ${Buffer.from(it).toString("hex")}`;
    return `${typeof it} ${it}`;
  } catch (error) {
    return `${error.name} ${error.code ?? ""}`;
  }
}

const theirs = { ...crypto, default: crypto, webcrypto: crypto.webcrypto };
// Node has `hash` since 20.12.
const tried = Object.entries(CALLS).filter(([name]) => crypto.hash || !name.startsWith("hash()"));
let differ = 0, faults = 0;
for (const [name, call] of tried) {
  const [node, ours] = await Promise.all([theirs, yz].map((it) => outcomeOf(call, it)));
  const reason = DIFFERENT[name];
  if (node === ours && reason !== undefined) console.log(`NOT DIFFERENT: ${name}`, ++faults);
  if (node === ours) continue;
  differ++;
  if (reason === undefined) faults++;
  console.log(`${reason === undefined ? "NOT LISTED: " : ""}${name}: ${reason ?? ""}`);
  if (reason === undefined) console.log(`  node:crypto: ${node}\n  yezdopin:    ${ours}`);
}
console.log(`${tried.length} everyday calls, ${differ} differ, ${faults} faults`);
process.exitCode = faults === 0 ? 0 : 1;
