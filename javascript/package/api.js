// SPDX-License-Identifier: ISC
// What the package exports in Node and in browsers alike.

import * as calls from "./calls.js";
import { lengthsDiffer, wrongType, wrongValue } from "./errors.js";
import {
  HASHES, bytesOf, bytesOrText, callbackOf, digestOf, encoded, host, iterationsOf, keyOf, lengthOf,
  macOf,
} from "./inputs.js";
import { jws } from "./jws.js";
import { later } from "./later.js";
import { merkle } from "./merkle.js";
import { otp } from "./otp.js";
import { passwordHash } from "./passwords.js";
import { subtle } from "./subtle.js";
import { tls13 } from "./tls13.js";
import { webhook } from "./webhook.js";

export { jws, merkle, otp, passwordHash, subtle, tls13, webhook };
export const webcrypto = { subtle };

// Calls back once, with an error or an answer, on another turn of the loop, so that what a callback
// throws is no rejection.
function tell(promise, callback) {
  const soon = globalThis.setImmediate ?? setTimeout;
  const call = (...words) => soon(() => callback(...words));
  promise.then((it) => call(null, it), (error) => call(error));
}

export function digest(algorithm, message) {
  return calls.digest(digestOf(algorithm), bytesOrText(message, "message"));
}

export function hash(algorithm, input, outputEncoding = "hex") {
  const n = digestOf(algorithm), bytes = bytesOrText(input, "input");
  if (typeof outputEncoding !== "string") {
    throw wrongType("outputEncoding", "of type string", outputEncoding, true);
  }
  try {
    return encoded(calls.digest(n, bytes), outputEncoding);
  } catch (error) {
    if (error.code !== "ERR_UNKNOWN_ENCODING") throw error;
    throw wrongValue("outputEncoding", `. Received '${outputEncoding}'`);
  }
}

export function digestEach(algorithm, messages) {
  const n = digestOf(algorithm), read = (it) => bytesOrText(it, "messages");
  // Of an array alone is nothing run between two messages, such as what writes over the last one.
  if (Array.isArray(messages)) return calls.digestEach(n, Array.from(messages, read));
  return Array.from(messages, (it) => calls.digest(n, read(it)));
}

export function hmac(algorithm, key, message) {
  const n = macOf(algorithm, "hmac");
  return calls.hmac(n, keyOf(key, "key"), bytesOrText(message, "message"));
}

export function hmacVerify(algorithm, key, message, tag) {
  return calls.hmacVerify(macOf(algorithm, "hmac"), keyOf(key, "key"),
    bytesOrText(message, "message"), bytesOf(tag, "tag"));
}

export function hkdfSync(algorithm, key, salt, info, length) {
  const n = macOf(algorithm, "digest"), secret = keyOf(key, "ikm");
  return calls.hkdf(n, bytesOrText(salt, "salt"), secret, bytesOrText(info, "info"),
    lengthOf(length, "length")).buffer;
}

/** At most 255 digests: it is done at once, and calls back later. */
export function hkdf(algorithm, key, salt, info, length, callback) {
  tell(Promise.resolve(hkdfSync(algorithm, key, salt, info, length)), callbackOf(callback));
}

export function hkdfExtract(algorithm, key, salt) {
  const n = macOf(algorithm, "digest");
  return calls.hkdfExtract(n, bytesOrText(salt, "salt"), keyOf(key, "ikm"));
}

export function hkdfExpand(algorithm, prk, info, length) {
  return calls.hkdfExpand(macOf(algorithm, "digest"), bytesOf(prk, "prk"),
    bytesOrText(info, "info"), lengthOf(length, "length"));
}

export function hkdfExpandLabel(algorithm, secret, label, context, length) {
  return calls.hkdfExpandLabel(macOf(algorithm, "digest"), bytesOf(secret, "secret"),
    bytesOrText(label, "label"), bytesOrText(context, "context"), lengthOf(length, "length"));
}

// The words of PBKDF2 for calls.js, or the error of the first that is wrong.
function wordsOfPbkdf2(password, salt, iterations, keylen, algorithm) {
  const n = macOf(typeof algorithm === "function" ? undefined : algorithm, "digest");
  const secret = bytesOrText(password, "password"), bytes = bytesOrText(salt, "salt");
  return [n, iterationsOf(iterations), bytes, secret, lengthOf(keylen, "keylen")];
}

export function pbkdf2Sync(...words) {
  return calls.pbkdf2(...wordsOfPbkdf2(...words));
}

/** In a worker. */
export function pbkdf2(password, salt, iterations, keylen, algorithm, callback) {
  const words = wordsOfPbkdf2(password, salt, iterations, keylen, algorithm);
  const bound = callbackOf(callback);
  tell(later("pbkdf2", ...words).then(host.answer), bound);
}

export function pbkdf2Verify(password, salt, iterations, derived, algorithm) {
  return calls.pbkdf2Verify(macOf(algorithm, "digest"), iterationsOf(iterations),
    bytesOrText(salt, "salt"), bytesOrText(password, "password"), bytesOf(derived, "derived"));
}

export function timingSafeEqual(buf1, buf2) {
  const a = bytesOf(buf1, "buf1"), b = bytesOf(buf2, "buf2");
  if (a.length !== b.length) throw lengthsDiffer();
  return calls.equal(a, b);
}

export function getHashes() {
  return [...HASHES];
}
