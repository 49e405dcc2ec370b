// SPDX-License-Identifier: ISC
// What callers pass, turned to what the calls of the module take. None of it is believed to be of
// its class: a class derived from Uint8Array may say anything of its length.

import { outOfRange, unknownEncoding, wrongDigest, wrongType } from "./errors.js";

// algorithms: made by tools/lists.py
export const HASHES = ["sha1", "sha256", "sha384", "sha512", "sha512-256"];
const KEYED = new Set([1, 2, 3, 4]);
/** The numbers of the algorithms of tokens, by their names there (RFC 7518, 3.2). */
export const TOKENS = new Map([["HS256", 2], ["HS384", 3], ["HS512", 4]]);
// /algorithms

// The numbers of the algorithms, by their names in OpenSSL, in WebCrypto and in the standard.
const ALGORITHMS = new Map(HASHES.flatMap((name, i) => {
  const bits = name.slice(3);
  return [name, `sha-${bits}`, `sha2-${bits}`, `rsa-${name}`, `${name}withrsaencryption`]
    .flatMap((it) => [[it, i + 1], [it.replace("512-256", "512/256"), i + 1]]);
}));
ALGORITHMS.delete("sha2-1");

const MAX_INT32 = 2 ** 31 - 1;

// The name in "sha256", "SHA-256" or WebCrypto's { name: "SHA-256" }.
function nameOf(algorithm, argument) {
  const name = typeof algorithm === "object" && algorithm !== null ? algorithm.name : algorithm;
  if (typeof name !== "string") throw wrongType(argument, "of type string", algorithm, true);
  return name;
}

/** The number of an algorithm, or undefined. */
export const numberOf = (name) => ALGORITHMS.get(name) ?? ALGORITHMS.get(name.toLowerCase());

/** The number of an algorithm of HMAC, HKDF and PBKDF2. */
export function macOf(algorithm, argument) {
  const name = nameOf(algorithm, argument), number = numberOf(name);
  if (!KEYED.has(number)) throw wrongDigest(name);
  return number;
}

/** The number of an algorithm of digests. Node has no code for an unknown one. */
export function digestOf(algorithm, argument = "algorithm") {
  const name = nameOf(algorithm, argument), number = numberOf(name);
  if (number === undefined) throw new Error(`Digest method not supported: ${name}`);
  return number;
}

// These read what an object is, and throw a TypeError where it is of another class.
const uncurried = Function.prototype.bind.bind(Function.prototype.call);
const getterOf = (prototype, name) =>
  uncurried(Object.getOwnPropertyDescriptor(prototype, name).get);
const typedArray = Object.getPrototypeOf(Uint8Array.prototype);
const typeOf = getterOf(typedArray, Symbol.toStringTag);
const keysOf = uncurried(typedArray.keys);
const partsOf = (prototype) => ({
  buffer: getterOf(prototype, "buffer"),
  offset: getterOf(prototype, "byteOffset"),
  len: getterOf(prototype, "byteLength"),
});
const ofArray = partsOf(typedArray);
const ofDataView = partsOf(DataView.prototype);
const lenOfBuffer = getterOf(ArrayBuffer.prototype, "byteLength");
const lenOfShared = typeof SharedArrayBuffer === "undefined" ? null
  : getterOf(SharedArrayBuffer.prototype, "byteLength");

// The length that a buffer has now, or null where it is of another class.
function lenBy(getter, it) {
  try {
    return getter?.(it) ?? null;
  } catch {
    return null;
  }
}

const BYTES = "an instance of ArrayBuffer, Buffer, TypedArray, or DataView";
const INPUTS = `of type string or ${BYTES}`;
/** What Node's `update` takes. */
export const PIECES = "of type string or an instance of Buffer, TypedArray, or DataView";

/** The bytes of a buffer or of a view of one, where they are. Their length stays: without one, a
 * view grows with a shared buffer that another thread grows. */
export function bytesOf(data, argument, types = BYTES) {
  if (ArrayBuffer.isView(data)) {
    const isArray = typeOf(data) !== undefined, its = isArray ? ofArray : ofDataView;
    const len = its.len(data);
    // A view whose buffer is detached, or has become too short for it, says that it is empty.
    if (isArray && len === 0) keysOf(data);
    return new Uint8Array(its.buffer(data), its.offset(data), len);
  }
  const len = lenBy(lenOfBuffer, data) ?? lenBy(lenOfShared, data);
  if (len === null) throw wrongType(argument, types, data);
  return new Uint8Array(data, 0, len);
}

const encoder = new TextEncoder();

function textOf(bytes, encoding) {
  switch (encoding.toLowerCase()) {
    case "hex": return Array.from(bytes, (it) => it.toString(16).padStart(2, "0")).join("");
    case "base64": return btoa(String.fromCharCode(...bytes));
    case "base64url": return textOf(bytes, "base64")
      .replaceAll("+", "-").replaceAll("/", "_").replaceAll("=", "");
    default: throw unknownEncoding(encoding);
  }
}

/** What Node has in another form, and node.js sets. These are the browsers'. */
export const host = {
  /** A part of an array, as an answer. */
  copy: (bytes, from, to) => bytes.slice(from, to),
  /** The bytes of another thread's answer, as an answer. */
  answer: (bytes) => bytes,
  /** The text of an answer. */
  textOf,
  /** The bytes of a text in another encoding than UTF-8. */
  read: (text, encoding) => { throw unknownEncoding(encoding); },
  /** The value of a key that is an object, or what was passed. */
  valueOf: (key) => key,
  /** A callback that runs in the context of its caller. */
  bound: (callback) => callback,
  /** Makes a worker: passed a function for its messages and one for the error that ends it. */
  worker: null,
};

/** An answer as bytes, or as text. */
export const encoded = (bytes, encoding) =>
  encoding === undefined || encoding === "buffer" ? bytes : host.textOf(bytes, encoding);

const UTF8 = /^utf-?8$/i;

/** The bytes of a buffer, of a view of one, or of a string. */
export function bytesOrText(data, argument, encoding, types = INPUTS) {
  if (typeof data !== "string") return bytesOf(data, argument, types);
  const isUtf8 = (encoding ?? "buffer") === "buffer" || UTF8.test(encoding);
  return isUtf8 ? encoder.encode(data) : host.read(data, encoding);
}

/** The bytes of a key, which may be an object in Node. */
export const keyOf = (key, argument, encoding) =>
  bytesOrText(host.valueOf(key), argument, encoding);

/** A whole number from `least` to `most`. */
export function wholeOf(value, argument, least, most) {
  if (typeof value !== "number") throw wrongType(argument, "of type number", value, true);
  if (!Number.isInteger(value)) throw outOfRange(argument, "an integer", value);
  if (value < least || value > most) {
    throw outOfRange(argument, `>= ${least} && <= ${most}`, value);
  }
  return value;
}

/** A whole number from 0 to 2^64 - 1 as a BigInt, or null where it is none of these. A number past
 * 2^53 - 1 may be what another one was rounded to: it is refused. */
export function uint64Of(value, argument) {
  if (typeof value === "number") {
    if (!Number.isInteger(value)) throw outOfRange(argument, "an integer", value);
    if (!Number.isSafeInteger(value)) {
      throw outOfRange(argument, "a safe integer or a BigInt", value);
    }
  } else if (typeof value !== "bigint") {
    throw wrongType(argument, "of type number or bigint", value, true);
  }
  const whole = BigInt(value);
  return whole === BigInt.asUintN(64, whole) ? whole : null;
}

/** The same, or the error of a number that is none of these. */
export function uint64From(value, argument) {
  const number = uint64Of(value, argument);
  if (number === null) throw outOfRange(argument, ">= 0 && < 2 ** 64", value);
  return number;
}

export const lengthOf = (value, argument) => wholeOf(value, argument, 0, MAX_INT32);
export const iterationsOf = (value) => wholeOf(value, "iterations", 1, MAX_INT32);

export function callbackOf(callback) {
  if (typeof callback !== "function") {
    throw wrongType("callback", "of type function", callback, true);
  }
  return host.bound(callback);
}
