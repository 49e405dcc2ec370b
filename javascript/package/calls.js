// SPDX-License-Identifier: ISC
// The calls of the module, over bytes that JavaScript holds. A call copies what it reads into the
// module's memory and what it writes out of it, and then wipes both and the module's stack. The
// module keeps nothing between two calls, so that it can be made anew.

import { refused, wrongDigest, wrongKeyLength } from "./errors.js";
import { host } from "./inputs.js";

// statuses: made by tools/lists.py
const OK = 0;
const UNKNOWN_ALGORITHM = 1;
const UNKNOWN_CONTEXT = 2;
const NO_ITERATIONS = 3;
const WRONG_LENGTH = 4;
const BAD_FORMAT = 5;
const TOO_MANY_ITERATIONS = 6;
const BAD_SALT = 7;
const UNSPECIFIED = 8;
const TEXTS = [
  "success",
  "the number names no algorithm or scheme of this call",
  "the bytes can be no context or key",
  "the number of iterations is 0",
  "the output or a text has a wrong length",
  "no password hash has the text",
  "the text has more iterations than the caller takes",
  "a new password hash can't have the salt",
  "an input is out of its limits, or the verification failed",
];
// /statuses

// limits: made by tools/lists.py
const DIGEST_CONTEXT_LEN = 216;
const HMAC_KEY_LEN = 136;
const HMAC_CONTEXT_LEN = 280;
const MAX_PASSWORD_HASH_LEN = 1024;
const MAX_SALT_LEN = 22;
/** Of a tree's hashes, and of a path the most hashes. */
export const HASH_LEN = 32;
const MAX_PATH = 65;
// Of a token what is neither payload nor tag: the header and two full stops.
const JWS_REST_LEN = 38;
// /limits
// Of the module's numbers: a uint32_t, and a size_t or a uint64_t.
const WORD_LEN = 4;
const SIZE_LEN = 8;

const PAGE_LEN = 64 * 1024;
// A longer message is copied into the module in pieces of so many bytes.
const PIECE_LEN = 64 * 1024;
// What a call may have of the memory: an instance's addresses have 32 bits.
const MOST_LEN = 2 ** 31;
// An instance whose memory has grown past this is used for no further call.
const KEPT_LEN = 16 * 1024 * 1024;
// Contexts and keys are aligned as their words.
const ALIGNMENT = 8;
// The module's stack grows down from here, and no call takes more of it than this, but one of
// password hashes.
const STACK_END = 64 * 1024;
const STACK_LEN = 8 * 1024;
const STACK_LEN_OF_TEXTS = 20 * 1024;
const MOST_SPARES = 4;

let module, exports, memory, base, top;
// Whether a call was cut off in the instance, or has made it large: the next call makes another.
let isStale = true;

/** Takes a compiled module, whose calls are these. */
export function start(compiled) {
  module = compiled;
  restart();
}

/** The compiled module, which a worker takes. */
export const compiledModule = () => module;

// Takes a view of its own, since a call may be cut off between `grow` and the view behind it, and
// `memory` is then detached.
function wipeAll() {
  new Uint8Array(exports.memory.buffer).fill(0);
}

function restart() {
  if (exports !== undefined) wipeAll();
  exports = new WebAssembly.Instance(module).exports;
  memory = new Uint8Array(exports.memory.buffer);
  // The constants end here.
  base = aligned(Number(exports.__heap_base.value));
  top = base;
  isStale = false;
}

const aligned = (place) => Math.ceil(place / ALIGNMENT) * ALIGNMENT;

function wipe(stackLen) {
  memory.fill(0, base, top);
  memory.fill(0, STACK_END - stackLen, STACK_END);
  top = base;
}

// A status that a call answered.
class Refusal extends Error {}

// Runs a call, and wipes what it was given. A call can be cut off, as where JavaScript's stack ends
// in it, and so can the wiping: the instance is then stale.
function run(call, stackLen = STACK_LEN) {
  if (isStale) restart();
  isStale = true;
  let answer, cause = null;
  try {
    answer = call();
  } catch (error) {
    if (!(error instanceof Refusal)) {
      wipeAll();
      throw error;
    }
    cause = error.cause;
  }
  wipe(stackLen);
  isStale = memory.length > KEPT_LEN;
  if (cause !== null) throw cause;
  return answer;
}

function refuse(error) {
  throw new Refusal("", { cause: error });
}

// The exception of a status.
function errorOf(status) {
  switch (status) {
    case UNKNOWN_ALGORITHM: return wrongDigest(TEXTS[status]);
    case UNKNOWN_CONTEXT: return refused(TypeError, TEXTS[status]);
    case NO_ITERATIONS: return refused(RangeError, TEXTS[status]);
    case WRONG_LENGTH: return wrongKeyLength();
    case BAD_FORMAT: return refused(TypeError, TEXTS[status]);
    case TOO_MANY_ITERATIONS: return refused(RangeError, TEXTS[status]);
    case BAD_SALT: return refused(RangeError, TEXTS[status]);
    default: return refused(RangeError, TEXTS[status]);
  }
}

function test(status) {
  if (status !== OK) refuse(errorOf(status));
}

// The answer of a verification. What it verifies is wrong, or an input is past its limit, where no
// other cause is told.
function verdict(status) {
  if (status !== UNSPECIFIED) test(status);
  return status === OK;
}

// A place for so many bytes.
function room(len) {
  const place = top;
  if (len > MOST_LEN - place) refuse(refused(RangeError, "too many bytes for a call"));
  const end = aligned(place + len);
  if (end > memory.length) {
    try {
      exports.memory.grow(Math.ceil((end - memory.length) / PAGE_LEN));
    } catch {
      refuse(refused(RangeError, "no memory for the call"));
    }
    memory = new Uint8Array(exports.memory.buffer);
  }
  top = end;
  return place;
}

// The module is passed bytes by two arguments: the place of a copy, and the length.
function copied(bytes) {
  const place = room(bytes.length);
  memory.set(bytes, place);
  return BigInt(place);
}
const lenOf = (bytes) => BigInt(bytes.length);

// A place that a call writes, of so many bytes.
const blank = (len) => BigInt(room(len));

// What a call writes, which is passed the place and the length of it.
function output(len, call) {
  const place = room(len);
  test(call(BigInt(place), BigInt(len)));
  return host.copy(memory, place, place + len);
}

// Updates the context at a place.
function feed(update, context, message) {
  const place = room(Math.min(message.length, PIECE_LEN));
  for (let at = 0; at < message.length; at += PIECE_LEN) {
    const piece = message.subarray(at, at + PIECE_LEN);
    memory.set(piece, place);
    test(update(context, BigInt(place), lenOf(piece)));
  }
}

// Arrays of contexts that were wiped, since an engine takes longer to make one.
const digestSpares = [], hmacSpares = [];
const sparesOf = (len) => len === DIGEST_CONTEXT_LEN ? digestSpares : hmacSpares;

// The bytes of the context at a place.
function contextAt(place, len) {
  const context = sparesOf(len).pop() ?? new Uint8Array(len), at = Number(place);
  context.set(memory.subarray(at, at + len));
  return context;
}

/** Wipes a context, whose array is used again. */
export function discard(context) {
  const spares = sparesOf(context.length);
  context.fill(0);
  // By no call, since that could be cut off when the context is wiped already.
  if (spares.length < MOST_SPARES) spares[spares.length] = context;
}

const outputLens = [];
export const outputLen = (n) => outputLens[n] ??= Number(exports.yz_output_len(n));

export function digest(n, message) {
  return run(() => {
    if (message.length <= PIECE_LEN) {
      const at = copied(message), len = lenOf(message);
      return output(outputLen(n), (out, outLen) => exports.yz_digest(n, at, len, out, outLen));
    }
    const context = blank(DIGEST_CONTEXT_LEN);
    test(exports.yz_digest_init(n, context));
    feed(exports.yz_digest_update, context, message);
    return output(outputLen(n), (out, len) => exports.yz_digest_final(context, out, len));
  });
}

// How many messages a module with vectors runs side by side, and how many are in one call at most.
const LANES = 4, MOST_TOGETHER = 16;
// A message is passed by its place and its length.
const MESSAGE_LEN = 2 * SIZE_LEN;

// The digests of some messages, none longer than a piece.
const digestTogether = (n, messages) => run(() => {
  const list = room(MESSAGE_LEN * messages.length), len = outputLen(n);
  const places = messages.map(copied), view = new DataView(memory.buffer);
  for (const [i, it] of messages.entries()) {
    view.setBigUint64(list + MESSAGE_LEN * i, places[i], true);
    view.setBigUint64(list + MESSAGE_LEN * i + SIZE_LEN, lenOf(it), true);
  }
  const all = output(len * messages.length, (out, outLen) =>
    exports.yz_digest_each(n, BigInt(list), BigInt(messages.length), out, outLen));
  return messages.map((_, i) => host.copy(all, len * i, len * i + len));
});

/** The digests of messages. Only the module with vectors has a call for several. */
export function digestEach(n, messages) {
  const answers = [], hasLanes = exports.yz_digest_each !== undefined;
  for (let at = 0; at < messages.length; at += MOST_TOGETHER) {
    const some = messages.slice(at, at + MOST_TOGETHER);
    const isTogether =
      hasLanes && some.length >= LANES && some.every((it) => it.length <= PIECE_LEN);
    answers.push(...isTogether ? digestTogether(n, some) : some.map((it) => digest(n, it)));
  }
  return answers;
}

const emptyContexts = [];

/** The bytes of a context that stands for the empty message: no secret, the same at each call, and
 * not to be written. */
export function digestInit(n) {
  return emptyContexts[n] ??= run(() => {
    const context = blank(DIGEST_CONTEXT_LEN);
    test(exports.yz_digest_init(n, context));
    return contextAt(context, DIGEST_CONTEXT_LEN);
  });
}

/** The bytes of a context after an update. The one passed stays. */
export function digestUpdate(context, message) {
  return run(() => updated(exports.yz_digest_update, context, message));
}

function updated(update, context, message) {
  const at = copied(context);
  feed(update, at, message);
  return contextAt(at, context.length);
}

export function digestFinal(n, context) {
  return run(() => {
    const at = copied(context);
    return output(outputLen(n), (out, len) => exports.yz_digest_final(at, out, len));
  });
}

// The place of a context under a key's value.
function hmacContext(n, value) {
  const at = copied(value), key = blank(HMAC_KEY_LEN), context = blank(HMAC_CONTEXT_LEN);
  test(exports.yz_hmac_key_init(n, at, lenOf(value), key));
  test(exports.yz_hmac_init(key, context));
  return context;
}

export function hmac(n, value, message) {
  return run(() => {
    if (message.length <= PIECE_LEN) {
      const key = copied(value), at = copied(message);
      return output(outputLen(n), (out, len) =>
        exports.yz_hmac_sign(n, key, lenOf(value), at, lenOf(message), out, len));
    }
    const context = hmacContext(n, value);
    feed(exports.yz_hmac_update, context, message);
    return output(outputLen(n), (out, len) => exports.yz_hmac_final(context, out, len));
  });
}

export function hmacInit(n, value) {
  return run(() => contextAt(hmacContext(n, value), HMAC_CONTEXT_LEN));
}

export function hmacUpdate(context, message) {
  return run(() => updated(exports.yz_hmac_update, context, message));
}

export function hmacFinal(n, context) {
  return run(() => {
    const at = copied(context);
    return output(outputLen(n), (out, len) => exports.yz_hmac_final(at, out, len));
  });
}

export function hmacVerify(n, value, message, tag) {
  return run(() => {
    if (message.length <= PIECE_LEN) {
      return verdict(exports.yz_hmac_verify(n, copied(value), lenOf(value),
        copied(message), lenOf(message), copied(tag), lenOf(tag)));
    }
    const context = hmacContext(n, value);
    feed(exports.yz_hmac_update, context, message);
    const made = blank(outputLen(n)), len = BigInt(outputLen(n));
    test(exports.yz_hmac_final(context, made, len));
    return exports.yz_equal(made, len, copied(tag), lenOf(tag)) === 1;
  });
}

export function hkdf(n, salt, secret, info, len) {
  return run(() => {
    const one = copied(salt), other = copied(secret), third = copied(info);
    return output(len, (out, outLen) => exports.yz_hkdf(
      n, one, lenOf(salt), other, lenOf(secret), third, lenOf(info), out, outLen));
  });
}

export function hkdfExtract(n, salt, secret) {
  return run(() => {
    const one = copied(salt), other = copied(secret);
    return output(outputLen(n), (out, len) =>
      exports.yz_hkdf_extract(n, one, lenOf(salt), other, lenOf(secret), out, len));
  });
}

export function hkdfExpand(n, prk, info, len) {
  return run(() => {
    const one = copied(prk), other = copied(info);
    return output(len, (out, outLen) =>
      exports.yz_hkdf_expand(n, one, lenOf(prk), other, lenOf(info), out, outLen));
  });
}

export function hkdfExpandLabel(n, secret, label, context, len) {
  return run(() => {
    const one = copied(secret), other = copied(label), third = copied(context);
    return output(len, (out, outLen) => exports.yz_hkdf_expand_label(
      n, one, lenOf(secret), other, lenOf(label), third, lenOf(context), out, outLen));
  });
}

export function pbkdf2(n, iterations, salt, secret, len) {
  return run(() => {
    const one = copied(salt), other = copied(secret);
    return output(len, (out, outLen) => exports.yz_pbkdf2_derive(
      n, iterations, one, lenOf(salt), other, lenOf(secret), out, outLen));
  });
}

export function pbkdf2Verify(n, iterations, salt, secret, derived) {
  return run(() => verdict(exports.yz_pbkdf2_verify(n, iterations, copied(salt), lenOf(salt),
    copied(secret), lenOf(secret), copied(derived), lenOf(derived))));
}

export function passwordVerify(text, password, maxIterations) {
  return run(() => verdict(exports.yz_password_hash_verify(
    copied(text), lenOf(text), copied(password), lenOf(password), maxIterations)),
  STACK_LEN_OF_TEXTS);
}

// The number of the module that a call wrote to a place.
const wordAt = (place) => new DataView(memory.buffer).getUint32(Number(place), true);

// The bytes that a call wrote to a place. It wrote how many they are to another one.
const written = (place, len) => host.copy(memory, Number(place), Number(place) + wordAt(len));

/** The number of a text's scheme, and its iterations. */
export function passwordInfo(text) {
  return run(() => {
    const at = copied(text), scheme = blank(WORD_LEN), iterations = blank(WORD_LEN);
    test(exports.yz_password_hash_info(at, lenOf(text), scheme, iterations));
    return [wordAt(scheme), wordAt(iterations)];
  }, STACK_LEN_OF_TEXTS);
}

/** A salt for a scheme, of random bytes. */
export function passwordSalt(scheme, random) {
  return run(() => {
    const at = copied(random), salt = blank(MAX_SALT_LEN), len = blank(SIZE_LEN);
    test(exports.yz_password_hash_salt(
      scheme, at, lenOf(random), salt, BigInt(MAX_SALT_LEN), len));
    return written(salt, len);
  }, STACK_LEN_OF_TEXTS);
}

/** The bytes of the text of a new password hash. */
export function passwordNew(scheme, iterations, salt, password) {
  return run(() => {
    const one = copied(salt), other = copied(password);
    const text = blank(MAX_PASSWORD_HASH_LEN), len = blank(SIZE_LEN);
    test(exports.yz_password_hash_new(scheme, iterations, one, lenOf(salt), other, lenOf(password),
      text, BigInt(MAX_PASSWORD_HASH_LEN), len));
    return written(text, len);
  }, STACK_LEN_OF_TEXTS);
}

export function merkleLeaf(entry) {
  return run(() => {
    const at = copied(entry);
    return output(HASH_LEN, (hash) => exports.yz_merkle_leaf(at, lenOf(entry), hash));
  });
}

// The module is passed hashes in a row by the place of a copy, and by how many they are.
const countOf = (hashes) => BigInt(hashes.length / HASH_LEN);

export function merkleRoot(leaves) {
  return run(() => {
    const at = copied(leaves);
    return output(HASH_LEN, (root) => exports.yz_merkle_root(at, countOf(leaves), root));
  });
}

export function merkleVerifyInclusion(hash, index, size, path, root) {
  return run(() => verdict(exports.yz_merkle_verify_inclusion(
    copied(hash), index, size, copied(path), countOf(path), copied(root))));
}

export function merkleVerifyConsistency(firstSize, first, secondSize, second, path) {
  return run(() => verdict(exports.yz_merkle_verify_consistency(
    firstSize, copied(first), secondSize, copied(second), copied(path), countOf(path))));
}

// The path that a call writes, or null where there is none.
function pathBy(name, leaves, number) {
  return run(() => {
    const at = copied(leaves), path = blank(MAX_PATH * HASH_LEN), count = blank(SIZE_LEN);
    const status =
      exports[name](at, countOf(leaves), number, path, BigInt(MAX_PATH), count);
    if (status === UNSPECIFIED) return null;
    test(status);
    return Array.from({ length: wordAt(count) }, (_, i) => {
      const place = Number(path) + i * HASH_LEN;
      return host.copy(memory, place, place + HASH_LEN);
    });
  });
}

/** The hashes of a path, or null where the tree has no such leaf. */
export const merkleInclusionPath = (leaves, index) =>
  pathBy("yz_merkle_inclusion_path", leaves, index);

/** The hashes of a proof, or null where the tree has no such beginning. */
export const merkleConsistencyPath = (leaves, firstSize) =>
  pathBy("yz_merkle_consistency_path", leaves, firstSize);

const base64urlLen = (len) => Math.ceil(len * 4 / 3);

/** The bytes of the text of a token. */
export function jwsSign(n, value, payload) {
  return run(() => {
    const one = copied(value), other = copied(payload), len = blank(SIZE_LEN);
    const most = JWS_REST_LEN + base64urlLen(outputLen(n)) + base64urlLen(payload.length);
    const token = blank(most);
    test(exports.yz_jws_sign(
      n, one, lenOf(value), other, lenOf(payload), token, BigInt(most), len));
    return written(token, len);
  });
}

/** The payload of a token, or null where the text is none of the key. */
export function jwsVerify(n, value, token) {
  return run(() => {
    const one = copied(value), other = copied(token), len = blank(SIZE_LEN);
    const payload = blank(token.length);
    const status = exports.yz_jws_verify(
      n, one, lenOf(value), other, lenOf(token), payload, lenOf(token), len);
    return verdict(status) ? written(payload, len) : null;
  });
}

/** The bytes of the text of a one-time password. */
export function hotp(n, value, counter, digits) {
  return run(() => {
    const at = copied(value);
    return output(digits, (text, len) =>
      exports.yz_hotp(n, at, lenOf(value), counter, text, len));
  });
}

export function totp(n, value, time, step, digits) {
  return run(() => {
    const at = copied(value);
    return output(digits, (text, len) =>
      exports.yz_totp(n, at, lenOf(value), time, step, text, len));
  });
}

// The counter that a call finds, or null.
function found(call) {
  const place = blank(SIZE_LEN);
  if (!verdict(call(place))) return null;
  return new DataView(memory.buffer).getBigUint64(Number(place), true);
}

export function hotpFind(n, value, first, count, digits, text) {
  return run(() => {
    const one = copied(value), other = copied(text);
    return found((counter) => exports.yz_hotp_find(
      n, one, lenOf(value), first, count, BigInt(digits), other, lenOf(text), counter));
  });
}

export function totpFind(n, value, time, step, back, ahead, digits, text) {
  return run(() => {
    const one = copied(value), other = copied(text);
    return found((counter) => exports.yz_totp_find(n, one, lenOf(value), time, step, back, ahead,
      BigInt(digits), other, lenOf(text), counter));
  });
}

export function webhookVerifyHex(n, prefix, secret, body, header) {
  return run(() => verdict(exports.yz_webhook_verify_hex(n, copied(secret), lenOf(secret),
    copied(prefix), lenOf(prefix), copied(body), lenOf(body), copied(header), lenOf(header))));
}

export function webhookVerifyGithub(secret, body, header) {
  return run(() => verdict(exports.yz_webhook_verify_github(copied(secret), lenOf(secret),
    copied(body), lenOf(body), copied(header), lenOf(header))));
}

export function webhookVerifyStripe(secret, body, header, now, tolerance) {
  return run(() => verdict(exports.yz_webhook_verify_stripe(copied(secret), lenOf(secret),
    copied(body), lenOf(body), copied(header), lenOf(header), now, tolerance)));
}

export function tls13Finished(n, baseKey, transcriptHash) {
  return run(() => {
    const one = copied(baseKey), other = copied(transcriptHash);
    return output(outputLen(n), (out, len) => exports.yz_tls13_finished(
      n, one, lenOf(baseKey), other, lenOf(transcriptHash), out, len));
  });
}

export function tls13FinishedVerify(n, baseKey, transcriptHash, verifyData) {
  return run(() => verdict(exports.yz_tls13_finished_verify(n, copied(baseKey), lenOf(baseKey),
    copied(transcriptHash), lenOf(transcriptHash), copied(verifyData), lenOf(verifyData))));
}

/** The base key of a PSK's binders, of a PSK from elsewhere or of a ticket's. */
export function tls13BinderKey(n, psk, isExternal) {
  return run(() => {
    const at = copied(psk);
    return output(outputLen(n), (out, len) =>
      exports.yz_tls13_binder_key(n, at, lenOf(psk), isExternal ? 1 : 0, out, len));
  });
}

export function equal(one, other) {
  return run(() =>
    exports.yz_equal(copied(one), lenOf(one), copied(other), lenOf(other)) === 1);
}
