// SPDX-License-Identifier: ISC
// Digests, HMAC, HKDF and PBKDF2 in the shape of WebCrypto. What may take long is done in a worker.

import * as calls from "./calls.js";
import { bytesOf, numberOf } from "./inputs.js";
import { later } from "./later.js";

// Messages past this are digested in a worker.
const LONG = 256 * 1024;
const NAMES = /^(sha-(1|256|384|512)|hmac|hkdf|pbkdf2)$/i;
const USES = { HMAC: ["sign", "verify"], HKDF: ["deriveBits"], PBKDF2: ["deriveBits"] };

const failed = (name, message) => new DOMException(message, name);

// An algorithm's members, each read once, with its name in upper case.
function algorithmOf(algorithm) {
  const isObject = typeof algorithm === "object" && algorithm !== null;
  const { name, hash, length, salt, info, iterations } = isObject ? algorithm : { name: algorithm };
  if (typeof name !== "string" || !NAMES.test(name)) {
    throw failed("NotSupportedError", "Unrecognized algorithm name");
  }
  return { name: name.toUpperCase(), hash, length, salt, info, iterations };
}

function hashOf(algorithm) {
  const { name } = algorithmOf(algorithm);
  if (!name.startsWith("SHA")) throw failed("NotSupportedError", "Unrecognized algorithm name");
  return { name, number: numberOf(name) };
}

class Key {
  #bytes;
  #hash;

  constructor(bytes, algorithm, usages) {
    this.#bytes = bytes;
    if (algorithm.hash) this.#hash = numberOf(Object.freeze(algorithm.hash).name);
    this.type = "secret";
    this.extractable = false;
    this.algorithm = Object.freeze(algorithm);
    this.usages = Object.freeze(usages);
    Object.freeze(this);
  }

  /** The bytes of a key that may be used so. */
  static bytesOf(key, name, use) {
    if (!(key instanceof Key)) throw new TypeError("yezdopin: no key of importKey");
    if (key.algorithm.name !== name || !key.usages.includes(use)) {
      throw failed("InvalidAccessError", `The key is not for ${use} by ${name}`);
    }
    return key.#bytes;
  }

  /** The number of the hash of a key for HMAC. */
  static hashOf(key) {
    return key.#hash;
  }
}

const isLong = (message) => message.length > LONG;
const bufferOf = ({ buffer }) => buffer;

function tagWords(algorithm, key, use) {
  const { name } = algorithmOf(algorithm), value = Key.bytesOf(key, name, use);
  if (name !== "HMAC") throw failed("NotSupportedError", "Unrecognized algorithm name");
  return [Key.hashOf(key), value];
}

export const subtle = {
  async digest(algorithm, data) {
    const words = [hashOf(algorithm).number, bytesOf(data, "data")];
    return bufferOf(isLong(words[1]) ? await later("digest", ...words) : calls.digest(...words));
  },

  async importKey(format, data, algorithm, extractable, usages) {
    const { name, hash, length } = algorithmOf(algorithm);
    if (!Object.hasOwn(USES, name) || format !== "raw") {
      throw failed("NotSupportedError", `No ${format} key of ${name} is imported`);
    }
    const uses = [...usages], isWrong = uses.some((it) => !USES[name].includes(it));
    if (isWrong || uses.length === 0 || extractable) {
      throw failed("SyntaxError", `A key of ${name} is for ${USES[name]}, and not extractable`);
    }
    const bytes = bytesOf(data, "keyData").slice(), bits = 8 * bytes.length;
    if (name !== "HMAC") return new Key(bytes, { name }, uses);
    if (bits === 0 || (length !== undefined && length !== bits)) {
      throw failed("DataError", "Zero-length key, or another length than it has");
    }
    return new Key(bytes, { name, hash: { name: hashOf(hash).name }, length: bits }, uses);
  },

  async sign(algorithm, key, data) {
    const words = [...tagWords(algorithm, key, "sign"), bytesOf(data, "data")];
    return bufferOf(isLong(words[2]) ? await later("hmac", ...words) : calls.hmac(...words));
  },

  async verify(algorithm, key, signature, data) {
    const words = [...tagWords(algorithm, key, "verify"), bytesOf(data, "data"),
      bytesOf(signature, "signature")];
    return isLong(words[2]) ? later("hmacVerify", ...words) : calls.hmacVerify(...words);
  },

  async deriveBits(algorithm, key, length) {
    const { name, hash, salt, info, iterations } = algorithmOf(algorithm);
    const secret = Key.bytesOf(key, name, "deriveBits");
    const n = hashOf(hash).number, bytes = bytesOf(salt, "algorithm.salt").slice();
    if (!Number.isInteger(length) || length <= 0 || length % 8 !== 0) {
      throw failed("OperationError", "The length is a multiple of 8, and not zero");
    }
    try {
      if (name === "HKDF") {
        return bufferOf(calls.hkdf(n, bytes, secret, bytesOf(info, "algorithm.info"), length / 8));
      }
      if (!Number.isInteger(iterations) || iterations < 1 || iterations > 2 ** 32 - 1) {
        throw new RangeError("yezdopin: iterations are 1 to 2^32 - 1");
      }
      return bufferOf(await later("pbkdf2", n, iterations, bytes, secret, length / 8));
    } catch (cause) {
      if (cause instanceof RangeError) throw failed("OperationError", cause.message);
      throw cause;
    }
  },
};
