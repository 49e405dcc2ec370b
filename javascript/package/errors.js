// SPDX-License-Identifier: ISC
// Errors with the classes, codes and words of Node's, which programs compare. Of an input they name
// the type alone, since it may be a secret.

function coded(Kind, code, message) {
  return Object.assign(new Kind(message), { code });
}

// What was passed instead, in Node's words. Only what can't be a secret is quoted.
function received(value, isPublic) {
  if (value === null || value === undefined) return ` Received ${value}`;
  if (typeof value === "function") return ` Received function ${value.name}`;
  if (typeof value === "object") {
    const name = value.constructor?.name;
    return ` Received ${name ? `an instance of ${name}` : "an object"}`;
  }
  if (typeof value === "string" && !isPublic) return " Received type string";
  const text = typeof value === "string" ? `'${value}'` : String(value);
  const short = text.length > 28 ? `${text.slice(0, 25)}...` : text;
  return ` Received type ${typeof value} (${short})`;
}

// Node separates the digits of a large number.
const separated = (value) => Number.isInteger(value) && Math.abs(value) > 2 ** 32
  ? String(value).replace(/\B(?=(\d{3})+$)/g, "_") : String(value);

/** An argument of another type than `types` says, "of type number" for one. */
export const wrongType = (name, types, value, isPublic = false) => coded(TypeError,
  "ERR_INVALID_ARG_TYPE",
  `The "${name}" ${name.includes(".") ? "property" : "argument"} must be ${types}.`
    + received(value, isPublic));

export const outOfRange = (name, range, value) => coded(RangeError, "ERR_OUT_OF_RANGE",
  `The value of "${name}" is out of range. It must be ${range}. Received ${separated(value)}`);

export const wrongValue = (name, why) => coded(TypeError, "ERR_INVALID_ARG_VALUE",
  `The argument '${name}' is invalid${why}`);

export const unknownEncoding = (encoding) => coded(TypeError, "ERR_UNKNOWN_ENCODING",
  `Unknown encoding: ${encoding}`);

export const wrongDigest = (name) => coded(TypeError, "ERR_CRYPTO_INVALID_DIGEST",
  `Invalid digest: ${name}`);

export const wrongKeyLength = () => coded(RangeError, "ERR_CRYPTO_INVALID_KEYLEN",
  "Invalid key length");

export const shortKey = (least) => coded(RangeError, "ERR_CRYPTO_INVALID_KEYLEN",
  `Invalid key length: at least ${least} bytes, where "allowShortKey" is not set`);

export const emptyKey = () => coded(RangeError, "ERR_CRYPTO_INVALID_KEYLEN",
  "Invalid key length: an empty key");

export const finalized = () => coded(Error, "ERR_CRYPTO_HASH_FINALIZED", "Digest already called");

export const lengthsDiffer = () => coded(RangeError, "ERR_CRYPTO_TIMING_SAFE_EQUAL_LENGTH",
  "Input buffers must have the same byte length");

export const noSuchLength = () => coded(Error, "ERR_OSSL_EVP_NOT_XOF_OR_INVALID_LENGTH",
  "not XOF or invalid length");

export const wrongKeyObject = (type) => coded(TypeError, "ERR_CRYPTO_INVALID_KEY_OBJECT_TYPE",
  `Invalid key object type ${type}, expected secret.`);

/** A refusal that Node has no code for. */
export const refused = (Kind, message) => coded(Kind, "ERR_YEZDOPIN", `yezdopin: ${message}`);
