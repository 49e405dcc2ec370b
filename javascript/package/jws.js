// SPDX-License-Identifier: ISC
// Signed tokens: JSON Web Signatures in the compact form (RFC 7515) under HMAC.

import * as calls from "./calls.js";
import { wrongKeyLength, wrongValue } from "./errors.js";
import { bytesOrText, keyOf, TOKENS } from "./inputs.js";

function algorithmOf(name) {
  const number = TOKENS.get(name);
  if (number !== undefined) return number;
  throw wrongValue("algorithm", `: it is one of ${[...TOKENS.keys()].join(", ")}`);
}

// An algorithm and a key, which has as many bytes as its digest at least (RFC 7518, 3.2).
function keyWords(algorithm, key) {
  const n = algorithmOf(algorithm), value = keyOf(key, "key");
  if (value.length < calls.outputLen(n)) throw wrongKeyLength();
  return [n, value];
}

export const jws = Object.freeze({
  sign(algorithm, key, payload) {
    const words = [...keyWords(algorithm, key), bytesOrText(payload, "payload")];
    return new TextDecoder().decode(calls.jwsSign(...words));
  },

  verify: (algorithm, key, token) =>
    calls.jwsVerify(...keyWords(algorithm, key), bytesOrText(token, "token")),
});
