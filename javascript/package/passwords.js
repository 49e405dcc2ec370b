// SPDX-License-Identifier: ISC
// Password hashes as Django, Werkzeug, PHC strings, Mosquitto, passlib and PostgreSQL keep them.

import * as calls from "./calls.js";
import { refused, wrongValue } from "./errors.js";
import { bytesOrText, iterationsOf, wholeOf } from "./inputs.js";
import { later } from "./later.js";

// In the order of their numbers in C, from 1 on.
const SCHEMES = [
  // schemes: made by tools/lists.py
  "django-sha256", "django-sha1", "werkzeug-sha256", "werkzeug-sha512", "phc-sha256", "phc-sha512",
  "mosquitto", "passlib-sha1", "passlib-sha256", "passlib-sha512", "postgresql", "werkzeug-sha1",
  // /schemes
];
const SALT_RANDOM_LEN = 16;
const MAX_UINT32 = 2 ** 32 - 1;

function numberOf(scheme) {
  const at = SCHEMES.indexOf(scheme);
  if (at < 0) throw wrongValue("scheme", `: it is one of ${SCHEMES.join(", ")}`);
  return at + 1;
}

function newSalt(scheme) {
  if (!globalThis.crypto) throw refused(Error, "there are no random bytes here: pass a salt");
  const random = globalThis.crypto.getRandomValues(new Uint8Array(SALT_RANDOM_LEN));
  return calls.passwordSalt(scheme, random);
}

function wordsOfNew(scheme, password, options) {
  const n = numberOf(scheme), iterations = iterationsOf(options?.iterations);
  const salt = options.salt === undefined ? newSalt(n) : bytesOrText(options.salt, "salt");
  return [n, iterations, salt, bytesOrText(password, "password")];
}

const wordsOfVerify = (text, password, options) =>
  [bytesOrText(text, "text"), bytesOrText(password, "password"),
    wholeOf(options?.maxIterations, "maxIterations", 1, MAX_UINT32)];

// A salt that is written as it is may make a text that is not UTF-8.
const textOf = (bytes) => new TextDecoder("utf-8", { fatal: true }).decode(bytes);

export const passwordHash = Object.freeze({
  SCHEMES: Object.freeze(SCHEMES),

  info(text) {
    const [scheme, iterations] = calls.passwordInfo(bytesOrText(text, "text"));
    return { scheme: SCHEMES[scheme - 1], iterations };
  },

  isSupported(text) {
    const bytes = bytesOrText(text, "text");
    try {
      calls.passwordInfo(bytes);
      return true;
    } catch (error) {
      if (error.code === undefined) throw error;
      return false;
    }
  },

  /** In a worker. */
  async new(...words) {
    return textOf(await later("passwordNew", ...wordsOfNew(...words)));
  },

  newSync: (...words) => textOf(calls.passwordNew(...wordsOfNew(...words))),

  /** In a worker. */
  verify: async (...words) => later("passwordVerify", ...wordsOfVerify(...words)),

  verifySync: (...words) => calls.passwordVerify(...wordsOfVerify(...words)),
});
