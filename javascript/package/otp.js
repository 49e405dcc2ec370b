// SPDX-License-Identifier: ISC
// One-time passwords: HOTP (RFC 4226), and TOTP (RFC 6238).

import * as calls from "./calls.js";
import { emptyKey, shortKey } from "./errors.js";
import { bytesOrText, keyOf, macOf, uint64From, wholeOf } from "./inputs.js";

const DIGITS = 6;
const STEP = 30;
const MAX_UINT32 = 2 ** 32 - 1;
// RFC 4226, section 4.
const MIN_KEY_LEN = 16;

// The first words of a call. A short key is refused where nobody allows it, and an empty one
// always, since everybody has it.
function keyWords(algorithm, key, allowShortKey) {
  const words = [macOf(algorithm, "algorithm"), keyOf(key, "key")], len = words[1].length;
  if (len < MIN_KEY_LEN && allowShortKey !== true) throw shortKey(MIN_KEY_LEN);
  if (len === 0) throw emptyKey();
  return words;
}

const digitsOf = (digits) => wholeOf(digits, "digits", 6, 8);
const stepOf = (step) => wholeOf(step, "step", 1, MAX_UINT32);

// A password as text.
const textOf = (bytes) => String.fromCharCode(...bytes);

export const otp = Object.freeze({
  hotp(algorithm, key, counter, { digits = DIGITS, allowShortKey = false } = {}) {
    const words = [...keyWords(algorithm, key, allowShortKey), uint64From(counter, "counter"),
      digitsOf(digits)];
    return textOf(calls.hotp(...words));
  },

  totp(algorithm, key, time, { step = STEP, digits = DIGITS, allowShortKey = false } = {}) {
    const words = [...keyWords(algorithm, key, allowShortKey), uint64From(time, "time"),
      stepOf(step), digitsOf(digits)];
    return textOf(calls.totp(...words));
  },

  findHotp(algorithm, key, text, { first, count, digits = DIGITS, allowShortKey = false }) {
    return calls.hotpFind(...keyWords(algorithm, key, allowShortKey), uint64From(first, "first"),
      uint64From(count, "count"), digitsOf(digits), bytesOrText(text, "text"));
  },

  findTotp(algorithm, key, text, {
    time, step = STEP, back = 1, ahead = 1, digits = DIGITS, allowShortKey = false,
  }) {
    return calls.totpFind(...keyWords(algorithm, key, allowShortKey), uint64From(time, "time"),
      stepOf(step),
      wholeOf(back, "back", 0, MAX_UINT32), wholeOf(ahead, "ahead", 0, MAX_UINT32),
      digitsOf(digits), bytesOrText(text, "text"));
  },
});
