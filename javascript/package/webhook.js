// SPDX-License-Identifier: ISC
// The headers with which GitHub, Stripe and others sign what they send to a webhook.

import * as calls from "./calls.js";
import { wrongType } from "./errors.js";
import { bytesOrText, keyOf, macOf, uint64From } from "./inputs.js";

const TOLERANCE = 300;

const now = () => Math.floor(Date.now() / 1000);

// The bytes of a header. One that is missing is an empty one, which no tag has.
function headerOf(header) {
  if (!Array.isArray(header)) return bytesOrText(header ?? "", "header");
  const isText = header.every((it) => typeof it === "string");
  if (!isText) throw wrongType("header", "an array of strings", header);
  return bytesOrText(header.join(", "), "header");
}

const wordsOf = (secret, body, header) =>
  [keyOf(secret, "secret"), bytesOrText(body, "body"), headerOf(header)];

export const webhook = Object.freeze({
  verifyHex(algorithm, secret, body, header, { prefix = "" } = {}) {
    const n = macOf(algorithm, "algorithm"), words = wordsOf(secret, body, header);
    return calls.webhookVerifyHex(n, bytesOrText(prefix, "prefix"), ...words);
  },

  verifyGithub: (...words) => calls.webhookVerifyGithub(...wordsOf(...words)),

  verifyStripe(secret, body, header, { tolerance = TOLERANCE, now: time = now() } = {}) {
    return calls.webhookVerifyStripe(...wordsOf(secret, body, header), uint64From(time, "now"),
      uint64From(tolerance, "tolerance"));
  },
});
