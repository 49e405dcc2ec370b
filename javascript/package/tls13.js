// SPDX-License-Identifier: ISC
// The Finished messages and PSK binders of TLS 1.3 (RFC 8446, 4.4.4 and 4.2.11.2).

import * as calls from "./calls.js";
import { emptyKey, wrongType } from "./errors.js";
import { bytesOf, keyOf, macOf } from "./inputs.js";

const wordsOf = (algorithm, baseKey, transcriptHash) => [macOf(algorithm, "algorithm"),
  bytesOf(baseKey, "baseKey"), bytesOf(transcriptHash, "transcriptHash")];

export const tls13 = Object.freeze({
  finished: (...words) => calls.tls13Finished(...wordsOf(...words)),

  verifyFinished: (algorithm, baseKey, transcriptHash, verifyData) => calls.tls13FinishedVerify(
    ...wordsOf(algorithm, baseKey, transcriptHash), bytesOf(verifyData, "verifyData")),

  binderKey(algorithm, psk, options) {
    const n = macOf(algorithm, "algorithm"), isExternal = options?.isExternal;
    if (typeof isExternal !== "boolean") {
      throw wrongType("options.isExternal", "of type boolean", isExternal);
    }
    const words = keyOf(psk, "psk");
    if (words.length === 0) throw emptyKey();
    return calls.tls13BinderKey(n, words, isExternal);
  },
});
