// SPDX-License-Identifier: ISC
// A worker's answers to the messages of jobs.js.

import * as calls from "./calls.js";

const isBytes = (it) => it instanceof Uint8Array;

/** Takes the compiled module by the first message, and by each other a call of calls.js with its
 * words, which are wiped. */
export function answering(post) {
  return ({ module, call, words }) => {
    if (module) {
      calls.start(module);
      return post({}, []);
    }
    try {
      const answer = calls[call](...words);
      post({ answer }, isBytes(answer) ? [answer.buffer] : []);
    } catch (error) {
      post({ error, code: error.code }, []);
    } finally {
      for (const it of words) if (isBytes(it)) it.fill(0);
    }
  };
}
