// SPDX-License-Identifier: ISC
// A digest or a tag of a message in pieces.

import * as calls from "./calls.js";
import { finalized, noSuchLength, refused, wrongType } from "./errors.js";
import {
  PIECES, bytesOrText, digestOf, encoded, host, keyOf, macOf, wholeOf,
} from "./inputs.js";
import { piecesOf } from "./pieces.js";

const DIGEST = { update: calls.digestUpdate, final: calls.digestFinal };
const TAG = { update: calls.hmacUpdate, final: calls.hmacFinal };

export class Running {
  #number;
  #calls;
  // The context's bytes, or null once the digest was taken.
  #context;
  // Whether the context is shared by all objects, as that of the empty message is.
  #isShared;
  // Whether a source is being read.
  #isReading = false;
  // The digest, where a stream ended the message.
  #ended = null;
  // Whether a source failed, which closes the object.
  #isFailed = false;

  constructor(number, calls, context, isShared) {
    this.#number = number;
    this.#calls = calls;
    this.#context = context;
    this.#isShared = isShared;
  }

  #ready() {
    if (this.#isFailed) throw refused(Error, "a source failed");
    if (this.#context === null) throw finalized();
    if (this.#isReading) throw refused(Error, "a source is being read");
    return this.#context;
  }

  // The next context, or null. The one before is wiped.
  #become(context) {
    if (!this.#isShared) calls.discard(this.#context);
    this.#isShared = false;
    this.#context = context;
  }

  #take(bytes) {
    this.#become(this.#calls.update(this.#context, bytes));
  }

  update(data, encoding) {
    this.#ready();
    this.#take(bytesOrText(data, "data", encoding, PIECES));
    return this;
  }

  async updateFrom(source, { progress, signal } = {}) {
    // This runs getters of the source, which may begin to read another one.
    const pieces = piecesOf(source);
    this.#ready();
    this.#isReading = true;
    let isRead = false, len = 0;
    try {
      signal?.throwIfAborted();
      for await (const piece of pieces) {
        signal?.throwIfAborted();
        const bytes = bytesOrText(piece, "source");
        this.#take(bytes);
        len += bytes.length;
        await progress?.(len);
      }
      isRead = true;
    } finally {
      this.#isReading = false;
      // Nobody knows how much of the source a context has that was left in the midst of it.
      if (!isRead) {
        this.#isFailed = true;
        this.#become(null);
      }
    }
    return this;
  }

  /** Ends the message, as a stream does, and gives the digest, which `digest` gives once more. */
  end() {
    this.#ended = this.#calls.final(this.#number, this.#ready());
    this.#become(null);
    return host.copy(this.#ended, 0, this.#ended.length);
  }

  digest(encoding) {
    // As in Node, an encoding may be an object that is converted to its name, or throws.
    const name = encoding ? `${encoding}` : undefined;
    const bytes = this.#ended ?? this.#calls.final(this.#number, this.#ready());
    const answer = encoded(bytes, name);
    if (this.#ended === null) this.#become(null);
    this.#ended = null;
    return answer;
  }

  copy() {
    const context = this.#ready();
    return new Running(this.#number, this.#calls,
      this.#isShared ? context : context.slice(), this.#isShared);
  }

  /** Of a digest. `outputLength` is what other algorithms than these can change. */
  static ofDigest(algorithm, options) {
    const n = digestOf(algorithm), length = options?.outputLength;
    if (length !== undefined) {
      wholeOf(length, "options.outputLength", 0, 2 ** 32 - 1);
      if (length !== calls.outputLen(n)) throw noSuchLength();
    }
    return new Running(n, DIGEST, calls.digestInit(n), true);
  }

  /** Of a tag by HMAC. `encoding` is that of a key that is a text. */
  static ofTag(algorithm, key, options) {
    const encoding = options?.encoding;
    if (encoding !== undefined && typeof encoding !== "string") {
      throw wrongType("options.encoding", "of type string", encoding, true);
    }
    const n = macOf(algorithm, "hmac");
    return new Running(n, TAG, calls.hmacInit(n, keyOf(key, "key", encoding)), false);
  }
}
