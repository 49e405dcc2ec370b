// SPDX-License-Identifier: ISC
// A message that comes in pieces, from a Blob, a stream or whatever iterates.

import { wrongType } from "./errors.js";

const PIECE_LEN = 4 * 1024 * 1024;

/** The pieces of a source: a Blob, a ReadableStream, an iterable, or one that is asynchronous. */
export function piecesOf(source) {
  if (typeof Blob !== "undefined" && source instanceof Blob) return piecesOfBlob(source);
  if (typeof source?.getReader === "function") return piecesOfStream(source);
  // Text and views iterate too, but not over bytes of a message.
  const isOther = typeof source === "object" && !ArrayBuffer.isView(source);
  if (isOther && source?.[Symbol.asyncIterator] !== undefined) return source;
  if (isOther && source?.[Symbol.iterator] !== undefined) return source;
  throw wrongType("source", "an instance of Blob, ReadableStream, or an iterable of bytes", source);
}

async function* piecesOfBlob(blob) {
  for (let at = 0; at < blob.size; at += PIECE_LEN) {
    yield await blob.slice(at, at + PIECE_LEN).arrayBuffer();
  }
}

// Some browsers' streams have no iterator. A stream that isn't read to its end is cancelled.
async function* piecesOfStream(stream) {
  const reader = stream.getReader();
  let isRead = false;
  try {
    for (;;) {
      const { done, value } = await reader.read();
      if (done) break;
      yield value;
    }
    isRead = true;
  } finally {
    if (!isRead) await reader.cancel().catch(() => {});
    reader.releaseLock();
  }
}
