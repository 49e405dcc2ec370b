// SPDX-License-Identifier: ISC
// For Node: compiles one of the modules that lie beside this file, and gives it the shape of
// node:crypto: Buffers, streams, encodings and KeyObjects.

import { AsyncResource } from "node:async_hooks";
import { readFileSync } from "node:fs";
import { Transform } from "node:stream";
import { types } from "node:util";
import * as api from "./api.js";
import { start } from "./calls.js";
import { unknownEncoding, wrongKeyObject, wrongValue } from "./errors.js";
import { host } from "./inputs.js";
import { Running } from "./running.js";
import { hasVectors } from "./simd.js";

const file = (name) => new URL(name, import.meta.url);
const name = hasVectors() ? "./yezdopin_simd.wasm" : "./yezdopin.wasm";
start(new WebAssembly.Module(readFileSync(file(name))));

// The class of Buffers. Its constructor copies in two thirds of the time of `Buffer.alloc` and
// `set`, and not to the pool that Buffers share.
const FastBuffer = Buffer[Symbol.species];

Object.assign(host, {
  copy: (bytes, from, to) => new FastBuffer(bytes.subarray(from, to)),
  answer: (bytes) => Buffer.from(bytes.buffer, bytes.byteOffset, bytes.length),
  textOf(bytes, encoding) {
    if (!Buffer.isEncoding(encoding)) throw unknownEncoding(encoding);
    return bytes.toString(encoding);
  },
  read(text, encoding) {
    if (!Buffer.isEncoding(encoding)) throw unknownEncoding(encoding);
    if (encoding.toLowerCase() === "hex" && text.length % 2 !== 0) {
      throw wrongValue("encoding", ` for data of length ${text.length}. Received '${encoding}'`);
    }
    return Buffer.from(text, encoding);
  },
  valueOf(key) {
    if (ArrayBuffer.isView(key) || !types.isKeyObject?.(key)) return key;
    if (key.type !== "secret") throw wrongKeyObject(key.type);
    return key.export();
  },
  bound: (callback) => AsyncResource.bind(callback),
  async worker(take, fail) {
    const { Worker } = await import("node:worker_threads");
    const worker = new Worker(file("./worker_node.js"), { execArgv: [] });
    worker.on("message", take).on("error", fail);
    return {
      post: (it, moved) => worker.postMessage(it, moved),
      ref: () => worker.ref(),
      unref: () => worker.unref(),
    };
  },
});

// An object becomes a stream where it is used as one: a stream costs more than a digest. What first
// asks for a state of the stream makes both.
const RUNNING = Symbol("running"), OPTIONS = Symbol("options");
const lazy = (name) => ({
  configurable: true,
  get() {
    Transform.call(this, this[OPTIONS]);
    this._writableState.decodeStrings = false;
    return this[name];
  },
  set(value) {
    Object.defineProperty(this, name,
      { value, configurable: true, enumerable: true, writable: true });
  },
});
const methods = {
  update(data, encoding) {
    this[RUNNING].update(data, encoding);
    return this;
  },
  async updateFrom(source, options) {
    await this[RUNNING].updateFrom(source, options);
    return this;
  },
  digest(encoding) {
    return this[RUNNING].digest(encoding);
  },
  copy(options) {
    const it = Object.create(Object.getPrototypeOf(this));
    it[RUNNING] = this[RUNNING].copy();
    it[OPTIONS] = options;
    return it;
  },
  _transform(chunk, encoding, done) {
    try {
      this[RUNNING].update(chunk, encoding);
    } catch (error) {
      return done(error);
    }
    done();
  },
  _flush(done) {
    this.push(this[RUNNING].end());
    done();
  },
};

function streaming(constructor) {
  Object.setPrototypeOf(constructor, Transform);
  constructor.prototype = Object.create(Transform.prototype, {
    _readableState: lazy("_readableState"),
    _writableState: lazy("_writableState"),
    constructor: { value: constructor, configurable: true, writable: true },
    ...Object.getOwnPropertyDescriptors(methods),
  });
}

export function Hash(algorithm, options) {
  if (!new.target) return new Hash(algorithm, options);
  this[RUNNING] = Running.ofDigest(algorithm, options);
  this[OPTIONS] = options;
}
streaming(Hash);

export function Hmac(hmac, key, options) {
  if (!new.target) return new Hmac(hmac, key, options);
  this[RUNNING] = Running.ofTag(hmac, key, options);
  this[OPTIONS] = options;
}
streaming(Hmac);

export const createHash = (algorithm, options) => new Hash(algorithm, options);
export const createHmac = (hmac, key, options) => new Hmac(hmac, key, options);

export * from "./api.js";
export default { ...api, Hash, Hmac, createHash, createHmac };
