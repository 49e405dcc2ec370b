// SPDX-License-Identifier: ISC
// For browsers: fetches and compiles one of the modules that lie beside this file.

import * as api from "./api.js";
import { start } from "./calls.js";
import { host } from "./inputs.js";
import { Running } from "./running.js";
import { hasVectors } from "./simd.js";

// Bundlers find each file by such a call.
const url = hasVectors() ? new URL("./yezdopin_simd.wasm", import.meta.url)
  : new URL("./yezdopin.wasm", import.meta.url);

async function compiled() {
  const response = await fetch(url);
  if (!response.ok) throw new Error(`yezdopin: ${url} answers ${response.status}`);
  // `compileStreaming` refuses what a server sends as another type.
  if (/^application\/wasm\b/.test(response.headers.get("content-type") ?? "")) {
    return WebAssembly.compileStreaming(response);
  }
  return WebAssembly.compile(await response.arrayBuffer());
}

start(await compiled());

host.worker = (take, fail) => {
  const worker = new Worker(new URL("./worker.js", import.meta.url), { type: "module" });
  worker.addEventListener("message", ({ data }) => take(data));
  worker.addEventListener("error", ({ message }) =>
    fail(new Error(`yezdopin: ${message ?? "no worker"}`)));
  return { post: (it, moved) => worker.postMessage(it, moved) };
};

export const createHash = (algorithm, options) => Running.ofDigest(algorithm, options);
export const createHmac = (hmac, key, options) => Running.ofTag(hmac, key, options);

export * from "./api.js";
export default { ...api, createHash, createHmac };
