// SPDX-License-Identifier: ISC
// The vectors in a worker. It listens before the package is loaded, so that no message is lost.

import { run } from "./vectors.mjs";

const loading = import("../package/browser.js");

addEventListener("message", async ({ data }) =>
  postMessage(await run(await loading, data, crypto.subtle)));
