// SPDX-License-Identifier: ISC
// Calls that may take long. jobs.js, which gives them to workers, is loaded with the first.

import * as calls from "./calls.js";
import { host } from "./inputs.js";

let jobs;

/** The answer of a call of calls.js, by its name. Bytes are copied at once. */
export function later(call, ...words) {
  const copies = words.map((it) => it instanceof Uint8Array ? it.slice() : it);
  jobs ??= import("./jobs.js").then(({ jobsOf }) => jobsOf(calls, host.worker));
  return jobs.then((run) => run(call, copies));
}
