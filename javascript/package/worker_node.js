// SPDX-License-Identifier: ISC
// A worker in Node.

import { parentPort } from "node:worker_threads";
import { answering } from "./answers.js";

parentPort.on("message", answering((it, moved) => parentPort.postMessage(it, moved)));
