// SPDX-License-Identifier: ISC
// A worker in browsers.

import { answering } from "./answers.js";

const answer = answering((it, moved) => postMessage(it, moved));
addEventListener("message", ({ data }) => answer(data));
