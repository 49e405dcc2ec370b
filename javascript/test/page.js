// SPDX-License-Identifier: ISC
// Runs the vectors in a browser, in the page and in a worker, and reports to the server. Then it
// goes on below /alone/, where the policy forbids workers, with the calls that are done in workers.

import { FILES, run } from "./vectors.mjs";

const report = (it) => fetch("/report", { method: "POST", body: JSON.stringify(it) });

// What a worker answers to the vectors, which is passed their texts.
function inWorker(texts) {
  return new Promise((resolve, reject) => {
    const worker = new Worker(new URL("./worker.js", import.meta.url), { type: "module" });
    worker.addEventListener("message", ({ data }) => resolve(data));
    worker.addEventListener("error", (it) => reject(new Error(it.message)));
    worker.postMessage(texts);
  });
}

const hex = (it) => Array.from(new Uint8Array(it), (byte) => byte.toString(16)).join();

// What is wrong in the calls that are done in workers, beside WebCrypto.
async function laterFault(yz) {
  const data = crypto.getRandomValues(new Uint8Array(60000)), long = new Uint8Array(900000);
  long.set(data);
  const pbkdf2 = { name: "PBKDF2", hash: "SHA-256", salt: data.subarray(0, 9), iterations: 9999 };
  const [ours, theirs] = await Promise.all([yz.subtle, crypto.subtle].map(async (it) => {
    const key = await it.importKey("raw", data.subarray(0, 40), "PBKDF2", false, ["deriveBits"]);
    return hex(await it.deriveBits(pbkdf2, key, 320)) + hex(await it.digest("SHA-512", long));
  }));
  if (ours !== theirs) return "subtle differs from WebCrypto";
  const told = await new Promise((resolve) =>
    yz.pbkdf2(data.subarray(0, 40), pbkdf2.salt, 9999, 40, "sha256", (_, it) => resolve(hex(it))));
  if (!ours.startsWith(told)) return "pbkdf2 differs from subtle";
  const text = await yz.passwordHash.new("phc-sha256", "a password", { iterations: 99 });
  const isRight = await yz.passwordHash.verify(text, "a password", { maxIterations: 99 });
  return isRight ? null : "a password hash is not that of its password";
}

async function wholeReport(yz) {
  const texts = await Promise.all(
    FILES.map(async (it) => (await fetch(`/vectors/${it}.txt`)).text()));
  const page = await run(yz, texts, crypto.subtle), worker = await inWorker(texts);
  const said = { agent: navigator.userAgent, page, worker };
  if (new URL(location).searchParams.has("speed")) {
    const { party, table, times, web } = await import("/speed/speed.mjs");
    said.speed = table(await times({ yezdopin: party(yz), WebCrypto: web(crypto.subtle) }));
  }
  return said;
}

try {
  const yz = await import("/package/browser.js"), fault = await laterFault(yz);
  if (fault) throw new Error(fault);
  const isAlone = location.pathname.startsWith("/alone/");
  await report(isAlone ? { isAlone } : await wholeReport(yz));
  if (!isAlone) location = "/alone/page.html";
} catch (error) {
  await report({ fault: String(error?.stack ?? error) });
}
