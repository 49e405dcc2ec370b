// SPDX-License-Identifier: ISC
// node demo.mjs BROWSER FOLDER [SCREENSHOT]: uses the demonstration as a person does, in Chromium
// by its DevTools protocol, and compares what the page shows with node:crypto.

import assert from "node:assert/strict";
import { spawn } from "node:child_process";
import crypto from "node:crypto";
import { writeFileSync } from "node:fs";
import { serve } from "./server.mjs";

const [, , program, room, screenshot] = process.argv;
const here = (name) => new URL(`../${name}`, import.meta.url).pathname;
const address = await serve({ package: process.env.PACKAGE, demo: here("demo") }, () => {});
const browser = spawn(program, ["--headless=new", "--no-sandbox", "--disable-gpu",
  "--hide-scrollbars", `--user-data-dir=${room}/profile`, "--remote-debugging-pipe",
  "--window-size=1000,1700", "about:blank"],
{ stdio: ["ignore", "ignore", "ignore", "pipe", "pipe"] });

// The protocol: messages of JSON, each with a zero behind it.
const waiting = new Map(), faults = [];
let lastId = 0, session, pending = "";
browser.stdio[4].on("data", (data) => {
  const texts = (pending + data).split("\0");
  pending = texts.pop();
  for (const it of texts.map(JSON.parse)) {
    if (it.method === "Runtime.exceptionThrown") faults.push(it.params.exceptionDetails);
    if (it.method === "Log.entryAdded") faults.push(it.params.entry);
    if (it.error) waiting.get(it.id)?.reject(new Error(it.error.message));
    else waiting.get(it.id)?.resolve(it.result);
  }
});
function send(method, params = {}) {
  const id = ++lastId;
  browser.stdio[3].write(`${JSON.stringify({ id, method, params, sessionId: session })}\0`);
  return new Promise((resolve, reject) => waiting.set(id, { resolve, reject }));
}

async function evaluate(expression) {
  const { result, exceptionDetails } = await send("Runtime.evaluate",
    { expression, returnByValue: true, awaitPromise: true });
  if (exceptionDetails) throw new Error(JSON.stringify(exceptionDetails));
  return result.value;
}

// What an expression gives, once it gives something.
async function eventually(expression) {
  for (let turn = 0; turn < 600; turn++) {
    const value = await evaluate(expression);
    if (value) return value;
    await new Promise((resolve) => { setTimeout(resolve, 100); });
  }
  throw new Error(`never: ${expression}`);
}

async function chooseFiles(selector, files) {
  const { root } = await send("DOM.getDocument");
  const { nodeId } = await send("DOM.querySelector", { nodeId: root.nodeId, selector });
  await send("DOM.setFileInputFiles", { nodeId, files });
}

async function dropFiles(selector, files) {
  const [x, y] = await evaluate(`(({ x, y }) => [x + 9, y + 9])(
    document.querySelector("${selector}").getBoundingClientRect())`);
  for (const type of ["dragEnter", "dragOver", "drop"]) {
    const data = { items: [], files, dragOperationsMask: 1 };
    await send("Input.dispatchDragEvent", { type, x, y, data });
  }
}

const cells = (table) => `[...document.querySelectorAll("#${table} tbody tr")]
  .map((it) => [...it.cells].map((cell) => cell.textContent))`;
const set = (id, value) =>
  evaluate(`document.getElementById(${JSON.stringify(id)}).value = ${JSON.stringify(value)}`);

const { targetInfos } = await send("Target.getTargets");
const { targetId } = targetInfos.find((it) => it.type === "page");
session = (await send("Target.attachToTarget", { targetId, flatten: true })).sessionId;
for (const it of ["Runtime", "Log", "Page", "DOM"]) await send(`${it}.enable`);
await send("Page.navigate", { url: `${address}/demo/index.html` });
await eventually('document.getElementById("needs")?.hidden');

// Files: one of several pieces, one that is empty, one whose name has markup.
const contents = new Map([
  ["a large file.bin", crypto.randomBytes((20 << 20) + 3)], ["abc.txt", Buffer.from("abc")],
  ["empty", Buffer.alloc(0)], ["<b>&.txt", Buffer.from("markup")],
]);
const paths = [...contents].map(([name, content]) => {
  writeFileSync(`${room}/${name}`, content);
  return `${room}/${name}`;
});
const digests = (algorithm) => [...contents].map(([name, content]) =>
  [name, crypto.createHash(algorithm).update(content).digest("hex")]);
// What the bars of progress show.
await evaluate(`globalThis.shown = [];
  new MutationObserver((all) => { for (const it of all) shown.push(it.target.value); })
    .observe(document.body, { subtree: true, attributeFilter: ["value"] })`);
await chooseFiles("#files", paths);
await eventually('document.querySelectorAll("#files-table .done").length === 4');
const shown = (await evaluate(cells("files-table"))).map(([name, , , it]) => [name, it]);
assert.deepEqual(shown, digests("sha256"));
await set("algorithm", "sha512-256");
await dropFiles("#files-drop", paths.slice(1, 2));
await eventually('document.querySelectorAll("#files-table .done").length === 5');
const progress = await evaluate("shown");
for (const it of [1, 2, 3, 4]) assert.ok(progress.includes(it * (4 << 20)), String(progress));
const last = (await evaluate(cells("files-table"))).at(-1);
assert.deepEqual(last, ["abc.txt", "3 bytes", "SHA-512/256", digests("sha512-256")[1][1]]);

// A list as coreutils writes it: lines of each form, a wrong one, and one of a file not given.
const wrong = crypto.createHash("sha1").update("other").digest("hex");
const tagged = `SHA512/256 (abc.txt) = ${digests("sha512-256")[1][1]}`;
await set("list", [`${digests("sha256")[0][1]}  dist/a large file.bin`,
  `${digests("sha1")[1][1].toUpperCase()} *abc.txt`, tagged, `${wrong}  <b>&.txt`,
  `${digests("sha512")[2][1]}  empty`, `${wrong}  nowhere`, "what is no line"].join("\r\n"));
await dropFiles("#verify-drop", paths);
const summary = 'document.getElementById("verify-summary").textContent';
await eventually(`${summary}.includes(" of 7.")`);
assert.deepEqual((await evaluate(cells("verify-table"))).map((it) => it[2]), ["Matches", "Matches",
  "Matches", "Differs", "Matches", "No such file was given", "No line of a list"]);
assert.equal(await evaluate(summary), "Lines that match: 4 of 7. Different or not read: 1. "
  + "Files not given: 1. No lines of a list: 1.");

// A key, and a count of iterations that is refused by the form.
await set("password", "p\u00e4ssword");
await set("salt", "salt");
await evaluate('document.querySelector("#key button").click()');
const derived = await eventually('document.getElementById("derived").textContent');
const wanted = crypto.pbkdf2Sync("p\u00e4ssword", "salt", 600000, 32, "sha256").toString("hex");
assert.equal(derived, wanted);
assert.match(await evaluate('document.getElementById("took").textContent'), /^\d+\.\d\d s$/);
await set("iterations", "0");
assert.equal(await evaluate('document.getElementById("key").checkValidity()'), false);
await set("iterations", "600000");

if (screenshot) {
  const { data } = await send("Page.captureScreenshot", { captureBeyondViewport: true });
  writeFileSync(screenshot, Buffer.from(data, "base64"));
}
assert.deepEqual(faults.filter((it) => !/favicon/.test(it.url ?? "")), []);
console.log("the demonstration: digests, a list of checksums and a key are right");
browser.kill();
setTimeout(() => process.exit(0), 300);
