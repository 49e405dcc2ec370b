// SPDX-License-Identifier: ISC
// The page: what is dropped and typed goes to a worker, and what it answers into the page.

import { baseOf, lineOf, parseList } from "./lists.js";

const at = (id) => document.getElementById(id);
const worker = new Worker(new URL("./worker.js", import.meta.url), { type: "module" });
const waiting = new Map();
let lastId = 0;

worker.addEventListener("message", ({ data: { id, bytes, answer, fault } }) => {
  if (id === 0) {
    at("needs").hidden = fault === undefined;
    at("needs").textContent = `The module does not load: ${fault}`;
    return;
  }
  const { resolve, reject, progress } = waiting.get(id);
  if (bytes !== undefined) {
    progress?.(bytes);
    return;
  }
  waiting.delete(id);
  if (fault === undefined) resolve(answer);
  else reject(new Error(fault));
});
worker.addEventListener("error", (it) => {
  at("needs").textContent = `The page's worker does not load. ${it.message ?? ""}`;
});

function ask(call, words, progress) {
  const id = ++lastId;
  return new Promise((resolve, reject) => {
    waiting.set(id, { resolve, reject, progress });
    worker.postMessage({ id, call, words });
  });
}

function element(tag, text = "", className = "") {
  const made = document.createElement(tag);
  made.textContent = text;
  made.className = className;
  return made;
}

function addRow(table, ...cells) {
  const row = table.tBodies[0].insertRow();
  row.append(...cells);
  table.hidden = false;
}

const UNITS = ["bytes", "KiB", "MiB", "GiB", "TiB"];
function sizeOf(bytes) {
  const unit = bytes < 1024 ? 0 : Math.min(4, Math.floor(Math.log2(bytes) / 10));
  return `${(bytes / 1024 ** unit).toFixed(unit === 0 ? 0 : 1)} ${UNITS[unit]}`;
}

// The standard's name of an algorithm.
function titleOf(algorithm) {
  return algorithm?.toUpperCase().replace("SHA", "SHA-").replace("512-", "512/") ?? "";
}

// The digest of a file, with its progress in a cell until it is there.
async function digestIn(cell, algorithm, file) {
  const bar = element("progress");
  bar.max = file.size || 1;
  bar.value = 0;
  bar.setAttribute("aria-label", `Reading ${file.name}`);
  cell.replaceChildren(bar);
  try {
    return await ask("digest", { algorithm, file }, (bytes) => { bar.value = bytes; });
  } finally {
    bar.remove();
  }
}

function show(cell, text, className) {
  cell.textContent = text;
  cell.classList.add(className);
}

// Whatever is dropped on an element, or chosen in its input, is passed on.
function takeFiles(drop, input, take) {
  input.addEventListener("change", () => {
    take([...input.files]);
    input.value = "";
  });
  for (const kind of ["dragenter", "dragover"]) {
    drop.addEventListener(kind, (it) => {
      it.preventDefault();
      drop.classList.add("over");
    });
  }
  for (const kind of ["dragleave", "drop"]) {
    drop.addEventListener(kind, () => drop.classList.remove("over"));
  }
  drop.addEventListener("drop", (it) => {
    it.preventDefault();
    take([...it.dataTransfer.files]);
  });
}

// A file that is dropped beside its place would leave the page.
for (const kind of ["dragover", "drop"]) addEventListener(kind, (it) => it.preventDefault());

const digested = [];
takeFiles(at("files-drop"), at("files"), (files) => files.forEach(async (file) => {
  const algorithm = at("algorithm").value, { name } = file;
  const cell = element("td", "", "digest");
  addRow(at("files-table"), element("td", name, "name"), element("td", sizeOf(file.size), "size"),
    element("td", titleOf(algorithm), "size"), cell);
  try {
    const checksum = await digestIn(cell, algorithm, file);
    show(cell, checksum, "done");
    digested.push({ name, algorithm, checksum });
    at("files-list").hidden = false;
    at("copied").textContent = "";
  } catch (error) {
    show(cell, `Not read: ${error.message}`, "bad");
  }
}));

at("copy").addEventListener("click", async () => {
  try {
    await navigator.clipboard.writeText(digested.map((it) => `${lineOf(it)}\n`).join(""));
    at("copied").textContent = `${digested.length} lines copied`;
  } catch (error) {
    at("copied").textContent = `Not copied: ${error.message}`;
  }
});

takeFiles(at("verify-drop"), at("verify"), async (files) => {
  const table = at("verify-table"), lines = parseList(at("list").value);
  const counts = { match: 0, differ: 0, missing: 0, none: 0 };
  table.tBodies[0].replaceChildren();
  const summary = at("verify-summary");
  summary.className = "";
  summary.textContent = lines.length === 0 ? "Paste the list above first." : "Reading.";
  await Promise.all(lines.map(async ({ name, algorithm, checksum, fault }) => {
    const cell = element("td");
    addRow(table, element("td", name ?? fault, "name"), element("td", titleOf(algorithm)), cell);
    const file = files.find((it) => it.name === baseOf(name ?? ""));
    if (fault !== undefined) {
      counts.none++;
      show(cell, "No line of a list", "bad");
    } else if (file === undefined) {
      counts.missing++;
      show(cell, "No such file was given", "bad");
    } else {
      const made = await digestIn(cell, algorithm, file).catch((error) => error);
      const isMatch = made === checksum;
      counts[isMatch ? "match" : "differ"]++;
      if (made instanceof Error) show(cell, `Not read: ${made.message}`, "bad");
      else show(cell, isMatch ? "Matches" : "Differs", isMatch ? "good" : "bad");
    }
  }));
  if (lines.length === 0) return;
  summary.textContent = `Lines that match: ${counts.match} of ${lines.length}. `
    + `Different or not read: ${counts.differ}. Files not given: ${counts.missing}. `
    + `No lines of a list: ${counts.none}.`;
  summary.className = counts.match === lines.length ? "good" : "bad";
});

at("key").addEventListener("submit", async (event) => {
  event.preventDefault();
  const button = event.submitter ?? at("key").querySelector("button");
  const words = {
    password: at("password").value, salt: at("salt").value,
    iterations: at("iterations").valueAsNumber, length: at("length").valueAsNumber,
    algorithm: at("key-algorithm").value,
  };
  const begun = performance.now();
  button.disabled = true;
  at("derived").textContent = "";
  at("took").textContent = "Deriving.";
  try {
    const derived = await ask("derive", words);
    at("derived").textContent =
      Array.from(derived, (it) => it.toString(16).padStart(2, "0")).join("");
    at("took").textContent = `${((performance.now() - begun) / 1000).toFixed(2)} s`;
  } catch (error) {
    at("took").textContent = `Refused: ${error.message}`;
  }
  button.disabled = false;
});
