// SPDX-License-Identifier: ISC
// What the tests of the package in the folder PACKAGE share: the package, the memory of its module,
// node:crypto's answers, and the lines of the folders of VECTORS.

import crypto from "node:crypto";
import { readFileSync, readdirSync } from "node:fs";
import { pathToFileURL } from "node:url";
import "./engine.cjs";

const { PACKAGE, VECTORS } = process.env;
// The instances of the module, which the package keeps to itself.
export const instances = [];
export const { Instance } = WebAssembly;
WebAssembly.Instance = class extends Instance {
  constructor(...words) {
    super(...words);
    instances.push(this.exports);
  }
};
// The module that the package takes.
const { MODULE = "yezdopin_simd" } = process.env;
export const moduleBytes = readFileSync(`${PACKAGE}/${MODULE}.wasm`);
export const main = pathToFileURL(`${PACKAGE}/node.js`).href;
export const yz = await import(main);

// The algorithms that the vectors of a call name.
const namedIn = (call) => [...new Set(readFileSync(`${VECTORS}/${call}.txt`, "utf8")
  .match(new RegExp(`(?<=^${call} )\\w+`, "gm")))].map((it) => it.toLowerCase().replace("_", "-"));
export const NAMES = namedIn("digest");
export const TAGS = namedIn("hmac");
// Their names in WebCrypto.
export const titleOf = (name) => name.replace("sha", "SHA-");
export const SHA256_OF_ABC = "ba7816bf8f01cfea414140de5dae2223b00361a396177a9cb410ff61f20015ad";
export const memoryNow = () => new Uint8Array(instances.at(-1).memory.buffer);
export const AS_NEW = memoryNow().slice();

// Whether the module's memory is as a new one's.
export function isWiped() {
  const wanted = Buffer.alloc(memoryNow().length);
  wanted.set(AS_NEW);
  return wanted.equals(memoryNow());
}

export const theirs = (name, message) => crypto.createHash(name).update(message).digest("hex");

// The lines of a folder of VECTORS that begin with a word, each split, with the answer below it.
export function linesOf(folder, word) {
  return readdirSync(`${VECTORS}/${folder}`).flatMap((name) => {
    const lines = readFileSync(`${VECTORS}/${folder}/${name}`, "utf8").split("\n");
    return lines.flatMap((line, i) => line.startsWith(`${word} `)
      ? [{ words: line.split(" ").slice(1), wanted: lines[i + 1].replace("#= ", "") }] : []);
  });
}
export const unhex = (text) => Buffer.from(text === "-" ? "" : text, "hex");
