// SPDX-License-Identifier: ISC
// jsc -m jsc.mjs -- PACKAGE VECTORS: the vectors under JavaScriptCore, Safari's engine, without a
// page.

const [folder, vectors] = globalThis.arguments;

// The shell lacks it, and the vectors are no text.
globalThis.TextEncoder ??= class {
  encode(text) { return Uint8Array.from(text, (it) => it.charCodeAt(0)); }
};

try {
  // As browser.js has them.
  const { $api, $calls, $running: { Running }, $simd } = await import(`${folder}/core.js`);
  const name = $simd.hasVectors() ? "yezdopin_simd" : "yezdopin";
  $calls.start(new WebAssembly.Module(readFile(`${folder}/${name}.wasm`, "binary")));
  const yz = { ...$api, createHash: Running.ofDigest, createHmac: Running.ofTag };
  const { FILES, run } = await import("./vectors.mjs");
  const texts = FILES.map((it) => readFile(`${vectors}/${it}.txt`));
  const { agree, faults } = await run(yz, texts, null);
  print(`${agree} vectors agree under JavaScriptCore`);
  for (const it of faults) print(it);
  if (faults.length || agree <= 300) quit(1);
} catch (error) {
  print(String(error));
  quit(1);
}
