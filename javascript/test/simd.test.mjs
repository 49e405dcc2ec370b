// SPDX-License-Identifier: ISC
// node --test: each instruction of vectors that generated/make/lower.py lowers, by itself in a
// module with 64-bit addresses, beside what WebAssembly's specification says of it, in plain
// JavaScript without vectors; and which module the package takes.

import assert from "node:assert/strict";
import { execFileSync, spawnSync } from "node:child_process";
import crypto from "node:crypto";
import { mkdtempSync, readFileSync, rmSync, writeFileSync } from "node:fs";
import { tmpdir } from "node:os";
import { test } from "node:test";
import { Instance, NAMES, SHA256_OF_ABC, isWiped, main, theirs, yz } from "./package.mjs";

const { PACKAGE } = process.env;
const LOWER = new URL("../../generated/make/lower.py", import.meta.url).pathname;
const TURNS = 6, CASES = 10, MEMORY_LEN = 4096;
// Where a body finds its operands, sixteen bytes each, and where it writes.
const OUTPUT = 64n;

// Numbers without a sign in LEB128.
function number(value) {
  const out = [];
  for (; value >= 0x80; value = Math.floor(value / 0x80)) out.push(value % 0x80 + 0x80);
  return [...out, value];
}
const sized = (bytes) => [...number(bytes.length), ...bytes];
const vector = (parts) => [...number(parts.length), ...parts.flat()];
const nameOf = (text) => sized([...new TextEncoder().encode(text)]);

let seed = 2024;
function below(bound) {
  seed = (Math.imul(seed, 1664525) + 1013904223) >>> 0;
  return Math.floor(seed / 2 ** 32 * bound);
}
const bytes = (count, bound = 256) => Array.from({ length: count }, () => below(bound));

// Vectors as sixteen bytes, and their words of 32 and of 64 bits, the lowest byte first.
const words = (it, size) => Array.from({ length: 16 / size }, (_, i) =>
  it.slice(size * i, size * i + size).reduceRight((sum, byte) => sum * 256n + BigInt(byte), 0n));
const joined = (list, size) => list.flatMap((word) =>
  Array.from({ length: size }, (_, i) => Number(BigInt.asUintN(64, word) >> BigInt(8 * i) & 255n)));
const lanes = (size, each) => (...vectors) => {
  const all = vectors.map((it) => words(it, size));
  return joined(all[0].map((_, i) => each(...all.map((it) => it[i]))), size);
};
const bits = (each) => (a, b, c) => a.map((byte, i) => each(byte, b?.[i], c?.[i]) & 255);
// A shift by an i32, of which the lowest bits count.
const shifted = (size, each) => (a, [count]) =>
  joined(words(a, size).map((word) => each(word, BigInt(count % (8 * size)))), size);
const splat = (size) => (a) => joined(Array(16 / size).fill(words(a, size)[0]), size);
const withLane = (size) => (a, b, at) =>
  joined(words(a, size).map((word, i) => i === at ? words(b, size)[0] : word), size);

// What a body has of each operand and of its result: a vector, a number of 32 bits or of 64.
const V = { load: [0xfd, 0, 0], store: [0xfd, 11, 0], len: 16 };
const I = { load: [0x28, 0], store: [0x36, 0], len: 4 };
const L = { load: [0x29, 0], store: [0x37, 0], len: 8 };
const laneOf = (size) => () => [below(16 / size)];
const isTrue = (it) => [it ? 1 : 0, 0, 0, 0];

// The number of each instruction, its operands, its result, its value, and what stands behind it.
const OPERATIONS = {
  "v128.const": [0x0c, [], V, (...it) => it, () => bytes(16)],
  "i8x16.shuffle": [0x0d, [V, V], V, (a, b, ...at) => at.map((i) => [...a, ...b][i]),
    () => bytes(16, 32)],
  "v128.not": [0x4d, [V], V, bits((a) => ~a)],
  "v128.and": [0x4e, [V, V], V, bits((a, b) => a & b)],
  "v128.andnot": [0x4f, [V, V], V, bits((a, b) => a & ~b)],
  "v128.or": [0x50, [V, V], V, bits((a, b) => a | b)],
  "v128.xor": [0x51, [V, V], V, bits((a, b) => a ^ b)],
  "v128.bitselect": [0x52, [V, V, V], V, bits((a, b, mask) => a & mask | b & ~mask)],
  "v128.any_true": [0x53, [V], I, (a) => isTrue(a.some((byte) => byte !== 0))],
};
// The first instruction of each size of lanes, its name, and its copies and lanes. A lane of fewer
// than 32 bits is read with its sign and without.
const SIZES = [[1, "i8x16", 0x60, 0x0f, 0x15, 0x23], [2, "i16x8", 0x80, 0x10, 0x18, 0x2d],
  [4, "i32x4", 0xa0, 0x11, 0x1b, 0x37], [8, "i64x2", 0xc0, 0x12, 0x1d, 0xd6]];
const COMPARISONS = [["eq", (a, b) => a === b], ["ne", (a, b) => a !== b],
  ["lt_s", (a, b) => a < b, true], ["lt_u", (a, b) => a < b], ["gt_s", (a, b) => a > b, true],
  ["gt_u", (a, b) => a > b], ["le_s", (a, b) => a <= b, true], ["le_u", (a, b) => a <= b],
  ["ge_s", (a, b) => a >= b, true], ["ge_u", (a, b) => a >= b]];
for (const [size, name, first, splatCode, laneCode, compareCode] of SIZES) {
  const one = size === 8 ? L : I, signed = (it) => BigInt.asIntN(8 * size, it);
  // The lanes of half as many bits in one half of a vector, with their sign or without.
  const half = (isHigh, isSigned) => (a) => joined(words(a, size / 2)
    .slice(...isHigh ? [16 / size] : [0, 16 / size])
    .map((it) => isSigned ? BigInt.asIntN(4 * size, it) : it), size);
  const read = (isSigned) => (a, at) => {
    const word = words(a, size)[at];
    return joined([isSigned ? signed(word) : word], one.len);
  };
  const add = (title, ...operation) => { OPERATIONS[`${name}.${title}`] = operation; };
  const small = size < 4 ? ["extract_lane_s", "extract_lane_u"] : ["extract_lane"];
  small.forEach((it, i) => add(it, laneCode + i, [V], one, read(it.endsWith("_s")), laneOf(size)));
  add("replace_lane", laneCode + small.length, [V, one], V, withLane(size), laneOf(size));
  add("splat", splatCode, [one], V, splat(size));
  COMPARISONS.filter(([title]) => size < 8 || !title.endsWith("_u")).forEach(
    ([title, is, isSigned], i) => add(title, compareCode + i, [V, V], V, lanes(size,
      (a, b) => is(...[a, b].map((it) => isSigned ? signed(it) : it)) ? -1n : 0n)));
  add("neg", first + 1, [V], V, lanes(size, (a) => -a));
  add("all_true", first + 3, [V], I, (a) => isTrue(words(a, size).every((it) => it !== 0n)));
  add("bitmask", first + 4, [V], I, (a) => joined(
    [words(a, size).reduce((sum, it, i) => signed(it) < 0n ? sum | 1n << BigInt(i) : sum, 0n)], 4));
  if (size > 1) {
    ["low_s", "high_s", "low_u", "high_u"].forEach((it, i) => add(`extend_${it}`, first + 7 + i,
      [V], V, half(it.startsWith("high"), it.endsWith("_s"))));
  }
  add("shl", first + 11, [V, I], V, shifted(size, (a, count) => a << count));
  add("shr_s", first + 12, [V, I], V, shifted(size, (a, count) => signed(a) >> count));
  add("shr_u", first + 13, [V, I], V, shifted(size, (a, count) => a >> count));
  add("add", first + 14, [V, V], V, lanes(size, (a, b) => a + b));
  add("sub", first + 17, [V, V], V, lanes(size, (a, b) => a - b));
}
const zeros = (count) => Array(count).fill(0);
const repeated = (it) => Array(16 / it.length).fill(it).flat();
const extended = (size, isSigned) => (it) => OPERATIONS[
  `${SIZES[Math.log2(size) + 1][1]}.extend_low_${isSigned ? "s" : "u"}`][3]([...it, ...zeros(8)]);
// Accesses: the number, how many bytes of memory they span, and the vector that they load.
const LOADS = {
  "v128.load": [0x00, 16, (it) => it],
  "v128.load8x8_s": [0x01, 8, extended(1, true)], "v128.load8x8_u": [0x02, 8, extended(1)],
  "v128.load16x4_s": [0x03, 8, extended(2, true)], "v128.load16x4_u": [0x04, 8, extended(2)],
  "v128.load32x2_s": [0x05, 8, extended(4, true)], "v128.load32x2_u": [0x06, 8, extended(4)],
  "v128.load8_splat": [0x07, 1, repeated], "v128.load16_splat": [0x08, 2, repeated],
  "v128.load32_splat": [0x09, 4, repeated], "v128.load64_splat": [0x0a, 8, repeated],
  "v128.load32_zero": [0x5c, 4, (it) => [...it, ...zeros(12)]],
  "v128.load64_zero": [0x5d, 8, (it) => [...it, ...zeros(8)]],
};
// Of one lane, and whether it is stored.
const LANES = Object.fromEntries([1, 2, 4, 8].flatMap((size, i) => [
  [`v128.load${8 * size}_lane`, [0x54 + i, size, false]],
  [`v128.store${8 * size}_lane`, [0x58 + i, size, true]]]));

const GET = (at) => [0x20, at], VECTOR = (code) => [0xfd, ...number(code)];
const loadOf = (kind, at) => [...GET(0), ...kind.load, ...number(16 * at)];
const power = (size) => below(Math.log2(size) + 1);

// Bodies of functions that are passed an address of operands and another one, each with what it
// writes to memory: where, from the second address or from OUTPUT, and which bytes.
function* bodiesOfOperations() {
  for (const [name, operation] of Object.entries(OPERATIONS)) {
    const [code, kinds, result, value, behind = () => []] = operation;
    for (let i = 0; i < CASES; i++) {
      const immediates = behind();
      const body = [...GET(0), ...kinds.flatMap(loadOf), ...VECTOR(code), ...immediates,
        ...result.store, ...number(Number(OUTPUT))];
      yield { name, body, effect: (memory, at) => {
        const operands = kinds.map((it, j) => [...memory.slice(at + 16 * j, at + 16 * j + it.len)]);
        return [at + Number(OUTPUT), value(...operands, ...immediates)];
      } };
    }
  }
}

function* bodiesOfAccesses() {
  for (let i = 0; i < CASES; i++) {
    const offset = below(i % 2 ? 16 : 300);
    for (const [name, [code, size, value]] of Object.entries(LOADS)) {
      const place = [power(size), ...number(offset)];
      yield { name, body: [...GET(0), ...GET(1), ...VECTOR(code), ...place, ...V.store, 64],
        effect: (memory, at, other) => [at + Number(OUTPUT),
          value([...memory.slice(other + offset, other + offset + size)])] };
    }
    yield { name: "v128.store",
      body: [...GET(1), ...loadOf(V, 0), ...VECTOR(0x0b), power(16), ...number(offset)],
      effect: (memory, at, other) => [other + offset, [...memory.slice(at, at + 16)]] };
    for (const [name, [code, size, isStore]] of Object.entries(LANES)) {
      const [at] = laneOf(size)(), from = size * at;
      const access =
        [...GET(1), ...loadOf(V, 0), ...VECTOR(code), power(size), ...number(offset), at];
      yield { name, body: isStore ? access : [...GET(0), ...access, ...V.store, 64],
        effect: (memory, place, other) => {
          const kept = [...memory.slice(place, place + 16)], there = other + offset;
          if (isStore) return [there, kept.slice(from, from + size)];
          kept.splice(from, size, ...memory.slice(there, there + size));
          return [place + Number(OUTPUT), kept];
        } };
    }
  }
}

// A module with 64-bit addresses that exports bodies, or has other locals or types.
function moduleOf(bodies, { locals = [0], params = [0x7e, 0x7e] } = {}) {
  const section = (kind, content) => [kind, ...sized(content)];
  const exports = [[...nameOf("memory"), 2, 0],
    ...bodies.map((_, i) => [...nameOf(`f${i}`), 0, ...number(i)])];
  return Uint8Array.from([0, 0x61, 0x73, 0x6d, 1, 0, 0, 0,
    ...section(1, vector([[0x60, ...vector(params), ...vector([])]])),
    ...section(3, vector(bodies.map(() => [0]))), ...section(5, vector([[4, 1]])),
    ...section(6, vector([])), ...section(7, vector(exports)),
    ...section(10, vector(bodies.map((it) => sized([...locals, ...it, 0x0b])))),
    ...section(11, vector([]))]);
}

// What lower.py makes of a module, or the message by which it refuses it.
function lowered(module, count, ...flags) {
  const room = mkdtempSync(`${tmpdir()}/simd.`);
  try {
    writeFileSync(`${room}/64.wasm`, module);
    const names = ["memory", ...Array.from({ length: count }, (_, i) => `f${i}`)];
    const words = ["-B", LOWER, ...flags, `${room}/64.wasm`, `${room}/32.wasm`, ...names];
    const run = spawnSync("python3", words, { encoding: "utf8" });
    return run.status === 0 ? readFileSync(`${room}/32.wasm`) : run.stderr;
  } finally {
    rmSync(room, { recursive: true });
  }
}

// The numbers that lower.py takes, with room for what may stand behind an instruction.
const takenCodes = () => JSON.parse(execFileSync("python3", ["-B", "-c", `
import sys
sys.path.insert(0, sys.argv[1])
import lower
def is_taken(code):
    body = b"\\0\\xfd" + lower.number(code) + bytes(16) + b"\\x0b"
    try:
        lower.Body(body, 0, {0, 11}, lower.WITH_VECTORS)
        return True
    except SystemExit:
        return False
print([*filter(is_taken, range(0x200))])
`, new URL(".", `file://${LOWER}`).pathname]));

test("each instruction of vectors, lowered, does what is said of it", () => {
  const all = [...bodiesOfOperations(), ...bodiesOfAccesses()];
  const made = lowered(moduleOf(all.map((it) => it.body)), all.length, "--simd");
  assert.ok(typeof made !== "string", String(made));
  const { exports } = new Instance(new WebAssembly.Module(made));
  const memory = new Uint8Array(exports.memory.buffer, 0, MEMORY_LEN);
  for (let turn = 0; turn < TURNS; turn++) {
    for (const [i, { name, effect }] of all.entries()) {
      for (let at = 0; at < MEMORY_LEN; at++) memory[at] = below(3) ? below(256) : 255;
      const at = below(800), other = 1000 + below(2000), wanted = memory.slice();
      const [place, value] = effect(wanted, at, other);
      wanted.set(value, place);
      exports[`f${i}`](BigInt(at), BigInt(other));
      assert.ok(Buffer.from(memory).equals(Buffer.from(wanted)), `${name}, body ${i}`);
    }
  }
});

test("an instruction of vectors is lowered where it is listed and asked for alone", () => {
  const listed = [...Object.values(OPERATIONS), ...Object.values(LOADS), ...Object.values(LANES)]
    .map(([code]) => code).concat(0x0b);
  assert.deepEqual(takenCodes(), listed.sort((one, other) => one - other));
  const plain = [[...V.load, 0], [...VECTOR(0x0c), ...zeros(16)]];
  for (const it of plain) assert.match(lowered(moduleOf([it]), 1), /refused: instruction 0xfd/);
  assert.match(lowered(moduleOf([[]], { locals: [1, 1, 0x7b] }), 1), /refused: type 0x7b/);
  assert.match(lowered(moduleOf([[]], { params: [0x7b] }), 1), /refused: type 0x7b/);
  assert.match(lowered(moduleOf([[2, 0x7b, 0, 0x0b, 0x1a]]), 1), /a block of type 0x7b/);
  assert.match(lowered(moduleOf([[...VECTOR(0), 5, 0]]), 1, "--simd"), /aligned to 2\^5/);
  assert.match(lowered(moduleOf([[...VECTOR(0x5a), 3, 0, 0]]), 1, "--simd"), /aligned to 2\^3/);
});

test("digests of several messages beside node:crypto", () => {
  for (const name of NAMES) {
    for (let count = 0; count < 40; count++) {
      const lens = [below(300), below(300), below(3000), below(count) ? 9 : 65530 + below(9)];
      const messages = Array.from({ length: count },
        () => crypto.randomBytes(lens[below(lens.length)]));
      const wanted = messages.map((it) => theirs(name, it));
      assert.deepEqual(yz.digestEach(name, messages).map((it) => it.toString("hex")), wanted);
      assert.ok(isWiped());
    }
  }
});

test("digests of messages that are read into one buffer", () => {
  const parts = Array.from({ length: 20 }, () => crypto.randomBytes(100));
  const buffer = Buffer.alloc(100);
  function* read() {
    for (const it of parts) yield buffer.fill(it);
  }
  assert.deepEqual(yz.digestEach("sha256", read()).map((it) => it.toString("hex")),
    parts.map((it) => theirs("sha256", it)));
});

test("the package takes the module that the engine can run", () => {
  const script = `
    const lens = [], { Module } = WebAssembly;
    WebAssembly.Module = class extends Module {
      constructor(bytes) { super(bytes); lens.push(bytes.length); }
    };
    if (process.argv[2] === "without") WebAssembly.validate = () => false;
    const { createHash } = await import(process.argv[1]);
    console.log(createHash("sha256").update("abc").digest("hex"), ...lens);
  `;
  for (const [engine, file] of [["with", "yezdopin_simd"], ["without", "yezdopin"]]) {
    const said = execFileSync(process.execPath,
      ["--input-type=module", "-e", script, main, engine], { encoding: "utf8" });
    const { length } = readFileSync(`${PACKAGE}/${file}.wasm`);
    assert.equal(said.trim(), `${SHA256_OF_ABC} ${length}`);
  }
});
