// SPDX-License-Identifier: ISC
// node traces.mjs TRACED PLANTED: whether an address, a condition or what is divided in the module
// depends on a secret. Each call that takes one, at many lengths, must tell the same whatever the
// secrets are. Each body of the module with leaks must not. It ends with status 1 where that isn't
// so.

import { readFileSync } from "node:fs";

const RUNS = 6;
const LENS = [0, 1, 3, 4, 20, 31, 32, 33, 55, 56, 63, 64, 65, 100, 111, 112, 127, 128, 129, 200,
  255, 300];
const OK = 0, UNSPECIFIED = 8;
// Password hashes of each shape, of which none is that of a password here.
const TEXTS = [
  "pbkdf2_sha256$3$YTB316dpQV3CpPHC1xgzJK$eWVS/6HYUQkraA7ATkrE8e4rzVRR32kLTurxDCkza+s=",
  "pbkdf2:sha256:3$uciKrVTgkel7FkW3a1eMCc"
    + "$de7cb190c6d5a237116955dbfefa066e7749ad7bc616671dd1b39322e325eb14",
  "$pbkdf2-sha512$i=3,l=32$/lEn7E5qUAKX66cd8hj2yw$qaxn7vihFnwmJg64S+CFYVTGRm1x939l0FKSO/1X8I8",
  "$7$3$ekD1nEz+V3UsIdBOMZaqrQ=="
    + "$6dh1JxigHUOM61gnRcyC0kJBEXFDRo2cyZT99g//flYNWJm2emAT3+jK/B1vhMuxkd1v9sszWezNlC0yCsvKQg==",
  "$pbkdf2$3$d90xWSiDQ4UeAWSIiC7OLg$tvwgVZIQPR5Ttg21/ndMniuB0kM",
  "SCRAM-SHA-256$3:W22ZaJ0SNY7soEsUEjb6gQ==$WG5d8oPm3OtcPnkdi4Uo7BkeZkBFzpcXkuLmtbsT4qY="
    + ":wfPLwcE6nTWhTAmQ7tl2KeoiWGPlZqQxSrmfPwDl2dU=",
];

let sum = 0, count = 0;
function told(it) {
  count++;
  sum = Math.imul(sum ^ it, 0x9e3779b1);
  sum ^= sum >>> 15;
  return it;
}

function told_long(it) {
  told(Number(BigInt.asIntN(32, it)));
  told(Number(BigInt.asIntN(32, it >> 32n)));
  return it;
}

const instanceOf = (file) => new WebAssembly.Instance(new WebAssembly.Module(readFileSync(file)),
  { it: { told, told_long } }).exports;
const [exports, planted] = process.argv.slice(2).map(instanceOf);

// Places past the constants: two of secrets, an output, a tag, a context and a key.
exports.memory.grow(1);
const BASE = Math.ceil(Number(exports.__heap_base.value) / 64) * 64;
const PLACES = [0, 512, 1024, 4096, 5120, 6144].map((it) => BigInt(BASE + it));
const [a, b, out, tag, context, key] = PLACES;

// Random bytes, which are the same in the same run.
let state = 0n;
function hide(memory, place, len) {
  for (let at = Number(place); at < Number(place) + len; at++) {
    state = BigInt.asUintN(64, state * 6364136223846793005n + 1442695040888963407n);
    memory[at] = Number(state >> 56n);
  }
}

// What calls tell of other secrets, by the name of the window.
let windows;
function window(name, status, ...calls) {
  const memory = new Uint8Array(exports.memory.buffer);
  for (const [place, len] of [[a, 300], [b, 300], [tag, 64]]) hide(memory, place, len);
  sum = count = 0;
  for (const [call, ...words] of calls) {
    const answer = exports[`yz_${call}`](...words);
    const wanted = /verify/.test(call) ? status : OK;
    if (call !== "equal" && answer !== wanted) throw new Error(`${name}: ${call} is ${answer}`);
  }
  windows.set(name, `${count} ${sum}`);
}

function windowsOfDigests(n, size, l, m, at) {
  window(`digest ${at}`, OK, ["digest", n, a, l, out, size]);
  window(`pieces ${at}`, OK, ["digest_init", n, context], ["digest_update", context, a, l],
    ["digest_update", context, b, m], ["digest_final", context, out, size]);
  window(`equal ${at}`, OK, ["equal", a, l, b, l]);
}

function windowsOfTags(n, size, l, m, at) {
  const sign = (place) => ["hmac_sign", n, a, l, b, m, place, size];
  const verify = ["hmac_verify", n, a, l, b, m, tag, size];
  const verifyDerived = ["pbkdf2_verify", n, 3, a, l, b, m, out, 4n * size];
  window(`tag ${at}`, OK, sign(out));
  window(`tag in pieces ${at}`, OK, ["hmac_key_init", n, a, l, key], ["hmac_init", key, context],
    ["hmac_update", context, b, l], ["hmac_update", context, a, m],
    ["hmac_final", context, out, size]);
  window(`right tag ${at}`, OK, sign(tag), verify);
  window(`wrong tag ${at}`, UNSPECIFIED, verify);
  window(`hkdf ${at}`, OK, ["hkdf", n, a, l, b, m, a, m, out, 2n * size + 1n]);
  window(`steps of hkdf ${at}`, OK, ["hkdf_extract", n, a, l, b, m, tag, size],
    ["hkdf_expand", n, tag, size, a, m, out, 3n * size]);
  if (l >= 1n && l <= 249n && m <= 255n) {
    window(`label ${at}`, OK, ["hkdf_expand_label", n, a, 32n, b, l, context, m, out, 2n * size]);
  }
  window(`pbkdf2 ${at}`, OK, ["pbkdf2_derive", n, 3, a, l, b, m, out, 5n * size + 1n]);
  window(`right derived ${at}`, OK, ["pbkdf2_derive", n, 3, a, l, b, m, out, 4n * size],
    verifyDerived);
  window(`wrong derived ${at}`, UNSPECIFIED, verifyDerived);
}

// A webhook's header is no secret: the secret is, and the body. No header here is right.
function windowsOfWebhooks(n, size, l, m, at) {
  const tag = "0123456789abcdef".repeat(8).slice(0, 2 * Number(size));
  const texts = [`sha256=${tag}`, `t=77,v1=${tag},v1=${tag}`, "no header", ""];
  texts.forEach((text, i) => {
    new Uint8Array(exports.memory.buffer).set(new TextEncoder().encode(text), Number(context));
    const prefix = [context, 7n], header = [context, BigInt(text.length)];
    const call = (name, ...words) =>
      window(`${name} ${i} ${at}`, UNSPECIFIED, [name, ...words]);
    call("webhook_verify_hex", n, a, l, ...prefix, b, m, ...header);
    call("webhook_verify_github", a, l, b, m, ...header);
    call("webhook_verify_stripe", a, l, b, m, ...header, 80n, 3n);
  });
}

function windowsOfTls13(n, size, l, at) {
  const verify = ["tls13_finished_verify", n, a, size, b, size, tag, size];
  window(`finished ${at}`, OK, ["tls13_finished", n, a, size, b, size, out, size]);
  window(`right finished ${at}`, OK, ["tls13_finished", n, a, size, b, size, tag, size], verify);
  window(`wrong finished ${at}`, UNSPECIFIED, verify);
  if (l === 0n) return;
  window(`external binder ${at}`, OK, ["tls13_binder_key", n, a, l, 1, out, size]);
  window(`binder ${at}`, OK, ["tls13_binder_key", n, a, l, 0, out, size]);
}

// A password hash's text is no secret: the password is.
function windowsOfPasswords(len) {
  for (const text of TEXTS) {
    const memory = new Uint8Array(exports.memory.buffer);
    memory.set(new TextEncoder().encode(text), Number(context));
    window(`password of ${text.slice(0, 16)} ${len}`, UNSPECIFIED,
      ["password_hash_verify", context, BigInt(text.length), a, BigInt(len), 9]);
  }
}

function windowsOf(run) {
  state = BigInt(run) * 0x9e3779b97f4a7c15n;
  windows = new Map();
  LENS.forEach(windowsOfPasswords);
  for (let n = 1; n <= 5; n++) {
    const size = exports.yz_output_len(n);
    LENS.forEach((len, i) => {
      const other = LENS[(7 * i + 5) % LENS.length];
      const words = [n, size, BigInt(len), BigInt(other), `${n} ${len} ${other}`];
      windowsOfDigests(...words);
      // SHA-512/256 has no tags.
      if (n === 5) return;
      windowsOfTags(...words);
      windowsOfWebhooks(...words);
      windowsOfTls13(n, size, BigInt(len), words.at(-1));
    });
  }
  return windows;
}

function windowsOfPlanted(run) {
  state = BigInt(run) * 0x9e3779b97f4a7c15n;
  windows = new Map();
  for (const name of Object.keys(planted).filter((it) => it !== "memory")) {
    hide(new Uint8Array(planted.memory.buffer), 0, 512);
    sum = count = 0;
    planted[name](0n, 256n);
    windows.set(name, `${count} ${sum}`);
  }
  return windows;
}

// The windows that are not the same in all runs.
function differing(windowsOfRun) {
  const first = windowsOfRun(1), names = new Set();
  for (let run = 2; run <= RUNS; run++) {
    for (const [name, it] of windowsOfRun(run)) if (it !== first.get(name)) names.add(name);
  }
  return [names, first];
}

const [leaks, all] = differing(windowsOf);
const [found, bodies] = differing(windowsOfPlanted);
const missed = [...bodies.keys()].filter((it) => !found.has(it));
console.log(`${all.size} windows, ${leaks.size} differ`);
console.log(`${found.size} of ${bodies.size} planted leaks found`);
if (leaks.size) console.log(`they differ: ${[...leaks].slice(0, 20).join("; ")}`);
if (missed.length) console.log(`not found: ${missed.join("; ")}`);
process.exit(leaks.size || missed.length ? 1 : 0);
