// SPDX-License-Identifier: ISC
// node --expose-internals statements.cjs TEST: runs one of Node's own tests over the package in the
// folder PACKAGE, statement by statement, and writes a line of JSON: how many assertions and thrown
// errors there were, and those in which the package differs, each with its line.
//
// Each statement of an expression, and each declaration of one name, is run in a `try`, and each
// assertion is counted, so that the test goes on where one fails. `require("crypto")` gives the
// test node:crypto with the package's calls in the place of its own. An algorithm of node:crypto
// that the package lacks, as md5, is node:crypto's own: what the test says of it is not about the
// package.

"use strict";

const acorn = require("internal/deps/acorn/acorn/dist/acorn");
const assert = require("assert");
const crypto = require("crypto");
const fs = require("fs");
const Module = require("module");
const path = require("path");

require("./engine.cjs");
const yz = require(path.join(process.env.PACKAGE, "node.js"));
const test = path.resolve(process.argv[2]);
// PBKDF2 of more iterations than these is not waited for: the test wants it to begin at most.
const MOST_ITERATIONS = 1e7, REFUSED_FROM = 2 ** 31;

const differences = [];
let count = 0;

function differ(what, line) {
  differences.push({ line, what });
}

// The line of the test that runs now.
function lineNow() {
  const at = new Error().stack.indexOf(test);
  return at < 0 ? 0 : Number(/:(\d+)/.exec(new Error().stack.slice(at + test.length))[1]);
}

const named = (names, name) => names.some((it) => it.toLowerCase() === name.toLowerCase());
const isTheirs = (name) => typeof name === "string" && named(crypto.getHashes(), name)
  && !named(yz.getHashes(), name.replace(/^sha-/i, "sha"));
const lent = (call) => (name, ...words) => (isTheirs(name) ? crypto : yz)[call](name, ...words);
function waitedFor(call) {
  return (...words) => {
    if (words[2] > MOST_ITERATIONS && words[2] < REFUSED_FROM) {
      throw new Error("so many iterations are not waited for");
    }
    return yz[call](...words);
  };
}
const own = { createHash: lent("createHash"), createHmac: lent("createHmac"),
  pbkdf2: waitedFor("pbkdf2"), pbkdf2Sync: waitedFor("pbkdf2Sync") };
for (const name of ["Hash", "Hmac", "hash", "hkdf", "hkdfSync", "timingSafeEqual", "getHashes"]) {
  own[name] = yz[name];
}
const given = Object.create(crypto, Object.getOwnPropertyDescriptors(own));
Object.defineProperty(crypto.webcrypto.subtle, "digest", { value: yz.subtle.digest });

// What a failed `throws` says: what was thrown in the place of what is wanted.
function thrownBy([call, wanted]) {
  const name = wanted?.code ?? wanted?.message ?? wanted?.name ?? wanted;
  try {
    call();
  } catch (error) {
    return `throws ${error.code ?? error.name}: ${error.message}, and not ${name}`;
  }
  return `is not refused, and should be by ${name}`;
}

const counted = (name) => (...words) => {
  count++;
  try {
    return (name === null ? assert : assert[name])(...words);
  } catch (error) {
    const [first] = error.message.split("\n");
    differ(name === "throws" ? thrownBy(words) : `${name ?? "ok"}: ${first}`, lineNow());
  }
};
const names = ["throws", "strictEqual", "deepStrictEqual", "notStrictEqual", "ok", "equal",
  "deepEqual"];
const counting = Object.assign(counted(null), assert,
  Object.fromEntries(names.map((name) => [name, counted(name)])));

globalThis.statementFailed = (error, line) => {
  count++;
  differ(`throws ${error.code ?? error.name}: ${error.message.split("\n")[0]}`, line);
};

// Whether a declaration may be run in a `try`: what the rest of the file needs is not.
function isTried({ declarations: [it, ...more] }, source) {
  return more.length === 0 && it.id.type === "Identifier" && it.init !== null
    && !/Function/.test(it.init.type)
    && !/require\(|hasOpenSSL/.test(source.slice(it.start, it.end));
}

// The places of a source, from the last one on, where the text up to another place is replaced.
function editsOf(source) {
  const edits = [];
  function walk(node, isInThrows) {
    if (!isInThrows && (node.type === "Program" || node.type === "BlockStatement")) {
      for (const it of node.body) {
        const end = ` } catch (error) { statementFailed(error, ${it.loc.start.line}); }`;
        if (it.type === "ExpressionStatement" && !it.directive) {
          edits.push([it.start, it.start, "try { "], [it.end, it.end, end]);
        } else if (it.type === "VariableDeclaration" && isTried(it, source)) {
          const { id } = it.declarations[0];
          edits.push([it.start, id.start, `let ${id.name}; try { `], [it.end, it.end, end]);
        }
      }
    }
    const isThrows = node.type === "CallExpression"
      && /^(throws|rejects)$/.test(node.callee.property?.name);
    for (const it of Object.values(node).flat()) {
      if (typeof it?.type === "string") walk(it, isInThrows || isThrows);
    }
  }
  walk(acorn.parse(source, { ecmaVersion: "latest", locations: true,
    allowReturnOutsideFunction: true }), false);
  return edits.sort(([one], [other]) => other - one);
}

function inStatements(source) {
  let text = source;
  for (const [from, to, it] of editsOf(source)) text = text.slice(0, from) + it + text.slice(to);
  return text;
}

const load = Module._load, compile = Module.prototype._compile;
Module._load = function (request, parent, ...rest) {
  if (parent?.filename === test && /^(node:)?crypto$/.test(request)) return given;
  if (parent?.filename === test && /^(node:)?assert$/.test(request)) return counting;
  return load.call(this, request, parent, ...rest);
};
Module.prototype._compile = function (content, filename, ...rest) {
  return compile.call(this, filename === test ? inStatements(content) : content, filename, ...rest);
};
process.on("uncaughtException", (error) => globalThis.statementFailed(error, "later"));
process.on("exit", () => {
  fs.writeSync(1, `${JSON.stringify({ count, differences })}\n`);
  process.exitCode = 0;
});
if (!fs.existsSync(test)) throw new Error(`${test} is not there`);
require(test);
