// SPDX-License-Identifier: ISC
// node speed/node.mjs PACKAGE: the package beside itself in an engine without vectors, node:crypto
// and WebCrypto, and beside sha.js and hash.js where they are found, such as Debian's node-sha.js
// and node-hash.js by NODE_PATH.

import crypto from "node:crypto";
import { readFileSync } from "node:fs";
import { createRequire } from "node:module";
import { pathToFileURL } from "node:url";
import { party, table, times, web } from "./speed.mjs";

const main = pathToFileURL(`${process.argv[2]}/node.js`).href;
const yz = await import(main);
const { validate } = WebAssembly;
WebAssembly.validate = () => false;
const withoutVectors = await import(`${main}?without`);
WebAssembly.validate = validate;
const require = createRequire(import.meta.url);

// Another package, or nothing.
function optional(name, party) {
  try {
    return { [name]: party(require(name)) };
  } catch {
    console.log(`left out: ${name}`);
    return {};
  }
}

const [cpu] = readFileSync("/proc/cpuinfo", "utf8").match(/(?<=model name\s*: ).*/) ?? ["?"];
console.log(`${cpu}; Node ${process.versions.node}, OpenSSL ${process.versions.openssl}`);
console.log(table(await times({
  yezdopin: party(yz),
  "without vectors": party(withoutVectors),
  "node:crypto": {
    digest: (name, it) => crypto.createHash(name).update(it).digest(),
    each: (name, them) => them.map((it) => crypto.createHash(name).update(it).digest()),
    hmac: (name, key, it) => crypto.createHmac(name, key).update(it).digest(),
    pieces: (name, it) => crypto.createHash(name).update(it).update(it).digest(),
    pbkdf2: (name, password, salt, iterations, len) =>
      crypto.pbkdf2Sync(password, salt, iterations, len, name),
  },
  WebCrypto: web(crypto.webcrypto.subtle),
  ...optional("sha.js", (sha) => ({
    digest: (name, it) => sha(name).update(it).digest(),
    pieces: (name, it) => sha(name).update(it).update(it).digest(),
  })),
  ...optional("hash.js", (hash) => ({
    digest: (name, it) => hash[name]().update(it).digest(),
    hmac: (name, key, it) => hash.hmac(hash[name], key).update(it).digest(),
    pieces: (name, it) => hash[name]().update(it).update(it).digest(),
  })),
})));
