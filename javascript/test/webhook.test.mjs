// SPDX-License-Identifier: ISC
// node --test: the headers of webhooks by the package in the folder PACKAGE: GitHub's example, tags
// of node:crypto, the rule of Stripe's libraries over it, what is near a right header, the ends of
// 64 bits, what is refused and what raises, and the endpoint of the page.

import assert from "node:assert/strict";
import crypto from "node:crypto";
import { readFileSync } from "node:fs";
import http from "node:http";
import { test } from "node:test";
import { TAGS, instances, isWiped, linesOf, unhex, yz } from "./package.mjs";

const { webhook } = yz, { verifyGithub, verifyHex, verifyStripe } = webhook;
const SECRET = "It's a Secret to Everybody", BODY = "Hello, World!";
const GITHUB = "sha256=757107ea0eb2509fc211221cce984b8a37570b6d7586c22c46f4379c8b043e17";
const ENDPOINT = "whsec_a secret of the endpoint", EVENT = '{"id": "evt_1"}', NOW = 1700000000;
const MOST = 2n ** 64n - 1n;
const LENGTHS = [0, 1, 2, 55, 56, 63, 64, 65, 111, 112, 127, 128, 129, 4096, 65535, 65536, 65537,
  300000];

const hexTag = (secret, body, name = "sha256") =>
  crypto.createHmac(name, secret).update(body).digest("hex");
const stripeTag = (time, secret = ENDPOINT, body = EVENT) =>
  hexTag(secret, Buffer.concat([Buffer.from(`${time}.`), Buffer.from(body)]));
const stripeHeader = (time, ...words) => `t=${time},v1=${stripeTag(time, ...words)}`;

// What is near a header: each cut, each letter changed, and longer ones.
function near(header) {
  const found = [header.toUpperCase(), [...header].reverse().join("")];
  for (let at = 0; at < header.length; at++) {
    const [front, letter, rest] = [header.slice(0, at), header[at], header.slice(at + 1)];
    found.push(front, front + rest, front + String.fromCharCode(letter.charCodeAt(0) ^ 1) + rest);
    if (letter !== letter.toUpperCase()) found.push(front + letter.toUpperCase() + rest);
  }
  for (const more of ["\0", " ", "0", "\n", ",", "\u00e9", "\ud800", header]) {
    found.push(header + more, more + header);
  }
  return found;
}

test("GitHub's example, and what is near it", () => {
  const answers = new Set();
  for (const { words: [secret, body, header], wanted } of linesOf("tokens", "github")) {
    assert.equal(verifyGithub(unhex(secret), unhex(body), header), wanted === "ok");
    answers.add(wanted);
  }
  assert.deepEqual([...answers].sort(), ["ok", "refused"]);
  assert.equal(verifyGithub(SECRET, BODY, GITHUB), true);
  for (const it of near(GITHUB)) assert.equal(verifyGithub(SECRET, BODY, it), false, it);
  for (let at = 0; at < BODY.length; at++) {
    assert.equal(verifyGithub(SECRET, BODY.slice(0, at), GITHUB), false);
    assert.equal(verifyGithub(SECRET.slice(0, at), BODY, GITHUB), false);
  }
  assert.equal(verifyGithub(BODY, SECRET, GITHUB), false);
  const sha1 = hexTag(SECRET, BODY, "sha1"), digest = crypto.createHash("sha256").update(BODY);
  for (const it of [GITHUB.slice(7), `sha1=${sha1}`, `sha256=${sha1}`, "sha256=",
    `sha256=${digest.digest("hex")}`]) {
    assert.equal(verifyGithub(SECRET, BODY, it), false);
  }
});

test("headers in hex beside node:crypto", () => {
  for (const name of TAGS) {
    for (const len of LENGTHS) {
      const secret = crypto.randomBytes(1 + len % 200), body = crypto.randomBytes(len);
      const tag = hexTag(secret, body, name);
      assert.equal(verifyHex(name, secret, body, tag), true);
      assert.equal(verifyHex({ name }, secret, body, tag, {}), true);
      if (name === "sha256") assert.equal(verifyGithub(secret, body, `sha256=${tag}`), true);
      for (const prefix of ["", `${name}=`, "v0:", "\u00e9\0", "x".repeat(300), Buffer.of(255)]) {
        const header = Buffer.concat([Buffer.from(prefix), Buffer.from(tag)]);
        const verified = (it) => verifyHex(name, secret, body, it, { prefix });
        assert.equal(verified(header), true);
        for (const at of [0, 1, prefix.length, header.length - 1]) {
          assert.equal(verified(header.subarray(0, at)), false);
        }
        for (const it of [`${header}0`, ` ${header}`, header.toString().toUpperCase()]) {
          assert.equal(verified(it), false);
        }
        assert.equal(verified(tag), prefix === "");
      }
      assert.equal(verifyHex(name, body, secret, tag), false);
      const another = TAGS.find((it) => it !== name);
      assert.equal(verifyHex(another, secret, body, tag), false);
    }
    const tag = hexTag(SECRET, BODY, name);
    for (const it of near(`v1:${tag}`)) {
      assert.equal(verifyHex(name, SECRET, BODY, it, { prefix: "v1:" }), false, it);
    }
  }
});

test("a header that is missing, and an empty secret", () => {
  for (const it of [undefined, null, "", new Uint8Array(0)]) {
    assert.equal(verifyGithub(SECRET, BODY, it), false);
    assert.equal(verifyStripe(ENDPOINT, EVENT, it, { now: NOW }), false);
    assert.equal(verifyHex("sha256", SECRET, BODY, it), false);
    assert.equal(verifyHex("sha256", SECRET, BODY, it, { prefix: "sha256=" }), false);
  }
  assert.equal(verifyGithub(SECRET, BODY), false);
  // Everybody can sign under an empty secret.
  assert.equal(verifyGithub("", BODY, `sha256=${hexTag("", BODY)}`), false);
  assert.equal(verifyHex("sha1", "", BODY, hexTag("", BODY, "sha1")), false);
  assert.equal(verifyStripe("", EVENT, stripeHeader(NOW, ""), { now: NOW }), false);
  assert.equal(verifyGithub("1", BODY, `sha256=${hexTag("1", BODY)}`), true);
  assert.equal(verifyStripe("1", EVENT, stripeHeader(NOW, "1"), { now: NOW }), true);
});

const TAG = stripeTag(NOW), OTHER = "0".repeat(64);
// Forms of a header, and whether it is right: Stripe's libraries take the time behind the
// signatures too, and other ways to write it.
const FORMS = [
  [`t=${NOW},v1=${TAG}`, true], [`t=${NOW},v1=${TAG},v0=${OTHER}`, true],
  [`t=${NOW},v0=${OTHER},v1=${OTHER},v1=${TAG}`, true], [`t=${NOW},v1=${TAG},`, true],
  [`t=${NOW},,v1=${TAG}`, true], [`t=${NOW},t=1,v1=${TAG}`, true], [`t=${NOW},v1=${OTHER}`, false],
  [`t=${NOW},v0=${TAG}`, false], [`t=${NOW},v1=${TAG.toUpperCase()}`, false], [`t=${NOW}`, false],
  [`t=${NOW},`, false], [`v1=${TAG}`, false], [`v1=${TAG},t=${NOW}`, false], ["t=", false],
  [`t=,v1=${TAG}`, false], [`t=0${NOW},v1=${TAG}`, false], [`t=+${NOW},v1=${TAG}`, false],
  [`t=-${NOW},v1=${TAG}`, false], [`t=${NOW}.0,v1=${TAG}`, false], [`t=${NOW}e0,v1=${TAG}`, false],
  [`T=${NOW},v1=${TAG}`, false], [`t= ${NOW},v1=${TAG}`, false], [`t=${NOW}, v1=${TAG}`, false],
  [`t=${NOW},v1=${TAG} `, false], [`t=${NOW};v1=${TAG}`, false], [`t=${NOW},${TAG}`, false],
  [`t=${NOW + 1},v1=${TAG}`, false], [`t=${NOW - 1},v1=${TAG}`, false], [TAG, false],
];

test("headers in Stripe's form", () => {
  for (const [header, isRight] of FORMS) {
    for (const it of [header, Buffer.from(header)]) {
      assert.equal(verifyStripe(ENDPOINT, EVENT, it, { now: NOW }), isRight, header);
    }
  }
  const [first, item] = FORMS[0][0].split(",");
  for (const it of near(FORMS[0][0])) {
    // What stands beside the right item changes nothing.
    const [time, ...items] = it.split(","), isRight = time === first && items.includes(item);
    assert.equal(verifyStripe(ENDPOINT, EVENT, it, { now: NOW }), isRight, it);
  }
  for (const len of LENGTHS) {
    const secret = crypto.randomBytes(1 + len % 100), body = crypto.randomBytes(len);
    const header = stripeHeader(NOW, secret, body), options = { now: NOW };
    assert.equal(verifyStripe(secret, body, header, options), true);
    for (const words of [[body, secret, header], [secret, `${body}x`, header],
      [`${secret}x`, body, header], [secret, `${NOW}.${body}`, header],
      [secret, body, `t=${NOW},v1=${hexTag(secret, body)}`]]) {
      assert.equal(verifyStripe(...words, options), false);
    }
  }
});

test("a header of Stripe's is as old as the tolerance at most, and may be of later", () => {
  const header = stripeHeader(NOW);
  for (const [now, tolerance, isRight] of [[NOW, 300, true], [NOW + 300, 300, true],
    [NOW + 301, 300, false], [NOW, 0, true], [NOW + 1, 0, false], [0, 0, true],
    [1000 * NOW, 300, false], [300, NOW, true], [2 * NOW, NOW, true], [2 * NOW + 1, NOW, false],
    [MOST, MOST, true], [MOST, MOST - BigInt(NOW), true], [MOST, MOST - BigInt(NOW + 1), false],
    [BigInt(NOW + 300), 300n, true], [BigInt(NOW + 301), 300n, false],
    [2 ** 53 - 1, 300, false]]) {
    const answer = verifyStripe(ENDPOINT, EVENT, header, { now, tolerance });
    assert.equal(answer, isRight, `${now} ${tolerance}`);
  }
  for (const time of [0n, 1n, 9n, 10n, MOST - 300n, MOST - 1n, MOST]) {
    const verified = (options) => verifyStripe(ENDPOINT, EVENT, stripeHeader(time), options);
    assert.equal(verified({ now: time, tolerance: 0 }), true);
    assert.equal(verified({ now: MOST, tolerance: MOST - time }), true);
    if (time < MOST) assert.equal(verified({ now: MOST, tolerance: MOST - time - 1n }), false);
  }
  for (const time of [MOST + 1n, 10n * MOST, 2n ** 200n]) {
    assert.equal(verifyStripe(ENDPOINT, EVENT, stripeHeader(time), { now: NOW }), false);
  }
});

test("the time is the system's in seconds, where none is given", (t) => {
  const header = stripeHeader(NOW), verified = (...words) =>
    verifyStripe(ENDPOINT, EVENT, header, ...words);
  const { now: usual } = Date;
  t.after(() => { Date.now = usual; });
  assert.equal(verified(), false);
  for (const [seconds, isRight] of [[0, true], [300.999, true], [301, false], [-1000, true],
    [999 * NOW, false]]) {
    Date.now = () => 1000 * NOW + Math.round(1000 * seconds);
    for (const words of [[], [{}], [{ now: undefined }], [{ tolerance: undefined }],
      [{ tolerance: 300 }]]) {
      assert.equal(verified(...words), isRight, `${seconds}`);
    }
    assert.equal(verified({ now: NOW }), true);
    assert.equal(verified({ tolerance: 1000 * NOW }), true);
  }
});

test("several values of a header are joined as Node joins them", () => {
  const stripe = stripeHeader(NOW), options = { now: NOW };
  for (const [values, isGithubs, isStripes] of [[[GITHUB], true, false], [[stripe], false, true],
    [[stripe, "x"], false, true], [["x", stripe], false, false], [[GITHUB, GITHUB], false, false],
    [[GITHUB, ""], false, false], [["", GITHUB], false, false], [[], false, false]]) {
    assert.equal(verifyGithub(SECRET, BODY, values), isGithubs, `${values}`);
    assert.equal(verifyStripe(ENDPOINT, EVENT, values, options), isStripes, `${values}`);
  }
  assert.equal(verifyHex("sha256", SECRET, BODY, [GITHUB.slice(7)]), true);
  assert.equal(verifyHex("sha256", SECRET, BODY, [GITHUB], { prefix: "sha256=" }), true);
});

test("each refusal of webhooks", () => {
  const code = "ERR_INVALID_ARG_TYPE", stripe = stripeHeader(NOW), key = Buffer.alloc(40, 7);
  for (const it of [7, {}, [7], [[GITHUB]], [GITHUB, null], true, () => GITHUB, 7n, Symbol("x")]) {
    for (const call of [() => verifyGithub(it, BODY, GITHUB),
      () => verifyGithub(SECRET, it, GITHUB), () => verifyGithub(SECRET, BODY, it),
      () => verifyHex("sha1", it, BODY, GITHUB),
      () => verifyHex("sha1", SECRET, it, GITHUB), () => verifyHex("sha1", SECRET, BODY, it),
      () => verifyHex("sha1", SECRET, BODY, GITHUB, { prefix: it }),
      () => verifyStripe(it, EVENT, stripe), () => verifyStripe(ENDPOINT, it, stripe),
      () => verifyStripe(ENDPOINT, EVENT, it)]) {
      assert.throws(call, { name: "TypeError", code });
    }
  }
  for (const it of [null, undefined]) {
    for (const call of [() => verifyGithub(it, BODY, GITHUB),
      () => verifyGithub(SECRET, it, GITHUB), () => verifyGithub(SECRET, it, it),
      () => verifyHex("sha1", it, BODY, GITHUB),
      () => verifyStripe(ENDPOINT, it, stripe)]) {
      assert.throws(call, { name: "TypeError", code });
    }
  }
  for (const name of ["md5", "", "sha512-256", "HS256"]) {
    assert.throws(() => verifyHex(name, SECRET, BODY, GITHUB),
      { name: "TypeError", code: "ERR_CRYPTO_INVALID_DIGEST" });
  }
  for (const name of [undefined, null, 2, {}]) {
    assert.throws(() => verifyHex(name, SECRET, BODY, GITHUB), { name: "TypeError", code });
  }
  for (const it of [-1, -1n, 2n ** 64n, 2 ** 53, 1.5, NaN, Infinity]) {
    for (const options of [{ now: it }, { tolerance: it }]) {
      assert.throws(() => verifyStripe(ENDPOINT, EVENT, stripe, options),
        { name: "RangeError", code: "ERR_OUT_OF_RANGE" });
    }
  }
  for (const it of ["300", null, {}, true, new Date()]) {
    for (const options of [{ now: it }, { tolerance: it }]) {
      assert.throws(() => verifyStripe(ENDPOINT, EVENT, stripe, options),
        { name: "TypeError", code });
    }
  }
  assert.throws(() => verifyStripe(ENDPOINT, EVENT, stripe, null), TypeError);
  const secret = crypto.createSecretKey(key);
  assert.equal(verifyGithub(secret, BODY, `sha256=${hexTag(key, BODY)}`), true);
  assert.equal(verifyStripe(secret, EVENT, stripeHeader(NOW, key), { now: NOW }), true);
  for (const call of [() => verifyGithub(["a secret"], BODY, ""), () => verifyHex("sha1", SECRET,
    ["a secret"], ""), () => verifyStripe(ENDPOINT, EVENT, [["a secret"]])]) {
    assert.throws(call, (it) => !/a secr/.test(it.message));
  }
});

test("no call on webhooks leaves a byte in the module's memory", () => {
  const secret = () => crypto.randomBytes(200), count = instances.length, key = secret();
  const long = crypto.randomBytes(70000), header = `sha256=${hexTag(key, long)}`;
  for (const call of [() => verifyGithub(secret(), long, GITHUB),
    () => assert.equal(verifyGithub(key, long, header), true),
    () => assert.equal(verifyStripe(key, long, stripeHeader(NOW, key, long), { now: NOW }), true),
    () => verifyStripe(secret(), long, stripeHeader(NOW), { now: NOW }),
    () => verifyGithub("", "", ""),
    ...TAGS.map((name) => () => verifyHex(name, secret(), long, "a header", { prefix: "a" }))]) {
    call();
    assert.ok(isWiped(), String(call));
  }
  assert.equal(instances.length, count);
});

test("the page's endpoint, by requests with signatures of node:crypto", async (t) => {
  const page = readFileSync(new URL("../README.md", import.meta.url), "utf8");
  const [, block] = /^```js\n(import http[^]*?)^```/m.exec(page);
  const lines = block.replace(/^import .*\n/gm, "").replace("8000", "0");
  const seen = [], secret = "a secret of the webhook", made = (env) => {
    const make = new Function("http", "webhook", "process", "handle", `${lines}; return server;`);
    const server = make(http, webhook, { env }, (it) => seen.push(it));
    t.after(() => server.close());
    return new Promise((resolve) => server.once("listening", () => resolve(server)));
  };
  const server = await made({ WEBHOOK_SECRET: secret }), without = await made({});
  const url = `http://127.0.0.1:${server.address().port}/`;
  const body = JSON.stringify({ action: "opened", text: "\u00e9".repeat(70000) });
  const posted = async (headers, data = body, to = url) =>
    (await fetch(to, { method: "POST", headers, body: data })).status;
  const name = "X-Hub-Signature-256", signature = `sha256=${hexTag(secret, body)}`;
  assert.equal(await posted({ [name]: signature }), 204);
  assert.deepEqual(seen.map(String), [body]);
  // As GitHub sends it by default: not as JSON.
  const form = "payload=%7B%7D";
  assert.equal(await posted({ [name]: `sha256=${hexTag(secret, form)}` }, form), 204);
  assert.equal(String(seen.pop()), form);
  for (const headers of [{}, { [name]: "" }, { [name]: signature.slice(0, -1) },
    { [name]: signature.toUpperCase() }, { "X-Hub-Signature": signature },
    { [name]: `sha256=${hexTag("another", body)}` }]) {
    assert.equal(await posted(headers), 403);
  }
  assert.equal(await posted({ [name]: signature }, `${body} `), 403);
  const unset = `http://127.0.0.1:${without.address().port}/`;
  assert.equal(await posted({ [name]: `sha256=${hexTag("", body)}` }, body, unset), 403);
  // A request that ends in its middle ends no server.
  const request = http.request(url, { method: "POST", headers: { "Content-Length": "100" } });
  request.on("error", () => {});
  request.write("half of it");
  await new Promise((resolve) => server.once("request", resolve));
  request.destroy();
  assert.equal(await posted({}), 403);
  assert.equal(await posted({ [name]: signature }), 204);
  assert.equal(seen.length, 2);
});
