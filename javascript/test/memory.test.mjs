// SPDX-License-Identifier: ISC
// node --test: what the package in the folder PACKAGE leaves in the module's memory, and what it
// does where a call is cut off, or where an input changes in it.

import assert from "node:assert/strict";
import crypto from "node:crypto";
import { once } from "node:events";
import { test } from "node:test";
import { Worker } from "node:worker_threads";
import {
  AS_NEW, Instance, SHA256_OF_ABC, TAGS, instances, isWiped, main, memoryNow, moduleBytes, theirs,
  yz,
} from "./package.mjs";
import { hex } from "./vectors.mjs";

test("no call leaves a byte in the module's memory", () => {
  const running = yz.createHash("sha512"), tagged = yz.createHmac("sha512", "a key");
  const calls = TAGS.flatMap((name) => [
    () => yz.digest(name, crypto.randomBytes(300)),
    () => yz.digest(name, crypto.randomBytes(70000)),
    () => yz.hmac(name, crypto.randomBytes(200), crypto.randomBytes(300)),
    () => yz.hmac(name, crypto.randomBytes(20), crypto.randomBytes(70000)),
    () => yz.hmacVerify(name, "key", "message", crypto.randomBytes(20)),
    () => yz.hmacVerify(name, "key", crypto.randomBytes(70000), crypto.randomBytes(20)),
    () => yz.hkdfSync(name, crypto.randomBytes(100), "salt", "info", 1000),
    () => yz.hkdfExpand(name, yz.hkdfExtract(name, "secret", "salt"), "info", 99),
    () => yz.pbkdf2Sync("password", "salt", 3, 700, name),
    () => yz.pbkdf2Verify("password", "salt", 3, crypto.randomBytes(700), name),
    () => yz.createHash(name).update("abc").copy().digest(),
    () => yz.createHmac(name, crypto.randomBytes(200)).update("abc").digest(),
    () => running.update(crypto.randomBytes(200)),
    () => tagged.update(crypto.randomBytes(200)),
    () => yz.timingSafeEqual(crypto.randomBytes(9), crypto.randomBytes(9)),
    () => yz.hkdfExpandLabel(name, crypto.randomBytes(99), "label", "context", 99),
    () => yz.digestEach(name, [crypto.randomBytes(99), crypto.randomBytes(9)]),
    // Refused once the inputs were copied in.
    () => assert.throws(() => yz.hkdfSync(name, "secret", "salt", "info", 20000), RangeError),
    () => assert.throws(() => yz.pbkdf2Sync("secret", "salt", 1, 2 ** 31, name), RangeError),
  ]);
  const { SCHEMES, info, newSync, verifySync } = yz.passwordHash, most = { maxIterations: 9 };
  calls.push(...SCHEMES.flatMap((scheme) => {
    const text = newSync(scheme, "password", { iterations: 3 });
    return [() => newSync(scheme, crypto.randomBytes(99), { iterations: 3 }), () => info(text),
      () => verifySync(text, crypto.randomBytes(99), most)];
  }), () => assert.throws(() => verifySync("x".repeat(1000), "secret", most)));
  const count = instances.length;
  for (const call of calls) {
    call();
    assert.ok(isWiped(), String(call));
  }
  assert.equal(instances.length, count);
});

test("the module itself leaves secrets on its stack, and that test would see them", () => {
  const module = new WebAssembly.Module(moduleBytes);
  const end = 64 * 1024, text = "pbkdf2_sha256$1$salt$AAAAAAAAAAAAAAAAAAAAAAAAAAAAAAAAAAAAAAAAAAA=";
  // How many bytes of the stack a call uses, which is passed a place for what it reads and writes.
  function used(call) {
    const { exports } = new Instance(module), memory = new Uint8Array(exports.memory.buffer);
    const base = Math.ceil(Number(exports.__heap_base.value) / 8) * 8;
    memory.set(Buffer.from(text), base);
    call(exports, BigInt(base));
    return end - memory.findIndex((byte) => byte !== 0);
  }
  const derive = used((exports, at) =>
    assert.equal(exports.yz_pbkdf2_derive(4, 2, at, 8n, at, 8n, at + 64n, 640n), 0));
  const verify = used((exports, at) => assert.equal(
    exports.yz_password_hash_verify(at, BigInt(text.length), at, 9n, 1), 8));
  const made = used((exports, at) => assert.equal(exports.yz_password_hash_new(
    11, 1, at, 9n, at, 9n, at + 128n, 1024n, at + 2048n), 0));
  const token = used((exports, at) => {
    assert.equal(exports.yz_jws_sign(4, at, 72n, at, 300n, at + 512n, 524n, at + 504n), 0);
    assert.equal(
      exports.yz_jws_verify(4, at, 72n, at + 512n, 524n, at + 2048n, 524n, at + 504n), 0);
  });
  const found = used((exports, at) => assert.equal(
    exports.yz_totp_find(4, at, 72n, 90n, 30, 1, 1, 6n, at, 6n, at + 504n), 8));
  const stripe = used((exports, at) => {
    new Uint8Array(exports.memory.buffer).set(Buffer.from("t=5,v1=a"), Number(at));
    assert.equal(exports.yz_webhook_verify_stripe(at, 8n, at, 300n, at, 8n, 5n, 5n), 8);
  });
  const finished = used((exports, at) => assert.equal(
    exports.yz_tls13_finished_verify(4, at, 64n, at, 64n, at, 64n), 8));
  const binder = used((exports, at) => assert.equal(
    exports.yz_tls13_binder_key(4, at, 72n, 1, at + 512n, 64n), 0));
  const all = [derive, verify, made, token, found, stripe, finished, binder];
  console.log(`${all.join(", ")} bytes of the stack`);
  for (const it of [derive, token, found, stripe, finished, binder]) {
    assert.ok(it > 0 && it <= 8 * 1024);
  }
  for (const it of [verify, made]) assert.ok(it > 0 && it <= 20 * 1024);
});

test("a worker wipes the words of a call, also of one that is refused", async (t) => {
  const worker = new Worker(new URL("worker_node.js", main));
  t.after(() => worker.terminate());
  const answerTo = async (message) => {
    worker.postMessage(message);
    return (await once(worker, "message"))[0];
  };
  await answerTo({ module: new WebAssembly.Module(moduleBytes) });
  // Of memory that both threads have.
  const shared = (len) => new Uint8Array(new SharedArrayBuffer(len)).fill(0xaa);
  for (const algorithm of [2, 99]) {
    const key = shared(40), message = shared(300);
    const { answer, error } = await answerTo({ call: "hmac", words: [algorithm, key, message] });
    if (algorithm === 2) {
      const wanted = crypto.createHmac("sha256", Buffer.alloc(40, 0xaa));
      assert.equal(hex(answer), wanted.update(Buffer.alloc(300, 0xaa)).digest("hex"));
    } else assert.ok(error);
    // The worker wipes behind its answer, and before it takes another call.
    await answerTo({ call: "digest", words: [algorithm, shared(0)] });
    for (const it of [key, message]) assert.ok(it.every((byte) => byte === 0));
  }
});

// Calls a function with a method of all typed arrays in another form, which is passed the usual one
// and the array.
function withMethod(name, method, call) {
  const typedArray = Object.getPrototypeOf(Uint8Array.prototype), usual = typedArray[name];
  typedArray[name] = function (...words) {
    return method(() => Reflect.apply(usual, this, words), this);
  };
  try {
    return call();
  } finally {
    typedArray[name] = usual;
  }
}

test("contexts are wiped at each step, and where the digest is taken", () => {
  // The context of the empty message, which stays, is there before.
  yz.createHash("sha256");
  const contexts = [], keep = (it) => {
    if (it.length === 216 || it.length === 280) contexts.push(it);
  };
  const set = (usual, self) => { usual(); keep(self); };
  const slice = (usual) => { const made = usual(); keep(made); return made; };
  withMethod("set", set, () => withMethod("slice", slice, () => {
    for (const it of [yz.createHash("sha256"), yz.createHmac("sha512", "a key")]) {
      it.update("abc").copy().update("def").digest();
      it.digest("hex");
    }
  }));
  // One for each update and each copy, and one for the key.
  assert.equal(contexts.length, 7);
  for (const it of contexts) assert.ok(it.every((byte) => byte === 0));
  assert.equal(yz.createHash("sha256").update("abc").digest("hex"), SHA256_OF_ABC);
});

test("objects side by side have contexts of their own", () => {
  const pieces = Array.from({ length: 60 }, (_, i) => Buffer.alloc(i, i));
  const running = TAGS.flatMap((name) => [1, 2, 3, 4, 5].flatMap((it) =>
    [[yz.createHash(name), crypto.createHash(name)],
      [yz.createHmac(name, `${it}`), crypto.createHmac(name, `${it}`)]]));
  for (const piece of pieces) {
    for (const [ours, other] of running) {
      ours.update(piece);
      other.update(piece);
      const copied = ours.copy().update("a").digest("hex");
      if (other.copy) assert.equal(copied, other.copy().update("a").digest("hex"));
    }
  }
  for (const [ours, other] of running) assert.equal(ours.digest("hex"), other.digest("hex"));
});

const still = !("growable" in SharedArrayBuffer.prototype) && "this Node has no buffers that grow";
test("a shared buffer that grows in a call is read as it was before", { skip: still }, () => {
  const calls = [(it) => yz.digest("sha256", it),
    (it) => yz.createHash("sha256").update(it).digest()];
  // Views without a length of their own grow with the buffer.
  const kinds = [(it) => it, (it) => new Uint8Array(it), (it) => new DataView(it)];
  for (const method of ["set", "subarray"]) {
    for (const len of [100, 70000]) {
      const wanted = theirs("sha256", Buffer.alloc(len, 0xaa));
      for (const [call, kind] of calls.flatMap((call) => kinds.map((kind) => [call, kind]))) {
        const shared = new SharedArrayBuffer(len, { maxByteLength: 1 << 20 });
        const grow = (usual) => {
          shared.grow(shared.byteLength + 5000);
          return usual();
        };
        new Uint8Array(shared).fill(0xaa);
        assert.equal(hex(withMethod(method, grow, () => call(kind(shared)))), wanted);
        assert.ok(isWiped());
      }
    }
  }
});

test("shared buffers that another thread grows", { skip: still }, async (t) => {
  const MOST = 64000, begin = new Int32Array(new SharedArrayBuffer(4));
  const buffers = Array.from({ length: 300 },
    () => new SharedArrayBuffer(100, { maxByteLength: MOST }));
  const program = `import { parentPort, workerData } from "node:worker_threads";
    parentPort.postMessage("waits");
    Atomics.wait(workerData.begin, 0, 0);
    for (const it of workerData.buffers) {
      const bytes = new Uint8Array(it);
      for (let len = it.byteLength; len < ${MOST}; len = it.byteLength) {
        it.grow(Math.min(len + 8, ${MOST}));
        bytes.fill(0xaa, len);
      }
    }`;
  const url = new URL(`data:text/javascript,${encodeURIComponent(program)}`);
  const worker = new Worker(url, { workerData: { begin, buffers } });
  t.after(() => worker.terminate());
  await once(worker, "message");
  const lengths = new Set(), deadline = performance.now() + 3000;
  Atomics.store(begin, 0, 1);
  Atomics.notify(begin, 0);
  for (const it of buffers) {
    while (it.byteLength < MOST && performance.now() < deadline) {
      lengths.add(it.byteLength);
      yz.digest("sha1", it);
      try {
        yz.timingSafeEqual(it, it);
      } catch (error) {
        assert.equal(error.code, "ERR_CRYPTO_TIMING_SAFE_EQUAL_LENGTH");
      }
      assert.ok(isWiped(), "a byte was left");
    }
  }
  console.log(`${lengths.size} lengths of buffers that grew`);
  assert.ok(lengths.size > 1);
});

test("a wiping that is cut off is made up for", () => {
  const cutOff = () => { throw new RangeError("cut off"); };
  const key = crypto.randomBytes(40), count = instances.length;
  assert.throws(() => withMethod("fill", cutOff, () => yz.hmac("sha256", key, "abc")), /cut off/);
  const { buffer } = instances.at(-1).memory;
  assert.ok(Buffer.from(buffer).includes(key));
  assert.equal(hex(yz.digest("sha256", "abc")), SHA256_OF_ABC);
  assert.equal(instances.length, count + 1);
  assert.ok(new Uint8Array(buffer).every((byte) => byte === 0));
});

test("a call that is cut off leaves the package and the contexts working", () => {
  const running = yz.createHash("sha256").update("ab"), tagged = yz.createHmac("sha256", "k");
  const before = instances.length;
  let cuts = 0, updates = 0;
  // Calls at each depth up to where JavaScript's stack ends, so that it ends in some of them.
  const deep = () => {
    try {
      deep();
    } finally {
      try {
        yz.pbkdf2Sync("a", "b", 1, 20, "sha1");
        tagged.update("c");
        updates++;
      } catch (error) {
        if (!(error instanceof RangeError)) throw error;
        cuts++;
      }
    }
  };
  assert.throws(deep, RangeError);
  console.log(`${cuts} calls cut off, ${instances.length - before} new instances`);
  assert.ok(cuts > 0 && instances.length > before);
  assert.equal(running.update("c").digest("hex"), SHA256_OF_ABC);
  const tag = crypto.createHmac("sha256", "k").update("c".repeat(updates)).digest("hex");
  assert.equal(tagged.digest("hex"), tag);
  assert.equal(hex(yz.digest("sha256", "abc")), SHA256_OF_ABC);
  for (const it of instances.slice(before, -1)) {
    assert.ok(new Uint8Array(it.memory.buffer).every((byte) => byte === 0), "a byte was left");
  }
});

test("a call that is cut off where the memory has grown leaves the package working", () => {
  const key = crypto.randomBytes(100), usual = Uint8Array;
  let grown = null;
  // Cuts off the view that `room` takes of the grown memory.
  globalThis.Uint8Array = class extends usual {
    constructor(...words) {
      const { buffer } = instances.at(-1).memory;
      if (words[0] === buffer && buffer.byteLength > AS_NEW.length && grown === null) {
        grown = buffer;
        throw new RangeError("cut off");
      }
      super(...words);
    }
  };
  try {
    yz.digest("sha1", "");
    assert.throws(() => yz.hkdfSync("sha256", key, new usual(300000), "", 32), /cut off/);
  } finally {
    globalThis.Uint8Array = usual;
  }
  assert.equal(hex(yz.digest("sha256", "abc")), SHA256_OF_ABC);
  assert.ok(grown !== null && new Uint8Array(grown).every((byte) => byte === 0));
});

test("descents to the end of a worker's stack leave the package working there", async () => {
  // The counts of arguments move the end of the stack, in a call, from one place to another.
  const program = `import { parentPort, workerData } from "node:worker_threads";
    import { digest, hkdfSync } from ${JSON.stringify(main)};
    const secret = new Uint8Array(300 * 1024), faults = [];
    const paddings = Array.from({ length: 8 }, (_, len) => Array(len).fill(0));
    let cuts = 0, answered = 0;
    function padded(...more) { return hkdfSync("sha256", secret, "", "", 32); }
    function descend(...more) {
      try { descend(...more); } catch {}
      if (answered > 3 * paddings.length) return;
      try {
        for (const padding of paddings) {
          try { padded(...padding); answered++; } catch { cuts++; }
        }
      } catch {}
    }
    for (let count = workerData; count < workerData + 3; count++) {
      answered = 0;
      try { descend(...Array(count).fill(0)); } catch {}
      try { digest("sha256", "abc"); } catch (error) { faults.push(error.message); }
    }
    parentPort.postMessage({ cuts, faults });`;
  const url = new URL(`data:text/javascript,${encodeURIComponent(program)}`);
  for (const first of [0, 3]) {
    const [{ cuts, faults }] = await once(new Worker(url, { workerData: first }), "message");
    assert.deepEqual(faults, []);
    assert.ok(cuts > 100);
  }
});

test("a long output, and a large instance is let go", () => {
  const count = instances.length, len = 20 << 20;
  const derived = yz.pbkdf2Sync("p", "s", 1, len, "sha512");
  const wanted = crypto.pbkdf2Sync("p", "s", 1, len, "sha512");
  assert.equal(theirs("sha256", derived), theirs("sha256", wanted));
  assert.ok(memoryNow().length > len);
  yz.digest("sha1", "");
  assert.equal(instances.length, count + 1);
  assert.equal(memoryNow().length, AS_NEW.length);
});
