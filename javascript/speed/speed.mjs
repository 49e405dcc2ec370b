// SPDX-License-Identifier: ISC
// Times of the package beside others', in Node and in browsers. All take turns at each work, and of
// each the least time of a call counts.

const TURNS = 200, TURN_MS = 3, ROW_MS = 6000;
const WARM_UP = 5000;
const LENS = [16, 64, 1024, 65536];
const ITERATIONS = 1000, OUTPUT_LENS = { sha1: 20, sha256: 32, sha512: 64 };

async function timed(it, times) {
  const begun = performance.now();
  if (it.isAsync) for (let i = 0; i < times; i++) await it.work();
  else for (let i = 0; i < times; i++) it.work();
  return (performance.now() - begun) / times;
}

// The least milliseconds of a call of each party, by its name.
async function least(works) {
  for (const it of works) {
    it.ms = Infinity;
    it.times = 1;
    while (await timed(it, it.times) * it.times < TURN_MS && it.times < 1 << 16) it.times *= 2;
  }
  const end = performance.now() + ROW_MS;
  for (let i = 0; i < TURNS && performance.now() < end; i++) {
    for (const it of works) {
      const ms = await timed(it, it.times);
      // Too short a turn says nothing, since browsers' clocks are coarse.
      if (ms * it.times < TURN_MS / 2) it.times *= 2;
      else it.ms = Math.min(it.ms, ms);
    }
  }
  return new Map(works.map((it) => [it.who, it.ms]));
}

const us = (ms) => `${(1000 * ms).toFixed(2)} us`;
const rate = (len) => (ms) => `${(len / 1000 / ms).toFixed(0)} MB/s`;

/** Rows of cells, by the names of the parties. */
export async function times(parties) {
  const rows = [["Work", ...Object.keys(parties)]];
  const message = Uint8Array.from({ length: 65536 }, (_, i) => i * 31);
  const key = new Uint8Array(32).fill(7), short = message.subarray(0, 64);
  const add = async (name, call, cell, make) => {
    const able = Object.entries(parties).filter(([, it]) => it[call]);
    const found = await least(able.map(([who, it]) =>
      ({ who, isAsync: it.isAsync, work: () => make(it) })));
    const cells = Object.keys(parties).map((it) => found.has(it) ? cell(found.get(it)) : "");
    rows.push([name, ...cells]);
  };
  // Engines compile what is called often anew.
  for (const name of ["sha1", "sha256", "sha512"]) {
    for (const it of Object.values(parties)) {
      for (let i = 0; i < WARM_UP; i++) await it.digest(name, short);
    }
  }
  for (const name of ["sha1", "sha256", "sha512"]) {
    for (const len of LENS) {
      const input = message.subarray(0, len);
      await add(`${name} of ${len} bytes`, "digest", len < 65536 ? us : rate(len),
        (it) => it.digest(name, input));
    }
  }
  for (const name of ["sha1", "sha256", "sha512"]) {
    for (const [count, len] of [[4, 64], [8, 64], [4, 1024], [8, 1024]]) {
      const them = Array.from({ length: count }, (_, i) => message.subarray(i, i + len));
      await add(`${count} digests by ${name}, ${len} bytes each`, "each", us,
        (it) => it.each(name, them));
    }
  }
  for (const name of ["sha1", "sha256", "sha512"]) {
    for (const it of Object.values(parties)) it.key = await it.ready?.(name, key) ?? key;
    await add(`hmac-${name} of 64 bytes`, "hmac", us, (it) => it.hmac(name, it.key, short));
    await add(`${name} in two pieces of 64 bytes`, "pieces", us, (it) => it.pieces(name, short));
    const len = OUTPUT_LENS[name], salt = message.subarray(0, 16);
    for (const count of [1, 4]) {
      await add(`pbkdf2-${name}, ${ITERATIONS} iterations, ${count * len} bytes`, "pbkdf2", us,
        (it) => it.pbkdf2(name, key, salt, ITERATIONS, count * len));
    }
  }
  return rows;
}

/** The rows as a table of Markdown. */
export function table([head, ...rows]) {
  const line = (cells) => `| ${cells.join(" | ")} |`;
  return [line(head), line(head.map(() => "---")), ...rows.map(line)].join("\n");
}

/** The package. */
export const party = (yz) => ({
  digest: yz.digest,
  each: yz.digestEach,
  hmac: yz.hmac,
  pieces: (name, it) => yz.createHash(name).update(it).update(it).digest(),
  pbkdf2: (name, password, salt, iterations, len) =>
    yz.pbkdf2Sync(password, salt, iterations, len, name),
});

/** WebCrypto, whose keys of HMAC are made beforehand. */
export function web(subtle) {
  const hashOf = (name) => name.toUpperCase().replace("SHA", "SHA-");
  return {
    isAsync: true,
    digest: (name, it) => subtle.digest(hashOf(name), it),
    ready: (name, key) =>
      subtle.importKey("raw", key, { name: "HMAC", hash: hashOf(name) }, false, ["sign"]),
    hmac: (name, key, it) => subtle.sign("HMAC", key, it),
    pbkdf2: async (name, password, salt, iterations, len) => subtle.deriveBits(
      { name: "PBKDF2", hash: hashOf(name), salt, iterations },
      await subtle.importKey("raw", password, "PBKDF2", false, ["deriveBits"]), 8 * len),
  };
}
