// SPDX-License-Identifier: ISC
// Answers lines of vectors/ (docs/LINES.md) by the package, and compares with what stands behind
// `#= `. It runs in Node and in browsers.

export const FILES = ["digest", "hkdf", "hmac", "lines", "pbkdf2", "pbkdf2_rounds",
  "pbkdf2_verified", "ring"];
// An algorithm's name in the standard and in WebCrypto, by that in the lines.
const titleOf = (name) => name.replace("SHA", "SHA-").replace("_", "/");
const isKnown = (yz, name) => /^SHA\w+$/.test(name)
  && yz.getHashes().includes(name.toLowerCase().replace("_", "-"));

export const hex = (bytes) =>
  Array.from(new Uint8Array(bytes), (it) => it.toString(16).padStart(2, "0")).join("");

const bytesOf = (text) =>
  Uint8Array.from(text.match(/[0-9a-f]{2}/gi) ?? [], (it) => parseInt(it, 16));
const piecesOf = (text) => text.split(",").map(bytesOf);
const joined = (text) => Uint8Array.from(piecesOf(text).flatMap((it) => [...it]));

function same(one, other) {
  if (hex(one) !== hex(other)) throw new Error("two ways of the same answer differ");
  return one;
}

// What a call gives, or null where it is refused for a length or a count.
function refusedOr(call) {
  try {
    return call();
  } catch (error) {
    if (error instanceof RangeError) return null;
    throw error;
  }
}

const inPieces = (running, text) =>
  piecesOf(text).reduce((it, piece) => it.update(piece), running);

const KINDS = {
  digest: (yz, n, [message]) => {
    const running = inPieces(yz.createHash(n), message);
    same(running.copy().digest(), yz.digest(n, joined(message)));
    return running.digest();
  },
  hmac: (yz, n, [key, message]) => {
    const running = inPieces(yz.createHmac(n, bytesOf(key)), message);
    return same(running.digest(), yz.hmac(n, bytesOf(key), joined(message)));
  },
  "hmac-verify": (yz, n, [key, message, tag]) =>
    yz.hmacVerify(n, bytesOf(key), joined(message), bytesOf(tag)),
  hkdf: (yz, n, [salt, secret, info, len]) => {
    const prk = yz.hkdfExtract(n, bytesOf(secret), bytesOf(salt));
    const made = refusedOr(() =>
      yz.hkdfSync(n, bytesOf(secret), bytesOf(salt), joined(info), +len));
    const steps = refusedOr(() => yz.hkdfExpand(n, prk, joined(info), +len));
    return made === null && steps === null ? null : same(made, steps);
  },
  pbkdf2: (yz, n, [iterations, password, salt, len]) =>
    refusedOr(() => yz.pbkdf2Sync(bytesOf(password), bytesOf(salt), +iterations, +len, n)),
  "pbkdf2-verify": (yz, n, [iterations, password, salt, derived]) => refusedOr(() =>
    yz.pbkdf2Verify(bytesOf(password), bytesOf(salt), +iterations, bytesOf(derived), n)),
};

// The answer to a line as the files have it, without its cost.
function answer(yz, [kind, algorithm, ...rest]) {
  if (!Object.hasOwn(KINDS, kind) || !isKnown(yz, algorithm)) return "?";
  const made = KINDS[kind](yz, titleOf(algorithm), rest);
  if (made === null) return "refused";
  if (typeof made === "boolean") return made ? "match" : "mismatch";
  return hex(made) || "-";
}

// What WebCrypto says of the same lines, or null where it does not have them or refuses them.
async function answerOfSubtle(subtle, [kind, algorithm, ...rest]) {
  const hash = titleOf(algorithm ?? "");
  const importing = (value, name, use) => subtle.importKey(
    "raw", bytesOf(value), name === "HMAC" ? { name, hash } : name, false, [use]);
  const ways = {
    digest: async () => subtle.digest(hash, joined(rest[0])),
    hmac: async () =>
      subtle.sign("HMAC", await importing(rest[0], "HMAC", "sign"), joined(rest[1])),
    hkdf: async () => subtle.deriveBits(
      { name: "HKDF", hash, salt: bytesOf(rest[0]), info: joined(rest[2]) },
      await importing(rest[1], "HKDF", "deriveBits"), 8 * rest[3]),
    pbkdf2: async () => subtle.deriveBits(
      { name: "PBKDF2", hash, salt: bytesOf(rest[2]), iterations: +rest[0] },
      await importing(rest[1], "PBKDF2", "deriveBits"), 8 * rest[3]),
  };
  try {
    return hex(new Uint8Array(await ways[kind]()));
  } catch {
    return null;
  }
}

/** Answers the texts of files: how many answers agree with them, and with WebCrypto, and faults. */
export async function run(yz, texts, subtle) {
  let agree = 0, subtleAgrees = 0, fields = [];
  const faults = [];
  for (const line of texts.flatMap((it) => it.split("\n"))) {
    if (line !== "" && !line.startsWith("#")) fields = line.split(" ");
    if (!line.startsWith("#= ")) continue;
    const wanted = line.slice(3).split(" ")[0], got = answer(yz, fields);
    // A verification does not tell a mismatch from an input that is too long.
    if (got === wanted || (got === "mismatch" && wanted === "refused")) agree++;
    else faults.push(`${fields.join(" ")} is ${got}, not ${wanted}`);
    const other = await answerOfSubtle(subtle, fields);
    if (other === got) subtleAgrees++;
    else if (other) faults.push(`${fields.join(" ")} is ${got}, and ${other} by WebCrypto`);
  }
  return { agree, subtleAgrees, faults };
}
