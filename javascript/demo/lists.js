// SPDX-License-Identifier: ISC
// Lists of checksums, as sha256sum and its like write and read them.

// The algorithms by how many digits a checksum has.
// algorithms: made by tools/lists.py
const OF_DIGITS = new Map([[40, "sha1"], [64, "sha256"], [96, "sha384"], [128, "sha512"]]);
const OF_TAGS = new Map([["SHA1", "sha1"], ["SHA256", "sha256"], ["SHA384", "sha384"],
  ["SHA512", "sha512"], ["SHA512/256", "sha512-256"]]);
// /algorithms
const DIGITS = new Map([...OF_DIGITS].map(([digits, algorithm]) => [algorithm, digits]));
DIGITS.set("sha512-256", 64);

const ESCAPES = { "\\\\": "\\", "\\n": "\n", "\\r": "\r" };
const plain = (name) => name.replace(/\\[\\nr]/g, (it) => ESCAPES[it]);
const escaped = (name) =>
  name.replace(/[\\\n\r]/g, (it) => ({ "\\": "\\\\", "\n": "\\n", "\r": "\\r" })[it]);

function parseLine(line) {
  const isEscaped = line.startsWith("\\"), text = isEscaped ? line.slice(1) : line;
  const { groups } = /^(?<tag>[A-Z0-9/]+) \((?<name>.+)\) = (?<digits>[0-9a-f]+)$/i.exec(text)
    ?? /^(?<digits>[0-9a-f]+) [ *](?<name>.+)$/i.exec(text) ?? { groups: { digits: "" } };
  const { tag, name, digits } = groups;
  const algorithm = tag ? OF_TAGS.get(tag.toUpperCase()) : OF_DIGITS.get(digits.length);
  if (algorithm === undefined || digits.length !== DIGITS.get(algorithm)) return { fault: line };
  return { name: isEscaped ? plain(name) : name, algorithm, checksum: digits.toLowerCase() };
}

/** The lines of a list: { name, algorithm, checksum }, or { fault } for one that is none. */
export function parseList(text) {
  return text.split(/\r?\n/).filter((it) => it.trim() !== "" && !it.startsWith("#")).map(parseLine);
}

/** A line of a list. One of SHA-512/256 has a tag, since its digits are as many as SHA-256's. */
export function lineOf({ name, algorithm, checksum }) {
  const written = escaped(name), mark = written === name ? "" : "\\";
  if (algorithm === "sha512-256") return `${mark}SHA512/256 (${written}) = ${checksum}`;
  return `${mark}${checksum}  ${written}`;
}

/** A path's last part, by which a file that was chosen is found. */
export const baseOf = (name) => name.slice(name.lastIndexOf("/") + 1);
