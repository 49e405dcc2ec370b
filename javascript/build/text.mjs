// SPDX-License-Identifier: ISC
// Writes a WebAssembly module as text that a repository can hold, and makes the module of the text:
//
//     node text.mjs write MODULE NAMED TEXT [NOTE..]
//     node text.mjs read TEXT MODULE
//
// The text has the module's bytes in hex. A line behind `#` names the section or the function that
// follows, by the names of the module NAMED, whose functions are the same. `read` passes over these
// lines, so that no byte depends on them.

import { readFileSync, writeFileSync } from "node:fs";

const CUSTOM = 0;
const CODE = 10;
const SECTIONS = ["custom", "types", "imports", "functions", "tables", "memory", "globals",
    "exports", "start", "elements", "code", "data", "data count"];
const HEADER_LEN = 8;
const LINE_LEN = 32;
const NAMES_OF_FUNCTIONS = 1;

// A number in LEB128, and the place behind it.
function numberAt(bytes, at) {
    let value = 0;
    for (let unit = 1; ; unit *= 128) {
        const byte = bytes[at++];
        value += (byte % 128) * unit;
        if (byte < 128) return [value, at];
    }
}

// Parts that begin with a number for their kind and their length.
function* partsOf(bytes, from, to) {
    for (let start = from; start < to;) {
        const [length, body] = numberAt(bytes, start + 1);
        yield { kind: bytes[start], start, body, end: body + length };
        start = body + length;
    }
}

// A name, and the place behind it.
function nameAt(bytes, at) {
    const [length, start] = numberAt(bytes, at);
    return [bytes.toString("utf8", start, start + length), start + length];
}

// The names of a module's functions, by their indices.
function namesOf(bytes) {
    const names = new Map();
    for (const section of partsOf(bytes, HEADER_LEN, bytes.length)) {
        const [title, first] = section.kind === CUSTOM ? nameAt(bytes, section.body) : [];
        if (title !== "name") continue;
        for (const part of partsOf(bytes, first, section.end)) {
            if (part.kind === NAMES_OF_FUNCTIONS) readNames(bytes, part.body, names);
        }
    }
    return names;
}

function readNames(bytes, from, names) {
    let [count, at] = numberAt(bytes, from);
    for (; count > 0; count--) {
        const [index, start] = numberAt(bytes, at);
        const [name, end] = nameAt(bytes, start);
        names.set(index, name);
        at = end;
    }
}

// What stands on lines of its own: each section, and in that of the code each function.
function* paragraphsOf(bytes, names) {
    yield ["magic number and version", 0, HEADER_LEN];
    for (const { kind, start, body, end } of partsOf(bytes, HEADER_LEN, bytes.length)) {
        if (kind !== CODE) {
            yield [SECTIONS[kind], start, end];
            continue;
        }
        let [count, at] = numberAt(bytes, body);
        yield [`code of ${count} functions`, start, at];
        for (let index = 0; index < count; index++) {
            const [length, first] = numberAt(bytes, at);
            yield [names.get(index) ?? `function ${index}`, at, first + length];
            at = first + length;
        }
    }
}

function write(modulePath, namedPath, textPath, ...notes) {
    const bytes = readFileSync(modulePath);
    const lines = notes.map((note) => `# ${note}`.trim());
    for (const [title, start, end] of paragraphsOf(bytes, namesOf(readFileSync(namedPath)))) {
        lines.push("", `# ${title}`);
        for (let at = start; at < end; at += LINE_LEN) {
            lines.push(bytes.toString("hex", at, Math.min(at + LINE_LEN, end)));
        }
    }
    writeFileSync(textPath, `${lines.join("\n")}\n`);
}

function read(textPath, modulePath) {
    const lines = readFileSync(textPath, "utf8").split(/\r?\n/).filter((it) => !it.startsWith("#"));
    const wrong = lines.find((it) => !/^([0-9a-f]{2})*$/.test(it));
    if (wrong !== undefined) throw new Error(`${textPath}: not bytes in hex: ${wrong}`);
    writeFileSync(modulePath, Buffer.from(lines.join(""), "hex"));
}

const [action, ...paths] = process.argv.slice(2);
({ write, read })[action](...paths);
