// SPDX-License-Identifier: ISC
// Writes the package's modules as fewer files, since an engine takes about a millisecond to load
// each:
//
//     node bundle.mjs FOLDER MADE
//
// A module becomes a function that is called once and returns what the module exports. node.js has
// those that it needs in it, the other entries share core.js, and jobs.js, which is loaded when it
// is asked for, stays as it is. Comments are left out, but for those at the head of a file. Of the
// forms of imports and exports this program knows those that the package has, and refuses others.

import { readFileSync, writeFileSync } from "node:fs";

const WHOLE = ["node"];
const SHARING = ["browser", "worker", "worker_node"];
const APART = ["jobs"];

const IMPORT = /^import (?:\* as (\w+)|\{([^}]*)\}) from "\.\/(\w+)\.js";\n/gm;
const EXPORT_OF_ALL = /^export \* from "\.\/(\w+)\.js";\n/gm;
const EXPORT_OF_NAMES = /^export \{([^}]*)\};\n/gm;
const EXPORT = /^export ((?:async )?function|const|class) (\w+)/gm;
const OUTSIDE = /^(?:import .* from "node:.*;|export default )/gm;
const OTHER = /^(?:import|export)\b.*/m;
const COMMENT = /^ *(?:\/\/.*|\/\*\*[^]*?\*\/)\n/gm;

const [, , folder, made] = process.argv;
const read = (name) => readFileSync(`${folder}/${name}.js`, "utf8");
const write = (name, text) => writeFileSync(`${made}/${name}.js`, text);

// A file's comment at its head, and the rest without comments and empty lines.
function parted(text) {
  const [head] = /^(\/\/.*\n)*/.exec(text);
  return [head, text.slice(head.length).replace(COMMENT, "").replace(/^\n/gm, "")];
}

const importedBy = (text) => [...text.matchAll(IMPORT), ...text.matchAll(EXPORT_OF_ALL)]
  .map((it) => it.at(-1));

// A text with constants in the place of its imports.
const linked = (text) => text.replace(IMPORT, (_, all, names, module) =>
  all ? `const ${all} = $${module};\n` : `const {${names}} = $${module};\n`);

function exportedBy(text) {
  const lists = [...text.matchAll(EXPORT_OF_NAMES)].flatMap((it) => it[1].split(","));
  return [...lists, ...[...text.matchAll(EXPORT)].map((it) => it[2])].map((it) => it.trim());
}

function refuseOthers(name, text) {
  const found = OTHER.exec(text);
  if (found !== null) throw new Error(`${name}.js: a form that is not known here: ${found[0]}`);
}

// A module as a constant.
function constantOf(name) {
  const [, text] = parted(read(name));
  const body = linked(text).replace(EXPORT_OF_NAMES, "").replace(EXPORT, "$1 $2");
  refuseOthers(name, body);
  return `const $${name} = (() => {\n${body}return { ${exportedBy(text).join(", ")} };\n})();\n`;
}

// The modules that files import, each behind those that it imports itself.
function modulesOf(names, order = []) {
  for (const it of names.flatMap((name) => importedBy(read(name)))) {
    if (order.includes(it)) continue;
    modulesOf([it], order);
    order.push(it);
  }
  return order;
}

// An entry: its head, its imports of other packages, `modules`, and the rest.
function entryOf(name, modules) {
  const [head, text] = parted(read(name));
  const rest = linked(text).replace(EXPORT_OF_ALL, (_, it) =>
    `export const { ${exportedBy(read(it)).join(", ")} } = $${it};\n`);
  refuseOthers(name,
    linked(text).replace(EXPORT_OF_ALL, "").replace(EXPORT, "").replace(OUTSIDE, ""));
  return `${head}\n${modules}${rest}`;
}

const constantsOf = (names) => modulesOf(names).map(constantOf).join("");
const namesOf = (modules) => modules.map((it) => `$${it}`).join(", ");

for (const it of WHOLE) write(it, entryOf(it, constantsOf([it])));
write("core", `// SPDX-License-Identifier: ISC\n\n${constantsOf(SHARING)}`
  + `export { ${namesOf(modulesOf(SHARING))} };\n`);
for (const it of SHARING) {
  const used = new Set(importedBy(read(it)));
  write(it, entryOf(it, `import { ${namesOf([...used])} } from "./core.js";\n`));
}
for (const it of APART) write(it, read(it));
