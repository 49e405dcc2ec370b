// SPDX-License-Identifier: ISC
// Ends with a sentence where this Node is older than package.json says, and where the module can't
// be written beside the package's files. What follows doesn't parse in Node 12.

"use strict";

const { accessSync, constants } = require("fs");
const { resolve } = require("path");

const folder = resolve(process.argv[2] || `${__dirname}/../package`);
const least = Number(/\d+/.exec(require("../package.json").engines.node)[0]);
const found = process.versions.node;
if (Number(found.split(".")[0]) < least) {
    console.error(`yezdopin needs Node ${least} or later, and this is ${found}`);
    process.exit(1);
}
try {
    accessSync(folder, constants.W_OK);
} catch {
    console.error(`The modules are to be made in ${folder}, which can't be written: take what ` +
        "`make OUT=/a/folder dist-npm` makes");
    process.exit(1);
}
