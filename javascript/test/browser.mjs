// SPDX-License-Identifier: ISC
// node browser.mjs COMMAND..: opens test/page.html in a browser and prints what it reports; {} in
// the command is the page's address. It ends with 1 where a vector disagrees, and with 2 where
// it reports nothing.

import { spawn } from "node:child_process";
import { serve } from "./server.mjs";

const { PACKAGE, VECTORS, QUERY = "" } = process.env;
const here = (name) => new URL(`../${name}`, import.meta.url).pathname;
const [program, ...words] = process.argv.slice(2);
const SECONDS = QUERY ? 900 : 120;

let browser;
function end(status) {
  browser.kill();
  setTimeout(() => process.exit(status), 500);
}

const folders = { package: PACKAGE, vectors: VECTORS, test: here("test"), alone: here("test"),
  speed: here("speed") };
let status = 1;
const address = await serve(folders, ({ agent, page, worker, speed, isAlone, fault }) => {
  if (fault) {
    console.log(fault);
    return end(1);
  }
  if (isAlone) {
    console.log("the calls that are done in workers are right without them");
    return end(status);
  }
  for (const [name, it] of [["page", page], ["worker", worker]]) {
    console.log(`${name}: ${it.agree} vectors agree, ${it.subtleAgrees} lines with WebCrypto`);
    for (const one of it.faults) console.log(one);
  }
  console.log(agent);
  if (speed) console.log(speed);
  status = page.agree > 300 && page.faults.length + worker.faults.length === 0
    && worker.agree === page.agree ? 0 : 1;
});
const url = `${address}/test/page.html${QUERY}`;
browser = spawn(program, words.map((it) => it.replace("{}", url)), { stdio: "ignore" });
setTimeout(() => {
  console.log("the browser reports nothing");
  end(2);
}, SECONDS * 1000).unref();
