// SPDX-License-Identifier: ISC
// Serves the package, the pages and the vectors to a browser on this machine, under a content
// policy as README.md has it.

import { readFileSync } from "node:fs";
import { createServer } from "node:http";

const TYPES = new Map(Object.entries({
  css: "text/css", html: "text/html", js: "text/javascript", mjs: "text/javascript",
  txt: "text/plain", wasm: "application/wasm",
}));
const POLICY = "default-src 'none'; script-src 'self' 'wasm-unsafe-eval'; connect-src 'self'; "
  + "style-src 'self'; worker-src ";

/** A server's address; `report` is called with what a page posts to /report. In the folder `alone`
 * no workers can be made. */
export async function serve(folders, report) {
  const server = createServer((request, response) => {
    const { pathname } = new URL(request.url, "http://it");
    if (pathname === "/report") {
      let text = "";
      request.on("data", (it) => { text += it; });
      request.on("end", () => {
        response.end();
        report(JSON.parse(text));
      });
      return;
    }
    const [, folder, name = ""] = /^\/(\w+)\/([\w.-]+)$/.exec(pathname) ?? [];
    try {
      const content = readFileSync(`${folders[folder]}/${name}`);
      response.setHeader("content-type", TYPES.get(name.split(".").pop()) ?? "text/plain");
      response.setHeader("content-security-policy",
        `${POLICY}${folder === "alone" ? "'none'" : "'self'"}`);
      response.end(content);
    } catch {
      response.statusCode = 404;
      response.end();
    }
  });
  await new Promise((resolve) => { server.listen(0, "127.0.0.1", resolve); });
  return `http://127.0.0.1:${server.address().port}`;
}
