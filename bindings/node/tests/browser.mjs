/**
 * Runs the package for browsers in Chromium, whose program is the first word: from the folder of the second word with
 * both engines, and with the one for memory of 32 bits alone, and the bundle in the folder of the third where there is
 * one. Expected values are by hand.
 */
import assert from "node:assert/strict";
import { existsSync, readFileSync } from "node:fs";
import { createServer } from "node:http";
import { extname, join } from "node:path";
import { Browser } from "../../../page/tests/browser.mjs";

const [, , program, folder, bundle] = process.argv;
const TYPES = { ".html": "text/html", ".mjs": "text/javascript", ".wasm": "application/wasm" };
const MAPPED = '<script type="importmap">{"imports":{"jsonpath-jp":"/package/browser.mjs"}}</script>';
const EXPECTED = {
  values: [8.95, 100],
  whole: "9007199254740993",
  pointers: ["/a~1b", "/a~1b/0"],
  refused: ["Syntax", "$[?@.a == 1]", "Syntax"],
};
// A browser without memory of 64 bits says so of each module that has it.
const NARROW = "WebAssembly.validate = () => false;";

const PAGES = {
  "/own.html": `${MAPPED}<script type="module" src="/package/tests/bundled.mjs"></script>`,
  "/bundle.html": '<script type="module" src="/bundle/bundle.mjs"></script>',
};

function contents(path) {
  if (path in PAGES) {
    return PAGES[path];
  }
  const [, root, ...parts] = path.split("/");
  return readFileSync(join({ package: folder, bundle }[root], ...parts));
}

const asked = [];
const server = createServer(({ url }, answer) => {
  asked.push(url);
  try {
    const body = contents(url);
    answer.writeHead(200, { "content-type": TYPES[extname(url)] }).end(body);
  } catch {
    answer.writeHead(404).end();
  }
});
await new Promise((resolve) => server.listen(0, "127.0.0.1", resolve));
const origin = `http://127.0.0.1:${server.address().port}`;
const browser = new Browser(program);

/** What a page gives, and which engine it fetched. */
async function run(page, before) {
  asked.length = 0;
  await browser.open(`${origin}${page}`, { before });
  await browser.until("globalThis.given");
  assert.deepEqual(await browser.value("globalThis.given"), EXPECTED);
  return asked.filter((url) => url.endsWith(".wasm")).map((url) => url.split("/").at(-1));
}

try {
  const pages = existsSync(join(bundle, "bundle.mjs")) ? ["/own.html", "/bundle.html"] : ["/own.html"];
  for (const page of pages) {
    assert.deepEqual(await run(page, ""), ["jp.wasm"]);
    assert.deepEqual(await run(page, NARROW), ["jp32.wasm"]);
  }
  console.log(`the package answers in Chromium by both engines, in ${pages.length} pages`);
} finally {
  await browser.close();
  server.close();
}
