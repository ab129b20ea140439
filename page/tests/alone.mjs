/**
 * Asks the worker of a page without a browser, as in: node page/tests/alone.mjs jp.html '$.a' < document.json
 *
 * Each engine that the page holds and that runs here is asked, and the paths and values of the nodes are printed.
 */
import { readFileSync } from "node:fs";
import { Worker } from "node:worker_threads";
import { gunzipSync } from "node:zlib";

const [page, query] = process.argv.slice(2);
const html = readFileSync(page, "utf8");
const document = readFileSync(0, "utf8");
// Node's workers have no `onmessage` and `postMessage` of their own, as those of browsers have.
const START = `const { parentPort } = require("node:worker_threads");
globalThis.onmessage = null;
globalThis.postMessage = (told) => parentPort.postMessage(told);
parentPort.on("message", (data) => globalThis.onmessage({ data }));\n`;

function part(id) {
  return html.match(new RegExp(`<script type="text/plain" id="${id}">([^]*?)</script>`))[1];
}

function asked(worker, question) {
  return new Promise((resolve, reject) => {
    worker.once("error", reject);
    worker.once("message", ({ fault, ...told }) => (fault ? reject(new Error(fault)) : resolve(told)));
    worker.postMessage(question);
  });
}

async function answer(bytes) {
  const worker = new Worker(START + part("worker"), { eval: true });
  const module = new WebAssembly.Module(bytes);
  const chosen = { profile: "standard", numbers: "decimal", byLines: false };
  const { count } = await asked(worker, { kind: "ask", module, document, query, ...chosen });
  const nodes = await asked(worker, { kind: "nodes", order: "nodelist", from: 0, to: count });
  await worker.terminate();
  return Object.values(nodes).map(({ path, value }) => `${path.text}\t${value.text}`);
}

const packed = ["engine", "engine-32"].map(part).filter((it) => it !== "");
const engines = packed.map((it) => gunzipSync(Buffer.from(it, "base64")));
for (const bytes of engines.filter((it) => WebAssembly.validate(it))) {
  console.log((await answer(bytes)).join("\n"));
}
