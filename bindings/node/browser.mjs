/**
 * JSONPath queries (RFC 9535) over JSON documents, by the proved engine jp, in browsers: what jp.mjs is in Node, with
 * the engine fetched from beside this file, or beside the bundle that has it.
 */
import { start } from "./asking.mjs";
import { NARROW, WIDE, hasWideMemory } from "./engines.mjs";

export * from "./calls.mjs";

const address = hasWideMemory() ? WIDE : NARROW;
const answer = await fetch(address);
if (!answer.ok) {
  throw new Error(`${address} is missing: it belongs beside ${import.meta.url}`);
}
start(await WebAssembly.compile(await answer.arrayBuffer()));
