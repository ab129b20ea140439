/**
 * JSONPath queries (RFC 9535) over JSON documents, by the proved engine jp, in Node.
 *
 *     import * as jp from "jsonpath-jp";
 *     jp.values("$..price", '{"a":[{"price":8.95},{"price":12}]}'); // [ 8.95, 12 ]
 *     jp.paths("$.a[-1]", { a: [1, 2] });                           // [ "$['a'][1]" ]
 *
 * jp.d.mts has the types, and what each call gives.
 */
import { existsSync, readFileSync } from "node:fs";
import { start } from "./asking.mjs";
import { NARROW, WIDE, hasWideMemory } from "./engines.mjs";

export * from "./calls.mjs";

// One of the two is enough for a Node that has memory of 64 bits.
const file = hasWideMemory() && existsSync(WIDE) ? WIDE : NARROW;
start(new WebAssembly.Module(bytesOf(file)));

function bytesOf(address) {
  try {
    return readFileSync(address);
  } catch (cause) {
    throw new Error(`${address.pathname} is missing: page/build of jp's repository makes it, with Binaryen`, { cause });
  }
}
