/**
 * Tests where the page marks values: at each path of each document of the rows of bindings/rows.jsonl stands what the
 * engine has there.
 */
import assert from "node:assert/strict";
import * as jp from "../../bindings/node/jp.mjs";
import { indented } from "../src/indenting.mjs";
import { placesOf } from "../src/places.mjs";
import { rows } from "./sentences.mjs";

/** The documents of the rows, and some with what those have not. */
function documents() {
  const others = [
    ' \n{ "a" : 1 , "a" : [ 2 , { "a" : -3 } ] , "\\u0061" : { "b" : [ ] } } ',
    '{"a":{"b":1,"c":[2]},"a":{"b":[3,{}],"c":4},"d":"\\\\","e":"\\"]"}',
    String.raw`{"\u000b'\\\n":["]}\"",{}],"é😀":[[true],[null,false]],"[0]":"['x']"}`,
    `[${"[".repeat(60)}"x"${"]".repeat(60)},{"a":[18446744073709551615,-9223372036854775808]}]`,
  ];
  return new Set([...rows.flatMap(({ document }) => document ?? []), ...others]);
}

function nodesOf(document) {
  try {
    return [...jp.find("$", document), ...jp.find("$..*", document)];
  } catch (fault) {
    assert.ok(fault instanceof jp.DocumentError);
    return [];
  }
}

let count = 0;
for (const document of documents()) {
  const nodes = nodesOf(document);
  if (nodes.length === 0) {
    continue;
  }
  const before = `[1]\n${document}`;
  const { starts, ends } = placesOf(document, nodes.map(({ path }) => path));
  const later = placesOf(before, nodes.map(({ path }) => path), "[1]\n".length);
  nodes.forEach(({ path, text }, number) => {
    const value = document.slice(starts[number], ends[number]);
    assert.equal(jp.find("$", value)[0].text, text, `${path} of ${document}`);
    assert.equal(value.trim(), value);
    assert.equal(before.slice(later.starts[number], later.ends[number]), value);
    const alone = placesOf(document, [path]);
    assert.deepEqual([alone.starts[0], alone.ends[0]], [starts[number], ends[number]]);
    assert.equal(jp.find("$", indented(value))[0].text, text);
    count += 1;
  });
}
assert.ok(count > 300);
const lines = ["{", '  "a": [],', '  "b": [', "    1,", "    {", '      "c": " , "', "    }", "  ]", "}"];
assert.equal(indented('{"a":[],"b":[1,{"c":" , "}]}'), lines.join("\n"));
console.log(`${count} values stand where the page marks them, and are the same when they are indented`);
