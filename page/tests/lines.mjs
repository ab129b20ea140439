/** Tests of one document a line: how it is read, recognized, and refused. */
import assert from "node:assert/strict";
import { sentenceOf } from "./sentences.mjs";
import {
  answered, becomes, browser, click, countOf, listed, marked, open, openFile, textOf, textsOf,
} from "./shown.mjs";

const LINES = '{"a":1}\n\n{"a":[2,{"a":3}]}\n{"a":2.5}\n[1,]\n{"a":4}';
// By hand: of lines 1, 3 and 6, since line 2 is blank and lines 4 and 5 are refused.
const NODES = ["line 1", "$['a']", "line 3", "$['a']", "line 3", "$['a'][1]['a']", "line 6", "$['a']"];

function isByLines() {
  return browser.value('document.getElementById("lines").checked');
}

/** The texts of what can be seen of the document's outcome. */
function seen(selector) {
  return browser.value(`[...document.querySelectorAll("#document-outcome ${selector}")]
    .filter((it) => it.checkVisibility()).map((it) => it.textContent)`);
}

async function readsJsonLines() {
  await open({ q: "$..a", d: "[]", n: "whole" });
  await openFile("records.jsonl", LINES);
  await answered();
  assert.equal(await isByLines(), true);
  assert.deepEqual(await textsOf("#nodes li > .quiet, #nodes .path"), NODES);
  // Of the numbers that are refused the first is told.
  const words = 'Numbers are whole here: choose Decimals, or write 2.5 as the text "2.5".';
  assert.deepEqual(await seen("> p"), ["2 of 5 lines are refused:", words]);
  const [first, second, ...others] = await seen("li");
  assert.match(first, /^NotWhole in line 4, column 6: .* \$\['a'\]$/);
  assert.equal(second, `NotJson in line 5, column 4: ${sentenceOf("Document", "TrailingComma")}`);
  assert.deepEqual(others, []);
  assert.deepEqual(await marked("document", "selected"), ["1", '[2,{"a":3}]', "3", "4"]);
  await browser.value('document.querySelectorAll("#nodes .path")[2].click()');
  await becomes(() => marked("document", "current"), ["3"]);
  await click("#lines");
  await answered();
  // As one document it goes wrong behind its first line.
  assert.match(await textOf("#document-outcome .wrong"), /^NotJson in line 3, column 1: /);
}

/** With decimals the line with a fraction is one of the others. */
async function readsDecimalsByLines() {
  await open({ q: "$..a", d: LINES, l: "1" });
  assert.deepEqual(await seen("> p"), ["1 of 5 lines is refused:"]);
  const nodes = [...NODES.slice(0, 6), "line 4", "$['a']", ...NODES.slice(6)];
  assert.deepEqual(await textsOf("#nodes li > .quiet, #nodes .path"), nodes);
  assert.deepEqual(await marked("document", "selected"), ["1", '[2,{"a":3}]', "3", "2.5", "4"]);
}

/** Of many lines some are told in the open, and how many there are besides. */
async function tellsOfManyRefusedLines() {
  const lines = ["1", ...Array(130).fill("[1,]"), "2"];
  await open({ q: "$", d: lines.join("\n"), l: "1" });
  assert.deepEqual(await seen("> p"), ["130 of 132 lines are refused:"]);
  const told = (line) => `NotJson in line ${line}, column 4: ${sentenceOf("Document", "TrailingComma")}`;
  assert.deepEqual(await seen("li"), [2, 3, 4, 5, 6].map(told));
  assert.deepEqual(await seen("summary"), ["125 more"]);
  await click("#document-outcome summary");
  const items = await seen("li");
  assert.equal(items.length, 101);
  assert.deepEqual(items.slice(-2), [told(101), "and 30 lines besides"]);
}

async function recognizesJsonLines() {
  await open({ q: "$..a", d: LINES, n: "whole" });
  assert.deepEqual(await seen("button"), ["Read as JSON Lines"]);
  assert.equal(await textOf(".offered"), " JSON Lines");
  await click("#document-outcome button");
  await answered();
  assert.equal(await countOf(".offered"), 0);
  assert.equal(await isByLines(), true);
  assert.deepEqual(await textsOf("#nodes li > .quiet, #nodes .path"), NODES);
  // Lines whose numbers have fractions, also where the engine refuses these, and blank lines between.
  for (const n of ["", "whole"]) {
    await open({ q: "$..a", d: '\n{"a":1.5}\r\n\n{"a":2.5}', n });
    assert.deepEqual(await seen("button"), ["Read as JSON Lines"]);
  }
  for (const document of ["[1,", "[1,]", "[\n1.5\n]", '{"a":1}\n}', "1 2", "[1]\n", "\n"]) {
    await open({ q: "$", d: document });
    assert.deepEqual(await seen("button"), [], document);
  }
}

/** Where the lines are those of one document, reading it whole is offered. */
async function recognizesOneDocument() {
  await open({ q: "$[0]", d: "[\n7\n]", l: "1" });
  assert.deepEqual(await seen("button"), ["Read as one document"]);
  await click("#document-outcome button");
  await answered();
  assert.equal(await isByLines(), false);
  assert.equal(await listed(), "$[0]\t7\n");
  await open({ q: "$[0]", d: "[\n7,\n]", l: "1" });
  assert.equal(await countOf("#document-outcome button"), 0);
}

export const tests = [readsJsonLines, readsDecimalsByLines, tellsOfManyRefusedLines, recognizesJsonLines, recognizesOneDocument];
