/** Tests of the document: its editor, how it is refused, and long ones. */
import assert from "node:assert/strict";
import { sentenceOf } from "./sentences.mjs";
import {
  STORE, answered, becomes, browser, byProgram, click, countOf, editor, listed, marked, open, openFile, press, textOf,
  textsOf, type,
} from "./shown.mjs";

async function hasAnEditor() {
  await open({ q: "$", d: '{\n  "a": {\n    "b": [true, 1]\n  }\n}' });
  assert.deepEqual(await textsOf("#document .CodeMirror-code .CodeMirror-linenumber"), ["1", "2", "3", "4", "5"]);
  assert.deepEqual(await textsOf("#document .cm-property"), ['"a"', '"b"']);
  assert.deepEqual(await textsOf("#document .cm-atom"), ["true"]);
  assert.equal(await countOf("#document .CodeMirror-foldgutter-open"), 2);
  await editor("document", "setCursor(1, 0)");
  await editor("document", "focus()");
  await press(".", "Control");
  assert.equal(await countOf("#document .CodeMirror-foldmarker"), 1);
  assert.deepEqual(await textsOf("#document .CodeMirror-code .CodeMirror-linenumber"), ["1", "2", "5"]);
  await press(".", "Control");
  assert.equal(await countOf("#document .CodeMirror-foldmarker"), 0);
}

async function showsRefusedDocuments() {
  const fraction = sentenceOf("Document", "HasFraction");
  const beyond = "This number has more than 38 digits, or an exponent beyond 1,000,000.";
  const comma = sentenceOf("Document", "TrailingComma");
  for (const [document, numbers, flags, place, sentence, path, at] of [
    ['{"a":[0,{"b":2.5}]}', "whole", [], "line 1, column 14", fraction, "$['a'][1]['b']", ["2.5"]],
    ['{"a":[0,{"b":1e1000001}]}', "", ["--decimals"], "line 1, column 14", beyond, "$['a'][1]['b']", ["1e1000001"]],
    ['["é",\n 2,]', "whole", [], "line 2, column 4", comma, null, ["]"]],
    ['["é",\n 2.5,]', "", ["--decimals"], "line 2, column 6", comma, null, ["]"]],
  ]) {
    await open({ q: "$.a", d: document, n: numbers });
    const kind = byProgram("eval", "$.a", document, ...flags).fault.replace("document refused: ", "");
    const words = `${kind} in ${place}: ${sentence}${path === null ? "" : ` ${path}`}`;
    assert.equal(await textOf("#document-outcome .wrong"), words);
    assert.equal(await textOf("#document-outcome button"), path);
    assert.deepEqual(await marked("document", "refused-here"), at);
  }
  await open({ q: "$.a", d: '{"a":[0,{"b":2.5}]}', n: "whole" });
  await click("#document-outcome button");
  await becomes(() => marked("document", "current"), ["2.5"]);
}

/** By hand: what is said of a number that is not whole, and what to write in its place. */
const NUMBERS = [
  ["8.95", 'or write 8.95 as the text "8.95".', '"8.95"'],
  ["-5e-1", 'or write -5e-1 as the text "-5e-1".', '"-5e-1"'],
  ["1.0", "or write 1.0 as 1.", "1"],
  ["1e2", "or write 1e2 as 100.", "100"],
  ["-2.50E+1", "or write -2.50E+1 as -25.", "-25"],
  ["0.5e1", "or write 0.5e1 as 5.", "5"],
  ["-0", "or write -0 as 0.", "0"],
  ["0.0e9", "or write 0.0e9 as 0.", "0"],
  ["18446744073709551615.0", "or write 18446744073709551615.0 as 18446744073709551615.", "18446744073709551615"],
  ["-9223372036854775808e0", "or write -9223372036854775808e0 as -9223372036854775808.", "-9223372036854775808"],
  ["18446744073709551616", 'or write 18446744073709551616 as the text "18446744073709551616".', '"18446744073709551616"'],
  ["-9223372036854775809", 'or write -9223372036854775809 as the text "-9223372036854775809".', '"-9223372036854775809"'],
  ["1e30", 'or write 1e30 as the text "1e30".', '"1e30"'],
  ["1e400", 'or write 1e400 as the text "1e400".', '"1e400"'],
];

function chosenNumbers() {
  return browser.value(`document.querySelector('[name="numbers"]:checked').value`);
}

async function saysWhatToDoAboutNumbers() {
  for (const [number, words, other] of NUMBERS) {
    await open({ q: "$[1]", d: `["é",${number}]`, n: "whole" });
    const all = `Numbers are whole here: choose Decimals, ${words}`;
    assert.deepEqual(await textsOf("#document-outcome .warned"), [all], number);
    assert.deepEqual(await textsOf("#document-outcome .warned code"), [number, other]);
    await type("document", `["é",${other}]`);
    await answered();
    assert.equal(await textOf("#document-outcome"), "", number);
    assert.deepEqual(await textsOf("#nodes .value"), [other]);
    // With decimals nothing is to be done.
    await open({ q: "$[1]", d: `["é",${number}]` });
    assert.equal(await textOf("#document-outcome"), "", number);
    assert.equal(await countOf("#nodes .value"), 1);
  }
  // What is no decimal either.
  for (const [long, shown] of [
    [`0.${"3".repeat(1000)}`, `0.${"3".repeat(38)}…`],
    [`1${"0".repeat(37)}1`, `1${"0".repeat(37)}1`],
  ]) {
    await open({ q: "$", d: long, n: "whole" });
    const words = `rite ${shown} as the text "${shown}".`;
    assert.deepEqual(await textsOf("#document-outcome .warned"), [`Numbers are whole here: w${words}`]);
    await open({ q: "$", d: long });
    assert.deepEqual(await textsOf("#document-outcome .warned"), [`W${words}`]);
  }
  // Where no number is what is refused.
  for (const document of ["[1,]", "[01]", "[1.]", "[NaN]", "[1"]) {
    for (const n of ["", "whole"]) {
      await open({ q: "$", d: document, n });
      assert.equal(await countOf("#document-outcome .wrong"), 1, document);
      assert.equal(await countOf("#document-outcome .warned"), 0, document);
    }
  }
}

/** What is said of a number, in a document or in a query, has the switch in it. */
async function choosesDecimals() {
  const words = 'Numbers are whole here: choose Decimals, or write 8.95 as the text "8.95".';
  for (const [asked, outcome, told] of [
    [{ q: "$[?@<9]", d: "[8.95]" }, "#document-outcome", words],
    [{ q: "$[?@<9]", d: "8\n[8.95]", l: "1" }, "#document-outcome", words],
    [{ q: "$[?@<9.5]", d: "[8.95]" }, "#query-outcome", "Or choose Decimals."],
  ]) {
    await open({ ...asked, n: "whole" });
    assert.equal(await chosenNumbers(), "whole");
    assert.equal(await textOf(`${outcome} .warned`), told);
    await click(`${outcome} .warned button`);
    await answered();
    assert.equal(await chosenNumbers(), "decimal");
    assert.equal(await browser.value("document.activeElement.value"), "decimal");
    assert.equal(await countOf(`${outcome} .warned, ${outcome} .wrong`), 0);
    assert.deepEqual(await textsOf("#nodes .value"), ["8.95"]);
    await click('[value="whole"]');
    await answered();
    assert.ok((await countOf(`${outcome} .wrong`)) > 0);
  }
}

async function indents() {
  await open({ q: "$.b", d: '{"a":[18446744073709551615,[]],"b":"x, y"}' });
  await click("#indent");
  await answered();
  const expected = '{\n  "a": [\n    18446744073709551615,\n    []\n  ],\n  "b": "x, y"\n}';
  assert.equal(await editor("document", "getValue()"), expected);
  assert.equal(await listed(), "$['b']\t\"x, y\"\n");
}

/** A large document, and a query that would take minutes. */
async function goesOnMeanwhile() {
  const items = JSON.stringify(Array.from({ length: 200_000 }, (_, index) => ({ id: index })), null, 1);
  await open({ q: "$[*].id", d: "[]" });
  await openFile("document.json", items);
  await answered();
  assert.match(await textOf("#count"), /^200,000 nodes in .* ms$/);
  assert.equal(await countOf("#nodes li"), 100);
  await click('[data-to="last"]');
  await becomes(async () => (await textsOf("#nodes .path")).at(-1), "$[199999]['id']");
  assert.equal(await textOf("#windows span"), "199,901 to 200,000 of 200,000");
  await browser.value('document.querySelectorAll("#nodes button")[99].click()');
  await becomes(() => marked("document", "current"), ["199999"]);
  assert.ok(await browser.value(`(() => {
    const { top, bottom } = document.querySelector("#document .current").getBoundingClientRect();
    const around = document.querySelector("#document").getBoundingClientRect();
    return top > around.top && bottom < around.bottom;
  })()`));
  // The editor draws what is in sight.
  assert.ok((await countOf("#document .CodeMirror-line")) < 200);
  await type("query", `$${`[${Array(99).fill("*")}]`.repeat(2)}.x`);
  await browser.value("new Promise((resolve) => setTimeout(resolve, 1500))");
  assert.equal(await browser.value('document.querySelector("#nodes").ariaBusy'), "true");
  assert.equal(await textOf("#count"), "Working …");
  await type("query", "$[7]");
  await answered();
  assert.equal(await listed(), '$[7]\t{"id":7}\n');
}

/** A file of one line is too long for the editor, which shows a part of it. */
async function showsPartsOfLongDocuments() {
  const text = JSON.stringify(Array.from({ length: 300_000 }, (_, index) => ({ id: `é${index}` })));
  await open({ q: "$[299999].id", d: "[]" });
  await openFile("document.json", text);
  await answered();
  assert.equal(await listed(), "$[299999]['id']\t\"é299999\"\n");
  const all = text.length.toLocaleString("en");
  assert.equal(await textOf("#long span"), `${all} characters, too many to be changed here; these are 1 to 10,000.`);
  await click("#nodes .path");
  await becomes(() => marked("document", "current"), ['"é299999"']);
  await click("#earlier");
  assert.equal((await editor("document", "getValue()")).length, 10_000);
  await click("#empty");
  await type("document", "[5]");
  await type("query", "$[0]");
  await answered();
  assert.equal(await listed(), "$[0]\t5\n");
  assert.equal(await browser.value('document.getElementById("long").hidden'), true);
}

async function takesWhatIsDropped() {
  await open({ q: "$.b[0].p", d: "[]" });
  await browser.value(`(() => {
    const data = new DataTransfer();
    data.items.add(new File([${JSON.stringify(STORE)}], "store.json"));
    const event = new DragEvent("drop", { dataTransfer: data, bubbles: true, cancelable: true });
    document.querySelector("#document .CodeMirror-scroll").dispatchEvent(event);
  })()`);
  await becomes(listed, "$['b'][0]['p']\t8\n");
}

async function keepsTheDocumentWhereAFileFails() {
  await open({ q: "$.b[0].p", d: STORE });
  await browser.value('File.prototype.text = () => Promise.reject(new Error("gone"))');
  await openFile("store.json", "[]");
  await becomes(() => textOf("#document-outcome"), "The file cannot be read: gone");
  assert.equal(await editor("document", "getValue()"), STORE);
  assert.equal(await listed(), "$['b'][0]['p']\t8\n");
}

export const tests = [
  hasAnEditor,
  showsRefusedDocuments,
  saysWhatToDoAboutNumbers,
  choosesDecimals,
  indents,
  goesOnMeanwhile,
  showsPartsOfLongDocuments,
  takesWhatIsDropped,
  keepsTheDocumentWhereAFileFails,
];
