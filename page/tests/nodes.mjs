/** Tests of the nodes: the list, the marks in the document, and what is copied and saved. */
import assert from "node:assert/strict";
import {
  STORE, answered, becomes, browser, byProgram, choose, click, countOf, listed, marked, open, press, textOf, textsOf,
  type,
} from "./shown.mjs";

const QUERY = "$.b[?@.p<10].t";

async function showsNodes() {
  await open({ q: QUERY, d: STORE });
  assert.equal(await listed(), byProgram("both", QUERY, STORE).output);
  assert.equal(`${await textOf("#query-outcome button")}\n`, byProgram("canon", QUERY, "").output);
  assert.match(await textOf("#count"), /^2 nodes in /);
  await choose("form", "paths");
  await becomes(() => countOf("#nodes .value"), 0);
  assert.deepEqual(await textsOf("#nodes .path"), byProgram("paths", QUERY, STORE).output.trim().split("\n"));
  await choose("form", "values");
  await becomes(() => textsOf("#nodes .value"), byProgram("eval", QUERY, STORE).output.trim().split("\n"));
  assert.deepEqual(await textsOf("#nodes .path"), ["Node 1", "Node 2"]);
  await open({ q: "$[?distinct(@.*)]", d: STORE, p: "extended", n: "whole" });
  assert.equal(await listed(), byProgram("both", "$[?distinct(@.*)]", STORE, "--extended").output);
  const prices = '{"a":[8.950,1e2,0.10000000000000000001,1e400]}';
  await open({ q: "$..[?@<8.99 || @>1e3]", d: prices });
  assert.equal(`${(await textsOf("#nodes .value")).join("\n")}\n`, byProgram("eval", "$..[?@<8.99 || @>1e3]", prices, "--decimals").output);
  assert.deepEqual(await textsOf("#nodes .value"), ["8.95", "0.10000000000000000001", "1e+400"]);
  assert.deepEqual(await marked("document", "selected"), ["8.950", "0.10000000000000000001", "1e400"]);
  await open({ q: "$.nothing", d: STORE });
  assert.match(await textOf("#count"), /^0 nodes in /);
  assert.equal(await countOf("#previous:disabled, #next:disabled, #copy:disabled, #save:disabled"), 4);
}

async function marksAll() {
  await open({ q: "$.b[*].p", d: STORE });
  assert.deepEqual(await marked("document", "selected"), ["8", "12", "9"]);
  assert.equal(await textOf("#current"), "3 selected values");
  await click("#next");
  await becomes(() => marked("document", "current"), ["8"]);
  assert.equal(await textOf("#current"), "1 of 3 selected");
  assert.equal(await textOf("#nodes [aria-current] .path"), "$['b'][0]['p']");
  await press("ArrowUp", "Alt");
  await becomes(() => marked("document", "current"), ["9"]);
  await press("ArrowDown", "Alt");
  await press("ArrowDown", "Alt");
  await becomes(() => marked("document", "current"), ["12"]);
  assert.equal(await textOf("#current"), "2 of 3 selected");
  assert.deepEqual(await marked("document", "selected"), ["8", "12", "9"]);
  await type("document", "[1]");
  await answered();
  assert.deepEqual(await marked("document", "current"), []);
  assert.deepEqual(await marked("document", "selected"), []);
}

async function leadsOnByKeys() {
  await open({ q: "$.b[*]", d: STORE });
  await browser.value('document.querySelector("#nodes .path").focus()');
  await press("ArrowDown");
  await press("Enter");
  await becomes(() => marked("document", "current"), ['{"p":12,"t":"x\\ty"}']);
  assert.equal(await textOf("#nodes [aria-current] .path"), "$['b'][1]");
  await press("End");
  assert.equal(await browser.value("document.activeElement.textContent"), "$['b'][2]");
  await press("Home");
  assert.equal(await browser.value("document.activeElement.textContent"), "$['b'][0]");
}

/** Members come in byte order of their names in the nodelist, and as they stand in the document. */
async function hasTwoOrders() {
  await open({ q: "$.*", d: '{"b":1,"a":2,"c":3}' });
  assert.deepEqual(await textsOf("#nodes .path"), ["$['a']", "$['b']", "$['c']"]);
  await choose("order", "document");
  await becomes(() => textsOf("#nodes .path"), ["$['b']", "$['a']", "$['c']"]);
  await click("#next");
  await becomes(() => marked("document", "current"), ["1"]);
}

async function foldsValues() {
  await open({ q: "$[0,1]", d: '[[1,2,3],{"a":"b"}]' });
  assert.equal(await textOf("#nodes .value"), "[\n  1,\n  2,\n  3\n]");
  assert.deepEqual(await textsOf("#nodes .fold"), ["all 5 lines"]);
  // In lines of the second value, which has three.
  const height = async () => {
    const [first, second] = await browser.value(
      '[...document.querySelectorAll("#nodes .value")].map((it) => it.clientHeight)',
    );
    return Math.round((first / second) * 3);
  };
  assert.equal(await height(), 3);
  await click("#nodes .fold");
  assert.equal(await height(), 5);
  assert.equal(await textOf("#nodes .fold"), "the first 3 lines");
}

async function reachesAllNodes() {
  await open({ q: "$[*]", d: JSON.stringify([...Array(250).keys()]) });
  const shown = async () => [(await textsOf("#nodes .value")).at(0), (await textsOf("#nodes .value")).at(-1)];
  assert.deepEqual(await shown(), ["0", "99"]);
  for (const [to, ...expected] of [
    ["after", "100", "199"],
    ["after", "200", "249"],
    ["before", "100", "199"],
    ["last", "200", "249"],
    ["first", "0", "99"],
  ]) {
    await click(`[data-to="${to}"]`);
    await becomes(shown, expected);
  }
  await click("#previous");
  await becomes(shown, ["200", "249"]);
  assert.equal(await textOf("#nodes [aria-current] .path"), "$[249]");
}

/** What is copied, and what is saved, is one text. */
async function copiesAndSaves() {
  await browser.allow("clipboardReadWrite", "clipboardSanitizedWrite");
  const document = '{"a":"x, \\"y\\"","b":[1,18446744073709551615],"c\'":null}';
  await open({ q: "$.*", d: document });
  const program = byProgram("both", "$.*", document).output;
  // By hand, as RFC 8259 and RFC 4180 write them.
  const json = String.raw`[{"path":"$['a']","value":"x, \"y\""},
{"path":"$['b']","value":[1,18446744073709551615]},
{"path":"$['c\\'']","value":null}]
`;
  const csv = [
    "path,value",
    String.raw`$['a'],"x, ""y"""`,
    `$['b'],"[1,18446744073709551615]"`,
    String.raw`$['c\''],null`,
    "",
  ].join("\r\n");
  await browser.send("Page.setDownloadBehavior", { behavior: "deny" });
  await browser.value(`window.saved = []; const make = URL.createObjectURL.bind(URL);
    URL.createObjectURL = (blob) => (saved.push(blob), make(blob)); 0`);
  for (const [format, form, expected] of [
    ["lines", "both", program],
    ["json", "both", json],
    ["csv", "both", csv],
    ["lines", "paths", byProgram("paths", "$.*", document).output],
    ["lines", "values", byProgram("eval", "$.*", document).output],
    ["json", "values", '["x, \\"y\\"",\n[1,18446744073709551615],\nnull]\n'],
  ]) {
    await choose("format", format);
    await choose("form", form);
    await click("#copy");
    await becomes(() => browser.value("navigator.clipboard.readText()"), expected);
    await browser.value("saved.length = 0");
    await click("#save");
    await browser.until("saved.length === 1");
    assert.equal(await browser.value("saved[0].text()"), expected);
  }
}

/** Texts are fields as they are; what is no text is JSON. */
async function writesCsvWithoutQuotesOfJson() {
  await browser.allow("clipboardReadWrite", "clipboardSanitizedWrite");
  await open({ q: "$[*]", d: String.raw`["plain","","a\nb","é\u0041",1,null,["x"]]` });
  await choose("format", "csv");
  await choose("form", "values");
  await click("#copy");
  const fields = ["value", "plain", '""', '"a\nb"', "éA", "1", "null", '"[""x""]"', ""];
  await becomes(() => browser.value("navigator.clipboard.readText()"), fields.join("\r\n"));
}

export const tests = [
  showsNodes,
  marksAll,
  leadsOnByKeys,
  hasTwoOrders,
  foldsValues,
  reachesAllNodes,
  copiesAndSaves,
  writesCsvWithoutQuotesOfJson,
];
