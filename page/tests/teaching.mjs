/** Tests of the reference, and of what is told of a query's parts. */
import assert from "node:assert/strict";
import { existsSync } from "node:fs";
import { EXAMPLES } from "../src/examples.mjs";
import {
  STORE, answered, becomes, browser, click, countOf, editor, open, press, textOf, textsOf, type,
} from "./shown.mjs";

async function insertsSyntax() {
  await open({ q: "$.b", d: STORE });
  const lines = await textsOf("#syntax li button");
  assert.ok(lines.length >= 10);
  for (const [text, expected] of [["[0]", "$.b[0]"], ["[?@.name]", "$.b[?@.name]"], ["..name", "$.b..name"]]) {
    await type("query", "");
    await type("query", "$.b");
    await browser.value(`document.querySelectorAll("#syntax li button")[${lines.indexOf(text)}].click()`);
    assert.equal(await editor("query", "getValue()"), expected);
  }
  assert.equal(await editor("query", "getSelection()"), "name");
  assert.equal(await editor("query", "hasFocus()"), true);
  await type("query", "");
  await browser.value(`document.querySelectorAll("#syntax li button")[${lines.indexOf("[0]")}].click()`);
  assert.equal(await editor("query", "getValue()"), "$[0]");
  // Each line, put into an empty query, is a query that the engine accepts.
  for (const [index, text] of lines.entries()) {
    await type("query", "");
    await browser.value(`document.querySelectorAll("#syntax li button")[${index}].click()`);
    await answered();
    assert.equal(await countOf("#query-outcome .wrong"), 0, text);
  }
}

/** Each goes into a filter of its own, which the engine accepts, or into the one at the cursor. */
async function insertsFunctions(names) {
  await click('[value="extended"]');
  for (const index of names.keys()) {
    await type("query", "");
    await browser.value(`document.querySelectorAll("#functions li button")[${index}].click()`);
    await answered();
    assert.match(await editor("query", "getValue()"), /^\$\[\?/);
    assert.equal(await countOf("#query-outcome .wrong"), 0);
  }
  await type("query", "$[? == 1]");
  await editor("query", "setCursor(0, 3)");
  await browser.value('document.querySelector("#functions li button").click()');
  assert.equal(await editor("query", "getValue()"), "$[?length(@.name) == 1]");
}

/** The five functions of RFC 9535, section 2.4, and the one of Extended, each with an example. */
async function explainsFunctions() {
  await open({ q: "$", d: STORE });
  const names = (await textsOf("#functions li button")).map((it) => it.replace(/\(.*/, ""));
  assert.deepEqual(names, ["length", "count", "match", "search", "value", "distinct"]);
  await insertsFunctions(names);
  const answers = [];
  for (const index of names.keys()) {
    await browser.value(`document.querySelectorAll("#functions a")[${index}].click()`);
    await answered();
    answers.push(await textsOf("#nodes .path"));
  }
  // By hand, from the document of the examples.
  const [ada, charles, zoe] = ["$[0]['name']", "$[1]['name']", "$[2]['name']"];
  assert.deepEqual(answers, [["$[0]"], [ada, charles, zoe], [ada], [ada, charles], ["$[2]"], ["$[1]"]]);
  assert.equal(await browser.value(`document.querySelector('[value="extended"]').checked`), true);
  await click('[value="standard"]');
  await answered();
  assert.match(await textOf("#query-outcome"), /^UnknownFunction at /);
}

async function explainsParts() {
  await open({ q: "$..book[?length(@.title) > 3][1:5:2]", d: STORE });
  await editor("query", "focus()");
  await editor("query", "setCursor(0, 1)");
  await becomes(() => textOf("#part"), "$ The whole document. (RFC 9535, section 2.2)");
  await press("ArrowRight");
  await becomes(() => textOf("#part"), "..book At any depth inside: the members named book. (RFC 9535, section 2.5.2)");
  const { x, y } = await browser.value(`(() => {
    const { left, top, width, height } = document.querySelector(".cm-jp-slice").getBoundingClientRect();
    return { x: left + width / 2, y: top + height / 2 };
  })()`);
  await browser.send("Input.dispatchMouseEvent", { type: "mouseMoved", x, y });
  const slice = "The items of a list from index 1 on, up to and without index 5, in steps of 2.";
  await becomes(() => textOf("#part"), `1:5:2 ${slice} (RFC 9535, section 2.3.4)`);
  await browser.value('document.querySelector("#parts").open = true');
  await browser.until('document.querySelectorAll("#parts button").length === 15');
  await browser.value('document.querySelectorAll("#parts button")[3].focus()');
  assert.match(await textOf("#part"), /^\? The children for which what follows is true\./);
  await press("Enter");
  assert.equal(await editor("query", "getSelection()"), "?");
}

/** Each word of a query that is accepted is one that the page explains. */
async function tellsAllWords() {
  await open(null);
  await browser.value('document.querySelector("#parts").open = true');
  for (const { title, queries } of EXAMPLES.filter((it) => it.title !== "Refused queries")) {
    for (const query of queries) {
      await editor("query", `setValue(${JSON.stringify(query)})`);
      const words = await textsOf("#parts button");
      assert.equal(words.join("").replace(/\s/g, ""), query.replace(/\s/g, ""), title);
    }
  }
}

async function linksToPages() {
  await open(null);
  const links = await browser.value('[...document.querySelectorAll("#reference > p a")].map((it) => it.href)');
  assert.deepEqual(links.filter((it) => it.startsWith("http")), ["https://www.rfc-editor.org/rfc/rfc9535"]);
  links.filter((it) => it.startsWith("file:")).forEach((it) => assert.ok(existsSync(new URL(it)), it));
  assert.equal(links.length, 4);
}

export const tests = [insertsSyntax, explainsFunctions, explainsParts, tellsAllWords, linksToPages];
