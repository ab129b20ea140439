/** Tests of the query: how it is asked, its colors, its mark where it is refused, and that nothing moves. */
import assert from "node:assert/strict";
import { sentenceOf } from "./sentences.mjs";
import {
  STORE, answered, becomes, boxOf, browser, byProgram, caret, click, countOf, editor, listed, open, press, pressOnly,
  textOf, textsOf, type,
} from "./shown.mjs";

async function showsRefusedQueries() {
  for (const [query, before, under] of [
    ["$.a[01]", "$.a[0", "1"],
    ["$['é😀'][01]", "$['é😀'][0", "1"],
    ["$['e\u0301'][?@.*==1]", "$['e\u0301'][?", "@"],
    ["$.a\u0301[\u0301", "$.a\u0301", "[\u0301"],
    ["$.a[?(@.b", "$.a[?(@.b", ""],
    ["$\n.a\t[01]", "$\n.a\t[0", "1"],
    [" \n$.a[01]\n ", " \n$.a[0", "1"],
  ]) {
    await open({ q: query, d: "[1," });
    const words = await textOf("#query-outcome .wrong strong");
    const [, kindAndPlace] = byProgram("check", query.trim(), "").fault.match(/^query refused: (.*)$/);
    assert.equal(words.replace(/ \(character \d+\)/, ""), `${kindAndPlace}: `);
    assert.deepEqual(await caret(), [before, under], query);
    assert.equal(await browser.value('document.querySelector("#query .CodeMirror-code").ariaInvalid'), "true");
    assert.equal(await listed(), "");
    assert.ok(!(await textOf("#query-outcome .wrong")).includes(query), "the query stands once");
  }
  await type("query", "$");
  await answered();
  assert.equal(await countOf(".refused-at, .refused-behind"), 0);
}

async function suggestsQueries() {
  await open({ q: "$[?@.a = 1]", d: '[{"a":1}]' });
  assert.equal(await textOf("#query-outcome .wrong"), `Syntax at 8: ${sentenceOf("Query", "Equals")}`);
  assert.equal(await textOf("#query-outcome button"), "$[?@.a == 1]");
  await click("#query-outcome button");
  await answered();
  assert.equal(await listed(), '$[0]\t{"a":1}\n');
}

async function enterAsks() {
  await open({ q: "$", d: STORE });
  await type("query", "  $.b[0].p \n\n");
  await press("Enter");
  await answered();
  assert.equal(await editor("query", "getValue()"), "$.b[0].p");
  assert.equal(await listed(), "$['b'][0]['p']\t8\n");
  assert.equal(await textOf("#query-outcome button"), "$['b'][0]['p']");
  await click("#query-outcome button");
  await answered();
  assert.equal(await editor("query", "getValue()"), "$['b'][0]['p']");
  assert.equal(await textOf("#query-outcome"), "Accepted, and written canonically.");
  await press("Enter", "Shift");
  assert.equal(await editor("query", "lineCount()"), 2);
  await answered();
  assert.equal(await listed(), "$['b'][0]['p']\t8\n");
}

async function isCalmWhereItIsEmpty() {
  for (const words of [{ q: "", d: STORE }, { q: "", d: "" }, { q: "$", d: " \n" }]) {
    await open(words);
    assert.equal(await countOf(".wrong, .refused, [aria-invalid=true]"), 0);
  }
  await open({ q: "$", d: "[1,]" });
  await type("query", "");
  await answered();
  assert.equal(await countOf(".wrong, .refused, [aria-invalid=true]"), 0);
  await open({ q: "  \n", d: STORE });
  assert.equal(await textOf("#query-outcome"), "A query begins with $. Try: $..book[?@.price<10].title");
  await click("#query-outcome button");
  await answered();
  assert.equal(await textOf("#query-outcome button"), "$..['book'][?@['price']<10]['title']");
  await open(null);
  assert.equal(await countOf("#nodes li"), 2);
}

async function colorsQueries() {
  await open({ q: "$..book[?length(@.title) > 3 && @['a']=='b'][0, 1:5:2, 'x', *]", d: STORE });
  for (const [what, words] of [
    ["root", ["$"]],
    ["descendants", ["..book"]],
    ["function", ["length"]],
    ["current", ["@", "@"]],
    ["child", [".title"]],
    ["comparison", [">", "=="]],
    ["and", ["&&"]],
    ["number", ["3"]],
    ["name", ["'a'", "'x'"]],
    ["text", ["'b'"]],
    ["index", ["0"]],
    ["slice", ["1:5:2"]],
    ["wildcard", ["*"]],
  ]) {
    assert.deepEqual(await textsOf(`#query .cm-jp-${what}`), words, what);
  }
}

async function pairsBrackets() {
  await open({ q: "$", d: STORE });
  await editor("query", "focus()");
  await press("End");
  await press("[");
  await press("'");
  assert.equal(await editor("query", "getValue()"), "$['']");
  await editor("query", "setCursor(0, 5)");
  assert.deepEqual(await textsOf("#query .CodeMirror-matchingbracket"), ["[", "]"]);
}

/** What comes below a query stands where it stood, whatever is said of the query and of the document. */
async function movesNothing() {
  for (const width of [800, 1280]) {
    await open({ q: "$.b[0]", d: STORE }, { width, height: 800 });
    const [before, below] = [await boxOf("#document"), await boxOf(".nodes")];
    for (const query of ["$.b[0", "$[?@.a = 1]", "", "$[?count(@.a, @.b) == 1]", "$.b"]) {
      await type("query", query);
      await answered();
      assert.deepEqual(await boxOf("#document"), before, `${query} at ${width}`);
    }
    await click('[value="whole"]');
    await type("query", "$[?@.price < 8.95]");
    await answered();
    assert.deepEqual(await boxOf("#document"), before, `a fraction at ${width}`);
    await type("query", "$.b");
    for (const document of ['{"a":2.5}', '{"store":{"book":[{"price":8.95}]}}', "[1e30]", "[1,]", ""]) {
      await type("document", document);
      await answered();
      assert.deepEqual((await boxOf(".nodes"))[0], below[0], `${document} at ${width}`);
    }
  }
}

/** On a narrow screen, which has no room to spare, no box moves while it is typed in. */
async function movesNoBoxThatIsTypedIn() {
  await open({ q: "$.b[0]", d: STORE, n: "whole" }, { width: 360, height: 800 });
  const typed = {
    query: ["$.b[0", "$[?@.a = 1]", "", "$[?match(@.a, '^\\\\d$')]", "$[?count(@.a, @.b) == 1]", "$.b"],
    document: ['{"a":2.5}', "[1,", '{"b":1}\n{"b":2}', "[1,]", "", "[]"],
  };
  for (const [id, texts] of Object.entries(typed)) {
    await browser.value(`document.querySelector("#${id}").scrollIntoView()`);
    const before = (await boxOf(`#${id}`))[0];
    for (const text of texts) {
      await type(id, text);
      await answered();
      assert.equal((await boxOf(`#${id}`))[0], before, text);
    }
    // The part at the cursor is told a little later.
    await becomes(() => textOf("#part"), ".b The member named b. (RFC 9535, section 2.5.1)");
  }
}

/** What is typed, or put in without keys, stands there whole, also where answers come between and all was selected. */
async function keepsWhatIsTyped() {
  const text = "$.b[?@.p<9]['t']";
  const ways = [pressOnly, (it) => browser.send("Input.insertText", { text: it })];
  for (const pause of [0, 130]) {
    for (const way of ways) {
      await open({ q: "$..a[?@]", d: STORE });
      await editor("query", "focus()");
      await editor("query", 'execCommand("selectAll")');
      for (const character of text) {
        await way(character);
        await browser.value(`new Promise((resolve) => setTimeout(resolve, ${pause}))`);
      }
      await answered();
      assert.equal(await editor("query", "getValue()"), text);
      assert.equal(await listed(), "$['b'][0]['t']\t\"é\"\n");
    }
  }
}

async function answersWhileTyping() {
  await open({ q: "$.b", d: STORE });
  await type("query", "$[");
  await answered();
  assert.deepEqual(await caret(), ["$[", ""]);
  await type("query", "$.b[-1].t");
  await answered();
  assert.equal(await listed(), byProgram("both", "$.b[-1].t", STORE).output);
  await browser.value(`location.hash = "${new URLSearchParams({ q: "$[0]", d: "[5]" })}"`);
  await becomes(listed, "$[0]\t5\n");
}

export const tests = [
  showsRefusedQueries,
  suggestsQueries,
  enterAsks,
  isCalmWhereItIsEmpty,
  colorsQueries,
  pairsBrackets,
  movesNothing,
  movesNoBoxThatIsTypedIn,
  keepsWhatIsTyped,
  answersWhileTyping,
];
