/** Tests that nothing is lost and nothing leaks: links, the tab, and what comes back. */
import assert from "node:assert/strict";
import {
  PAGE, answered, becomes, browser, click, countOf, editor, listed, open, openFile, textOf, textsOf, type,
} from "./shown.mjs";

const OWN = '{"mine":[1,2]}';

function address() {
  return browser.value("location.href");
}

async function bringsBackWhatWasHere() {
  await open({ q: "$", d: "[]" });
  await type("document", OWN);
  await type("query", "$.mine");
  await answered();
  await browser.value('scrollTo(0, document.documentElement.scrollHeight)');
  await browser.value('document.querySelectorAll("#examples a")[1].click()');
  await answered();
  assert.ok(await browser.value('document.querySelector("#query").getBoundingClientRect().top >= 0'));
  assert.equal(await editor("query", "getValue()"), "$.store.book[*].author");
  assert.equal((await textsOf("#nodes li")).length, 4);
  await browser.value('document.querySelectorAll("#examples a")[8].click()');
  await answered();
  await click("#back");
  await answered();
  assert.equal(await editor("document", "getValue()"), OWN);
  assert.equal(await listed(), "$['mine']\t[1,2]\n");
  for (const replace of [() => click("#empty"), () => openFile("other.json", "[3]"), () => click("#indent")]) {
    await replace();
    await answered();
    assert.notEqual(await editor("document", "getValue()"), OWN);
    await click("#back");
    await answered();
    assert.equal(await editor("document", "getValue()"), OWN);
  }
}

/** Also what the page put in itself, on a touch screen too: the button stands beside the one that empties. */
async function emptiesAndBringsBack() {
  await open(null, { width: 360, height: 800 });
  const before = await editor("document", "getValue()");
  await browser.value('document.querySelector("#empty").scrollIntoView({ block: "center" })');
  await click("#empty");
  await answered();
  assert.equal(await editor("document", "getValue()"), "");
  assert.equal(await textOf("#told"), "What was here can be brought back.");
  const tops = await browser.value(`["told", "back"].map((id) => {
    const { top, bottom } = document.getElementById(id).getBoundingClientRect();
    return top > 0 && bottom < innerHeight;
  })`);
  assert.deepEqual(tops, [true, true]);
  await click("#back");
  await answered();
  assert.equal(await editor("document", "getValue()"), before);
  assert.equal(await countOf("#nodes li"), 2);
}

/** What comes back makes room for what was here, so that each comes back in turn. */
async function bringsBackInACircle() {
  await open({ q: "$.mine", d: OWN });
  await browser.value('document.querySelectorAll("#examples a")[1].click()');
  await type("query", "$.store.bicycle.color");
  await answered();
  for (const expected of ["$['mine']\t[1,2]\n", "$['store']['bicycle']['color']\t\"red\"\n", "$['mine']\t[1,2]\n"]) {
    await click("#back");
    await answered();
    assert.equal(await listed(), expected);
  }
}

/** An example is a link, so it can be opened beside as well. */
async function linksExamples() {
  await open(null);
  const link = await browser.value('document.querySelectorAll("#examples a")[5].href');
  await browser.open(link);
  await answered();
  assert.equal(await editor("query", "getValue()"), "$.o['j j']");
  assert.equal(await editor("document", "getValue()"), `{"o": {"j j": {"k.k": 3}}, "'": {"@": 2}}`);
}

async function putsNothingIntoTheAddress() {
  await open(null);
  await type("document", '{"secret":1}');
  await type("query", "$.secret");
  await answered();
  await browser.value("new Promise((resolve) => setTimeout(resolve, 800))");
  assert.equal(await address(), PAGE);
  assert.equal(await textOf("#link-holds"), "It holds the query and the whole document.");
  await browser.allow("clipboardReadWrite", "clipboardSanitizedWrite");
  await click("#link");
  await becomes(() => textOf("#told"), "Copied.");
  const link = await browser.value("navigator.clipboard.readText()");
  assert.equal(link, `${PAGE}#${new URLSearchParams({ q: "$.secret", d: '{"secret":1}' })}`);
  await browser.open(link);
  await answered();
  assert.equal(await listed(), "$['secret']\t1\n");
  // What is typed later is not in the address, which would else say what is no longer here.
  await type("query", "$");
  await browser.until(`location.href === ${JSON.stringify(PAGE)}`);
}

/** The switches stand in a link where they are not as in a new page, and come with a reload. */
async function linksAndKeepsSwitches() {
  await browser.allow("clipboardReadWrite", "clipboardSanitizedWrite");
  await open({ q: "$", d: "[1.5]" });
  assert.equal(await countOf('[value="standard"]:checked, [value="decimal"]:checked'), 2);
  for (const [presses, added] of [
    [["whole"], { n: "whole" }],
    [["extended"], { p: "extended", n: "whole" }],
    [["decimal"], { p: "extended" }],
  ]) {
    for (const it of presses) {
      await click(`[value="${it}"]`);
    }
    await answered();
    await click("#link");
    const link = `${PAGE}#${new URLSearchParams({ q: "$", d: "[1.5]", ...added })}`;
    await becomes(() => browser.value("navigator.clipboard.readText()"), link);
    const isWhole = added.n === "whole";
    await becomes(() => countOf("#document-outcome .wrong"), isWhole ? 1 : 0);
    await browser.value("window.isOld = true");
    await browser.send("Page.reload");
    await browser.until('!window.isOld && document.querySelector("#document .CodeMirror")');
    await answered();
    assert.equal(await countOf(`[value="${isWhole ? "whole" : "decimal"}"]:checked`), 1);
    assert.equal(await countOf("#document-outcome .wrong"), isWhole ? 1 : 0);
  }
}

async function saysThatLinksHaveNoLongDocument() {
  await open({ q: "$" });
  await openFile("long.json", JSON.stringify("x".repeat(20_000)));
  await answered();
  assert.equal(await textOf("#link-holds"), "It holds the query; the document is too long.");
  await click("#link");
  await browser.until('location.hash === "#q=%24"');
}

/** A reload loses nothing, and another tab has nothing of it. */
async function keepsInTheTabAlone() {
  await open(null);
  await type("document", OWN);
  await type("query", "$.mine[1]");
  await answered();
  await browser.value("new Promise((resolve) => setTimeout(resolve, 800))");
  await browser.send("Page.reload");
  await browser.until('document.querySelector("#nodes")?.textContent.includes("mine")');
  await answered();
  assert.equal(await listed(), "$['mine'][1]\t2\n");
  assert.equal(await browser.value("localStorage.length + sessionStorage.length + document.cookie.length"), 0);
  await open(null);
  assert.equal(await editor("query", "getValue()"), "$..book[?@.price<10].title");
}

/** The page's own policy keeps a document in it, also from a script that would send it away. */
async function connectsToNothing() {
  await open({ q: "$" });
  assert.equal(await browser.value('fetch("http://127.0.0.1:9/").then(() => "sent", () => "kept")'), "kept");
  const complaints = browser.complaints.splice(0);
  assert.ok(complaints.some((it) => it.includes("Content Security Policy")), complaints.join("\n"));
}

export const tests = [
  bringsBackWhatWasHere,
  emptiesAndBringsBack,
  bringsBackInACircle,
  linksExamples,
  putsNothingIntoTheAddress,
  linksAndKeepsSwitches,
  saysThatLinksHaveNoLongDocument,
  keepsInTheTabAlone,
  connectsToNothing,
];
