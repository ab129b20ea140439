/** Tests of what is shown while a query works, and after it was stopped: nothing of another query. */
import assert from "node:assert/strict";
import { sentenceOf } from "./sentences.mjs";
import {
  answered, becomes, browser, byProgram, click, countOf, editor, listed, marked, open, press, textOf, type,
} from "./shown.mjs";

const ITEMS = JSON.stringify(Array.from({ length: 4000 }, (_, index) => [index]));
// Works for minutes.
const LONG = `$${`[${Array(99).fill("*")}]`.repeat(2)}.x`;
const IS_OFF = "#previous:disabled, #next:disabled, #copy:disabled, #save:disabled";

function untilItWorks() {
  return browser.until('document.querySelector(".working")');
}

/** No node, no mark, and nothing that could be copied or saved. */
async function hasNoNodes() {
  await becomes(() => countOf("#nodes li"), 0);
  assert.deepEqual(await marked("document", "selected"), []);
  assert.deepEqual(await marked("document", "current"), []);
  assert.equal(await textOf("#current"), "");
  assert.equal(await countOf(IS_OFF), 4);
}

async function tellsOfTheQueryWhileItWorks() {
  await open({ q: "$[01]", d: ITEMS });
  assert.equal(await countOf("#query-outcome .wrong"), 1);
  await type("query", "$[3]");
  await answered();
  await click("#next");
  await becomes(() => marked("document", "current"), ["[3]"]);
  await type("query", LONG);
  await untilItWorks();
  assert.equal(`${await textOf("#query-outcome button")}\n`, byProgram("canon", LONG, "").output);
  assert.equal(await browser.value('document.querySelector("#nodes").ariaBusy'), "true");
  await hasNoNodes();
  await type("query", "$[?@ = 1]");
  await becomes(() => textOf("#query-outcome .wrong"), `Syntax at 6: ${sentenceOf("Query", "Equals")}`);
  assert.equal(await textOf("#count"), "No answer: the query is refused.");
}

/** Runs in the page before it: where values stand is told late. */
const LATE = `{
  const Plain = Worker;
  window.Worker = class extends Plain {
    set onmessage(take) {
      super.onmessage = (event) => setTimeout(() => take(event), event.data.byPlace ? 800 : 0);
    }
  };
}`;

/** What comes late of a former answer is not shown. */
async function marksNothingLate() {
  await open({ q: "$[1]", d: ITEMS }, { before: LATE });
  assert.deepEqual(await marked("document", "selected"), ["[1]"]);
  await type("query", "$[0]");
  await becomes(listed, "$[0]\t[0]\n");
  await type("query", LONG);
  await untilItWorks();
  await browser.value("new Promise((resolve) => setTimeout(resolve, 1000))");
  await hasNoNodes();
}

/** What is typed while a query works is answered, though nothing more is typed. */
async function answersWhatWaits() {
  await open({ q: "$[0]", d: ITEMS });
  await type("query", LONG);
  await untilItWorks();
  await type("query", "$[5]");
  await answered();
  assert.equal(await listed(), "$[5]\t[5]\n");
  assert.equal(await countOf(IS_OFF), 0);
}

/** From the first key on the nodes of the former query are old. */
async function makesNodesOldAtOnce() {
  await open({ q: "$[0]", d: ITEMS });
  assert.equal(await countOf(IS_OFF), 0);
  const isOff = await browser.value(`(() => {
    document.querySelector("#query .CodeMirror").CodeMirror.setValue("$[1]");
    return [document.querySelector("#nodes").ariaBusy, document.querySelectorAll("${IS_OFF}").length];
  })()`);
  assert.deepEqual(isOff, ["true", 4]);
  await answered();
  assert.equal(await countOf(IS_OFF), 0);
  // What is as it was is not old.
  await browser.value(`{
    const editor = document.querySelector("#query .CodeMirror").CodeMirror;
    editor.setValue("$[2]");
    editor.setValue("$[1]");
  }`);
  await answered();
  assert.equal(await countOf(IS_OFF), 0);
  assert.equal(await listed(), "$[1]\t[1]\n");
}

async function stops() {
  await open({ q: "$", d: "[1,]" });
  assert.equal(await editor("document", "getInputField().ariaInvalid"), "true");
  await type("document", "[[0],[1],[2],[3]]");
  await answered();
  for (const stop of [() => click("#stop"), () => press("Escape")]) {
    await editor("document", `setValue(${JSON.stringify(ITEMS)})`);
    await type("query", LONG);
    await browser.until('!document.querySelector("#stop").disabled');
    await stop();
    await answered();
    assert.equal(await textOf("#count"), "Stopped.");
    assert.equal(await browser.value('document.querySelector("#stop").disabled'), true);
    assert.equal(`${await textOf("#query-outcome button")}\n`, byProgram("canon", LONG, "").output);
    assert.equal(await textOf("#document-outcome"), "");
    await hasNoNodes();
    await type("query", "$[3]");
    await answered();
    assert.equal(await listed(), "$[3]\t[3]\n");
    await editor("document", 'setValue("[1,]")');
    await answered();
    assert.match(await textOf("#document-outcome"), /^NotJson /);
  }
}

export const tests = [tellsOfTheQueryWhileItWorks, marksNothingLate, answersWhatWaits, makesNodesOldAtOnce, stops];
