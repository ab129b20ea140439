/** Tests of the keys: where Tab goes, what it passes in one step, and what leads on there. */
import assert from "node:assert/strict";
import { STORE, answered, browser, click, editor, open, press, textsOf } from "./shown.mjs";

const MOST_TABS = 6;
const IN_REFERENCE = 'document.querySelector("#reference").contains(document.activeElement)';

async function tellsKeys() {
  await open(null);
  const keys = await textsOf("#keys kbd");
  for (const key of ["Enter", "Shift+Enter", "Alt+↓, Alt+↑", "Esc", "Ctrl+."]) {
    assert.ok(keys.includes(key), key);
  }
  // Tab leaves both editors.
  for (const id of ["query", "document"]) {
    await editor(id, "focus()");
    await press("Tab");
    assert.equal(await editor(id, "hasFocus()"), false);
  }
}

/** How many times Tab is pressed from the query until the document has the focus. */
async function tabsToDocument() {
  await editor("query", "focus()");
  for (let tabs = 1; tabs <= 20; tabs += 1) {
    await press("Tab");
    if (await editor("document", "hasFocus()")) {
      return tabs;
    }
  }
  return Infinity;
}

/** From the query to the document, also where all that can be pressed between is there. */
async function comesToTheDocument() {
  for (const width of [360, 1280]) {
    await open({ q: "$.b[0].p", d: STORE }, { width, height: 800 });
    assert.equal((await textsOf("#query-outcome button")).length, 1);
    assert.ok((await tabsToDocument()) <= MOST_TABS, `at ${width}`);
    await open({ q: "$[?search(@.a,'^x')]", d: STORE }, { width, height: 800 });
    assert.equal((await textsOf("#query-told button")).length, 2);
    assert.ok((await tabsToDocument()) <= MOST_TABS, `at ${width}, with a pattern`);
    await click("#empty");
    await click("#back");
    await answered();
    assert.equal(await browser.value('document.querySelector("#back").disabled'), false);
    assert.ok((await tabsToDocument()) <= MOST_TABS, `at ${width}, with what can be brought back`);
  }
}

/** The link is seen where Tab comes to it, which is at once. */
async function skipsToTheDocument() {
  await open({ q: "$.b[0].p", d: STORE });
  const width = () => browser.value('document.querySelector("#skip").getBoundingClientRect().width');
  assert.ok((await width()) < 2);
  const address = await browser.value("location.href");
  await editor("query", "focus()");
  await press("Tab");
  assert.equal(await browser.value("document.activeElement.id"), "skip");
  assert.ok((await width()) > 50);
  await press("Enter");
  assert.equal(await editor("document", "hasFocus()"), true);
  assert.equal(await browser.value("location.href"), address);
}

async function goesThroughTheReference() {
  await open({ q: "$.b[0].p", d: STORE });
  await browser.value('document.querySelector("#link").focus()');
  await press("Tab");
  assert.equal(await browser.value(IN_REFERENCE), true);
  const first = await browser.value("document.activeElement.textContent");
  const seen = [first];
  for (;;) {
    await press("ArrowDown");
    const text = await browser.value("document.activeElement.textContent");
    if (text === seen.at(-1)) {
      break;
    }
    seen.push(text);
  }
  const all = await browser.value(`[...document.querySelectorAll("#reference :is(summary, button, a)")]
    .filter((it) => it.checkVisibility()).map((it) => it.textContent)`);
  assert.ok(all.length > 12);
  assert.deepEqual(seen, all);
  await press("Home");
  assert.equal(await browser.value("document.activeElement.textContent"), first);
  // What opens is gone through as well.
  await browser.value('document.querySelector("#functions > summary").focus()');
  await press("Enter");
  await press("ArrowDown");
  assert.equal(await browser.value("document.activeElement.textContent"), "length(@.name)");
  await press("Tab");
  assert.equal(await browser.value(IN_REFERENCE), false);
  await press("Tab", "Shift");
  assert.equal(await browser.value("document.activeElement.textContent"), "length(@.name)");
}

export const tests = [tellsKeys, comesToTheDocument, skipsToTheDocument, goesThroughTheReference];
