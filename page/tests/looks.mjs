/** Tests of how the page looks: its names, contrast, widths, print and motion, and in browsers that lack something. */
import assert from "node:assert/strict";
import { join } from "node:path";
import { EXAMPLES } from "../src/examples.mjs";
import {
  PAGE, STORE, answered, becomes, browser, click, countOf, editor, listed, open, press, textOf, type,
} from "./shown.mjs";

const WIDTHS = [360, 800, 1280];
const WINDOWS = WIDTHS.flatMap((width) => ["light", "dark"].map((scheme) => ({ width, height: 800, scheme })));
const [, , , pictures] = process.argv;
const [{ document: PRICES }] = EXAMPLES;

/** What is said with less contrast than 4.5 (WCAG 2.2, success criterion 1.4.3). What can't be pressed is left out. */
const FAINT = `(() => {
  const canvas = document.createElement("canvas").getContext("2d", { willReadFrequently: true });
  const channels = (color) => {
    canvas.clearRect(0, 0, 1, 1);
    canvas.fillStyle = color;
    canvas.fillRect(0, 0, 1, 1);
    return [...canvas.getImageData(0, 0, 1, 1).data];
  };
  const light = (color) => {
    const parts = channels(color).map((it) => it / 255);
    const [red, green, blue] = parts.map((it) => (it <= 0.04045 ? it / 12.92 : ((it + 0.055) / 1.055) ** 2.4));
    return 0.2126 * red + 0.7152 * green + 0.0722 * blue;
  };
  const behind = (element) => {
    for (let it = element; it; it = it.parentElement) {
      const color = getComputedStyle(it).backgroundColor;
      if (channels(color)[3] === 255) return color;
    }
    return getComputedStyle(document.body).backgroundColor;
  };
  const texts = document.createTreeWalker(document.body, NodeFilter.SHOW_TEXT);
  const found = [];
  for (let text; (text = texts.nextNode()); ) {
    const element = text.parentElement;
    if (!text.data.trim() || element.closest("script, :disabled, .unseen") || !element.checkVisibility()) continue;
    const [one, other] = [getComputedStyle(element).color, behind(element)].map(light).sort((a, b) => b - a);
    const contrast = (one + 0.05) / (other + 0.05);
    if (contrast < 4.5) found.push(text.data.trim().slice(0, 40) + " " + contrast.toFixed(2));
  }
  return found;
})()`;

async function isWhole(name, { width, scheme }) {
  const [wanted, had] = await browser.value(`(() => {
    const { scrollWidth, clientWidth } = document.documentElement;
    return [scrollWidth, clientWidth];
  })()`);
  assert.ok(wanted <= had, `${name} at ${width}: ${wanted} pixels in ${had}`);
  assert.deepEqual(await browser.value(FAINT), [], `${name} at ${width}, ${scheme}`);
  if (pictures) {
    await browser.picture(join(pictures, `${name}-${width}-${scheme}.png`));
  }
}

/** While a query works, after it was stopped, where Tab comes to the link to the document, and where that was emptied. */
async function isWholeWhileAndAfter(window) {
  await open({ q: "$[0]", d: JSON.stringify(Array.from({ length: 4000 }, (_, index) => [index])) }, window);
  await type("query", `$${`[${Array(99).fill("*")}]`.repeat(2)}.x`);
  await browser.until('document.querySelector(".working")');
  await isWhole("working", window);
  await click("#stop");
  await isWhole("stopped", window);
  await open({ q: "$.b[0]", d: STORE }, window);
  await editor("query", "focus()");
  await press("Tab");
  await isWhole("skip", window);
  await click("#empty");
  await answered();
  await isWhole("emptied", window);
}

async function isWholeInEachWindow() {
  for (const window of WINDOWS) {
    await open(null, window);
    await click("#next");
    await becomes(() => countOf("#document .current"), 1);
    await isWhole("nodes", window);
    // One part of the reference is open at a time.
    for (const id of ["syntax", "functions", "examples", "parts", "keys"]) {
      await browser.value(`["reference", "${id}"].forEach((it) => (document.getElementById(it).open = true))`);
      await isWhole(id, window);
    }
    await open({ q: `$['${"é😀".repeat(40)}'][01]`, d: STORE }, window);
    await isWhole("refused-query", window);
    await open({ q: "$", d: `{"${"long".repeat(40)}":[0,2.5]}`, n: "whole" }, window);
    await isWhole("refused-document", window);
    await open({ q: "$..book[0].title", d: PRICES, n: "whole" }, window);
    await isWhole("refused-number", window);
    await open({ q: "$..book[?@.price<8.99]", d: PRICES, n: "whole" }, window);
    await isWhole("refused-literal", window);
    await open({ q: "$", d: '{"distance":18446744073709551616}', n: "whole" }, window);
    await isWhole("refused-large-number", window);
    await open({ q: "$", d: '{"distance":1e1000001}' }, window);
    await isWhole("refused-decimal", window);
    await open({ q: "", d: "" }, window);
    await isWhole("empty", window);
    await open({ q: "$..a", d: '{"a":1}\n{"a":[2,{"a":3},4,5]}\n{"a":2.5}', l: "1", n: "whole" }, window);
    await click("#next");
    await isWhole("lines", window);
    await open({ q: "$..a", d: '{"a":1}\n{"a":2}' }, window);
    await isWhole("recognized-lines", window);
    await open({ q: "$..a", d: ["1", ...Array(130).fill("[1,]")].join("\n"), l: "1" }, window);
    await isWhole("refused-lines", window);
    await open({ q: String.raw`$.b[?match(@.t, '^\\d+$') || search(@.t, "\\bx")]`, d: STORE }, window);
    await isWhole("patterns", window);
    await open({ q: String.raw`$.b[?search(@.t, "^x")]`, d: STORE }, window);
    await isWhole("anchor", window);
    await isWholeWhileAndAfter(window);
  }
}

/**
 * The longest stretches of the page, from the query's name to the list of nodes, where nothing stands: neither a text nor
 * an editor or a button, each with what ends it.
 */
const GAPS = `(() => {
  const boxes = [];
  const add = ({ top, bottom, height }, name) => height > 0 && boxes.push([top, bottom, name]);
  const texts = document.createTreeWalker(document.querySelector("main"), NodeFilter.SHOW_TEXT);
  for (let text; (text = texts.nextNode()); ) {
    if (text.data.trim() && text.parentElement.checkVisibility()) {
      const range = document.createRange();
      range.selectNode(text);
      add(range.getBoundingClientRect(), text.data);
    }
  }
  document.querySelectorAll("main :is(.CodeMirror, button, select, label)").forEach((it) => {
    if (it.checkVisibility()) add(it.getBoundingClientRect(), it.textContent);
  });
  boxes.sort(([one], [other]) => one - other);
  const gaps = [];
  let reached = boxes[0][1];
  for (const [top, bottom, name] of boxes) {
    gaps.push([Math.round(top - reached), name.slice(0, 40)]);
    reached = Math.max(reached, bottom);
  }
  return gaps.filter(([height]) => height > 40);
})()`;

/** On a narrow screen no room is kept for what is not said, whatever is. */
async function keepsNoGaps() {
  const window = { width: 360, height: 800 };
  await open(null, window);
  assert.deepEqual(await browser.value(GAPS), []);
  for (const words of [
    { q: "$.b[0]", d: STORE },
    { q: "$.b[01]", d: STORE },
    { q: "$[?match(@, '^x')]", d: '["x"]' },
    { q: "$", d: "[1," },
    { q: "$", d: "[1]\n[2]" },
    { q: "$", d: "" },
    { q: "", d: "" },
  ]) {
    await open(words, window);
    assert.deepEqual(await browser.value(GAPS), [], JSON.stringify(words));
  }
}

/** The names by which screen readers tell boxes, switches, buttons and links from one another. */
async function hasNames() {
  await open({ q: "$.b[*]", d: STORE });
  await browser.value('document.querySelectorAll("details").forEach((it) => (it.open = true))');
  const { nodes } = await browser.send("Accessibility.getFullAXTree");
  const roles = ["textbox", "radio", "checkbox", "combobox", "button", "link", "list", "navigation", "complementary"];
  const told = nodes.filter(({ role, ignored }) => !ignored && roles.includes(role?.value));
  assert.ok(told.length > 30);
  const nameless = told.filter(({ name, role }) => !name?.value && role.value !== "list");
  assert.deepEqual(nameless, []);
  const boxes = told.filter(({ role }) => role.value === "textbox").map(({ name }) => name.value);
  assert.deepEqual(boxes, ["Query", "Document"]);
  const live = await browser.value('[...document.querySelectorAll("[aria-live], [role=status]")].map((it) => it.id)');
  assert.deepEqual(live, [
    "query-outcome", "query-patterns", "part", "current", "document-outcome", "count", "told",
  ]);
}

async function showsFocus() {
  await open(null);
  for (const id of ["query", "document"]) {
    await editor(id, "focus()");
    const style = await browser.value(`getComputedStyle(document.querySelector("#${id} .CodeMirror")).outlineStyle`);
    assert.equal(style, "solid", id);
  }
}

async function prints() {
  const lines = Array.from({ length: 300 }, (_, index) => ` ${index}`).join(",\n");
  await open({ q: "$[0:2]", d: `[\n${lines}\n]` });
  await browser.send("Emulation.setEmulatedMedia", { media: "print" });
  await browser.value('dispatchEvent(new Event("beforeprint"))');
  assert.equal(await countOf("#document .CodeMirror-line"), 302);
  const visible = await browser.value(`[...document.querySelectorAll("button, select, .reference")]
    .filter((it) => it.checkVisibility()).map((it) => it.className)`);
  assert.ok(visible.every((it) => it.includes("code")), visible.join());
  const height = await browser.value('document.querySelector("#document .CodeMirror").clientHeight');
  assert.ok(height > 302 * 15);
  const [wanted, had] = await browser.value(`(() => {
    const { scrollWidth, clientWidth } = document.documentElement;
    return [scrollWidth, clientWidth];
  })()`);
  assert.ok(wanted <= had);
  await browser.value('dispatchEvent(new Event("afterprint"))');
  await browser.send("Emulation.setEmulatedMedia", { media: "" });
}

async function movesOnlyWhereItMay() {
  for (const [motion, expected] of [["no-preference", "working"], ["reduce", "none"]]) {
    await open({ q: "$", d: JSON.stringify(Array.from({ length: 4000 }, (_, index) => [index])) }, { motion });
    await type("query", `$${`[${Array(99).fill("*")}]`.repeat(2)}.x`);
    await browser.until('document.querySelector(".working")');
    assert.equal(await browser.value('getComputedStyle(document.querySelector(".working")).animationName'), expected);
    await click("#stop");
  }
}

async function hasAnIcon() {
  await open(null);
  const source = await browser.value('document.querySelector("link[rel=icon]").href');
  assert.ok(source.startsWith("data:image/svg+xml,"));
  assert.equal(await browser.value(`new Promise((resolve) => {
    const image = new Image();
    image.onload = () => resolve(image.width > 0);
    image.onerror = () => resolve(false);
    image.src = document.querySelector("link[rel=icon]").href;
  })`), true);
}

// A browser without 64-bit memory, and a page without the engine for it.
const NARROW = "WebAssembly.validate = () => false;";
const WITHOUT_NARROW = `new MutationObserver(() => {
  document.getElementById("engine-32")?.replaceChildren();
}).observe(document, { childList: true, subtree: true });`;

/** Without a memory of 64 bits the other engine answers, where the page has it. */
async function runsWithNarrowMemory() {
  const before = NARROW;
  await browser.open(`${PAGE}#${new URLSearchParams({ q: "$.b[?@.p<10].t", d: STORE })}`, { before });
  await browser.until('document.querySelector("#worker")');
  const isNarrowHere = await browser.value('document.getElementById("engine-32").textContent !== ""');
  if (isNarrowHere) {
    await answered();
    assert.equal(await listed(), "$['b'][0]['t']\t\"é\"\n$['b'][2]['t']\t\"😀\"\n");
  }
}

async function saysWhatIsMissing() {
  for (const [before, expected] of [
    ["delete window.WebAssembly;", /^This browser has no WebAssembly, .* Chrome and Edge .* Firefox/],
    [NARROW + WITHOUT_NARROW, /^This browser's WebAssembly has no memory .* \(Memory64\).* Chrome and Edge .* Firefox/],
    ["delete window.DecompressionStream;", /^This browser cannot unpack .* Chrome and Edge .* Firefox/],
    ["WebAssembly.compile = () => Promise.reject(new Error('no'));", /^This browser cannot run the page: no$/],
  ]) {
    await browser.open(PAGE, { before });
    await browser.until('document.querySelector("#query-outcome .wrong")');
    assert.match(await textOf("#query-outcome"), expected);
  }
}

export const tests = [
  isWholeInEachWindow,
  keepsNoGaps,
  hasNames,
  showsFocus,
  prints,
  movesOnlyWhereItMay,
  hasAnIcon,
  runsWithNarrowMemory,
  saysWhatIsMissing,
];
