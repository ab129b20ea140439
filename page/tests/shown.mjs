/** What the tests of the page do with it, and what they see of it. */
import assert from "node:assert/strict";
import { spawnSync } from "node:child_process";
import { mkdtempSync, rmSync, writeFileSync } from "node:fs";
import { tmpdir } from "node:os";
import { join } from "node:path";
import { setTimeout as pause } from "node:timers/promises";
import { fileURLToPath } from "node:url";
import { Browser } from "./browser.mjs";

export const PAGE = new URL("../jp.html", import.meta.url).href;
export const STORE = '{"b":[{"p":8,"t":"é"},{"p":12,"t":"x\\ty"},{"p":9,"t":"😀"}]}';
// The proved program, unless another one is named.
const PROGRAM = process.env.JP_PROGRAM ?? fileURLToPath(new URL("../../crates/jp/out/jp", import.meta.url));
const ARROWS = { ArrowLeft: 37, ArrowUp: 38, ArrowRight: 39, ArrowDown: 40 };
const KEYS = { Tab: 9, Enter: 13, Escape: 27, End: 35, Home: 36, ...ARROWS, ".": 190, "[": 219, "'": 222 };
const MODIFIERS = { Alt: 1, Control: 2, Shift: 8 };

export const browser = new Browser(process.argv[2]);

export function byProgram(command, query, document, ...flags) {
  const { status, stdout, stderr } = spawnSync(PROGRAM, [command, ...flags, "--", query], { input: document });
  return { status, output: stdout.toString(), fault: stderr.toString().trimEnd() };
}

/** Opens the page with a case, `q` and so on, in its address; without any if it is null. */
export async function open(words, window) {
  await browser.open(words === null ? PAGE : `${PAGE}#${new URLSearchParams(words)}`, window);
  await answered();
}

export function answered() {
  return browser.until('document.querySelector("#nodes").ariaBusy === "false"');
}

export function textOf(selector) {
  return browser.value(`document.querySelector(${JSON.stringify(selector)})?.textContent ?? null`);
}

export function textsOf(selector) {
  return browser.value(`[...document.querySelectorAll(${JSON.stringify(selector)})].map((it) => it.textContent)`);
}

export function countOf(selector) {
  return browser.value(`document.querySelectorAll(${JSON.stringify(selector)}).length`);
}

export function click(selector) {
  return browser.value(`document.querySelector(${JSON.stringify(selector)}).click()`);
}

/** Chooses what a list offers. */
export function choose(id, value) {
  return browser.value(`document.getElementById("${id}").value = "${value}";
    document.getElementById("${id}").dispatchEvent(new Event("change"))`);
}

/** A member of an editor, "query" or "document", or what a call of one gives. */
export function editor(id, expression) {
  return browser.value(`document.querySelector("#${id} .CodeMirror").CodeMirror.${expression}`);
}

/** Puts a text into an editor in place of what it holds, as if it were typed. */
export async function type(id, text) {
  await editor(id, "focus()");
  await editor(id, 'execCommand("selectAll")');
  await (text === "" ? editor(id, 'replaceSelection("")') : browser.send("Input.insertText", { text }));
  await browser.until(`document.querySelector("#${id} .CodeMirror").CodeMirror.getValue() === ${JSON.stringify(text)}`);
}

/** Presses a key, with others held. */
export async function press(key, ...held) {
  await pressOnly(key, held);
  await pause(150);
}

/** Presses a key, and waits for nothing. */
export async function pressOnly(key, held = []) {
  const modifiers = held.reduce((all, it) => all | MODIFIERS[it], 0);
  // By 229 a key says that its character is what counts.
  const code = KEYS[key] ?? 229;
  const text = key.length === 1 && modifiers === 0 ? { text: key } : key === "Enter" ? { text: "\r" } : {};
  for (const type of ["keyDown", "keyUp"]) {
    const words = { type, key, code: key, windowsVirtualKeyCode: code, modifiers, ...(type === "keyDown" ? text : {}) };
    await browser.send("Input.dispatchKeyEvent", words);
  }
}

/** The texts that marks of a class have in an editor, in its order. */
export function marked(id, className) {
  return browser.value(`(() => {
    const editor = document.querySelector("#${id} .CodeMirror").CodeMirror;
    const marks = editor.getAllMarks().filter((it) => it.className === "${className}");
    return marks.map((it) => editor.getRange(it.find().from, it.find().to));
  })()`);
}

/** What stands before the caret in the query, and what it stands under, which is nothing at the end. */
export function caret() {
  return browser.value(`(() => {
    const editor = document.querySelector("#query .CodeMirror").CodeMirror;
    const [mark] = editor.getAllMarks().filter((it) => it.className?.startsWith("refused-"));
    const { from, to } = mark.find();
    const isBehind = mark.className === "refused-behind";
    return [editor.getRange({ line: 0, ch: 0 }, isBehind ? to : from), isBehind ? "" : editor.getRange(from, to)];
  })()`);
}

/** The list of nodes, each with its path and its value, as the program would write them. */
export async function listed() {
  const items = await browser.value(`[...document.querySelectorAll("#nodes li")].map((it) =>
    [it.querySelector(".path").textContent, it.querySelector(".value")?.textContent ?? null])`);
  return items.map(([path, value]) => `${path}\t${value === null ? "" : JSON.stringify(JSON.parse(value))}\n`).join("");
}

/** Opens a file in the page. */
export async function openFile(name, text) {
  const folder = mkdtempSync(join(tmpdir(), "jp-page-"));
  const file = join(folder, name);
  writeFileSync(file, text);
  const { root } = await browser.send("DOM.getDocument");
  const { nodeId } = await browser.send("DOM.querySelector", { nodeId: root.nodeId, selector: "#file" });
  await browser.send("DOM.setFileInputFiles", { nodeId, files: [file] });
  await browser.until('document.getElementById("file").files.length === 0');
  rmSync(folder, { recursive: true });
}

/** Where an element begins, from the page's top, and how high it is. */
export function boxOf(selector) {
  return browser.value(`(() => {
    const { top, height } = document.querySelector(${JSON.stringify(selector)}).getBoundingClientRect();
    return [top + scrollY, height];
  })()`);
}

/** Waits until what is read of the page is as expected, for at most ten seconds, and else says what it is. */
export async function becomes(read, expected) {
  for (let tries = 0; tries < 200; tries += 1) {
    try {
      assert.deepEqual(await read(), expected);
      return;
    } catch {
      await pause(50);
    }
  }
  assert.deepEqual(await read(), expected);
}
