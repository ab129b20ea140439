/**
 * Tests the page in Chromium, whose program is the first word, against the program jp and what is reckoned by hand.
 * In the folder of a second word it leaves pictures. Further words are the names of the tests that are run, of all
 * tests otherwise.
 */
import assert from "node:assert/strict";
import * as cases from "./cases.mjs";
import * as documents from "./documents.mjs";
import * as keys from "./keys.mjs";
import * as lines from "./lines.mjs";
import * as looks from "./looks.mjs";
import * as nodes from "./nodes.mjs";
import * as patternwords from "./patternwords.mjs";
import * as queries from "./queries.mjs";
import * as rows from "./rows.mjs";
import { browser } from "./shown.mjs";
import * as teaching from "./teaching.mjs";
import * as working from "./working.mjs";

const [, , , , ...names] = process.argv;
const files = [queries, patternwords, working, documents, lines, nodes, cases, teaching, keys, looks, rows];
const all = files.flatMap(({ tests }) => tests);
const tests = names.length === 0 ? all : all.filter(({ name }) => names.includes(name));

try {
  for (const test of tests) {
    try {
      await test();
      assert.deepEqual(browser.complaints, []);
    } catch (fault) {
      fault.message = `${test.name}: ${fault.message}`;
      throw fault;
    }
  }
  console.log(`${tests.length} tests of the page pass in Chromium`);
} finally {
  await browser.close();
}
