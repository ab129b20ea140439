/** Tests what the page's worker answers to the rows of bindings/rows.jsonl. */
import assert from "node:assert/strict";
import { head, rows } from "./sentences.mjs";
import { browser, open } from "./shown.mjs";

// What a row asks; of a query the page does not know the name of the reason.
const ASKED = ["from", "profile", "query", "document", "not"];
const AT_ONCE = 500;
// What is chosen for a row's profile.
const CHOSEN = {
  Standard: { profile: "standard", numbers: "whole" },
  Extended: { profile: "extended", numbers: "whole" },
  Decimal: { profile: "standard", numbers: "decimal" },
  ExtendedDecimal: { profile: "extended", numbers: "decimal" },
};

/** Runs in the page before it: keeps its worker at hand, and the module that it is given. */
const BEFORE = `{
  const Plain = Worker;
  window.Worker = class extends Plain {
    constructor(...words) {
      super(...words);
      window.heldWorker = this;
    }
    postMessage(words) {
      window.heldModule = words.module ?? window.heldModule;
      super.postMessage(words);
    }
  };
}`;

/** Runs in the page: what the worker tells of rows, in their fields. */
async function toldInPage(rows) {
  const worker = window.heldWorker;
  const call = (words) => new Promise((resolve) => {
    worker.onmessage = ({ data }) => resolve(data);
    worker.postMessage(words);
  });
  const told = [];
  for (const { query, document: text = "", chosen } of rows) {
    const asked = { kind: "ask", module: window.heldModule, byLines: false, query, document: text };
    const answer = await call({ ...asked, ...chosen });
    const count = answer.count ?? 0;
    told.push({ answer, nodes: count > 0 ? await call({ kind: "nodes", order: "nodelist", from: 0, to: count }) : [] });
  }
  return told;
}

/** What the worker tells, in the fields of a row. */
function given({ answer, nodes }) {
  assert.equal(answer.fault, undefined);
  if (answer.query) {
    const { kind, place, sentence, suggestion } = answer.query;
    return { refused: "Query", kind, place, sentence, suggestion: suggestion ?? "" };
  }
  if (answer.document) {
    const { kind, path, offset, line, column, reason, sentence } = answer.document;
    return { refused: "Document", kind, at: path, place: offset, line, column, reason, sentence };
  }
  const [paths, values] = ["path", "value"].map((name) => nodes.map((node) => node[name].text));
  return { canonical: answer.canonical, paths, values };
}

function assertRow(row, told) {
  const answer = given(told);
  const isLeft = (name) => ASKED.includes(name) || (name === "reason" && row.refused === "Query");
  for (const name of Object.keys(row).filter((it) => !isLeft(it))) {
    assert.deepEqual(answer[name], row[name], `${name} of ${JSON.stringify(row)}`);
  }
}

async function asksEachRow() {
  const run = rows.filter((row) => row.not?.page === undefined);
  await open({ q: "$", d: "[]" }, { before: BEFORE });
  for (let from = 0; from < run.length; from += AT_ONCE) {
    const some = run.slice(from, from + AT_ONCE).map((row) => ({ ...row, chosen: CHOSEN[row.profile] }));
    const told = await browser.value(`(${toldInPage})(${JSON.stringify(some)})`);
    some.forEach(({ chosen, ...row }, at) => assertRow(row, told[at]));
  }
  assert.equal(rows.length, head.rows);
  console.log(`${run.length} rows by the page, ${rows.length - run.length} not`);
}

export const tests = [asksEachRow];
