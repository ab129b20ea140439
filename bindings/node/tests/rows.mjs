/**
 * Compares what the module gives with the rows of bindings/rows.jsonl, or of the file that the first word names, as
 * `bindings/compare --answers` prints them.
 */
import assert from "node:assert/strict";
import { readFileSync } from "node:fs";
import * as jp from "../jp.mjs";
import { pathOf } from "../paths.mjs";

const FILE = process.argv[2] ?? new URL("../../rows.jsonl", import.meta.url);
// What a row asks; a query's error does not tell the name of its reason.
const ASKED = ["from", "profile", "query", "document", "bytes", "not"];
// The numbers of the last two need not be said.
const OPTIONS = {
  Standard: { numbers: "whole" },
  Extended: { extended: true, numbers: "whole" },
  Decimal: {},
  ExtendedDecimal: { extended: true },
};

/** The document as bytes, or undefined. */
function bytesOf({ bytes, document }) {
  const text = bytes === undefined ? document : Buffer.from(bytes, "hex");
  return text === undefined ? undefined : new Uint8Array(Buffer.from(text));
}

/** What a way to ask gives, in the fields of a row. */
function told(ask) {
  try {
    const given = ask();
    return typeof given === "string" ? { canonical: given } : toldOfNodes(given);
  } catch (fault) {
    return toldOfFault(fault);
  }
}

function toldOfNodes(nodes) {
  return { paths: nodes.map(({ path }) => path), values: nodes.map(({ text }) => text) };
}

function toldOfFault(fault) {
  const { kind, sentence, place, offset, line, column, path, reason, suggestion } = fault;
  if (fault instanceof jp.QueryError) {
    return { refused: "Query", kind, place, sentence, suggestion: suggestion ?? "" };
  }
  assert.ok(fault instanceof jp.DocumentError, fault);
  return { refused: "Document", kind, place: offset, line, column, at: path ?? "", reason, sentence };
}

function many(query, document, options) {
  const [answer] = jp.findMany([query], document, options);
  if (answer instanceof Error) {
    throw answer;
  }
  return answer;
}

/** Each way to ask what a row asks. */
function ways(row) {
  const { query } = row;
  const document = bytesOf(row);
  const options = OPTIONS[row.profile];
  const { numbers } = options;
  const canonical = () => jp.canonical(query, options);
  if (document === undefined) {
    return [canonical];
  }
  return [
    () => jp.find(query, document, options),
    () => (row.document === undefined ? jp.find(query, document, options) : jp.find(query, row.document, options)),
    () => jp.compile(query, options).find(document),
    () => jp.find(jp.compile(query, options), new jp.Document(document, { numbers })),
    () => many(query, document, options),
    ...(row.refused === "Query"
      ? [canonical, () => jp.check(query, options) ?? ""]
      : [() => new jp.Document(document, { numbers }).find(query, options)]),
  ];
}

function assertRow(row) {
  const isLeft = (name) => ASKED.includes(name) || (name === "reason" && row.refused === "Query");
  const names = Object.keys(row).filter((name) => !isLeft(name));
  for (const way of ways(row)) {
    const given = told(way);
    names.forEach((name) => assert.deepEqual(given[name], row[name], `${name} of ${JSON.stringify(row)}`));
  }
  if (row.paths) {
    assertKept(row);
  }
}

/** That what is kept answers in the same way, one node after another too, and that a path is that of its steps. */
function assertKept(row) {
  const document = bytesOf(row);
  const query = jp.compile(row.query, OPTIONS[row.profile]);
  const kept = new jp.Document(document, { numbers: query.numbers });
  const found = query.find(document);
  assert.deepEqual(query.paths(document), row.paths);
  assert.deepEqual(query.values(document), found.map(({ value }) => value));
  assert.deepEqual([...query.findIter(document)], found);
  assert.deepEqual([...kept.findIter(query)], found);
  assert.deepEqual([query.findOne(document), kept.findOne(query)], [found[0] ?? null, found[0] ?? null]);
  assert.equal(kept.exists(query), found.length > 0);
  found.forEach((match) => assert.equal(pathOf(match.steps), match.path));
}

const [head, ...rows] = readFileSync(FILE, "utf8").split("\n").slice(0, -1).map((line) => JSON.parse(line));
const ran = rows.filter((row) => row.not?.node === undefined);
ran.forEach(assertRow);
assert.equal(rows.length, head.rows);
console.log(`${ran.length} rows by the module, ${rows.length - ran.length} not`);
