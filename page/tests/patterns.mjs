/**
 * Tests the patterns of other dialects by Node: what the engine selects by the I-Regexp that the page suggests is what
 * JavaScript's own expressions select, and which texts are taken for I-Regexps.
 */
import assert from "node:assert/strict";
import { readFileSync } from "node:fs";
import { Engine } from "../../bindings/node/engine.mjs";
import * as jp from "../../bindings/node/jp.mjs";
import { DECIMAL, EXTENDED, EXTENDED_DECIMAL, STANDARD } from "../../bindings/node/numbers.mjs";
import { bytesOf, textOf } from "../../bindings/node/texts.mjs";
import { translated } from "../src/dialects.mjs";
import { patternsIn, withPatterns } from "../src/literals.mjs";
import { toldOfPatterns } from "../src/patterns.mjs";
import { rows } from "./sentences.mjs";

const TEXTS = [
  "", "a", "ab", "b", "ba", "aab", "12", "1a", "a1", "2024-01-05", "x-1", "a b", " ", "\t", "_", "é", "$5", "5$", "^", "^a", "a.b",
  "[x]", "a]", "-", "A", "B-7", "aXb", "ab\nc", "\\", "\\d", "{", "a{2}", "/", "ab12_", "cat", "concat", "cat dog",
];
// Each is an expression of JavaScript, and none of these is an I-Regexp that means the same.
const FOREIGN = [
  String.raw`^\d+$`, String.raw`\d`, String.raw`\D`, String.raw`^\w+$`, String.raw`\W`, String.raw`\s`, String.raw`^\S+$`,
  String.raw`^a`, String.raw`b$`, String.raw`^$`, String.raw`(?:ab)+`, String.raw`(?<x>a)b`, String.raw`^a+?b`,
  String.raw`[\d.]`, String.raw`^[\w-]+$`, String.raw`[\s\d]`, String.raw`[[]`, String.raw`\$\d`, String.raw`\/`,
  String.raw`\u0061b`, String.raw`\x5b`, String.raw`[\x5b-\x5d]`, String.raw`^(cat|dog)$`, String.raw`^\d{4}-\d{2}-\d{2}$`,
];
// There is no I-Regexp, or none that is plainly meant.
const WITHOUT = [
  String.raw`\bcat`, String.raw`(?=a)b`, String.raw`(?i)a`, String.raw`(a)\1`, String.raw`^a|b$`, String.raw`[\D]`,
  String.raw`(^a|b)c`, String.raw`a(`, String.raw`a**`,
];
const OWN = [String.raw`[^a]`, String.raw`\^a[$]`, "a|b", "", "(a|)", String.raw`\p{Lu}-[0-9]+`, "a^b", "$5"];

const module = new WebAssembly.Module(readFileSync(new URL("../../bindings/node/jp.wasm", import.meta.url)));
const engine = new Engine(module);

function told(query) {
  return toldOfPatterns(engine, query, STANDARD);
}

function queryOf(name, pattern, quote = '"') {
  const text = JSON.stringify(pattern);
  return quote === '"' ? `$[?${name}(@, ${text})]` : `$[?${name}(@, '${text.slice(1, -1).replaceAll('\\"', '"').replaceAll("'", "\\'")}')]`;
}

function selected(query) {
  return jp.find(query, JSON.stringify(TEXTS)).map(({ value }) => value);
}

function takesAsJavaScript() {
  for (const pattern of FOREIGN) {
    const { patterns, suggestion } = told(queryOf("search", pattern));
    assert.equal(patterns.length, 1, pattern);
    assert.notEqual(suggestion, null, pattern);
    const expected = TEXTS.filter((text) => new RegExp(pattern, "u").test(text));
    assert.deepEqual(selected(suggestion), expected, `${pattern} as ${suggestion}`);
    assert.deepEqual(told(suggestion).patterns, [], suggestion);
    const whole = told(queryOf("match", pattern, "'")).suggestion;
    const inWhole = TEXTS.filter((text) => new RegExp(`^(?:${pattern})$`, "u").test(text));
    assert.deepEqual(selected(whole), inWhole, `${pattern} as ${whole}`);
  }
}

function suggestsNothingElse() {
  for (const pattern of WITHOUT) {
    const { patterns, suggestion } = told(queryOf("search", pattern));
    assert.equal(patterns.length, 1, pattern);
    assert.equal(suggestion, null, pattern);
  }
  for (const pattern of OWN) {
    assert.deepEqual(told(queryOf("match", pattern)), { patterns: [], suggestion: null }, pattern);
  }
}

/** By hand. */
function findsPatterns() {
  const query = String.raw`$["match(@,'x')"][?match(value(@.a[1, 2]), 'it\'s "\u0061\\"') && !search( value(@..b) , "a'\"" ) || count(@['match']) > 1]`;
  const found = patternsIn(query);
  assert.deepEqual(found.map(({ name, pattern }) => [name, pattern]), [["match", `it's "a\\"`], ["search", `a'"`]]);
  const other = withPatterns(query, found, [{ name: "search", pattern: "'\"\\d" }, { name: "match", pattern: "" }]);
  const expected = String.raw`$["match(@,'x')"][?search(value(@.a[1, 2]), '\'"\\d') && !match( value(@..b) , "" ) || count(@['match']) > 1]`;
  assert.equal(other, expected);
  assert.doesNotThrow(() => jp.compile(other));
  assert.deepEqual(translated(String.raw`^\d\d[\w]$`, "match"), {
    foreign: [[String.raw`\d`, "[0-9]"], [String.raw`\w`, "A-Za-z0-9_"]],
    anchors: ["^", "$"],
    meant: { name: "match", pattern: "[0-9][0-9][A-Za-z0-9_]" },
  });
}

const PROFILES = { Standard: STANDARD, Extended: EXTENDED, Decimal: DECIMAL, ExtendedDecimal: EXTENDED_DECIMAL };

/** In a query and in its canonical text, which the engine writes, stand the same patterns. */
function findsThoseOfRows() {
  let count = 0;
  for (const { query, profile: name } of rows.filter((it) => it.refused !== "Query")) {
    const profile = PROFILES[name];
    const canonical = textOf(engine.canonical(bytesOf(query), profile).text);
    const [found, same] = [query, canonical].map((text) => patternsIn(text).map(({ name, pattern }) => [name, pattern]));
    assert.deepEqual(found, same, query);
    assert.notEqual(toldOfPatterns(engine, query, profile).suggestion, query);
    count += found.length;
  }
  assert.ok(count > 500);
  return count;
}

takesAsJavaScript();
suggestsNothingElse();
findsPatterns();
console.log(`${findsThoseOfRows()} patterns are found in the queries of the rows`);
console.log(`${FOREIGN.length} patterns of JavaScript are suggested as I-Regexps that take the same texts`);
