/** Queries and documents that are kept, and the memory that they take. Expected values are by hand. */
import assert from "node:assert/strict";
import { readFileSync } from "node:fs";
import test from "node:test";
import v8 from "node:v8";
import vm from "node:vm";
import { eachLineBy, engine } from "../asking.mjs";
import { NARROW, WIDE, hasWideMemory } from "../engines.mjs";
import { Engine, KeptDocument, KeptQuery, UNLIMITED } from "../engine.mjs";
import * as jp from "../jp.mjs";
import { DOCUMENT_REFUSED, DONE, PATHS, QUERY_REFUSED, STANDARD, VALUES } from "../numbers.mjs";
import { bytesOf, textOf } from "../texts.mjs";

const TEXT = '{"a":[1,{"b":2}],"c":{"b":3}}';

v8.setFlagsFromString("--expose-gc");
const collect = vm.runInNewContext("gc");

/** The calls of each way to ask a query of a document, both as texts. */
function ways(query, document, options) {
  const compiled = jp.compile(query, options);
  const kept = new jp.Document(document);
  return {
    texts: (name) => jp[name](query, document, options),
    compiled: (name) => jp[name](compiled, document),
    "of a query": (name) => compiled[name](document),
    kept: (name) => jp[name](query, kept, options),
    "of a document": (name) => kept[name](query, options),
    both: (name) => compiled[name](kept),
    "of a document, compiled": (name) => kept[name](compiled),
  };
}

for (const way of Object.keys(ways("$", "0"))) {
  test(`what is asked by ${way}`, () => {
    const call = ways("$..b", TEXT)[way];
    // Each is asked twice, since what is kept goes on.
    for (let time = 0; time < 2; time += 1) {
      assert.deepEqual(call("values"), [2, 3]);
      assert.deepEqual(call("paths"), ["$['a'][1]['b']", "$['c']['b']"]);
      assert.deepEqual(call("find"), [new jp.Match("$['a'][1]['b']", "2"), new jp.Match("$['c']['b']", "3")]);
      assert.deepEqual(call("findOne"), new jp.Match("$['a'][1]['b']", "2"));
      assert.deepEqual([...call("findIter")], call("find"));
      assert.equal(call("exists"), true);
    }
  });

  test(`what selects nothing by ${way}`, () => {
    for (const query of ["$.x", "$..x"]) {
      const call = ways(query, TEXT)[way];
      assert.deepEqual([call("values"), call("paths"), call("find")], [[], [], []]);
      assert.deepEqual([call("findOne"), call("exists"), [...call("findIter")]], [null, false, []]);
    }
  });

  test(`limits and profiles by ${way}`, () => {
    // Seven steps, as tests/calls.mjs counts them.
    assert.deepEqual(ways("$[*]", "[1,2]", { limit: 7 })[way]("values"), [1, 2]);
    assert.throws(() => ways("$[*]", "[1,2]", { limit: 6 })[way]("values"), new jp.StepsUsedUp(6n, "$[*]"));
    assert.deepEqual(ways("$[?distinct(@.*)]", "[{},[0]]", { extended: true })[way]("paths"), ["$[1]"]);
  });

  // How many nodes are asked for, and the bytes of their lines: `$[0]`, a tab, 1 and a newline are seven.
  test(`a most of nodes and bytes by ${way}, and one less`, () => {
    for (const [name, query, nodes, bytes] of [
      ["find", "$[*]", 2, 7 + 8],
      ["values", "$[*]", 2, 2 + 3],
      ["paths", "$[*]", 2, 2 * 5],
      ["findOne", "$[*]", 1, 7],
      ["exists", "$[*]", 1, 5],
      ["values", "$[1]", 1, 3],
      ["values", "$..[?@>1]", 1, 3],
    ]) {
      const call = (options) => ways(query, "[1,22]", options)[way](name);
      assert.deepEqual(call({ maxNodes: nodes, maxBytes: BigInt(bytes) }), call({}));
      const fault = new jp.TooManyBytes(BigInt(bytes - 1), query);
      assert.throws(() => call({ limit: 100, maxNodes: nodes, maxBytes: bytes - 1 }), fault);
      if (nodes > 1) {
        assert.throws(() => call({ maxNodes: nodes - 1, maxBytes: bytes }), new jp.TooManyNodes(BigInt(nodes - 1), query));
      }
    }
    // A node is counted before its line is made.
    const call = (options) => ways("$..*", "[1,22,3]", options)[way]("values");
    assert.throws(() => call({ maxNodes: 1, maxBytes: 1 }), new jp.TooManyBytes(1n, "$..*"));
    assert.throws(() => call({ maxNodes: 1, maxBytes: 2 }), new jp.TooManyNodes(1n, "$..*"));
    assert.throws(() => call({ limit: 1, maxNodes: 1, maxBytes: 1 }), new jp.StepsUsedUp(1n, "$..*"));
  });
}

test("a most of nodes and bytes of many queries", () => {
  const queries = ["$[*]", "$[01]", "$[1]", jp.compile("$[0,1]", { maxNodes: 2 }), jp.compile("$[0]", { maxBytes: 1 })];
  for (const document of ["[1,22]", new jp.Document("[1,22]")]) {
    const kinds = (options) => jp.findMany(queries, document, options).map((answer) => answer.constructor);
    assert.deepEqual(kinds(undefined), [Array, jp.QueryError, Array, Array, jp.TooManyBytes]);
    assert.deepEqual(kinds({ maxNodes: 1 }), [jp.TooManyNodes, jp.QueryError, Array, jp.TooManyNodes, jp.TooManyBytes]);
    assert.deepEqual(kinds({ maxBytes: 8 }), [jp.TooManyBytes, jp.QueryError, Array, jp.TooManyBytes, Array]);
  }
});

test("one node after another takes steps alone", () => {
  const message = "there is no option 'maxNodes' here, only: extended, numbers, limit";
  assert.throws(() => jp.findIter("$[*]", "[1,2]", { maxNodes: 1 }), new TypeError(message));
  const query = jp.compile("$[*]", { maxNodes: 1, maxBytes: 1 });
  assert.throws(() => query.findIter("[1,2]", { maxBytes: 1 }), TypeError);
  assert.equal([...query.findIter("[1,2]")].length, 2);
});

test("the first node ends the evaluation", () => {
  const query = jp.compile("$[*]", { limit: 6 });
  assert.equal(query.findOne("[1,2]").value, 1);
  assert.equal(query.exists("[1,2]"), true);
});

test("one node after another is what all are at once", () => {
  const query = jp.compile("$[*]");
  for (const size of [0, 1, 2, 3, 4, 6, 7, 8, 100]) {
    const numbers = [...Array(size).keys()];
    for (const document of [numbers, bytesOf(JSON.stringify(numbers)), new jp.Document(numbers)]) {
      assert.deepEqual([...query.findIter(document)], query.find(document));
    }
  }
  assert.deepEqual([...jp.findIter("$[0,0]", "[7]")].map(({ path }) => path), ["$[0]", "$[0]"]);
});

test("the first of a million nodes is found alone", () => {
  const text = `[${"0,".repeat(999_999)}0]`;
  assert.throws(() => jp.find("$[*]", text, { limit: 1_000_000 }), jp.StepsUsedUp);
  const each = jp.findIter("$[*]", text, { limit: 100 });
  for (let at = 0; at < 15; at += 1) {
    assert.equal(each.next().value.path, `$[${at}]`);
  }
  // The pages get longer, and each has the whole limit.
  assert.throws(() => [...each], jp.StepsUsedUp);
  assert.deepEqual([...each], []);
});

test("all nodes take three times the steps of one call at most, wherever they stand", () => {
  const ends = { early: [0, 20, 1], late: [1800, 2000, 1], rare: [99, 2000, 100], none: [0, 0, 1], all: [0, 2000, 1] };
  for (const [where, [from, to, each]] of Object.entries(ends)) {
    const isNode = (at) => at >= from && at < to && (at - from) % each === 0;
    const document = bytesOf(`[${Array.from({ length: 2000 }, (_, at) => (isNode(at) ? 1 : 0)).join(",")}]`);
    const question = { asked: new KeptQuery(bytesOf("$[?@==1]"), STANDARD), text: "$[?@==1]", most: UNLIMITED };
    const kept = new KeptDocument(document, STANDARD);
    const once = engine.ask(question.asked, kept, PATHS);
    const [steps, expected] = [once.steps, textOf(once.text).split("\n").slice(0, -1)];
    const made = [];
    const ask = (...words) => {
      const outcome = engine.ask(...words);
      made.push(outcome.steps);
      return outcome;
    };
    assert.deepEqual([...eachLineBy({ asks: { ask }, kept }, false, question, PATHS)], expected);
    const all = made.reduce((sum, it) => sum + it, 0n);
    assert.ok(steps <= all && all <= 3n * steps, `${where}: ${all} steps, and ${steps} at once`);
    // With a limit that is one too low.
    made.length = 0;
    const fewer = { ...question, most: { ...UNLIMITED, steps: steps - 1n } };
    const limited = eachLineBy({ asks: { ask }, kept }, false, fewer, PATHS);
    assert.throws(() => [...limited], jp.StepsUsedUp);
    assert.ok(made.every((it) => it < steps) && made.reduce((sum, it) => sum + it, 0n) <= 3n * (steps - 1n), where);
  }
});

test("what is asked for one after another goes on beside other calls", () => {
  const query = jp.compile("$..b");
  const bytes = bytesOf('{"b":[{"b":4},5,{"b":6}]}');
  const each = query.findIter(bytes);
  bytes.fill(0x20);
  const texts = [];
  for (const { text } of each) {
    texts.push(text, ...[...query.findIter('[{"b":1},{"b":2}]')].map((it) => it.text), jp.values("$.a", { a: 7 })[0]);
  }
  assert.deepEqual(texts, ['[{"b":4},5,{"b":6}]', "1", "2", 7, "4", "1", "2", 7, "6", "1", "2", 7]);
});

test("what a query tells of itself", () => {
  const query = jp.compile("$ .a", { extended: true, numbers: "whole", limit: 7, maxNodes: 8n, maxBytes: 9 });
  assert.deepEqual([query.text, `${query}`, query.extended, query.numbers], ["$ .a", "$ .a", true, "whole"]);
  assert.deepEqual([query.limit, query.maxNodes, query.maxBytes], [7, 8n, 9]);
  const bare = new jp.Query("$");
  assert.deepEqual([bare.text, bare.extended, bare.numbers], ["$", false, "decimal"]);
  assert.deepEqual([jp.compile("$", { extended: true }).extended, jp.compile("$", { numbers: "whole" }).extended], [true, false]);
  assert.deepEqual([bare.limit, bare.maxNodes, bare.maxBytes], [undefined, undefined, undefined]);
});

test("a limit of a call goes before the query's", () => {
  const query = jp.compile("$[*]", { limit: 6 });
  const document = new jp.Document([1, 2]);
  assert.deepEqual(query.values([1, 2], { limit: 7 }), [1, 2]);
  assert.deepEqual(document.values(query, { limit: 7n }), [1, 2]);
  assert.throws(() => jp.compile("$[*]", { limit: 7 }).values(document, { limit: 6 }), jp.StepsUsedUp);
  // Those of other kinds stay.
  const one = jp.compile("$[*]", { maxNodes: 1, maxBytes: 3 });
  assert.throws(() => one.values(document, { maxBytes: 9 }), new jp.TooManyNodes(1n, "$[*]"));
  assert.throws(() => one.values(document, { maxNodes: 2 }), new jp.TooManyBytes(3n, "$[*]"));
  assert.deepEqual(one.values(document, { maxNodes: 2, maxBytes: 4 }), [1, 2]);
});

test("names and indexes of a match", () => {
  const names = ["a", "", "'", "\\", "\b\t\n\f\r", "\u0000\u001f", "é😀", "['x'][0]", '"', "\u007f"];
  const document = names.reduceRight((inside, name) => [0, { [name]: inside }], 7);
  const match = jp.findOne("$..[?@==7]", document);
  assert.deepEqual(match.steps, names.flatMap((name) => [1, name]));
  assert.deepEqual(jp.findOne("$", document).steps, []);
  assert.deepEqual(jp.findOne("$[10]", [...Array(11).keys()]).steps, [10]);
  assert.deepEqual(jp.findOne("$.*", { 0: 1 }).steps, ["0"]);
});

test("what a document is made of may change", () => {
  const bytes = bytesOf("[1]");
  const value = [1];
  const documents = [bytes, bytes.buffer, value].map((it) => new jp.Document(it));
  bytes[1] = 0x32;
  value[0] = 2;
  for (const document of documents) {
    assert.deepEqual(document.values("$[0]"), [1]);
  }
  assert.deepEqual(jp.values("$[0]", bytes), [2]);
});

test("documents and queries that are refused are not kept", () => {
  for (const [document, path, reason] of [
    ["[1,]", null, "TrailingComma"],
    ["[1,2.5]", "$[1]", "HasFraction"],
  ]) {
    const is = { name: "DocumentError", path, reason };
    assert.throws(() => new jp.Document(document, { numbers: "whole" }), is);
    assert.throws(() => jp.compile("$", { numbers: "whole" }).values(document), is);
  }
  const kept = new jp.Document("[1]");
  for (const call of [() => kept.find("$["), () => jp.compile("$["), () => jp.find("$[", kept)]) {
    assert.throws(call, { name: "QueryError", place: 2 });
  }
  assert.deepEqual(kept.values("$[0]"), [1]);
});

test("one text after another", () => {
  const document = new jp.Document([[1], { a: 2 }]);
  for (const asked of [document, [[1], { a: 2 }]]) {
    for (const [query, options, values] of [
      ["$[0][0]", undefined, [1]],
      ["$[1].a", undefined, [2]],
      ["$[1].a", { extended: true }, [2]],
      ["$[1].a", { limit: 100 }, [2]],
      ["$[?distinct(@.*)]", { extended: true }, [[1], { a: 2 }]],
      ["$[0][0]", undefined, [1]],
      ["$[0][0]", undefined, [1]],
    ]) {
      assert.deepEqual(jp.values(query, asked, options), values);
      assert.throws(() => jp.values("$[?distinct(@.*)]", asked), jp.QueryError);
      assert.throws(() => jp.values("$[?distinct(@.*)]", asked), jp.QueryError);
      assert.deepEqual(jp.values(query, asked, options), values);
    }
  }
});

test("a refused query is told before the document", () => {
  for (const call of [jp.find, jp.findOne, jp.findIter, jp.values, jp.paths, jp.exists]) {
    assert.throws(() => call("$[", "[1,]"), jp.QueryError);
  }
});

test("many queries of a document that is kept, and of one that is not", () => {
  const answers = [[new jp.Match("$['a']", "1")], jp.QueryError, [], [new jp.Match("$['b']", "2")], jp.StepsUsedUp];
  const queries = () => ["$.a", "$[01]", "$..c", jp.compile("$.b"), jp.compile("$..*", { limit: 2 })];
  const text = '{"a":1,"b":2}';
  for (const document of [text, new jp.Document(text), { a: 1, b: 2 }]) {
    const found = jp.findMany(queries(), document);
    assert.deepEqual(found.map((it) => (Array.isArray(it) ? it : it.constructor)), answers);
    // What is not kept is forgotten.
    assert.deepEqual(jp.values("$", "[0]"), [[0]]);
  }
  function* asking() {
    yield `$.${jp.findMany(["$[0]"], ["a"])[0][0].value}`;
  }
  assert.deepEqual(jp.findMany(asking(), text), [answers[0]]);
  assert.throws(() => jp.findMany(["$"], "[1,]"), jp.DocumentError);
  assert.deepEqual(jp.findMany([], "[1,]"), []);
  assert.deepEqual(jp.values("$", "[0]"), [[0]]);
});

test("what is kept goes on after the stack ran out", () => {
  const query = jp.compile("$..[?@..a]");
  const document = new jp.Document('[{"a":1}]');
  const deep = (depth) => (depth === 0 ? query.paths(document).concat(query.paths("[[{\"a\":1}]]")) : deep(depth - 1));
  let faults = 0;
  for (let depth = 1; depth < 20_000; depth += 97) {
    try {
      assert.deepEqual(deep(depth), ["$[0]", "$[0]", "$[0][0]"]);
    } catch (fault) {
      assert.ok(fault instanceof RangeError, fault);
      faults += 1;
    }
  }
  assert.ok(faults > 0);
  assert.deepEqual(deep(0), ["$[0]", "$[0]", "$[0][0]"]);
});

// The module's memory, by the engine itself.

const module = new WebAssembly.Module(readFileSync(hasWideMemory() ? WIDE : NARROW));
// A document that takes more memory than is kept, and so does the text of its paths.
const LARGE = bytesOf(`[${"0,".repeat(2_000_000)}1]`);
const MOST = 1 << 26;

/** Waits until what nothing refers to is collected. */
async function collected() {
  for (let time = 0; time < 3; time += 1) {
    await new Promise((resume) => setTimeout(resume));
    collect();
  }
}

test("memory of a large document is given back, and queries go on", async () => {
  const engine = new Engine(module);
  const query = new KeptQuery(bytesOf("$[?@==1]"), STANDARD);
  const passing = { bytes: bytesOf("$[0]"), profile: STANDARD };
  assert.equal(engine.keep(query).status, DONE);
  assert.equal(textOf(engine.ask(passing, bytesOf("[1]"), VALUES).text), "1\n");
  const first = engine.size;
  const memory = (() => {
    const { text } = engine.ask(query, LARGE, PATHS);
    assert.equal(textOf(text), "$[2000000]\n");
    return new WeakRef(text.buffer);
  })();
  assert.equal(engine.size, 0);
  await collected();
  assert.ok(memory.deref() === undefined, "the memory is held");
  assert.equal(textOf(engine.ask(passing, bytesOf("[2]"), VALUES).text), "2\n");
  assert.equal(textOf(engine.ask(query, bytesOf("[1]"), PATHS).text), "$[0]\n");
  assert.equal(engine.size, first);
  const isNone = LARGE.slice();
  isNone[isNone.length - 2] = "x".charCodeAt();
  assert.equal(engine.ask(query, isNone, PATHS).status, DOCUMENT_REFUSED);
  assert.ok(engine.size <= first + MOST);
});

test("a document that is kept is kept where the memory of an answer is given back", () => {
  const engine = new Engine(module);
  const query = new KeptQuery(bytesOf("$[*]"), STANDARD);
  const document = new KeptDocument(LARGE, STANDARD);
  const small = new KeptDocument(bytesOf("[5]"), STANDARD);
  assert.deepEqual([document, small].map((it) => engine.keep(it).status), [DONE, DONE]);
  const kept = engine.size;
  assert.ok(kept > MOST);
  // Of `$[]` and a newline, and the digits of the numbers up to two million.
  const digits = 10 + 90 * 2 + 900 * 3 + 9000 * 4 + 90_000 * 5 + 900_000 * 6 + 1_000_001 * 7;
  assert.equal(engine.ask(query, document, PATHS).text.length, 2_000_001 * 4 + digits);
  assert.equal(engine.size, 0);
  assert.equal(textOf(engine.ask(query, document, VALUES, [0n, 2n]).text), "0\n0\n");
  assert.equal(textOf(engine.ask(query, small, VALUES).text), "5\n");
  assert.ok(engine.size >= kept);
  engine.forget(document);
  assert.ok(engine.size >= kept);
  engine.forget(small);
  assert.equal(engine.size, 0);
  assert.equal(textOf(engine.ask(query, small, VALUES).text), "5\n");
});

test("a document that is kept for an iterator is forgotten with it", () => {
  const question = { asked: new KeptQuery(bytesOf("$[*]"), STANDARD), text: "$[*]", most: UNLIMITED };
  for (const isEnded of [false, true]) {
    const given = { asks: new Engine(module), kept: new KeptDocument(LARGE, STANDARD) };
    const each = eachLineBy(given, true, question, VALUES);
    assert.deepEqual([each.next().value, each.next().value], ["0", "0"]);
    assert.ok(given.asks.size > MOST);
    if (isEnded) {
      assert.equal([...each].length, 1_999_999);
    } else {
      each.return();
    }
    assert.equal(given.asks.size, 0);
  }
});

test("a million calls of what is kept leave nothing behind", () => {
  const query = jp.compile("$.a[*]");
  const document = new jp.Document({ a: [1, 2] });
  const bytes = bytesOf('{"a":[7]}');
  const calls = [
    [800_000, () => assert.ok(query.exists(document))],
    [100_000, () => assert.ok(query.exists(bytes))],
    [50_000, () => assert.equal(query.findIter(document).next().value.text, "1")],
    [50_000, () => assert.throws(() => query.exists(bytes, { limit: 1 }), jp.StepsUsedUp)],
  ];
  calls.forEach(([, call]) => call());
  const { size } = engine;
  for (const [count, call] of calls) {
    for (let time = 0; time < count; time += 1) {
      call();
    }
  }
  assert.equal(engine.size, size);
});

test("a query that is refused is refused again", () => {
  const engine = new Engine(module);
  const query = new KeptQuery(bytesOf("$["), STANDARD);
  for (let time = 0; time < 2; time += 1) {
    assert.equal(engine.keep(query).status, QUERY_REFUSED);
    assert.equal(engine.ask(query, bytesOf("[]"), VALUES).status, QUERY_REFUSED);
  }
});

test("memory of what is forgotten is used again", async () => {
  const engine = new Engine(module);
  engine.version();
  const first = engine.size;
  for (let round = 0; round < 20; round += 1) {
    for (let time = 0; time < 500; time += 1) {
      const query = new KeptQuery(bytesOf(`$..a[?@.b==${time}]`), STANDARD);
      assert.equal(textOf(engine.ask(query, new KeptDocument(bytesOf('{"a":[{"b":7}]}'), STANDARD), PATHS).text).length,
        time === 7 ? "$['a'][0]\n".length : 0);
    }
    await collected();
  }
  assert.ok(engine.size < first + (1 << 24), `${engine.size} bytes`);
});

test("documents that are kept at once", () => {
  const documents = Array.from({ length: 5000 }, (_, index) => new jp.Document([index]));
  const query = jp.compile("$[0]");
  documents.forEach((document, index) => assert.deepEqual(query.values(document), [index]));
  // What took much memory meanwhile makes them be read anew.
  assert.equal(jp.exists("$[?@==1]", LARGE), true);
  documents.forEach((document, index) => assert.deepEqual(query.values(document), [index]));
});
