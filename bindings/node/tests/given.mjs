/** What is given to the calls, and refused by name where it does not belong there. Expected values are by hand. */
import assert from "node:assert/strict";
import { readFileSync } from "node:fs";
import test from "node:test";
import vm from "node:vm";
import * as jp from "../jp.mjs";

const ASKING = ["find", "findOne", "values", "paths", "exists"];
const ORDER = { name: "TypeError", message: "the query comes first, and the document after it" };

class Empty {
  #hidden = 1;
  tell() {
    return this.#hidden;
  }
}

class Point {
  constructor(x) {
    this.x = x;
  }
}

class Told {
  toJSON() {
    return { told: [1] };
  }
}

function typeError(message) {
  return { name: "TypeError", message };
}

test("a query and a document in the wrong order", () => {
  const query = jp.compile("$");
  for (const name of ASKING) {
    for (const [document, text] of [
      [{ a: 1 }, "$.a"],
      ['{"a":1}', "$.a"],
      [new jp.Document("1"), "$"],
      [[1], query],
      ["[1]", query],
      [new Uint8Array(1), "$"],
      [undefined, "$"],
    ]) {
      assert.throws(() => jp[name](document, text), ORDER);
    }
    assert.throws(() => jp[name]("a", "[1]"), jp.QueryError);
  }
});

test("what is no query", () => {
  for (const [it, type] of [
    [undefined, "undefined"],
    [null, "null"],
    [1, "number"],
    [["$"], "Array"],
    [{}, "Object"],
    [new Map(), "Map"],
    [new jp.Document("1"), "Document"],
    [() => "$", "function"],
  ]) {
    const is = typeError(`a query is a string or a Query, and not of type ${type}`);
    for (const name of ASKING) {
      assert.throws(() => jp[name](it, "[1]"), is);
      assert.throws(() => new jp.Document("[1]")[name](it), is);
    }
    for (const call of [jp.compile, jp.parse, jp.check, jp.canonical, (query) => jp.findMany([query], "[1]")]) {
      assert.throws(() => call(it), is);
    }
  }
});

test("what is no list of queries", () => {
  for (const [it, type] of [
    ["$..a", "string"],
    [undefined, "undefined"],
    [null, "null"],
    [{ 0: "$" }, "Object"],
    [jp.compile("$"), "Query"],
  ]) {
    assert.throws(() => jp.findMany(it, "[1]"), typeError(`queries are a list of them, and not of type ${type}`));
  }
  assert.deepEqual(jp.findMany(new Set(["$"]), "1"), [[new jp.Match("$", "1")]]);
});

test("options that are none", () => {
  const calls = [
    (options) => jp.find("$", "1", options),
    (options) => jp.findMany([], "1", options),
    (options) => jp.compile("$", options),
    (options) => jp.check("$", options),
    (options) => jp.canonical("$", options),
    (options) => new jp.Document("1").exists("$", options),
  ];
  for (const call of calls) {
    for (const [options, message] of [
      [{ limits: 1 }, "there is no option 'limits' here, only: extended, numbers, limit, maxNodes, maxBytes"],
      [{ Extended: true }, "there is no option 'Extended' here, only: extended, numbers, limit, maxNodes, maxBytes"],
      [{ extended: "no" }, "the option 'extended' is true or false, and not of type string"],
      [{ extended: 1 }, "the option 'extended' is true or false, and not of type number"],
      [{ numbers: "decimals" }, `the option 'numbers' is "decimal" or "whole", and not "decimals"`],
      [{ numbers: "toString" }, `the option 'numbers' is "decimal" or "whole", and not "toString"`],
      [{ numbers: true }, `the option 'numbers' is "decimal" or "whole", and not of type boolean`],
      [{ numbers: ["whole"] }, `the option 'numbers' is "decimal" or "whole", and not of type Array`],
      [{ limit: "1" }, "the option 'limit' is a whole number of steps, or a BigInt"],
      [{ limit: NaN }, "the option 'limit' is a whole number of steps, or a BigInt"],
      [{ maxNodes: "1" }, "the option 'maxNodes' is a whole number of nodes, or a BigInt"],
      [{ maxBytes: 0.5 }, "the option 'maxBytes' is a whole number of bytes, or a BigInt"],
      [true, "options are an object, and not of type boolean"],
      ["extended", "options are an object, and not of type string"],
      [[], "options are an object, and not of type Array"],
    ]) {
      assert.throws(() => call(options), typeError(message));
    }
    const none = { extended: undefined, numbers: undefined, limit: undefined };
    for (const options of [undefined, null, {}, none, { numbers: null, limit: null, maxNodes: null }]) {
      assert.doesNotThrow(() => call(options));
    }
  }
  const query = jp.compile("$");
  for (const [name, value] of Object.entries({ extended: true, numbers: "decimal" })) {
    const isFixed = typeError(`there is no option '${name}' here, only: limit, maxNodes, maxBytes`);
    for (const call of [jp.find.bind(null, query), query.find.bind(query)]) {
      assert.throws(() => call("1", { [name]: value }), isFixed);
    }
  }
  for (const options of [{ extended: true }, { limit: 1 }]) {
    const [name] = Object.keys(options);
    assert.throws(() => new jp.Document("1", options), typeError(`there is no option '${name}' here, only: numbers`));
  }
  assert.throws(() => new jp.Document("1", "whole"), typeError("options are an object, and not of type string"));
});

test("documents as bytes", () => {
  const bytes = new TextEncoder().encode('{"a":1}');
  const [shared, longer] = [new SharedArrayBuffer(bytes.length), new Uint8Array(bytes.length + 2)];
  new Uint8Array(shared).set(bytes);
  longer.set(bytes, 1);
  for (const it of [bytes, bytes.buffer, Buffer.from(bytes), shared, longer.subarray(1, -1)]) {
    assert.deepEqual(jp.values("$.a", it), [1]);
    assert.deepEqual(new jp.Document(it).values("$.a"), [1]);
    assert.deepEqual(jp.findMany(["$.a"], it)[0][0].value, 1);
  }
  assert.throws(() => jp.find("$", new ArrayBuffer()), { name: "DocumentError", reason: "Empty" });
});

test("what JSON has not", () => {
  const bytes = Uint8Array.of(0x5b, 0x5d);
  for (const [it, type] of [
    [new Map([["a", 1]]), "Map"],
    [new Set([1]), "Set"],
    [Promise.resolve("[1]"), "Promise"],
    [/a/, "RegExp"],
    [new Error("a"), "Error"],
    [new Int8Array(2), "Int8Array"],
    [new DataView(bytes.buffer), "DataView"],
    [new Empty(), "Empty"],
    [jp.compile("$", { limit: 7 }), "Query"],
    [new URLSearchParams("a=1"), "URLSearchParams"],
    [jp.compile, "function"],
    [Symbol("a"), "symbol"],
    [vm.runInNewContext("new Map()"), "Map"],
  ]) {
    const refused = (path) => typeError(`JSON has no value of type ${type}, as stands at ${path}`);
    for (const call of [(its) => jp.find("$", its), (its) => new jp.Document(its), (its) => jp.findMany([], its)]) {
      assert.throws(() => call(it), refused("$"));
      assert.throws(() => call([0, { "it's": it }]), refused("$[1]['it\\'s']"));
      assert.throws(() => call({ "": { a: 1n, b: [it] } }), refused("$['']['b'][0]"));
    }
  }
  for (const it of [bytes, bytes.buffer]) {
    assert.throws(() => jp.find("$", { it }), /^TypeError: JSON has no value of type \w+, as stands at \$\['it'\]$/);
  }
  assert.throws(() => jp.find("$"), typeError("JSON has no value of type undefined, as stands at $"));
  const round = [];
  round.push(round);
  assert.throws(() => jp.find("$", round), TypeError);
});

test("numbers that JSON has not", () => {
  for (const number of [NaN, Infinity, -Infinity]) {
    for (const [document, path] of [
      [number, "$"],
      [[0, { a: number }], "$[1]['a']"],
    ]) {
      const refused = {
        name: "DocumentError",
        kind: "NotJson",
        path,
        offset: null,
        line: null,
        column: null,
        reason: null,
        sentence: `${number} is no JSON number.`,
        message: `document refused: NotJson at ${path}\n${number} is no JSON number.`,
      };
      assert.throws(() => jp.find("$", document), refused);
      assert.throws(() => new jp.Document(document), refused);
    }
  }
});

test("Numbers that are whole and no safe integers", () => {
  const large = [2 ** 53, 2 ** 53 + 2, 2 ** 60, 2 ** 63, 2 ** 64, 1e21, 6.02e23, 1e300];
  for (const number of large.flatMap((it) => [it, -it])) {
    for (const [document, path] of [
      [number, "$"],
      [{ a: [2n ** 60n, number] }, "$['a'][1]"],
      [[{ toJSON: () => number }], "$[0]"],
    ]) {
      const refused = {
        name: "DocumentError",
        kind: "NotWhole",
        path,
        offset: null,
        line: null,
        column: null,
        reason: null,
        sentence: `${number} is no safe integer: give a BigInt, or JSON text.`,
      };
      const many = (query, ...words) => jp.findMany([query], ...words);
      for (const call of [jp.find, (_, ...words) => new jp.Document(...words), many]) {
        for (const numbers of ["decimal", "whole"]) {
          assert.throws(() => call("$", document, { numbers }), refused);
        }
      }
    }
  }
});

test("objects that are written as JSON", () => {
  const bare = Object.assign(Object.create(null), { a: 1 });
  for (const [it, value] of [
    [{}, {}],
    [bare, { a: 1 }],
    [new Point(2), { x: 2 }],
    [new Told(), { told: [1] }],
    [new Date(0), "1970-01-01T00:00:00.000Z"],
    [new URL("http://a.b/c"), "http://a.b/c"],
    [vm.runInNewContext("({ a: [1, {}] })"), { a: [1, {}] }],
    [{ a: undefined, b: 1 }, { b: 1 }],
    [[undefined], [null]],
    [{ toJSON: () => 5 }, 5],
    [[new Told(), new Map([[1, 2]]).size], [{ told: [1] }, 1]],
  ]) {
    assert.deepEqual(jp.values("$", it), [value]);
    assert.deepEqual(new jp.Document([it]).values("$[0]"), [value]);
  }
});

test("BigInts are numbers, also where a program gives them a toJSON", () => {
  BigInt.prototype.toJSON = function () {
    return String(this);
  };
  try {
    assert.deepEqual(jp.values("$.*", { a: [2n ** 63n] }), [[2n ** 63n]]);
    assert.deepEqual(jp.values("$", 7n), [7]);
  } finally {
    delete BigInt.prototype.toJSON;
  }
});

test("the types name what there is", () => {
  const types = readFileSync(new URL("../jp.d.mts", import.meta.url), "utf8");
  const named = [...types.matchAll(/^export (?:class|function) (\w+)/gm)].map(([, name]) => name);
  assert.deepEqual(named.sort(), Object.keys(jp).sort());
});
