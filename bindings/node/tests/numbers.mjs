/** Exact decimals, and whole numbers where they are asked for. Expected values are by hand, and by JSON.parse. */
import assert from "node:assert/strict";
import test from "node:test";
import { Worker } from "node:worker_threads";
import * as jp from "../jp.mjs";

// RFC 9535, Figure 1.
const STORE = `{ "store": {
    "book": [
      { "category": "reference", "author": "Nigel Rees", "title": "Sayings of the Century", "price": 8.95 },
      { "category": "fiction", "author": "Evelyn Waugh", "title": "Sword of Honour", "price": 12.99 },
      { "category": "fiction", "author": "Herman Melville", "title": "Moby Dick",
        "isbn": "0-553-21311-3", "price": 8.99 },
      { "category": "fiction", "author": "J. R. R. Tolkien", "title": "The Lord of the Rings",
        "isbn": "0-395-19395-8", "price": 22.99 }
    ],
    "bicycle": { "color": "red", "price": 399 }
  }
}`;
const CHEAP = "$..book[?@.price<10].title";
const TITLES = ["Sayings of the Century", "Moby Dick"];
const WHOLE = { numbers: "whole" };
const DECIMAL = { numbers: "decimal" };

/** The calls of each way to ask a query of a document with numbers that are asked for, or with those that are usual. */
function ways(query, document, options) {
  const compiled = jp.compile(query, options);
  const kept = new jp.Document(document, options);
  return [
    jp.find(query, document, options),
    compiled.find(document),
    kept.find(query),
    kept.find(query, options),
    kept.find(compiled),
    [...jp.findIter(query, document, options)],
    [...compiled.findIter(kept)],
    jp.findMany([query], document, options)[0],
    jp.findMany([compiled], document)[0],
    jp.findMany([query], kept)[0],
  ];
}

test("decimals are what holds if nothing is said", () => {
  for (const options of [undefined, DECIMAL]) {
    for (const found of ways(CHEAP, STORE, options)) {
      assert.deepEqual(found.map(({ value }) => value), TITLES);
    }
  }
  for (const document of [STORE, JSON.parse(STORE), Buffer.from(STORE)]) {
    assert.deepEqual(jp.values("$..price", document), [399, 8.95, 12.99, 8.99, 22.99]);
    assert.deepEqual(jp.paths("$..[?@.price==8.95]", document), ["$['store']['book'][0]"]);
  }
  assert.deepEqual([jp.compile("$").numbers, new jp.Document("1").numbers], ["decimal", "decimal"]);
});

test("whole numbers where they are asked for", () => {
  const path = "$['store']['book'][0]['price']";
  const refused = { name: "DocumentError", kind: "NotWhole", path, reason: "HasFraction", line: 3, column: 102 };
  for (const call of [jp.find, jp.findOne, jp.values, jp.paths, jp.exists, jp.findIter]) {
    assert.throws(() => call("$", STORE, WHOLE), refused);
    assert.throws(() => call(jp.compile("$", WHOLE), STORE), refused);
  }
  assert.throws(() => new jp.Document(STORE, WHOLE), refused);
  assert.throws(() => jp.findMany(["$"], STORE, WHOLE), refused);
  for (const query of ["$[?@.a<8.95]", "$[?@.a==1e2]", "$[?@.a==1.0]"]) {
    for (const call of [jp.check, jp.canonical, jp.compile, (it, options) => jp.find(it, "[]", options)]) {
      assert.throws(() => call(query, WHOLE), { name: "QueryError", kind: "NotWhole" });
      assert.doesNotThrow(() => call(query));
    }
  }
  for (const found of ways("$[?@>9007199254740992]", "[9007199254740993]", WHOLE)) {
    assert.deepEqual(found.map(({ value }) => value), [9007199254740993n]);
  }
});

// What a document has, and the exact text, by the layout of RFC 8785, section 3.2.2.3.
const TEXTS = [
  ["8.950", "8.95"],
  ["1e2", "100"],
  ["1.0", "1"],
  ["-0", "0"],
  ["-0.0", "0"],
  ["1e400", "1e+400"],
  ["0.0000001", "1e-7"],
  ["0.000001", "0.000001"],
  ["100000000000000000000", "100000000000000000000"],
  ["1000000000000000000000", "1e+21"],
  ["0.10000000000000000001", "0.10000000000000000001"],
  ["1e-1000000", "1e-1000000"],
  ["-1E+1000000", "-1e+1000000"],
  ["9".repeat(38), `9.${"9".repeat(37)}e+37`],
];

test("exact texts", () => {
  for (const [written, text] of TEXTS) {
    for (const found of ways("$.*", `{"a":[ ${written} ]}`)) {
      assert.deepEqual(found, [new jp.Match("$['a']", `[${text}]`)]);
    }
    assert.equal(jp.findOne(`$[?@==${written}]`, `[${text}]`).text, text);
  }
});

test("numbers that no double tells apart", () => {
  const document = "[0.1, 0.1000000000000000055, 9007199254740992.5, 9007199254740993]";
  assert.deepEqual(jp.paths("$[?@==0.1]", document), ["$[0]"]);
  assert.deepEqual(jp.paths("$[?@>0.1 && @<0.2]", document), ["$[1]"]);
  assert.deepEqual(jp.paths("$[?@>9007199254740992 && @<9007199254740993]", document), ["$[2]"]);
  assert.deepEqual(jp.canonical("$[?@.a==1e2]"), "$[?@['a']==100.0]");
});

// The text of a number, and its value in JavaScript.
const VALUES = [
  ["8.95", 8.95],
  ["0.1", 0.1],
  ["100", 100],
  ["1e-7", 1e-7],
  ["-2.5e-10", -2.5e-10],
  ["5e-324", 5e-324],
  ["1e+21", 1e21],
  ["6.02214076e+23", 6.02214076e23],
  ["1.7976931348623157e+308", Number.MAX_VALUE],
  ["0.30000000000000004", 0.1 + 0.2],
  ["9007199254740991", 9007199254740991],
  ["9007199254740992", 9007199254740992n],
  ["-9007199254740993", -9007199254740993n],
  ["18446744073709551616", 2n ** 64n],
  ["100000000000000000000", 10n ** 20n],
  ["1.23456789012345678901234e+23", 123456789012345678901234n],
  ["-1.5e+400", -15n * 10n ** 399n],
  ["1e+309", 10n ** 309n],
  ["1e+999", 10n ** 999n],
  ["1e+1000", "1e+1000"],
  ["-1e+1000000", "-1e+1000000"],
  ["0.10000000000000000001", "0.10000000000000000001"],
  ["0.1000000000000000055", "0.1000000000000000055"],
  ["9007199254740992.5", "9007199254740992.5"],
  ["1.2345678901234567890123456e+21", "1.2345678901234567890123456e+21"],
  ["1e-400", "1e-400"],
  ["2e-324", "2e-324"],
];

test("values", () => {
  for (const [text, value] of VALUES) {
    const [match] = jp.find("$[*]", `[${text}]`);
    assert.deepEqual([match.text, match.value], [text, value]);
    assert.deepEqual(jp.values("$", `{"a":[${text}],"${text}":"${text}"}`), [{ a: [value], [text]: text }]);
  }
  const texts = VALUES.map(([text]) => text);
  assert.deepEqual(jp.values("$[*]", `[${texts}]`), VALUES.map(([, value]) => value));
  // Texts that look like numbers are texts, and come back as such.
  assert.deepEqual(jp.values("$[*]", texts), texts);
});

/** Numbers from 0 to 1, the same for the same seed (xorshift). */
function* chances(seed) {
  let state = seed;
  for (;;) {
    state ^= state << 13;
    state ^= state >>> 17;
    state ^= state << 5;
    yield (state >>> 0) / 2 ** 32;
  }
}

test("fractions that are Numbers are given back as they are given", () => {
  const bits = new DataView(new ArrayBuffer(8));
  const chance = chances(9535);
  const numbers = [];
  while (numbers.length < 5000) {
    [0, 4].forEach((at) => bits.setUint32(at, chance.next().value * 2 ** 32));
    const number = bits.getFloat64(0);
    // One that is whole, and written by digits alone, is a BigInt where it is no safe integer.
    const isHeld = Number.isFinite(number) && !(Number.isInteger(number) && Math.abs(number) < 1e21);
    numbers.push(...(isHeld ? [number] : []), chance.next().value, Math.round(chance.next().value * 1e6) / 100);
  }
  const text = JSON.stringify(numbers);
  assert.deepEqual(jp.values("$[*]", text), JSON.parse(text));
  const given = numbers.filter((it) => !Number.isInteger(it) || Number.isSafeInteger(it));
  assert.ok(given.length > 3000);
  assert.deepEqual(jp.values("$[*]", given), given);
});

test("numbers of values that are given", () => {
  const document = { a: 0.1, b: [1e-7, -0, 2n ** 64n], c: 10n ** 37n + 1n };
  assert.equal(jp.findOne("$", document).text, `{"a":0.1,"b":[1e-7,0,18446744073709551616],"c":1.${"0".repeat(36)}1e+37}`);
  assert.deepEqual(jp.values("$", document), [{ ...document, b: [1e-7, 0, 2n ** 64n] }]);
  assert.throws(() => jp.find("$", { a: [10n ** 38n + 1n] }), { kind: "NumberRange", path: "$['a'][0]" });
});

test("a number that is too much for a decimal", () => {
  const sentence = "This number has more than 38 digits, or an exponent beyond 1,000,000.";
  for (const number of ["1e1000001", "1e-1000001", `0.${"3".repeat(39)}`, "1".repeat(39), `1e${"9".repeat(400)}`]) {
    const refused = {
      name: "DocumentError",
      kind: "NumberRange",
      path: "$[1]['é']",
      offset: 12,
      line: 2,
      column: 8,
      reason: "BeyondDecimal",
      sentence,
      message: `document refused: NumberRange at $[1]['é']\nline 2, column 8: ${sentence}`,
    };
    const document = `[0,\n{"é":  ${number}}]`;
    for (const call of [jp.find, (_, it) => new jp.Document(it), (query, it) => jp.findMany([query], it)]) {
      assert.throws(() => call("$", document), refused);
    }
    assert.throws(() => jp.check(`$[?@==${number}]`), { name: "QueryError", kind: "NumberRange" });
  }
});

test("what is no number of JSON, with either kind of numbers", () => {
  for (const it of ["NaN", "Infinity", "-Infinity", ".5", "1.", "+1", "01", "0x1", "1e", "1e+", "-"]) {
    const [one, other] = [DECIMAL, WHOLE].map((options) => {
      try {
        return jp.find("$", `[${it}]`, options);
      } catch (fault) {
        return { ...fault };
      }
    });
    assert.deepEqual([one.name, one.kind, one.path], ["DocumentError", "NotJson", null], it);
    assert.ok(one.sentence);
    assert.deepEqual(one, other);
  }
});

test("a query with other numbers than the document that is kept", () => {
  const [whole, decimal] = [WHOLE, DECIMAL].map((options) => new jp.Document("[1]", options));
  for (const [document, options, message] of [
    [whole, DECIMAL, 'the document is kept with numbers "whole", and the query has numbers "decimal": give both the same'],
    [decimal, WHOLE, 'the document is kept with numbers "decimal", and the query has numbers "whole": give both the same'],
  ]) {
    const refused = { name: "RangeError", message };
    const kept = jp.compile("$[0]", { ...options, extended: true });
    for (const name of ["find", "findOne", "values", "paths", "exists", "findIter"]) {
      const all = (found) => (name === "findIter" ? [...found] : found);
      assert.throws(() => all(document[name](kept)), refused);
      assert.throws(() => all(kept[name](document)), refused);
      assert.throws(() => all(jp[name]("$[0]", document, options)), refused);
    }
    assert.throws(() => jp.findMany(["$", kept], document), refused);
    assert.throws(() => jp.findMany(["$"], document, options), refused);
    // It goes on with its own, which a text has without a word.
    assert.deepEqual(document.values("$[0]"), [1]);
    assert.deepEqual(jp.values("$[?distinct(@.*) || @==1]", document, { extended: true }), [1]);
    assert.deepEqual(jp.findMany(["$[0]"], document)[0][0].value, 1);
  }
});

test("many queries with both kinds of numbers", () => {
  const [whole, decimal] = [WHOLE, DECIMAL].map((options) => jp.compile("$[?@>=1]", options));
  const texts = (found) => found.map((matches) => matches.map(({ text }) => text));
  assert.deepEqual(texts(jp.findMany([whole, decimal, "$[0]", whole], "[1,2]")), [["1", "2"], ["1", "2"], ["1"], ["1", "2"]]);
  assert.deepEqual(texts(jp.findMany([decimal, "$[0]"], "[1.5]")), [["1.5"], ["1.5"]]);
  assert.throws(() => jp.findMany([decimal, whole], "[1.5]"), { kind: "NotWhole", path: "$[0]" });
  const [answer] = jp.findMany(["$[?@<1.5]"], "[1]", WHOLE);
  assert.deepEqual([answer.name, answer.kind], ["QueryError", "NotWhole"]);
});

test("one text after another with either kind of numbers", () => {
  for (const document of ["[1]", [1]]) {
    for (const options of [WHOLE, undefined, WHOLE, { extended: true }, { ...WHOLE, extended: true }, DECIMAL]) {
      const isWhole = options?.numbers === "whole";
      const call = () => jp.values("$[?@<1.5]", document, options);
      if (isWhole) {
        assert.throws(call, { name: "QueryError", kind: "NotWhole" });
      } else {
        assert.deepEqual(call(), [1]);
      }
      assert.deepEqual(jp.values("$[0]", document, options), [1]);
    }
  }
});

test("many large numbers take little memory", () => {
  const count = 100_000;
  const found = jp.values("$[*]", `[${Array(count).fill("1e1000000")}]`);
  assert.ok(found.length === count && found.every((it) => it === "1e+1000000"));
});

test("a large document of decimals is kept", () => {
  const items = Array.from({ length: 200_000 }, (_, index) => index / 4);
  const document = new jp.Document(items);
  assert.deepEqual(document.values("$[*]"), items);
  assert.deepEqual(document.values("$[?@==12345.25]"), [12345.25]);
  assert.equal(document.exists("$[?@==12345.125]"), false);
});

test("decimals in a worker", async () => {
  const address = JSON.stringify(new URL("../jp.mjs", import.meta.url).href);
  const code = `const { parentPort } = require("node:worker_threads");
    import(${address}).then((jp) => parentPort.postMessage(jp.values("$[?@<0.3]", "[0.1,0.2,0.30,1e-400]")));`;
  const told = await new Promise((resolve, reject) => new Worker(code, { eval: true }).on("message", resolve).on("error", reject));
  assert.deepEqual(told, [0.1, 0.2, "1e-400"]);
});
