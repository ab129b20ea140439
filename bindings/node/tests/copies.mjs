/** Errors that are copied, objects that are shown, pointers, and what the files import. Expected values are by hand. */
import assert from "node:assert/strict";
import { existsSync, readFileSync } from "node:fs";
import test from "node:test";
import { inspect } from "node:util";
import { MessageChannel, Worker, receiveMessageOnPort } from "node:worker_threads";
import * as jp from "../jp.mjs";
import { pathOf, pointerOf, stepsOf } from "../paths.mjs";

// Those of RFC 6901, section 5, and others by its section 3, each beside the normalized path.
const POINTERS = [
  ["$", ""],
  ["$['foo']", "/foo"],
  ["$['foo'][0]", "/foo/0"],
  ["$['']", "/"],
  ["$['a/b']", "/a~1b"],
  ["$['c%d']", "/c%d"],
  ["$['e^f']", "/e^f"],
  ["$['g|h']", "/g|h"],
  ["$['i\\\\j']", "/i\\j"],
  ["$['k\"l']", '/k"l'],
  ["$[' ']", "/ "],
  ["$['m~n']", "/m~0n"],
  ["$['~1']['/0']", "/~01/~10"],
  ["$['\\'']['\\n\\u0000']", "/'/\n\0"],
  ["$['é😀']['0'][10]", "/é😀/0/10"],
];

function thrown(call) {
  try {
    call();
  } catch (fault) {
    return fault;
  }
  return assert.fail("nothing is thrown");
}

const ERRORS = [
  [() => jp.check("$[?@.é = 1]"), { kind: "Syntax", place: 9, suggestion: "$[?@.é == 1]" }],
  [() => jp.find("$", "[1.5]", { numbers: "whole" }), { kind: "NotWhole", path: "$[0]", column: 2, reason: "HasFraction" }],
  [() => jp.find("$", "[1e-1000001]"), { kind: "NumberRange", path: "$[0]", column: 2, reason: "BeyondDecimal" }],
  [() => jp.find("$", [NaN]), { kind: "NotJson", path: "$[0]", offset: null }],
  [() => jp.find("$..*", "[1,2]", { limit: 8 }), { name: "StepsUsedUp", limit: 8n, query: "$..*" }],
  [() => jp.find("$..*", "[1,2]", { maxNodes: 1 }), { name: "TooManyNodes", limit: 1n }],
  [() => jp.find("$..*", "[1,2]", { maxBytes: 1 }), { name: "TooManyBytes", limit: 1n }],
];

/** What postMessage makes of a value at its other end. */
function posted(value) {
  const { port1, port2 } = new MessageChannel();
  port1.postMessage(value);
  const { message } = receiveMessageOnPort(port2);
  port1.close();
  return message;
}

test("errors that are copied", () => {
  for (const [call, expected] of ERRORS) {
    const fault = thrown(call);
    for (const copy of [structuredClone(fault), posted(fault)]) {
      assert.ok(copy instanceof Error);
      for (const [name, value] of Object.entries(expected)) {
        assert.deepEqual([fault[name], copy.cause[name]], [value, value], name);
      }
      const again = jp.errorOf(copy);
      assert.equal(again.constructor, fault.constructor);
      assert.deepEqual({ ...again }, { ...fault });
      assert.equal(again.message, fault.message);
    }
    assert.equal(jp.errorOf(fault), fault);
  }
  for (const other of [new Error("a"), new Error("a", { cause: { name: "toString" } }), null, 1, "a"]) {
    assert.equal(jp.errorOf(other), other);
  }
});

test("errors that end a worker", async () => {
  const code = `import(${JSON.stringify(new URL("../jp.mjs", import.meta.url).href)}).then((jp) => jp.check("$["));`;
  const fault = await new Promise((resolve) => new Worker(code, { eval: true }).on("error", resolve));
  assert.deepEqual([fault.name, fault.kind, fault.place], ["QueryError", "Syntax", 2]);
});

test("what console.log shows", () => {
  assert.equal(inspect(jp.compile("$..price")), 'Query("$..price")');
  assert.equal(inspect([jp.compile("$['a\"']", { extended: true, limit: 5n })]), `[ Query("$['a\\"']", {"extended":true,"limit":5}) ]`);
  const shown = inspect(thrown(() => jp.check("$[?@.a = 1]")));
  assert.match(shown, /^QueryError: query refused: Syntax at 8\n\$\[\?@\.a = 1\]\n {8}\^\nValues .*\nTry: \$\[\?@\.a == 1\]\n {4}at /);
  assert.ok(!shown.includes("cause"));
});

test("texts that look like JSON Lines", () => {
  for (const [document, isTold] of [
    ['{"a":1}\n{"a":2}\n', true],
    ["1\r\n\r\n 2", true],
    ["\n[1, 2] \n[3]", true],
    ["1 2", false],
    ["[1,\n2]\n3", false],
    ["1\n]", true],
  ]) {
    const fault = thrown(() => jp.find("$", document));
    assert.deepEqual([fault.reason, fault.suggestion !== null], ["AfterValue", isTold], document);
    assert.equal(fault.message.split("\n").at(-1).includes("JSON Lines"), isTold);
  }
});

test("pointers", () => {
  for (const [path, pointer] of POINTERS) {
    assert.equal(new jp.Match(path, "0").pointer, pointer);
    assert.equal(pointerOf(stepsOf(path)), pointer);
    assert.equal(pathOf(stepsOf(path)), path);
  }
  const document = { foo: ["bar", "baz"], "": 0, "a/b": 1, "i\\j": 5, "m~n": 8 };
  const pointers = jp.find("$..*", document).map(({ pointer }) => pointer);
  assert.deepEqual(pointers, ["/", "/a~1b", "/foo", "/i\\j", "/m~0n", "/foo/0", "/foo/1"]);
});

const IMPORTED =
  /^(?:import|export)\b[^"';]*\bfrom\s*["']([^"']+)["']|^import\s*["']([^"']+)["']|\bimport\(\s*["']([^"']+)["']/gm;

/** The files that a file imports, and these, and so on, each with what it imports from elsewhere. */
function imported(address, found = new Map()) {
  const text = readFileSync(address, "utf8");
  const names = [...text.matchAll(IMPORTED)].map(([, name, alone, later]) => name ?? alone ?? later);
  found.set(address.href, names.filter((name) => !/^\.\.?\//.test(name)));
  for (const name of names.filter((it) => it.startsWith("."))) {
    const next = new URL(name, address);
    if (!found.has(next.href)) {
      imported(next, found);
    }
  }
  return found;
}

test("what browsers get has nothing of Node", () => {
  const own = JSON.parse(readFileSync(new URL("../package.json", import.meta.url))).exports["."];
  const found = imported(new URL(own.browser, new URL("../package.json", import.meta.url)));
  assert.ok(found.size > 10);
  for (const [file, names] of found) {
    assert.deepEqual(names, [], file);
    assert.ok(existsSync(new URL(file)));
  }
  assert.deepEqual([...imported(new URL("../jp.mjs", import.meta.url)).values()].flat(), ["node:fs"]);
});
