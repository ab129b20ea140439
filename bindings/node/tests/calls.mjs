/** What users of Node see besides what bindings/rows.jsonl has. Expected values are by hand. */
import assert from "node:assert/strict";
import test from "node:test";
import * as jp from "../jp.mjs";

const STORE = {
  store: {
    book: [
      { category: "reference", author: "Nigel Rees", title: "Sayings", price: 8.95 },
      { category: "fiction", author: "Evelyn Waugh", title: "Sword", price: 12.99 },
    ],
    bicycle: { color: "red", price: 399 },
  },
};

// Whole numbers beside the ends of what a Number holds exactly, and of 64 bits; and such as are beyond these.
const [SAFE, MOST, LEAST] = [2n ** 53n - 1n, 2n ** 64n - 1n, -(2n ** 63n)];
const WHOLE = [0n, SAFE, SAFE + 1n, SAFE + 2n, 2n ** 60n, 2n ** 63n - 1n].flatMap((it) => [it, -it]);
WHOLE.push(2n ** 63n, MOST, LEAST);
const BEYOND = [MOST + 1n, LEAST - 1n, 10n ** 30n, -(10n ** 30n)];

/** The error that a call throws, which has to be one of a class. */
function thrown(kind, call) {
  try {
    call();
  } catch (fault) {
    assert.ok(fault instanceof kind, fault);
    return fault;
  }
  return assert.fail("nothing is thrown");
}

test("paths and values", () => {
  const [match, ...others] = jp.find("$.store.book[?@.price<10].title", STORE);
  assert.deepEqual(others, []);
  assert.equal(match.path, "$['store']['book'][0]['title']");
  assert.equal(match.text, '"Sayings"');
  assert.equal(match.value, "Sayings");
});

test("whole numbers are exact, from values", () => {
  for (const whole of WHOLE) {
    const value = -SAFE <= whole && whole <= SAFE ? Number(whole) : whole;
    for (const numbers of ["whole", "decimal"]) {
      for (const document of [[whole], [value], new jp.Document([whole], { numbers })]) {
        assert.equal(jp.findOne("$[0]", document, { numbers }).text, `${whole}`);
        assert.deepEqual(jp.values("$[0]", document, { numbers }), [value]);
      }
    }
  }
  const mixed = { "1234567890123456": "n18446744073709551615", b: ["t\\\"", "9007199254740993:"], c: 2n ** 63n };
  assert.deepEqual(jp.values("$", mixed), [mixed]);
  assert.deepEqual(jp.values("$[0]", [-0]), [0]);
});

test("whole numbers beyond 64 bits", () => {
  for (const whole of BEYOND) {
    const refused = thrown(jp.DocumentError, () => jp.find("$", [0, whole], { numbers: "whole" }));
    assert.deepEqual([refused.kind, refused.path, refused.column], ["NotWhole", "$[1]", 4]);
    assert.equal(refused.reason, "OutOfRange");
    // With an exponent in its text it is a Number where that has the same.
    const value = whole % 10n ** 30n === 0n ? Number(whole) : whole;
    assert.deepEqual(jp.values("$[?@!=0]", [0, whole]), [value]);
  }
});

test("documents as text, bytes and values", () => {
  for (const document of ['{"é":[1]}', new TextEncoder().encode('{"é":[1]}'), { é: [1] }]) {
    assert.deepEqual(jp.paths("$.é[0]", document), ["$['é'][0]"]);
  }
  assert.deepEqual(jp.values("$", null), [null]);
  assert.deepEqual(jp.values("$", true), [true]);
  assert.throws(() => jp.find("$", undefined), TypeError);
  assert.throws(() => jp.find(["$"], "[]"), TypeError);
});

test("texts with tabs, newlines and zero bytes", () => {
  const names = { "a\tb\n\0": "c\td\n\0" };
  const [match] = jp.find("$.*", names);
  assert.equal(match.value, "c\td\n\0");
  assert.deepEqual(jp.values(match.path, names), [match.value]);
});

test("a text longer than the first buffer", () => {
  const items = Array.from({ length: 100_000 }, (_, index) => index);
  assert.deepEqual(jp.values("$[*]", items), items);
  assert.deepEqual(jp.values("$[0]", [["x".repeat(3_000_000)]]), [["x".repeat(3_000_000)]]);
});

test("queries that are accepted, and queries that are kept", () => {
  assert.equal(jp.check("$..a"), undefined);
  const query = jp.parse("$.a");
  assert.deepEqual([query.values({ a: 1 }), query.paths({ a: 1 }), query.find({ b: 1 })], [[1], ["$['a']"], []]);
  const extended = jp.parse("$[?distinct(@.*)]", { extended: true });
  assert.deepEqual(extended.paths([{}, [0]]), ["$[1]"]);
  thrown(jp.QueryError, () => jp.parse("a"));
});

test("a query that is refused, with its caret", () => {
  const refused = thrown(jp.QueryError, () => jp.find("$.a[01]", "[1,"));
  assert.deepEqual([refused.kind, refused.place, refused.column], ["Syntax", 5, 5]);
  assert.equal(refused.message, `query refused: Syntax at 5\n$.a[01]\n     ^\n${refused.sentence}\nTry: $.a[1]`);
});

test("a query without a sentence", () => {
  for (const call of [jp.check, jp.canonical, jp.parse, (text) => jp.find(text, "[]")]) {
    const refused = thrown(jp.QueryError, () => call("$.\ud800"));
    assert.deepEqual([refused.sentence, refused.suggestion], [null, null]);
  }
  const [answer] = jp.findMany(["$.\ud800"], "[]");
  assert.deepEqual([answer.sentence, answer.suggestion], [null, null]);
  assert.equal(new jp.QueryError("Syntax", 1, "$[").message, "query refused: Syntax at 1\n$[\n ^");
});

test("places are bytes, and columns are indexes of the query", () => {
  for (const [query, place, column, caret] of [
    ["$.é[01]", 6, 5, "     ^"],
    ["$.😀[01]", 8, 6, "     ^"],
    ["$.e\u0301[01]", 7, 6, "      ^"],
    ["$.\n[", 2, 2, "  ^"],
    ["$.\ud800", 2, 2, "  ^"],
    ["$['\ud800\ud800']", 3, 3, "   ^"],
  ]) {
    const refused = thrown(jp.QueryError, () => jp.check(query));
    assert.deepEqual([refused.place, refused.column, refused.message.split("\n")[2]], [place, column, caret]);
  }
});

test("documents of JavaScript that are refused", () => {
  const many = (query, it, options) => jp.findMany([query], it, options);
  for (const [document, numbers, kind, path, place, reason] of [
    ['"\ud800"', "decimal", "NotJson", null, [1, 1, 2], "NotUtf8"],
    ['"\ud800"', "whole", "NotJson", null, [1, 1, 2], "NotUtf8"],
    [[0.5], "whole", "NotWhole", "$[0]", [1, 1, 2], "HasFraction"],
    [[10n ** 39n + 1n], "decimal", "NumberRange", "$[0]", [1, 1, 2], "BeyondDecimal"],
  ]) {
    for (const call of [jp.find, jp.paths, jp.values, many]) {
      const refused = thrown(jp.DocumentError, () => call("$", document, { numbers }));
      assert.deepEqual([refused.kind, refused.path], [kind, path]);
      assert.deepEqual([refused.offset, refused.line, refused.column], place);
      assert.equal(refused.reason, reason);
    }
  }
});

test("what is said of a document that is refused", () => {
  for (const [document, numbers, text] of [
    ["[1,\n]", "decimal", "NotJson\nline 2, column 1"],
    ["[-0]", "whole", "NotWhole at $[0]\nline 1, column 2"],
    ["[0,\n1e1000001]", "decimal", "NumberRange at $[1]\nline 2, column 1"],
  ]) {
    const refused = thrown(jp.DocumentError, () => jp.find("$", document, { numbers }));
    assert.equal(refused.message, `document refused: ${text}: ${refused.sentence}`);
  }
  assert.equal(new jp.DocumentError("NotWhole", "$[0]").message, "document refused: NotWhole at $[0]");
});

test("the deepest query and document", () => {
  const deepest = "[".repeat(127) + "]".repeat(127);
  assert.equal(jp.paths("$..*", deepest).length, 126);
  const query = `$[?${"(".repeat(127)}@.a${")".repeat(127)}]`;
  assert.equal(jp.canonical(query), "$[?@['a']]");
});

test("many queries are answered in turn, and a refused one ends nothing", () => {
  const [prices, refused, none] = jp.findMany(["$..price", "$[01]", "$.none"], STORE);
  assert.deepEqual(prices.map((match) => match.value), [399, 8.95, 12.99]);
  assert.ok(refused instanceof jp.QueryError);
  assert.deepEqual([refused.kind, refused.place], ["Syntax", 3]);
  assert.deepEqual(none, []);
  assert.ok(thrown(jp.DocumentError, () => jp.findMany(["$[01]", "$"], "[1.5.]")));
  assert.equal(jp.findMany(["$[01]"], "[1.5.]").length, 1);
});

// A query, and how many steps it needs over the document: one for each value that is offered and for the end, a
// segment's selectors and two more at each value that is gone into, and each comparison.
for (const [query, steps] of [
  ["$[*]", 7],
  ["$..*", 9],
  ["$[?@==2]", 9],
  ["$[?@==2.5]", 9],
]) {
  test(`a limit that suffices for ${query}, and one less`, () => {
    for (const document of ["[1,2]", "[0.1,2.5]"]) {
      for (const call of [jp.find, jp.paths, jp.values]) {
        const expected = call(query, document);
        assert.deepEqual(call(query, document, { limit: steps }), expected);
        assert.deepEqual(call(query, document, { limit: BigInt(steps) }), expected);
        const stopped = thrown(jp.StepsUsedUp, () => call(query, document, { limit: steps - 1 }));
        assert.deepEqual([stopped.limit, stopped.query], [BigInt(steps - 1), query]);
      }
    }
  });
}

test("limits of queries that are kept, and of many", () => {
  const query = jp.parse("$..*", { limit: 8 });
  assert.equal(query.paths("[1]").length, 1);
  assert.equal(thrown(jp.StepsUsedUp, () => query.paths("[1,2]")).message, "steps used up: the query needs more than 8");
  const kinds = jp.findMany(["$[*]", "$..*", "$[01]", "$[*]"], "[1,2]", { limit: 8 }).map((answer) => answer.constructor);
  assert.deepEqual(kinds, [Array, jp.StepsUsedUp, jp.QueryError, Array]);
});

test("what a limit is", () => {
  assert.deepEqual(jp.paths("$[0]", "[1]", { limit: 1 }), ["$[0]"]);
  assert.deepEqual(jp.paths("$[*]", "[1]", { limit: 2n ** 64n - 1n }), ["$[0]"]);
  for (const name of ["limit", "maxNodes", "maxBytes"]) {
    for (const limit of [0, -1, 2n ** 64n]) {
      assert.throws(() => jp.paths("$", "[]", { [name]: limit }), RangeError);
    }
    for (const limit of [0.5, "1", Infinity]) {
      assert.throws(() => jp.paths("$", "[]", { [name]: limit }), TypeError);
    }
  }
});

test("a query that would take years ends at its limit", () => {
  const query = `$${"..*".repeat(20)}.x`;
  thrown(jp.StepsUsedUp, () => jp.find(query, "[".repeat(100) + "]".repeat(100), { limit: 100_000 }));
});

test("calls go on after the stack ran out", () => {
  const deep = (depth) => (depth === 0 ? jp.values("$..[?@..a || @<0.1]", "[1.5]") : deep(depth - 1));
  for (let depth = 1; depth < 40_000; depth += 1000) {
    try {
      deep(depth);
    } catch (fault) {
      assert.ok(fault instanceof RangeError);
    }
  }
  assert.deepEqual(jp.values("$[0]", "[1.5]"), [1.5]);
});
