/** What the types let through, and what they refuse. It is compiled and not run. */
import * as jp from "../jp.mjs";

const query: jp.Query = jp.compile("$.a", { extended: true, limit: 10n, maxNodes: 7, maxBytes: 8n });
const document: jp.Document = new jp.Document('{"a":1.5}', { numbers: "decimal" });
const numbers: jp.Numbers[] = [query.numbers, document.numbers, jp.compile("$", { numbers: "whole" }).numbers];
const given: jp.DocumentLike[] = [document, "1", new Uint8Array(), new ArrayBuffer(0), { a: [1] }, 1, 2n, true, null];

for (const it of given) {
  for (const asked of ["$.a", query]) {
    const matches: jp.Match[] = jp.find(asked, it);
    const first: jp.Match | null = jp.findOne(asked, it, { limit: 1 });
    const values: jp.Value[] = jp.values(asked, it, { maxNodes: 1, maxBytes: null });
    const paths: string[] = jp.paths(asked, it);
    const is: boolean = jp.exists(asked, it);
    for (const match of jp.findIter(asked, it, { limit: 1 })) {
      const each: jp.Match = match;
      console.log(each);
    }
    console.log(matches, first, values, paths, is);
  }
  const own: [jp.Match[], jp.Match | null, jp.Value[], string[], boolean] = [
    query.find(it),
    query.findOne(it),
    query.values(it),
    query.paths(it, { limit: 1 }),
    query.exists(it, { limit: null }),
  ];
  console.log(own);
}
const kept: [jp.Match[], jp.Match | null, jp.Value[], string[], boolean] = [
  document.find(query),
  document.findOne("$"),
  document.values("$", { extended: true, numbers: "decimal" }),
  document.paths("$", { limit: 1n }),
  document.exists(query),
];
const many: (jp.Match[] | jp.QueryError | jp.StepsUsedUp | jp.TooManyNodes | jp.TooManyBytes)[] = jp.findMany(
  ["$", query],
  document,
);
const iterators: Iterable<jp.Match>[] = [query.findIter(document), document.findIter("$", { extended: true })];
const texts: string[] = [jp.canonical("$"), jp.version(), `${query}`, query.text];
console.log(numbers, kept, many, iterators, texts, jp.check("$"), jp.parse("$") instanceof jp.Query);

// What is unknown, as an answer of fetch, and what is any.
const told: unknown = { a: 1 };
const parsed: jp.Match[] = [...jp.find("$", told), ...jp.find("$", JSON.parse("1")), ...query.find(told), ...jp.findIter("$", told)];
console.log(parsed, new jp.Document(told), jp.findMany(["$"], told), jp.errorOf(told));

const match = jp.findOne("$", document);
if (match !== null) {
  const steps: (string | number)[] = match.steps;
  const value: jp.Value = match.value;
  const pointer: string = match.pointer;
  console.log(steps, value, match.path, match.text, pointer);
}

try {
  jp.check("$[");
} catch (fault) {
  if (fault instanceof jp.QueryError) {
    const [place, column, sentence]: [number, number, string | null] = [fault.place, fault.column, fault.sentence];
    console.log(fault.kind === "Syntax", place, column, sentence, fault.suggestion);
  } else if (fault instanceof jp.DocumentError) {
    const [line, reason, path]: [number | null, string | null, string | null] = [fault.line, fault.reason, fault.path];
    const suggestion: string | null = fault.suggestion;
    console.log(fault.kind === "NotWhole", line, reason, path, suggestion);
  } else if (fault instanceof jp.StepsUsedUp) {
    const limit: bigint = fault.limit;
    console.log(limit);
  }
}

// @ts-expect-error A query is no document.
jp.find({ a: 1 }, "$.a");
// @ts-expect-error Queries are a list of them.
jp.findMany("$..a", document);
// @ts-expect-error There is no such option.
jp.find("$", document, { limits: 1 });
// @ts-expect-error There are no such numbers.
jp.find("$", document, { numbers: "decimals" });
// @ts-expect-error A document has no functions.
new jp.Document("1", { extended: true });
// @ts-expect-error A query that is kept has its numbers.
query.find(document, { numbers: "whole" });
// @ts-expect-error A limit is a number.
jp.find("$", document, { limit: "1" });
// @ts-expect-error Nodes that are given one after another are not counted.
jp.findIter("$", document, { maxNodes: 1 });
// @ts-expect-error A query that is kept has its profile.
query.find(document, { extended: true });
// @ts-expect-error The document is missing.
jp.exists("$");
// @ts-expect-error A symbol is no document.
jp.find("$", Symbol("a"));
// @ts-expect-error A function is no document.
jp.values("$", () => 1);
// @ts-expect-error Nothing is no document.
jp.values("$", undefined);
// @ts-expect-error It is only read.
query.text = "$";
