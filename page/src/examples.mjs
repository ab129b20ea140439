/** Queries over documents, by the sections of RFC 9535 whose tables have them. */

// The document of section 1.5 (Figure 1).
const BOOK_STORE = `{
  "store": {
    "book": [
      { "category": "reference", "price": 8.95,
        "author": "Nigel Rees",
        "title": "Sayings of the Century" },
      { "category": "fiction", "price": 12.99,
        "author": "Evelyn Waugh",
        "title": "Sword of Honour" },
      { "category": "fiction", "price": 8.99,
        "author": "Herman Melville",
        "title": "Moby Dick",
        "isbn": "0-553-21311-3" },
      { "category": "fiction", "price": 22.99,
        "author": "J. R. R. Tolkien",
        "title": "The Lord of the Rings",
        "isbn": "0-395-19395-8" }
    ],
    "bicycle": { "color": "red", "price": 399 }
  }
}`;

const LETTERS = '["a", "b", "c", "d", "e", "f", "g"]';

const FILTERED = `{
  "a": [3, 5, 1, 2, 4, 6,
        {"b": "j"}, {"b": "k"}, {"b": {}}, {"b": "kilo"}],
  "o": {"p": 1, "q": 2, "r": 3, "s": 5, "t": {"u": 6}},
  "e": "f"
}`;

const PEOPLE = `[
  { "name": "Ada", "born": "1815-12-10", "authors": ["x", "y"] },
  { "name": "Charles", "born": "1791-12-26", "authors": [] },
  { "name": "Zoë", "born": "1901-01-01", "color": "red" }
]`;

/** Each with a title, a document and queries; `profile` and `numbers` are of all of its queries. */
export const EXAMPLES = [
  {
    title: "1.5 A book store",
    document: BOOK_STORE,
    queries: [
      "$..book[?@.price<10].title",
      "$.store.book[*].author",
      "$..book[-1]",
      "$..book[?@.isbn]",
      "$.store..price",
    ],
  },
  {
    title: "2.3.1 Name selector",
    document: `{"o": {"j j": {"k.k": 3}}, "'": {"@": 2}}`,
    queries: ["$.o['j j']", `$.o["j j"]["k.k"]`, `$["'"]["@"]`],
  },
  {
    title: "2.3.2 Wildcard selector",
    document: '{"o": {"j": 1, "k": 2}, "a": [5, 3]}',
    queries: ["$[*]", "$.o[*]", "$.o[*, *]", "$.a[*]"],
  },
  { title: "2.3.3 Index selector", document: '["a", "b"]', queries: ["$[1]", "$[-2]"] },
  {
    title: "2.3.4 Array slice selector",
    document: LETTERS,
    queries: ["$[1:3]", "$[5:]", "$[1:5:2]", "$[5:1:-2]", "$[::-1]"],
  },
  {
    title: "2.3.5 Filter selector",
    document: FILTERED,
    queries: ["$.a[?@.b == 'kilo']", `$.a[?@<2 || @.b == "k"]`, "$[?@[?@.b]]", "$.o[?@>1 && @<4]", "$.a[?@.b == $.x]"],
  },
  {
    title: "2.4 Function extensions",
    document: PEOPLE,
    queries: [
      "$[?length(@.authors) == 2]",
      "$[?count(@.*) == 3].name",
      `$[?match(@.born, "18.*")].name`,
      `$[?search(@.born, "-12-")].name`,
      `$[?value(@..color) == "red"]`,
    ],
  },
  { title: "2.5.1 Child segment", document: LETTERS, queries: ["$[0, 3]", "$[0:2, 5]", "$[0, 0]"] },
  {
    title: "2.5.2 Descendant segment",
    document: '{"o": {"j": 1, "k": 2}, "a": [5, 3, [{"j": 4}, {"k": 6}]]}',
    queries: ["$..j", "$..[0]", "$..*", "$.a..[0, 1]"],
  },
  {
    title: "2.6 Semantics of null",
    document: '{"a": null, "b": [null], "c": [{}], "null": 1}',
    queries: ["$.a", "$.a[0]", "$.b[?@==null]", "$.c[?@.d==null]"],
  },
  {
    title: "2.7 Normalized paths",
    document: String.raw`{"a": {"b": [0, 1]}, "\u000b": "a control", "'\n": "a quote and a newline", "é😀": "as it is"}`,
    queries: ["$.a.b[-1]", "$.*"],
  },
  {
    title: "Refused queries",
    document: FILTERED,
    queries: ["$.a[01]", "$['é😀'][01]", "$.a[?@>.5]", "$[?@.*==1]", "$[?foo(@)]", "$.a[?(@.b"],
  },
  {
    title: "Whole numbers alone, by which these prices are refused",
    document: BOOK_STORE,
    numbers: "whole",
    queries: ["$..book[?@.price<10].title", "$..book[?@.price<8.99].title"],
  },
  {
    title: "Beyond the standard",
    document: "[[1], [1, 2]]",
    profile: "extended",
    queries: ["$[?count(distinct(@[0,0,1]))==2]"],
  },
];
