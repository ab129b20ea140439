/** What each part of a query asks for, in a sentence. The parts are those that the editor's mode tells apart. */

function named(word, dots) {
  const name = word.slice(dots);
  return name === "*" ? "all children" : `the members named ${name}`;
}

function descendants(word) {
  return word === ".."
    ? "The value and all that is inside it, at any depth; what follows is asked of each."
    : `At any depth inside: ${named(word, 2)}.`;
}

function index(word) {
  return word.startsWith("-")
    ? `The item of a list that is number ${word.slice(1)} from its end.`
    : `The item of a list with index ${word}, counted from 0.`;
}

function bracket(word) {
  return word === "["
    ? "Here begin selectors; a segment gives what each selects, one after another."
    : "Here the selectors end.";
}

function slice(word) {
  const [start, end, step = ""] = word.split(":").map((it) => it.trim());
  const by = step === "" ? 1 : Number(step);
  if (by === 0) {
    return "A slice of step 0 selects nothing.";
  }
  const from = start === "" ? (by > 0 ? "the first" : "the last") : `index ${start}`;
  const to = end === "" ? "" : `, up to and without index ${end}`;
  const steps = Math.abs(by) === 1 ? "" : `, in steps of ${Math.abs(by)}`;
  const ends = start.startsWith("-") || end.startsWith("-") ? " Negative indexes count from the end." : "";
  return `The items of a list from ${from} on${by < 0 ? ", backwards" : ""}${to}${steps}.${ends}`;
}

const COMPARED = {
  "==": "Whether both sides are equal, or both are nothing.",
  "!=": "Whether the sides differ.",
  "<": "Whether the left is less: of two numbers, or of two texts.",
  "<=": "Whether the left is less or equal.",
  ">": "Whether the left is greater: of two numbers, or of two texts.",
  ">=": "Whether the left is greater or equal.",
};

const CALLED = {
  length: "How many characters a text has, a list items, or an object members.",
  count: "How many nodes the query inside selects.",
  match: "Whether the whole of a text fits a pattern.",
  search: "Whether some part of a text fits a pattern.",
  value: "The value of the node that the query inside selects, if it is one.",
  distinct: "The nodes inside without repeats. Extended has this, and the standard has not.",
};

/** By what a part is: the section of RFC 9535 and the sentence. */
const MEANINGS = {
  root: ["2.2", () => "The whole document."],
  child: ["2.5.1", (word) => `The member named ${word.slice(1)}.`],
  children: ["2.5.1", () => "All children: the items of a list, or the values of an object's members."],
  descendants: ["2.5.2", descendants],
  bracket: ["2.5.1", bracket],
  name: ["2.3.1", (word) => `The member named ${word}.`],
  wildcard: ["2.3.2", () => "All children: the items of a list, or the values of an object's members."],
  index: ["2.3.3", index],
  slice: ["2.3.4", slice],
  filter: ["2.3.5", () => "The children for which what follows is true."],
  separator: ["2.5.1", () => "And then what the next selector selects."],
  current: ["2.3.5", () => "The child that the filter looks at."],
  text: ["2.3.5", (word) => `The text ${word}.`],
  number: ["2.3.5", (word) => `The number ${word}.`],
  literal: ["2.3.5", (word) => `The value ${word}.`],
  function: ["2.4", (word) => CALLED[word] ?? "A function of this name is not known."],
  comparison: ["2.3.5", (word) => COMPARED[word]],
  and: ["2.3.5", () => "Both must be true."],
  or: ["2.3.5", () => "One of both must be true."],
  not: ["2.3.5", () => "What follows must be false."],
  group: ["2.3.5", () => "Parentheses hold an expression or what a function is given."],
  argument: ["2.4", () => "Then what the function is given next."],
};

/** The part of a token of the editor, with its section and its sentence, or null of one that is none. */
function partOf({ string, type, start, end }, line) {
  const meaning = MEANINGS[type?.match(/jp-(\w+)/)?.[1]];
  return meaning ? { word: string, section: meaning[0], sentence: meaning[1](string), line, start, end } : null;
}

/** All parts of the query in an editor. */
export function partsIn(editor) {
  const parts = [];
  editor.eachLine((line) => {
    const number = editor.getLineNumber(line);
    parts.push(...editor.getLineTokens(number, true).map((token) => partOf(token, number)));
  });
  return parts.filter((it) => it !== null);
}

/** The part at a position: the one that ends there, or that begins there where none ends. */
export function partAt(editor, position) {
  const after = { line: position.line, ch: position.ch + 1 };
  return [position, after].map((it) => partOf(editor.getTokenAt(it, true), it.line)).find((it) => it !== null) ?? null;
}
