/**
 * Queries in the editor's colors: a mode of CodeMirror, which reads the words of JSONPath (RFC 9535, appendix A) and
 * tells of each what it is. It takes what is no query too, and refuses nothing: the engine does that.
 */

const NAME = String.raw`[A-Za-z_\u{80}-\u{10ffff}][\w\u{80}-\u{10ffff}]*`;
const BLANK = String.raw`[ \t]*`;
const STRING = /^(?:'(?:[^'\\]|\\.)*'?|"(?:[^"\\]|\\.)*"?)/u;

/** What may come at each place, in the order in which it is tried: what it is, and its characters. */
const ANYWHERE = [
  ["descendants", new RegExp(String.raw`^\.\.(?:\*|${NAME})?`, "u")],
  ["children", /^\.\*/],
  ["child", new RegExp(String.raw`^\.${NAME}`, "u")],
  ["root", /^\$/],
  ["bracket", /^[[\]]/],
];
const SELECTORS = [
  ["name", STRING],
  ["slice", new RegExp(String.raw`^(?:-?\d+)?${BLANK}:${BLANK}(?:-?\d+)?(?:${BLANK}:${BLANK}(?:-?\d+)?)?`)],
  ["index", /^-?\d+/],
  ["wildcard", /^\*/],
  ["filter", /^\?/],
  ["separator", /^,/],
];
const EXPRESSION = [
  ["current", /^@/],
  ["text", STRING],
  ["number", /^-?\d+(?:\.\d+)?(?:[eE][-+]?\d+)?/],
  ["literal", /^(?:true|false|null)\b/],
  ["function", /^[a-z][a-z0-9_]*(?=\()/],
  ["comparison", /^(?:==|!=|<=|>=|<|>)/],
  ["and", /^&&/],
  ["or", /^\|\|/],
  ["not", /^!/],
  ["group", /^[()]/],
  ["argument", /^,/],
];

/** Whether a place stands in a filter's expression: within parentheses, or behind the `?` of a selector. */
export function isInExpression({ open }) {
  return open.at(-1) === "(" || open.at(-1) === "?";
}

/** What the words that have been read leave open: brackets, filters in them, and parentheses. */
function goOn({ open }, what, word) {
  if (word === "[" || what === "filter" || word === "(") {
    open.push(word);
  } else if (word === ")" && open.at(-1) === "(") {
    open.pop();
  } else if (word === "]") {
    open.splice(Math.max(0, open.lastIndexOf("[")));
  } else if (what === "separator" && open.at(-1) === "?") {
    open.pop();
  }
}

/** Reads the next word, and answers what it is. */
function wordOf(stream, state) {
  const isExpression = isInExpression(state);
  // Behind a filter's expression, outside of parentheses, a comma begins the next selector.
  const isNext = state.open.at(-1) === "?" && stream.peek() === ",";
  const rules = [...(isExpression && !isNext ? EXPRESSION : SELECTORS), ...ANYWHERE];
  for (const [what, pattern] of rules) {
    if (stream.match(pattern)) {
      goOn(state, what, stream.current());
      return `jp-${what}`;
    }
  }
  stream.next();
  return null;
}

/** The mode, which an editor knows by the name "jsonpath". */
export function defineQueryMode() {
  CodeMirror.defineMode("jsonpath", () => ({
    startState: () => ({ open: [] }),
    copyState: ({ open }) => ({ open: [...open] }),
    token: (stream, state) => (stream.eatSpace() ? null : wordOf(stream, state)),
    closeBrackets: { pairs: "()[]''\"\"", explode: "" },
  }));
}
