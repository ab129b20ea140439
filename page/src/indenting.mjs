/** JSON texts with their values a line each. Nothing but blank space changes: numbers keep their digits. */

const TOKEN = /"[^"\\]*(?:\\.[^"\\]*)*"|[[\]{}:,]|[^\s[\]{}:,"]+/g;
const STEP = "  ";

/** A JSON text with each item and each member on a line of its own. */
export function indented(text) {
  const parts = [];
  let depth = 0;
  let last = "";
  for (const [token] of text.matchAll(TOKEN)) {
    const closes = token === "]" || token === "}";
    depth -= closes ? 1 : 0;
    const isEmpty = closes && (last === "[" || last === "{");
    if ((closes && !isEmpty) || (!closes && (last === "[" || last === "{" || last === ","))) {
      parts.push("\n", STEP.repeat(depth));
    }
    parts.push(token, token === ":" ? " " : "");
    depth += token === "[" || token === "{" ? 1 : 0;
    last = token;
  }
  return parts.join("");
}
