/** The patterns that stand in a query as the second argument of `match` or `search`, and others in their place. */

const NAME_OR_CALL = String.raw`[A-Za-z_\u{80}-\u{10ffff}][\w\u{80}-\u{10ffff}]*\(?`;
const QUERY_WORD = new RegExp(String.raw`'(?:[^'\\]|\\.)*'|"(?:[^"\\]|\\.)*"|${NAME_OR_CALL}|[()[\],]`, "gsu");
const TAKES_PATTERN = ["match", "search"];

/** The text that a string of a query stands for. */
function meantBy(literal) {
  const inner = literal.slice(1, -1);
  const text = literal.startsWith('"') ? inner : inner.replace(/\\'|"/g, (it) => (it === '"' ? '\\"' : "'"));
  return JSON.parse(`"${text}"`);
}

/** A text as a string of a query, in quotes of one kind. */
function literalOf(text, quote) {
  const doubled = JSON.stringify(text);
  const inner = doubled.slice(1, -1).replace(/\\.|'/g, (it) => ({ '\\"': '"', "'": "\\'" })[it] ?? it);
  return quote === '"' ? doubled : `'${inner}'`;
}

/** What the string at hand is to the call around it, if that takes a pattern. */
function patternAt({ 0: word, index }, call) {
  const isPattern = call && TAKES_PATTERN.includes(call.name) && call.commas === 1;
  return isPattern ? [{ name: call.name, at: call.at, start: index, end: index + word.length, pattern: meantBy(word) }] : [];
}

/** The patterns of a query that is accepted: each with the name of its call, and where both stand. */
export function patternsIn(query) {
  const [found, open] = [[], []];
  for (const match of query.matchAll(QUERY_WORD)) {
    const [word] = match;
    if (word.endsWith("(") || word === "[") {
      open.push({ name: word.slice(0, -1), at: match.index, commas: 0 });
    } else if (word === ")" || word === "]") {
      open.pop();
    } else if (word === "," && open.length > 0) {
      open.at(-1).commas += 1;
    } else if (word.startsWith("'") || word.startsWith('"')) {
      found.push(...patternAt(match, open.at(-1)));
    }
  }
  return found;
}

/** The query with other names and patterns, in their order, in the places of those that were found in it. */
export function withPatterns(query, found, others) {
  return found.reduceRight((text, { name, at, start, end }, index) => {
    const other = others[index];
    const between = text.slice(at + name.length, start);
    return text.slice(0, at) + other.name + between + literalOf(other.pattern, text[start]) + text.slice(end);
  }, query);
}
