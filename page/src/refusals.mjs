/** What is told of a document that is refused, or of the lines of one that are. */
import { counted, made, madeButton, spelled } from "./elements.mjs";
import { numberWords } from "./wholenumbers.mjs";

// So many lines are told at once, and the others where they are asked for.
const MOST_IN_THE_OPEN = 5;

function refusal({ kind, line, column, sentence, path }, go) {
  const words = made("p", "wrong", made("strong", "", `${kind} in line ${line}, column ${column}: `), sentence);
  if (path) {
    words.append(" ", go ? madeButton("code link", path, () => go(path)) : made("code", "", path));
  }
  return words;
}

/** An offer to read the document otherwise, by lines or as one. */
function offer(words, name, press) {
  return made("p", "warned", `${words} `, madeButton("", name, press));
}

/** Why the document is refused, with `go` to a path in it, and two ways to read it otherwise. */
export function documentRefusal(refused, looksLikeLines, { go, readByLines, takeDecimals }) {
  const lines = offer("Each line looks like a document of its own.", "Read as JSON Lines", () => readByLines(true));
  return [...(looksLikeLines ? [lines] : []), refusal(refused, go), ...numberWords(refused, takeDecimals)];
}

/** Which lines are refused and why: the first ones in the open, with what to do about the first number. */
export function lineRefusals({ refused, refusedCount, lineCount, isWhole }, { readByLines, takeDecimals }) {
  const items = refused.map((it) => made("li", "", refusal(it)));
  const [open, others] = [items.slice(0, MOST_IN_THE_OPEN), items.slice(MOST_IN_THE_OPEN)];
  const all = counted(lineCount, "line", "lines");
  const are = refusedCount === 1 ? "is" : "are";
  const head = made("p", "wrong", `${spelled(refusedCount)} of ${all} ${are} refused:`);
  const [words = []] = refused.map((it) => numberWords(it, takeDecimals)).filter((it) => it.length > 0);
  const parts = [head, made("ul", "", ...open), ...words];
  if (others.length > 0) {
    const untold = refusedCount - refused.length;
    const last = untold === 0 ? [] : [made("li", "wrong", `and ${counted(untold, "line", "lines")} besides`)];
    const summary = made("summary", "", `${spelled(refusedCount - open.length)} more`);
    parts.push(made("details", "wrong", summary, made("ul", "", ...others, ...last)));
  }
  const whole = offer("The whole text is one document.", "Read as one document", () => readByLines(false));
  return [...(isWhole ? [whole] : []), ...parts];
}
