/** What is told of a query's patterns: which of them are no I-Regexps (RFC 9485), or mean something else elsewhere. */
import { DONE, PATHS } from "../../bindings/node/numbers.mjs";
import { bytesOf } from "../../bindings/node/texts.mjs";
import { translated } from "./dialects.mjs";
import { patternsIn, withPatterns } from "./literals.mjs";

// Of so many patterns of a query something is told.
const MOST_TOLD = 5;
const EMPTY_TEXT = bytesOf('[""]');

/**
 * Whether a text is an I-Regexp. A `|` before one adds a branch for the empty text, which is then found in each text;
 * before any other it makes none.
 */
function isPattern(engine, text, profile) {
  const query = bytesOf(`$[?search(@, ${JSON.stringify(`|${text}`)})]`);
  const outcome = engine.ask({ bytes: query, profile }, EMPTY_TEXT, PATHS);
  return outcome.status !== DONE || outcome.text.length > 0;
}

/** The query with the I-Regexps that mean the same, or null where the engine takes no such. */
function suggestionFor(engine, query, profile, found, told) {
  if (told.length === 0 || told.some(({ meant }) => meant === null)) {
    return null;
  }
  const others = found.map((it) => told.find(({ place }) => place === it)?.meant ?? it);
  const other = withPatterns(query, found, others);
  const isAccepted = engine.canonical(bytesOf(other), profile).status === DONE;
  return isAccepted && others.every(({ pattern }) => isPattern(engine, pattern, profile)) ? other : null;
}

/** The patterns of an accepted query of which there is something to tell, and a query without such, or null. */
export function toldOfPatterns(engine, query, profile) {
  const found = patternsIn(query);
  const told = found
    .map((place) => {
      const { name, pattern } = place;
      return { place, name, pattern, isPattern: isPattern(engine, pattern, profile), ...translated(pattern, name) };
    })
    .filter((it) => !it.isPattern || it.anchors.length > 0);
  const suggestion = suggestionFor(engine, query, profile, found, told);
  const patterns = told.slice(0, MOST_TOLD).map(({ place, meant, ...it }) => it);
  return { patterns, suggestion };
}
