/** What the page says of patterns that are no I-Regexps, or that mean something else in other dialects. */
import { made } from "./elements.mjs";

function listed(parts) {
  return parts.flatMap((part, index) => [index === 0 ? "" : index === parts.length - 1 ? " and " : ", ", ...part]);
}

/** What I-Regexp writes in place of words of other dialects, and which of these it has nothing for. */
function foreignWords(foreign) {
  const [others, none] = [foreign.filter(([, here]) => here !== null), foreign.filter(([, here]) => here === null)];
  const written = others.map(([word, here]) => [made("code", "", word), " is written ", made("code", "", here)]);
  const without = none.map(([word]) => [made("code", "", word)]);
  return [
    ...(written.length > 0 ? [" In an I-Regexp ", ...listed(written), "."] : []),
    ...(without.length > 0 ? [" An I-Regexp has no ", ...listed(without), "."] : []),
  ];
}

const ANCHORED = {
  match: "match() takes the whole text by itself.",
  search: "search() looks everywhere in the text, and match() takes the whole.",
};

function anchorWords(anchors, name) {
  if (anchors.length === 0) {
    return [];
  }
  const are = anchors.length === 1 ? " is a character: " : " are characters: ";
  return [" ", ...listed(anchors.map((it) => [made("code", "", it)])), are, ANCHORED[name]];
}

/** A sentence or more about a pattern. */
export function patternWords({ name, pattern, isPattern, foreign, anchors }) {
  const code = made("code", "", pattern);
  const start = isPattern
    ? ["In the pattern ", code, ","]
    : ["The pattern ", code, " is no I-Regexp (RFC 9485), so it matches nothing.", ...foreignWords(foreign)];
  return made("p", "warned", ...start, ...anchorWords(anchors, name));
}
