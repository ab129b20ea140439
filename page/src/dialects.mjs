/** What other dialects of regular expressions write otherwise than I-Regexp (RFC 9485), and the I-Regexp for it. */

const ESCAPED = String.raw`\\[pP]\{[^}]*\}|\\u[\dA-Fa-f]{4}|\\x[\dA-Fa-f]{2}|\\.`;
const PATTERN_WORD = new RegExp(
  String.raw`${ESCAPED}|\[(?:\\.|[^\]\\])*\]|\(\?(?:[:=!]|<[=!]|P?<\w+>)?|[*+?}]\?|.`,
  "gsu",
);
const CLASS_WORD = new RegExp(`${ESCAPED}|.`, "gsu");
const GROUP = /^\(\?(?::|P?<\w+>)$/;
const LAZY = /^[*+?}]\?$/;
const OWN_ESCAPE = /^\\(?:[-()*+.?[\\\]^nrt{|}]|[pP]\{.*)$/s;
// The dot takes no ends of lines.
const ANY_TEXT = String.raw`(.|[\n\r])*`;
const CHARACTERS = { d: "0-9", w: "A-Za-z0-9_", s: String.raw` \t\n\r` };

/** A character that an escape names by its number. */
function numbered(escape) {
  const character = String.fromCharCode(parseInt(escape.slice(2), 16));
  return /[-()*+.?[\\\]^{|}]/.test(character) ? `\\${character}` : character;
}

/** An escape as I-Regexp writes it, within a class or outside, or null where it has none. */
function escapeHere(escape, isInClass) {
  const [, letter] = escape;
  const characters = CHARACTERS[letter.toLowerCase()];
  if (characters) {
    const isNegated = letter !== letter.toLowerCase();
    return isInClass ? (isNegated ? null : characters) : `[${isNegated ? "^" : ""}${characters}]`;
  }
  if (OWN_ESCAPE.test(escape)) {
    return escape;
  }
  if (/^\\[ux]./.test(escape)) {
    return numbered(escape);
  }
  return /[A-Za-z0-9]/.test(letter) ? null : letter;
}

/** The words of a class as they stand, each with the I-Regexp for it. */
function pairsInClass(word) {
  return Array.from(word.slice(1, -1).matchAll(CLASS_WORD), ([it]) => {
    const bracket = it === "[" ? "\\[" : it;
    return [it, it.startsWith("\\") ? escapeHere(it, true) : bracket];
  });
}

/** A word that is no class, with the I-Regexp for it. */
function pairOf(word) {
  if (word.startsWith("\\") && word.length > 1) {
    return [word, escapeHere(word, false)];
  }
  const group = GROUP.test(word) ? "(" : null;
  return [word, word.startsWith("(?") ? group : LAZY.test(word) ? word[0] : word];
}

function isClass(word) {
  return word.startsWith("[") && word.length > 1;
}

/** Whether a word stands for an end of the text elsewhere: a `^` where a branch begins, or a `$` where one ends. */
function isAnchor(word, before, after) {
  const begins = before === undefined || before === "|" || before.startsWith("(");
  const ends = after === undefined || after === "|" || after === ")";
  return (word === "^" && begins) || (word === "$" && ends);
}

/** Whether a pattern has a `|` that no group holds. */
function hasBranches(words) {
  let depth = 0;
  return words.some((word) => {
    depth += word.startsWith("(") ? 1 : word === ")" ? -1 : 0;
    return word === "|" && depth === 0;
  });
}

/** What takes the texts of an inner pattern with the ends that the anchors held. */
function between(name, inner, isHeldAtStart, isHeldAtEnd) {
  if (name === "search" && (isHeldAtStart || isHeldAtEnd)) {
    return { name: "match", pattern: `${isHeldAtStart ? "" : ANY_TEXT}${inner}${isHeldAtEnd ? "" : ANY_TEXT}` };
  }
  return { name, pattern: inner };
}

/**
 * A pattern that `match` or `search` is given, read as one of another dialect: the words that I-Regexp writes otherwise,
 * each with what it writes or null; the anchors; and the call and the pattern that mean the same, or null.
 */
export function translated(pattern, name) {
  const words = Array.from(pattern.matchAll(PATTERN_WORD), ([it]) => it);
  const anchors = words.map((word, index) => isAnchor(word, words[index - 1], words[index + 1]));
  const [isHeldAtStart, isHeldAtEnd] = [anchors[0] && words[0] === "^", anchors.at(-1) && words.at(-1) === "$"];
  const inner = words.slice(isHeldAtStart ? 1 : 0, isHeldAtEnd ? -1 : undefined);
  const count = anchors.filter(Boolean).length;
  const isClear = count === 0 || (count === words.length - inner.length && !hasBranches(inner));
  const parts = inner.map((word) => (isClass(word) ? pairsInClass(word) : [pairOf(word)]));
  const pairs = parts.flat();
  const isWhole = isClear && pairs.every(([, here]) => here !== null);
  const texts = parts.map((part, index) => {
    const text = part.map(([, here]) => here).join("");
    return isClass(inner[index]) ? `[${text}]` : text;
  });
  return {
    foreign: [...new Map(pairs.filter(([word, here]) => word !== here)).entries()],
    anchors: [...new Set(words.filter((_, index) => anchors[index]))],
    meant: isWhole ? between(name, texts.join(""), isHeldAtStart, isHeldAtEnd) : null,
  };
}
