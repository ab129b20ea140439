/** Whether a text has a document a line, as JSON Lines has, or is one document. */

// In characters: longer texts, or lines, are not looked at.
const LONGEST_READ = 3_000_000;

function isJson(text) {
  try {
    JSON.parse(text);
    return true;
  } catch {
    return false;
  }
}

/** The first lines that are not blank, so many at most. */
function firstLines(text, most) {
  const lines = [];
  for (let start = 0, end; start < text.length && lines.length < most; start = end + 1) {
    end = text.indexOf("\n", start);
    end = end < 0 ? text.length : end;
    const line = text.slice(start, Math.min(end, start + LONGEST_READ)).trim();
    lines.push(...(line === "" ? [] : [line]));
  }
  return lines;
}

/** Whether each of the first two lines is JSON by itself; then the whole is none. Numbers may have fractions. */
export function looksLikeLines(text) {
  const lines = firstLines(text, 2);
  return lines.length === 2 && lines.every(isJson);
}

/** Whether a text on several lines is one JSON document. */
export function isWhole(text) {
  return text.length <= LONGEST_READ && firstLines(text, 2).length === 2 && isJson(text);
}
