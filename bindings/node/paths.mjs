/** Normalized paths (RFC 9535, section 2.7), the names and indexes that they are made of, and JSON Pointers. */

const STEP = /\['((?:[^'\\]|\\.)*)'\]|\[(\d+)\]/g;
const ESCAPE = /\\(?:u(....)|(.))/g;
const MEANT = { b: "\b", t: "\t", n: "\n", f: "\f", r: "\r" };
const SPELLED = { "\b": "b", "\t": "t", "\n": "n", "\f": "f", "\r": "r", "'": "'", "\\": "\\" };

/** The names and indexes of a path, from the document's root on. */
export function stepsOf(path) {
  return Array.from(path.matchAll(STEP), ([, name, index]) => (name === undefined ? Number(index) : named(name)));
}

function named(text) {
  return text.replace(ESCAPE, (_, code, letter) =>
    code === undefined ? (MEANT[letter] ?? letter) : String.fromCharCode(parseInt(code, 16)),
  );
}

/** The JSON Pointer (RFC 6901) of names and indexes. */
export function pointerOf(steps) {
  return steps.map((step) => `/${`${step}`.replaceAll("~", "~0").replaceAll("/", "~1")}`).join("");
}

/** The path of names and indexes. */
export function pathOf(steps) {
  return `$${steps.map((step) => `[${typeof step === "number" ? step : `'${spelled(step)}'`}]`).join("")}`;
}

function spelled(name) {
  return name.replace(/[\u0000-\u001f'\\]/g, (character) => {
    const code = character.charCodeAt(0).toString(16).padStart(4, "0");
    return `\\${SPELLED[character] ?? `u${code}`}`;
  });
}
