/** Where values stand in a document's text. */
import { stepsOf } from "../../bindings/node/paths.mjs";

const [QUOTE, BACKSLASH, COMMA, COLON] = ['"', "\\", ",", ":"].map((mark) => mark.charCodeAt(0));
const [OPEN_LIST, OPEN_OBJECT, CLOSE_LIST, CLOSE_OBJECT] = ["[", "{", "]", "}"].map((mark) => mark.charCodeAt(0));

/** The places that are asked for at a branch, as numbers of paths, and below it by names and indexes. */
class Branch {
  constructor() {
    this.asked = [];
    this.below = null;
  }

  at(step) {
    this.below ??= new Map();
    let next = this.below.get(step);
    if (next === undefined) {
      next = new Branch();
      this.below.set(step, next);
    }
    return next;
  }
}

function treeOf(paths) {
  const root = new Branch();
  paths.forEach((path, number) => {
    stepsOf(path).reduce((branch, step) => branch.at(step), root).asked.push(number);
  });
  return root;
}

/** Reads along a JSON text, which is known to be one. */
class Reader {
  #blank = /[ \t\n\r]*/y;
  #word = /[-+.\w]*/y;
  #mark = /["[\]{}]/g;

  constructor(text, at, starts, ends) {
    this.text = text;
    this.at = at;
    this.starts = starts;
    this.ends = ends;
  }

  #pass(pattern) {
    pattern.lastIndex = this.at;
    pattern.test(this.text);
    this.at = pattern.lastIndex;
  }

  skipBlank() {
    this.#pass(this.#blank);
  }

  /** Reads past a comma, a colon or a closing mark, and the blank space around the first two; whether it is a comma. */
  #isComma() {
    this.skipBlank();
    const mark = this.text.charCodeAt(this.at);
    this.at += 1;
    if (mark === COMMA || mark === COLON) {
      this.skipBlank();
    }
    return mark === COMMA;
  }

  #skipString() {
    let backslashes;
    do {
      this.at = this.text.indexOf('"', this.at + 1);
      backslashes = 0;
      while (this.text.charCodeAt(this.at - 1 - backslashes) === BACKSLASH) {
        backslashes += 1;
      }
    } while (backslashes % 2 === 1);
    this.at += 1;
  }

  #name() {
    const start = this.at;
    this.#skipString();
    return JSON.parse(this.text.slice(start, this.at));
  }

  /** Reads past a value. */
  skipValue() {
    let depth = 0;
    do {
      const mark = this.text.charCodeAt(this.at);
      if (mark === QUOTE) {
        this.#skipString();
      } else if (mark === OPEN_LIST || mark === OPEN_OBJECT) {
        depth += 1;
        this.at += 1;
      } else if (mark === CLOSE_LIST || mark === CLOSE_OBJECT) {
        depth -= 1;
        this.at += 1;
      } else {
        this.#pass(this.#word);
      }
      if (depth > 0) {
        this.#goToMark();
      }
    } while (depth > 0);
  }

  #goToMark() {
    this.#mark.lastIndex = this.at;
    this.#mark.test(this.text);
    this.at = this.#mark.lastIndex - 1;
  }

  /** Reads past a value, and notes where it stands and what is asked for in it. */
  value(branch) {
    const start = this.at;
    const mark = this.text.charCodeAt(start);
    if (branch.below === null || (mark !== OPEN_LIST && mark !== OPEN_OBJECT)) {
      this.skipValue();
    } else {
      this.#parts(branch.below, mark === OPEN_OBJECT);
    }
    for (const number of branch.asked) {
      this.starts[number] = start;
      this.ends[number] = this.at;
    }
  }

  /** Reads past the items or members. Of members with one name the last counts, which is noted after the others. */
  #parts(below, isObject) {
    this.at += 1;
    this.skipBlank();
    if (this.#isEmpty()) {
      this.at += 1;
      return;
    }
    let index = 0;
    do {
      const step = isObject ? this.#name() : index;
      if (isObject) {
        this.#isComma();
      }
      index += 1;
      const branch = below.get(step);
      if (branch === undefined) {
        this.skipValue();
      } else {
        this.value(branch);
      }
    } while (this.#isComma());
  }

  #isEmpty() {
    const mark = this.text.charCodeAt(this.at);
    return mark === CLOSE_LIST || mark === CLOSE_OBJECT;
  }
}

/**
 * The starts and the ends, as indexes of a text, of the values at normalized paths (RFC 9535, section 2.7) of the
 * document that begins at an index of it, blank space before it left out.
 */
export function placesOf(text, paths, from = 0) {
  const [starts, ends] = [new Uint32Array(paths.length), new Uint32Array(paths.length)];
  const reader = new Reader(text, from, starts, ends);
  reader.skipBlank();
  reader.value(treeOf(paths));
  return { starts, ends };
}
