/** The selected values, marked in the document: all that are in sight, and the current one stronger. */

import { settle } from "./editors.mjs";

// More marks than these would make the editor slow.
const MOST_IN_SIGHT = 2000;

/** The lines that an editor has drawn, by the indexes of its text at which they begin. */
class Sight {
  constructor(editor) {
    const { from, to } = editor.getViewport();
    this.first = from;
    this.begins = [editor.indexFromPos({ line: from, ch: 0 })];
    // A line that answers something would be the last.
    editor.eachLine(from, to, ({ text }) => void this.begins.push(this.begins.at(-1) + text.length + 1));
  }

  get start() {
    return this.begins[0];
  }

  get end() {
    return this.begins.at(-1) - 1;
  }

  /** The position of an index, which is moved into sight. */
  position(index) {
    const held = Math.min(Math.max(index, this.start), this.end);
    let [low, high] = [0, this.begins.length - 1];
    while (high - low > 1) {
      const middle = (low + high) >> 1;
      [low, high] = this.begins[middle] <= held ? [middle, high] : [low, middle];
    }
    return { line: this.first + low, ch: held - this.begins[low] };
  }
}

export class Marks {
  #editor;
  #box;
  #marks = [];
  #places = null;
  #current = null;

  constructor(editor, box) {
    this.#editor = editor;
    this.#box = box;
    editor.on("viewportChange", () => this.#refresh());
    // The marks go along with what is typed, until the values are known anew.
    editor.on("change", (_, { origin }) => {
      if (origin !== "setValue") {
        this.#places = this.#current = null;
      }
    });
    box.partShown = () => this.#refresh();
  }

  /** Marks values, of which `starts` and `ends` are the indexes in the document; none where they are not known. */
  show(places) {
    this.#places = places ?? { starts: [], ends: [] };
    this.#current = null;
    this.#refresh();
  }

  /** Marks a value as the current one, and brings it into sight. */
  go(place) {
    this.#places ??= { starts: [], ends: [] };
    this.#current = place;
    this.#box.reveal(place.start, place.end);
    this.#refresh();
  }

  #refresh() {
    settle(this.#editor);
    if (this.#places !== null) {
      this.#editor.operation(() => {
        this.#marks.splice(0).forEach((mark) => mark.clear());
        this.#markInSight(new Sight(this.#editor));
      });
    }
  }

  #markInSight(sight) {
    const { starts, ends } = this.#places;
    const [first, last] = [sight.start, sight.end].map((it) => it + this.#box.start);
    for (let number = 0; number < starts.length && this.#marks.length < MOST_IN_SIGHT; number += 1) {
      if (starts[number] <= last && ends[number] > first) {
        this.#mark(sight, starts[number], ends[number], "selected");
      }
    }
    if (this.#current) {
      this.#mark(sight, this.#current.start, this.#current.end, "current");
    }
  }

  #mark(sight, start, end, className) {
    const [from, to] = [start, end].map((it) => sight.position(it - this.#box.start));
    this.#marks.push(this.#editor.markText(from, to, { className }));
  }
}
