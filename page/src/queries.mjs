/** The query: its editor, what the engine says of it, and the mark of what is refused. */
import { indexAt } from "../../bindings/node/texts.mjs";
import { setRefused, settle } from "./editors.mjs";
import { made, madeButton } from "./elements.mjs";
import { OneStop } from "./onestop.mjs";
import { patternWords } from "./patternwords.mjs";
import { isInExpression } from "./querymode.mjs";
import { decimalsSwitch } from "./wholenumbers.mjs";

// Of such a query alone the engine says nothing, since it is no text.
const HALF_A_PAIR = "Half of a surrogate pair is no character.";
const BLANK_AT_START = /^[ \t\n\r]*/;
const BLANK_AT_END = /[ \t\n\r]*$/;
const NEWLINES_AT_ENDS = /^[\r\n]+|[\r\n]+$/g;

function isOneLine(text) {
  return text.length === 1;
}

export class QueryBox {
  #editor;
  #outcome;
  #patterns;
  #takeDecimals;
  #mark = null;

  /**
   * `outcome` and `patterns` are the elements for what is said of the query, and of the patterns in it; `takeDecimals`
   * chooses decimals.
   */
  constructor(editor, outcome, patterns, takeDecimals) {
    this.#editor = editor;
    this.#takeDecimals = takeDecimals;
    this.#outcome = outcome;
    this.#patterns = patterns;
    new OneStop(outcome.parentElement);
    editor.on("beforeChange", (_, change) => {
      if (change.origin === "paste" && !isOneLine(change.text)) {
        change.update(null, null, change.text.join("\n").replace(NEWLINES_AT_ENDS, "").split("\n"));
      }
    });
  }

  /** What is asked: the query without the blank space at its ends. */
  get text() {
    return this.#editor.getValue().replace(BLANK_AT_START, "").replace(BLANK_AT_END, "");
  }

  put(text) {
    this.#editor.setValue(text);
    this.#editor.setCursor(this.#editor.lineCount(), 0);
  }

  /** Takes the blank space at the ends away. */
  trim() {
    if (this.#editor.getValue() !== this.text) {
      this.put(this.text);
    }
  }

  /**
   * Puts a text in at the cursor, with a part of it selected, if any. A text of filters' expressions has another one
   * for where no expression stands.
   */
  insert(inExpression, part = "", elsewhere = inExpression) {
    const editor = this.#editor;
    const isExpression = isInExpression(editor.getTokenAt(editor.getCursor("from"), true).state);
    const text = isExpression ? inExpression : elsewhere;
    if (text === "$" || this.text === "") {
      this.put(text === "$" ? "" : "$");
    }
    const start = this.#editor.indexFromPos(this.#editor.getCursor("from"));
    this.#editor.replaceSelection(text);
    const from = start + (part === "" ? text.length : text.lastIndexOf(part));
    this.#editor.setSelection(...[from, from + part.length].map((it) => this.#editor.posFromIndex(it)));
    this.#editor.focus();
  }

  /** Shows what the engine says of the query. */
  show({ query: refused, canonical, fault, patterns = [], suggestion = null }) {
    settle(this.#editor);
    this.#showPatterns(patterns, suggestion);
    this.#unmark();
    setRefused(this.#editor, Boolean(refused));
    if (refused) {
      this.#outcome.replaceChildren(...this.#refusal(refused));
    } else if (fault) {
      this.#outcome.replaceChildren(made("p", "wrong", fault));
    } else {
      this.#outcome.replaceChildren(this.#accepted(canonical));
    }
  }

  /** Shows what can be asked where nothing is. */
  showExample(query) {
    settle(this.#editor);
    this.#showPatterns([], null);
    this.#unmark();
    setRefused(this.#editor, false);
    const words = ["A query begins with ", made("code", "", "$"), ". Try: ", this.#queryButton(query)];
    this.#outcome.replaceChildren(made("p", "", ...words));
  }

  #accepted(canonical) {
    return canonical === this.text
      ? made("p", "", "Accepted, and written canonically.")
      : made("p", "", "Accepted. Canonically: ", this.#queryButton(canonical));
  }

  #showPatterns(patterns, suggestion) {
    const other = suggestion === null ? [] : [made("p", "", "Try: ", this.#queryButton(suggestion))];
    this.#patterns.replaceChildren(...patterns.map(patternWords), ...other);
  }

  #queryButton(query) {
    const button = madeButton("code link", query, () => {
      this.put(query);
      this.#editor.focus();
    });
    button.title = "Put this query in";
    return button;
  }

  /** Marks what is refused, at a byte of the query that was asked, and tells of it in words. */
  #refusal({ kind, place, sentence, suggestion }) {
    const index = indexAt(this.text, place);
    this.#markAt(index);
    const column = [...this.text.slice(0, index)].length;
    const inCharacters = column === place ? "" : ` (character ${column})`;
    const heading = made("strong", "", `${kind} at ${place}${inCharacters}: `);
    const words = [made("p", "wrong", heading, sentence ?? HALF_A_PAIR)];
    if (kind === "NotWhole") {
      words.push(made("p", "warned", "Or choose ", decimalsSwitch(this.#takeDecimals), "."));
    }
    return suggestion === null ? words : [...words, made("p", "", "Try: ", this.#queryButton(suggestion))];
  }

  /** Puts a caret under the character at an index of the query, with what combines with it, or behind its end. */
  #markAt(index) {
    const whole = this.#editor.getValue();
    const at = whole.match(BLANK_AT_START)[0].length + index;
    const isBehind = index >= this.text.length || whole[at] === "\n";
    const segments = new Intl.Segmenter("en", { granularity: "grapheme" }).segment(whole);
    const { segment, index: start } = segments.containing(isBehind ? at - 1 : at);
    const [from, to] = [start, start + segment.length].map((it) => this.#editor.posFromIndex(it));
    this.#mark = this.#editor.markText(from, to, { className: isBehind ? "refused-behind" : "refused-at" });
  }

  #unmark() {
    this.#mark?.clear();
    this.#mark = null;
  }
}
