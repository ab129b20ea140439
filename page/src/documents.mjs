/** The document: its editor, which shows a part of a long one, and what the engine says of it. */
import { setRefused, settle } from "./editors.mjs";
import { made, spelled } from "./elements.mjs";
import { documentRefusal, lineRefusals } from "./refusals.mjs";

// In characters: what the editor holds whole, in all and in a line; and what it shows of a longer one.
const LONGEST = 3_000_000;
const LONGEST_LINE = 20_000;
const PART = 10_000;
// With more lines than these, the editor looks for no ends of brackets to fold.
const MOST_FOLDED = 20_000;
// A file with such an ending has a document a line.
const LINES_FILE = /\.(?:jsonl|ndjson)$/i;

function hasLongLine(text) {
  for (let start = 0, end; start < text.length; start = end + 1) {
    end = text.indexOf("\n", start);
    end = end < 0 ? text.length : end;
    if (end - start > LONGEST_LINE) {
      return true;
    }
  }
  return false;
}

function isLong(text) {
  return text.length > LONGEST || hasLongLine(text);
}

/** How many newlines a text has before an index. */
function linesBefore(text, index) {
  let count = 0;
  for (let at = text.indexOf("\n"); at >= 0 && at < index; at = text.indexOf("\n", at + 1)) {
    count += 1;
  }
  return count;
}

export class DocumentBox {
  #editor;
  #parts;
  #replace;
  #takeDecimals;
  #marks = [];
  #long = null;
  #start = 0;
  /** Called where another part of a long document is shown. */
  partShown = () => {};

  /**
   * `parts` are the elements around the editor; `replace` takes a document that comes in place of this one, and
   * `takeDecimals` chooses decimals.
   */
  constructor(editor, parts, replace, takeDecimals) {
    this.#editor = editor;
    this.#parts = parts;
    this.#replace = replace;
    this.#takeDecimals = takeDecimals;
    editor.on("beforeChange", (_, change) => this.#takeLong(change));
    editor.on("drop", (_, event) => this.#drop(event));
    editor.on("paste", (_, event) => this.#replaceLong(event));
    editor.on("changes", () => this.#foldWhereShort());
    parts.earlier.addEventListener("click", () => this.showFrom(Math.max(0, this.#start - PART)));
    parts.later.addEventListener("click", () => this.showFrom(this.#start + PART));
  }

  get text() {
    return this.#long ?? this.#editor.getValue();
  }

  /** What the editor shows: the index of its first character in the document. */
  get start() {
    return this.#start;
  }

  put(text) {
    // The editor reads each end of a line as a newline.
    const whole = text.includes("\r") ? text.replace(/\r\n?/g, "\n") : text;
    this.#long = isLong(whole) ? whole : null;
    this.#parts.long.hidden = this.#long === null;
    this.#editor.setOption("readOnly", this.#long !== null);
    if (this.#long === null) {
      this.#start = 0;
      this.#editor.setOption("firstLineNumber", 1);
      this.#editor.setValue(whole);
    } else {
      this.showFrom(0);
    }
  }

  /** Shows the part of a long document from an index on, and where the part begins. */
  showFrom(start) {
    if (this.#long === null || start >= this.#long.length) {
      return;
    }
    this.#start = start;
    const end = Math.min(this.#long.length, start + PART);
    this.#editor.setOption("firstLineNumber", linesBefore(this.#long, start) + 1);
    this.#editor.setValue(this.#long.slice(start, end));
    const [all, first, last] = [this.#long.length, start + 1, end].map(spelled);
    const words = `${all} characters, too many to be changed here; these are ${first} to ${last}.`;
    this.#parts.long.lastElementChild.textContent = words;
    this.#parts.earlier.disabled = start === 0;
    this.#parts.later.disabled = end === this.#long.length;
    this.partShown();
  }

  /** Brings the characters between two indexes into sight, and puts the cursor before the first. */
  reveal(start, end) {
    if (this.#long !== null && (start < this.#start || Math.min(end, start + 100) > this.#start + PART)) {
      this.showFrom(Math.max(0, start - PART / 10));
    }
    const [from, to] = [start, Math.min(end, start + PART / 2)].map((it) =>
      this.#editor.posFromIndex(it - this.#start),
    );
    this.#unfold(from);
    this.#editor.setCursor(from, null, { scroll: false });
    this.#editor.getWrapperElement().scrollIntoView({ block: "nearest" });
    this.#editor.scrollIntoView({ from, to: to.line - from.line > 10 ? from : to }, 40);
  }

  #unfold(position) {
    this.#editor.findMarksAt(position).forEach((mark) => mark.__isFold && mark.clear());
  }

  /** Takes a file in place of the document. One that can't be read, or is too large for a text, leaves it. */
  async takeFile(file) {
    let text;
    try {
      text = await file.text();
    } catch (fault) {
      this.#parts.outcome.replaceChildren(made("p", "wrong", `The file cannot be read: ${fault.message}`));
      return;
    }
    this.#replace({ document: text, byLines: LINES_FILE.test(file.name) });
  }

  /** Takes a text that is put in where it makes the document long. */
  #takeLong(change) {
    if (change.origin !== "paste") {
      return;
    }
    const added = change.text.join("\n");
    if (isLong(added) || this.#editor.getValue().length + added.length > LONGEST) {
      change.cancel();
      const whole = this.#editor.getValue();
      const [from, to] = [change.from, change.to].map((it) => this.#editor.indexFromPos(it));
      setTimeout(() => this.#replace({ document: whole.slice(0, from) + added + whole.slice(to) }));
    }
  }

  /** Takes a text that is pasted over a part of a long document, which can't be changed, in place of the whole. */
  #replaceLong(event) {
    if (this.#long !== null) {
      event.preventDefault();
      this.#replace({ document: event.clipboardData.getData("text/plain") });
    }
  }

  /** Marks each number or character that is refused, or the one before the end, of a document that is here whole. */
  #mark(refused) {
    settle(this.#editor);
    this.#marks.splice(0).forEach((mark) => mark.clear());
    for (const { line, column, number } of this.#long === null ? refused : []) {
      const characters = [...(this.#editor.getLine(line - 1) ?? "")].slice(0, column);
      const behind = characters.join("").length;
      const from = behind - (characters.at(-1) ?? "").length;
      const to = Math.max(behind, from + (number ?? "").length);
      const [start, end] = [from, to].map((ch) => ({ line: line - 1, ch }));
      this.#marks.push(this.#editor.markText(start, end, { className: "refused-here" }));
    }
  }

  #drop(event) {
    const [file] = event.dataTransfer.files;
    if (file) {
      event.preventDefault();
      this.takeFile(file);
    }
  }

  #foldWhereShort() {
    const isShort = this.#editor.lineCount() <= MOST_FOLDED;
    if (isShort !== Boolean(this.#editor.getOption("foldGutter"))) {
      this.#editor.setOption("foldGutter", isShort);
    }
  }

  /** Shows why the document is refused, or its lines, and by buttons `go` to a path in it, or reads it by lines or not. */
  show(answer, go, readByLines) {
    const { document: refused, refused: lines = [], refusedCount = 0, looksLikeLines } = answer;
    setRefused(this.#editor, Boolean(refused) || refusedCount > 0);
    this.#parts.stepping.hidden = Boolean(refused);
    this.#parts.switch.classList.toggle("offered", Boolean(looksLikeLines));
    this.#mark(refused ? [refused] : lines);
    const calls = { go, readByLines, takeDecimals: this.#takeDecimals };
    const ofDocument = refused ? documentRefusal(refused, looksLikeLines, calls) : [];
    const ofLines = refusedCount > 0 ? lineRefusals(answer, calls) : [];
    this.#parts.outcome.replaceChildren(...ofDocument, ...ofLines);
  }
}
