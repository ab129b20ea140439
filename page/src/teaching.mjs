/** The reference beside the query: lines that put themselves in, examples, and the parts of the query at hand. */
import { settle } from "./editors.mjs";
import { byId, calmed, made, madeButton } from "./elements.mjs";
import { EXAMPLES } from "./examples.mjs";
import { partAt, partsIn } from "./explaining.mjs";
import { OneStop } from "./onestop.mjs";
import { EXTENDED_FUNCTION, FUNCTIONS, KEYS, SYNTAX } from "./reference.mjs";
import { NEW, fragmentOf } from "./cases.mjs";

// Where there is room the reference stands beside the query, and is open.
const IS_BESIDE = "(min-width: 64rem)";
// In milliseconds: how long the cursor rests before its part is told.
const REST = 250;

/** A query over a document: a link to it, which puts both in where it is followed here. */
function exampleLink({ document: text, profile = NEW.profile, numbers = NEW.numbers }, query, put) {
  const it = { ...NEW, query, document: text, profile, numbers };
  const link = made("a", "", made("code", "", query));
  link.href = fragmentOf(it);
  link.addEventListener("click", (event) => {
    if (!event.ctrlKey && !event.metaKey && !event.shiftKey) {
      event.preventDefault();
      put(it);
    }
  });
  return link;
}

function showSyntax(insert) {
  const lines = SYNTAX.map(([text, meaning, part]) =>
    made("li", "", madeButton("code link", text, () => insert(text, part)), ` ${meaning}`),
  );
  byId("syntax").querySelector("ul").replaceChildren(...lines);
}

function showFunctions(insert, put) {
  const people = EXAMPLES.find(({ title }) => title.startsWith("2.4"));
  const extended = EXAMPLES.find(({ profile }) => profile === "extended");
  const lines = [...FUNCTIONS, EXTENDED_FUNCTION].map((row) => {
    const [text, part, test, meaning, query] = row;
    const link = exampleLink(row === EXTENDED_FUNCTION ? extended : people, query, put);
    const button = madeButton("code link", text, () => insert(text, part, `[?${text}${test}]`));
    return made("li", "", button, ` ${meaning}: `, link);
  });
  byId("functions").querySelector("ul").replaceChildren(...lines);
}

function showExamples(put) {
  const sections = EXAMPLES.map((example) => {
    const links = example.queries.map((query) => made("li", "", exampleLink(example, query, put)));
    return made("section", "", made("h3", "", example.title), made("ul", "", ...links));
  });
  byId("examples").querySelector("div").replaceChildren(...sections);
}

function showKeys() {
  const rows = KEYS.flatMap(([key, does]) => [made("dt", "", made("kbd", "", key)), made("dd", "", does)]);
  byId("keys").querySelector("dl").replaceChildren(...rows);
}

/** Fills the reference. `insert` puts a text into the query, and `put` a case in place of what is here. */
export function showReference(insert, put) {
  showSyntax(insert);
  showFunctions(insert, put);
  showExamples(put);
  showKeys();
  const beside = matchMedia(IS_BESIDE);
  const open = () => (byId("reference").open = beside.matches);
  beside.addEventListener("change", open);
  open();
  byId("syntax").open = true;
  new OneStop(byId("reference"));
}

/** Tells of the part of a query at the cursor or under the mouse, and lists all. */
export class PartTeller {
  #editor;
  #line = byId("part");
  #list = byId("parts").querySelector("ol");
  #mark = null;
  #told = null;

  constructor(editor) {
    this.#editor = editor;
    const tell = calmed(() => this.#tell(partAt(editor, editor.getCursor())), REST);
    editor.on("cursorActivity", tell);
    editor.on("changes", () => this.#showList());
    byId("parts").addEventListener("toggle", () => this.#showList());
    editor.on("focus", tell);
    editor.getWrapperElement().addEventListener("mousemove", (event) => this.#tellUnder(event));
    editor.getWrapperElement().addEventListener("mouseleave", () => this.#tell(partAt(editor, editor.getCursor())));
  }

  #tellUnder({ clientX, clientY }) {
    const position = this.#editor.coordsChar({ left: clientX, top: clientY }, "window");
    const part = position.outside ? null : partAt(this.#editor, { ...position, ch: position.ch + 1 });
    if (part) {
      this.#tell(part);
    }
  }

  #tell(part) {
    const key = JSON.stringify(part);
    if (this.#told === key) {
      return;
    }
    this.#told = key;
    settle(this.#editor);
    this.#mark?.clear();
    this.#mark = null;
    this.#line.replaceChildren(...(part ? sentence(part) : []));
    if (part) {
      const [from, to] = [part.start, part.end].map((ch) => ({ line: part.line, ch }));
      this.#mark = this.#editor.markText(from, to, { className: "part" });
    }
  }

  #showList() {
    if (!byId("parts").open) {
      return;
    }
    const items = partsIn(this.#editor).map((part) => {
      const [from, to] = [part.start, part.end].map((ch) => ({ line: part.line, ch }));
      const button = madeButton("code link", part.word, () => {
        this.#editor.setSelection(from, to);
        this.#editor.focus();
      });
      button.addEventListener("focus", () => this.#tell(part));
      button.addEventListener("mouseenter", () => this.#tell(part));
      return made("li", "", button, ` ${part.sentence}`, made("span", "quiet", ` (${part.section})`));
    });
    this.#list.replaceChildren(...items);
  }
}

function sentence({ word, sentence: text, section }) {
  return [made("code", "", word), ` ${text} `, made("span", "quiet", `(RFC 9535, section ${section})`)];
}
