/** The page: what is asked, and what is shown of the answers. */
import { Asker } from "./asker.mjs";
import { Before, NEW, caseIn, isSame, isSameQuery, keepInTab, keptInTab } from "./cases.mjs";
import { DocumentBox } from "./documents.mjs";
import { documentEditor, queryEditor } from "./editors.mjs";
import { byId, calmed, made } from "./elements.mjs";
import { EXAMPLES } from "./examples.mjs";
import { indented } from "./indenting.mjs";
import { engineHere, lackHere, loadEditor, loadEngine } from "./loading.mjs";
import { Marks } from "./marks.mjs";
import { NodeList } from "./nodes.mjs";
import { QueryBox } from "./queries.mjs";
import { Selection } from "./selecting.mjs";
import { QueryReader } from "./reader.mjs";
import { copyLink, copyNodes, linkHolds, saveNodes } from "./sharing.mjs";
import { PartTeller, showReference } from "./teaching.mjs";
import { countTold, tell } from "./telling.mjs";

// In milliseconds: how long the page rests after a key before it asks, and before it keeps what is typed; and when a
// question that is not answered shows.
const REST_TO_ASK = 100;
const REST_TO_KEEP = 500;
const NOTICE = 300;
// In lines: of no longer document all is drawn to be printed.
const MOST_PRINTED = 5000;
const [FIRST] = EXAMPLES;
const FIRST_CASE = { ...NEW, query: FIRST.queries[0], document: FIRST.document };
// What is chosen of these stands with a query and a document.
const CHOICES = ["profile", "numbers"];

function chosen(name) {
  return document.querySelector(`input[name="${name}"]:checked`).value;
}

function choose(name, value) {
  const input = document.querySelector(`input[name="${name}"][value="${value}"]`);
  input.checked = true;
  return input;
}

/** The page while the engine runs. */
class Page {
  #reader;
  #asker;
  #query;
  #document;
  #drawn;
  #selection;
  #list;
  #before = new Before();
  #noticed;
  #asked = null;
  // What was told of the query that was read last.
  #read = null;
  #isAsking = false;
  #isChanged = false;
  #askSoon = calmed(() => this.#askIfNew(), REST_TO_ASK);
  #keepSoon = calmed(() => keepInTab(this.#case()), REST_TO_KEEP);

  constructor(module) {
    const source = new Blob([byId("worker").textContent], { type: "text/javascript" });
    const worker = URL.createObjectURL(source);
    this.#reader = new QueryReader(module, worker, (told, by) => this.#showRead(told, by));
    this.#asker = new Asker(module, worker, (answer) => this.#show(answer));
    const typed = queryEditor(() => this.#run());
    this.#drawn = documentEditor();
    const takeDecimals = () => this.#takeDecimals();
    this.#query = new QueryBox(typed, byId("query-outcome"), byId("query-patterns"), takeDecimals);
    const [long, earlier, later, stepping] = ["long", "earlier", "later", "stepping"].map(byId);
    const [outcome, lines] = ["document-outcome", "lines"].map(byId);
    const parts = { long, earlier, later, stepping, outcome, switch: lines.parentElement };
    this.#document = new DocumentBox(this.#drawn, parts, (it) => this.#replace(it), takeDecimals);
    this.#list = new NodeList(byId("nodes"), byId("windows"), {
      fetch: (from, to) => this.#asker.about("nodes", { from, to, order: byId("order").value }),
      pick: (place) => this.#selection.goTo(place),
    });
    this.#selection = new Selection(this.#asker, this.#list, new Marks(this.#drawn, this.#document));
    new PartTeller(typed);
    showReference((...words) => this.#query.insert(...words), (it) => this.#replace(it, true));
    this.#begin();
    for (const editor of [typed, this.#drawn]) {
      editor.on("changes", () => this.#changed());
    }
    this.#listen();
  }

  /** Takes the case that the tab has kept, or else that of the address, or else the first example. */
  #begin() {
    const given = keptInTab() ?? caseIn(location.hash);
    const isExample = given === null;
    const it = { ...FIRST_CASE, ...given, document: given?.document ?? (isExample ? FIRST_CASE.document : "") };
    if (isExample) {
      this.#before.replace({ query: "", document: "" }, it, true);
    }
    this.#put(it);
    this.#ask();
  }

  #case() {
    const { text } = this.#document;
    const choices = Object.fromEntries(CHOICES.map((name) => [name, chosen(name)]));
    return { query: this.#query.text, document: text, ...choices, byLines: byId("lines").checked };
  }

  #put({ query, document: text, byLines, ...choices }) {
    this.#query.put(query);
    this.#read = null;
    this.#selection.clear();
    this.#document.put(text);
    CHOICES.forEach((name) => choose(name, choices[name]));
    byId("lines").checked = byLines;
    byId("back").disabled = this.#before.isEmpty;
  }

  /** Puts something in place of what is here, which can be brought back. */
  #replace(it, isExample = false) {
    const now = this.#case();
    const next = { ...now, ...it };
    this.#before.replace(now, next, isExample);
    this.#put(next);
    if (isExample) {
      byId("query-name").scrollIntoView({ block: "nearest" });
    }
    tell(this.#before.isEmpty ? "" : "What was here can be brought back.");
    this.#ask();
    this.#keepSoon();
  }

  #bringBack() {
    this.#put(this.#before.bringBack(this.#case()));
    tell("Brought back.");
    this.#ask();
    this.#keepSoon();
  }

  /** Chooses decimals, where a number is refused since it is not whole. */
  #takeDecimals() {
    choose("numbers", "decimal").focus();
    this.#changed();
  }

  #changed() {
    this.#isChanged = true;
    this.#setBusy(true);
    this.#askSoon();
    this.#keepSoon();
  }

  /** Asks at once, without the blank space at the query's ends. */
  #run() {
    this.#query.trim();
    this.#ask();
  }

  /** Asks unless it was asked already. */
  #askIfNew() {
    this.#isChanged = false;
    if (this.#asked === null || !isSame(this.#asked, this.#case())) {
      this.#ask();
    } else {
      this.#setBusy(this.#isAsking);
    }
  }

  /** Says whether the nodes are old, since another answer is awaited. */
  #setBusy(isBusy) {
    byId("nodes").setAttribute("aria-busy", String(isBusy));
    this.#selection.setOld(isBusy);
  }

  /** Asks for what the page holds now: what the query is, and then its nodes. */
  #ask() {
    const it = this.#case();
    this.#asked = it;
    byId("link-holds").textContent = linkHolds(it);
    if (it.query === "") {
      this.#reader.drop();
      this.#read = null;
      this.#query.showExample(FIRST_CASE.query);
      this.#endWithout({});
      return;
    }
    clearTimeout(this.#noticed);
    this.#setBusy(true);
    this.#isAsking = true;
    this.#noticed = setTimeout(() => this.#showWorking(), NOTICE);
    if (this.#read !== null && isSameQuery(this.#read, it)) {
      this.#goOn(this.#read.told);
    } else {
      this.#reader.read(it);
    }
  }

  /** Shows what is told of a query, unless another one is asked now, and asks for its nodes unless it was stopped. */
  #showRead(told, by) {
    if (!isSameQuery(this.#asked ?? this.#case(), by)) {
      return;
    }
    this.#read = { ...by, told };
    this.#query.show(told);
    byId("version").textContent = told.version ? ` ${told.version}` : "";
    if (this.#asked !== null) {
      this.#goOn(told);
    }
  }

  #goOn(told) {
    if (told.canonical === undefined) {
      this.#endWithout(told);
    } else {
      this.#asker.ask(this.#asked);
    }
  }

  /** Says that the question is at work, and takes the former answer away. */
  #showWorking() {
    byId("count").replaceChildren(made("span", "working", "Working …"));
    byId("stop").disabled = false;
    this.#document.show({});
    this.#selection.show(0);
  }

  #stop() {
    if (!byId("stop").disabled) {
      this.#asker.stop();
      this.#asked = null;
      this.#document.show({});
      this.#end({});
      byId("count").textContent = "Stopped.";
    }
  }

  #show(answer) {
    const readByLines = (byLines) => {
      byId("lines").checked = byLines;
      byId("lines").focus();
      this.#changed();
    };
    this.#document.show(answer, (path) => this.#selection.goToPath(path), readByLines);
    this.#end(answer);
  }

  /** Ends where there is no query to be asked, or one that is refused. */
  #endWithout(told) {
    this.#asker.drop();
    this.#document.show({});
    this.#end(told);
  }

  /** Shows the nodes of an answer, or that there are none. */
  async #end(answer) {
    clearTimeout(this.#noticed);
    byId("stop").disabled = true;
    byId("count").textContent = countTold(answer);
    const asked = this.#asked;
    await this.#selection.show(answer.count ?? 0);
    if (this.#asked === asked) {
      this.#isAsking = false;
      this.#setBusy(this.#isChanged);
    }
  }

  /** Copies or saves the nodes, in the order, the format and the form that are chosen. */
  async #writeOut(write) {
    const [order, format, form] = ["order", "format", "form"].map((it) => byId(it).value);
    const blob = await this.#asker.about("written", { order, format, form });
    tell(blob === null ? "" : await write(blob, format));
  }

  async #openFile(input) {
    const [file] = input.files;
    if (file) {
      await this.#document.takeFile(file);
      input.value = "";
    }
  }

  #skipToDocument(event) {
    event.preventDefault();
    this.#drawn.focus();
    byId("document-name").scrollIntoView({ block: "nearest" });
    byId("document").scrollIntoView({ block: "nearest" });
  }

  #indent() {
    try {
      JSON.parse(this.#document.text);
    } catch {
      tell("What is no JSON document stays as it is.");
      return;
    }
    this.#replace({ document: indented(this.#document.text) });
  }

  #listen() {
    const presses = {
      stop: () => this.#stop(),
      skip: (event) => this.#skipToDocument(event),
      link: async () => tell(await copyLink(this.#case())),
      back: () => this.#bringBack(),
      indent: () => this.#indent(),
      empty: () => this.#replace({ document: "" }),
      previous: () => this.#selection.step(-1),
      next: () => this.#selection.step(1),
      copy: () => this.#writeOut((blob) => copyNodes(blob, this.#selection.count)),
      save: () => this.#writeOut(saveNodes),
    };
    Object.entries(presses).forEach(([id, press]) => byId(id).addEventListener("click", press));
    const changes = {
      lines: () => this.#changed(),
      order: () => this.#selection.reorder(),
      form: ({ target }) => this.#list.showForm(target.value),
      file: ({ target }) => this.#openFile(target),
    };
    Object.entries(changes).forEach(([id, change]) => byId(id).addEventListener("change", change));
    for (const input of document.querySelectorAll("fieldset input")) {
      input.addEventListener("change", () => this.#changed());
    }
    addEventListener("keydown", (event) => this.#key(event), true);
    addEventListener("hashchange", () => this.#follow());
    addEventListener("pagehide", () => keepInTab(this.#case()));
    addEventListener("beforeprint", () => this.#drawAll());
    addEventListener("afterprint", () => this.#drawn.setOption("viewportMargin", 10));
  }

  /** Keys that are taken anywhere on the page, but for lists of choices, which open by them. */
  #key(event) {
    const step = { ArrowDown: 1, ArrowUp: -1 }[event.key];
    if (event.key === "Escape") {
      this.#stop();
    } else if (step && event.altKey && !event.ctrlKey && event.target.localName !== "select") {
      event.preventDefault();
      event.stopPropagation();
      this.#selection.step(step);
    }
  }

  /** Takes a case that was put into the address. */
  #follow() {
    const given = caseIn(location.hash);
    if (given) {
      this.#replace({ ...given, document: given.document ?? this.#document.text });
    }
  }

  #drawAll() {
    if (this.#drawn.lineCount() <= MOST_PRINTED) {
      this.#drawn.setOption("viewportMargin", Infinity);
    }
  }
}

async function start() {
  const engine = engineHere();
  if (engine === null) {
    byId("query-outcome").replaceChildren(made("p", "wrong", lackHere()));
    return;
  }
  try {
    const [module] = await Promise.all([loadEngine(engine), loadEditor()]);
    new Page(module);
  } catch (fault) {
    byId("query-outcome").replaceChildren(made("p", "wrong", `This browser cannot run the page: ${fault.message}`));
  }
}

start();
