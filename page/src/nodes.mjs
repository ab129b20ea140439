/** The list of nodes: a window of them, each with its path above its value. */
import { counted, made, madeButton, spelled } from "./elements.mjs";
import { indented } from "./indenting.mjs";

const WINDOW = 100;
const LINES_FOLDED = 3;
const STEPS = { ArrowDown: 1, ArrowUp: -1 };

export class NodeList {
  #list;
  #windows;
  #fetch;
  #pick;
  #count = 0;
  #from = 0;
  #current = null;
  #form = "both";
  // Counts what was fetched, since it may come after what was asked for later.
  #fetches = 0;

  /** `fetch` answers the nodes between two places of the order, or null; `pick` is called with the place of a node. */
  constructor(list, windows, { fetch, pick }) {
    this.#list = list;
    this.#windows = windows;
    this.#fetch = fetch;
    this.#pick = pick;
    list.addEventListener("keydown", (event) => this.#leadOn(event));
    windows.addEventListener("click", ({ target }) => target.dataset.to && this.#turn(target.dataset.to));
  }

  get count() {
    return this.#count;
  }

  /** Shows the paths, the values or both. */
  async showForm(form) {
    this.#form = form;
    await this.#showFrom(this.#from);
  }

  /** Shows the first of so many nodes. */
  async show(count) {
    this.#count = count;
    this.#current = null;
    await this.#showFrom(0);
  }

  /** Shows the same nodes again, as in another order. */
  async renew() {
    this.#current = null;
    await this.#showFrom(this.#from);
  }

  /** Makes a node the current one, by its place, with its window. */
  async setCurrent(place) {
    this.#current = place;
    if (place < this.#from || place >= this.#from + WINDOW) {
      await this.#showFrom(place - (place % WINDOW));
    } else {
      this.#markCurrent();
    }
  }

  async #showFrom(from) {
    const to = Math.min(this.#count, from + WINDOW);
    this.#fetches += 1;
    const own = this.#fetches;
    const nodes = to > from ? await this.#fetch(from, to) : [];
    if (nodes === null || own !== this.#fetches) {
      return;
    }
    this.#from = from;
    this.#list.start = from + 1;
    this.#list.replaceChildren(...nodes.map((node, index) => this.#item(node, from + index)));
    this.#list.scrollTop = 0;
    this.#showWindows(from, to);
    this.#markCurrent();
  }

  #showWindows(from, to) {
    this.#windows.hidden = this.#count <= WINDOW;
    const [first, last, all] = [from + 1, to, this.#count].map(spelled);
    this.#windows.querySelector("span").textContent = `${first} to ${last} of ${all}`;
    for (const button of this.#windows.querySelectorAll("button")) {
      const isBack = button.dataset.to === "first" || button.dataset.to === "before";
      button.disabled = isBack ? from === 0 : to === this.#count;
    }
  }

  #turn(to) {
    const last = this.#count - 1 - ((this.#count - 1) % WINDOW);
    const places = { first: 0, before: this.#from - WINDOW, after: this.#from + WINDOW, last };
    return this.#showFrom(places[to]);
  }

  #markCurrent() {
    const items = [...this.#list.children];
    items.forEach((item) => item.removeAttribute("aria-current"));
    const current = items[this.#current === null ? -1 : this.#current - this.#from];
    current?.setAttribute("aria-current", "true");
    const reached = current ?? items[0];
    items.forEach((item) => (item.querySelector(".path").tabIndex = item === reached ? 0 : -1));
    if (current) {
      this.#bringIntoSight(current);
    }
  }

  /** Scrolls the list, where it scrolls by itself, and never the page. */
  #bringIntoSight(item) {
    const [{ top, bottom }, around] = [item, this.#list].map((it) => it.getBoundingClientRect());
    const below = Math.min(bottom - around.bottom, top - around.top);
    this.#list.scrollTop += top < around.top ? top - around.top : Math.max(0, below);
  }

  #item({ line, path, value }, place) {
    const name = this.#form === "values" ? `Node ${spelled(place + 1)}` : shortened(path);
    const button = madeButton("code link path", name, () => this.#pick(place));
    const inLine = line === undefined ? [] : [made("span", "quiet", `line ${spelled(line)}`), " "];
    return made("li", "", ...inLine, button, ...(this.#form === "paths" ? [] : valueParts(value)));
  }

  /** Goes from one node to another by keys. */
  async #leadOn(event) {
    const buttons = [...this.#list.querySelectorAll(".path")];
    const at = buttons.indexOf(event.target);
    if (at < 0 || !(event.key in STEPS || event.key === "Home" || event.key === "End") || event.altKey) {
      return;
    }
    event.preventDefault();
    const to = { Home: 0, End: buttons.length - 1 }[event.key] ?? at + STEPS[event.key];
    if (to === buttons.length && this.#from + WINDOW < this.#count) {
      await this.#turn("after");
      this.#reach(0);
    } else if (to < 0 && this.#from > 0) {
      await this.#turn("before");
      this.#reach(WINDOW - 1);
    } else {
      this.#reach(to);
    }
  }

  #reach(index) {
    const buttons = [...this.#list.querySelectorAll(".path")];
    if (buttons[index]) {
      buttons.forEach((button, place) => (button.tabIndex = place === index ? 0 : -1));
      buttons[index].focus();
    }
  }
}

function shortened({ text, left }) {
  return left === 0 ? text : `${text} …`;
}

/** A value on its lines, of which the first ones are shown where it has many. */
function valueParts({ text, left }) {
  const whole = indented(text);
  const shown = made("pre", "code value", whole);
  const rest = `and ${counted(left, "more character", "more characters")}, which Copy and Save have`;
  const more = left === 0 ? [] : [made("p", "quiet", rest)];
  const lines = whole.split("\n").length;
  if (lines <= LINES_FOLDED) {
    return [shown, ...more];
  }
  shown.classList.add("folded");
  const unfold = madeButton("link fold", `all ${spelled(lines)} lines`, () => {
    const isFolded = shown.classList.toggle("folded");
    unfold.textContent = isFolded ? `all ${spelled(lines)} lines` : `the first ${LINES_FOLDED} lines`;
    unfold.setAttribute("aria-expanded", String(!isFolded));
  });
  unfold.setAttribute("aria-expanded", "false");
  return [shown, unfold, ...more];
}
