/** What Tab passes in one step, and arrows go through: of all buttons, links and summaries in it one takes the focus. */

const TAKES_FOCUS = "summary, button, a[href]";
const WAYS = { ArrowDown: 1, ArrowUp: -1 };

export class OneStop {
  #around;
  #current = null;

  constructor(around) {
    this.#around = around;
    around.addEventListener("focusin", ({ target }) => this.#take(target.closest(TAKES_FOCUS) ?? this.#current));
    around.addEventListener("keydown", (event) => this.#leadOn(event));
    // Where a part opens or closes, what stood there comes or goes.
    around.addEventListener("toggle", () => this.renew(), true);
    new MutationObserver(() => this.renew()).observe(around, { childList: true, subtree: true });
    this.renew();
  }

  /** Takes what is in sight now: the one that had the focus last, or else the first. */
  renew() {
    const all = this.#inSight();
    this.#take(all.includes(this.#current) ? this.#current : (all[0] ?? null));
  }

  #all() {
    return [...this.#around.querySelectorAll(TAKES_FOCUS)];
  }

  #inSight() {
    return this.#all().filter((it) => it.checkVisibility());
  }

  #take(element) {
    this.#current = element;
    this.#all().forEach((it) => (it.tabIndex = it === element ? 0 : -1));
  }

  #leadOn(event) {
    const all = this.#inSight();
    const at = all.indexOf(event.target);
    const to = { Home: 0, End: all.length - 1 }[event.key] ?? at + WAYS[event.key];
    if (at >= 0 && all[to] && !event.altKey && !event.ctrlKey && !event.metaKey) {
      event.preventDefault();
      all[to].focus();
    }
  }
}
