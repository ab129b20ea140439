/** The nodes of an answer: the list of them, their marks in the document, and the current one. */
import { byId, counted, spelled } from "./elements.mjs";

export class Selection {
  #asker;
  #list;
  #marks;
  #places = null;
  #current = null;
  #isOld = false;
  // Counts the answers, since what is awaited for one may come after the next.
  #turn = 0;

  constructor(asker, list, marks) {
    this.#asker = asker;
    this.#list = list;
    this.#marks = marks;
  }

  get count() {
    return this.#list.count;
  }

  /** Forgets where values stand, since the document is another one. */
  clear() {
    this.#places = this.#current = null;
    this.#marks.show(null);
  }

  /** Says whether the nodes are those of a former question: then nothing is done with them. */
  setOld(isOld) {
    this.#isOld = isOld;
    this.#allow();
  }

  /** Shows the nodes of a new answer, so many. */
  async show(count) {
    this.#places = this.#current = null;
    this.#isOld = false;
    this.#turn += 1;
    const turn = this.#turn;
    await this.#list.show(count);
    if (turn !== this.#turn) {
      return;
    }
    this.#tell();
    byId("order").disabled = false;
    if (count === 0) {
      this.#marks.show(null);
      return;
    }
    const places = await this.#asker.about("places");
    // Where a new question came there are none, and where there are too many these have no places.
    if (turn === this.#turn && places !== null) {
      this.#places = places.starts ? places : null;
      byId("order").disabled = this.#places === null;
      this.#marks.show(this.#places);
      await (byId("order").value === "document" ? this.#list.renew() : null);
    }
  }

  /** Shows the nodes in the other order. */
  async reorder() {
    this.#current = null;
    await this.#list.renew();
    this.#tell();
  }

  /** Goes to the next node, or by -1 to the previous one, and at an end to the other. */
  step(by) {
    if (this.count > 0 && !this.#isOld) {
      const from = this.#current ?? (by > 0 ? -1 : 0);
      this.goTo((from + by + this.count) % this.count);
    }
  }

  /** Makes the node at a place of the order the current one. */
  async goTo(place) {
    if (this.#isOld) {
      return;
    }
    this.#current = place;
    this.#tell();
    await this.#list.setCurrent(place);
    const found = await this.#placeOf(place);
    if (found && this.#current === place) {
      this.#marks.go(found);
    }
  }

  /** Marks the value at a path. */
  async goToPath(path) {
    const found = await this.#asker.about("place", { path });
    if (found) {
      this.#marks.go(found);
    }
  }

  async #placeOf(place) {
    if (this.#places === null) {
      return this.#asker.about("place", { number: place });
    }
    const { starts, ends, byPlace } = this.#places;
    const number = byId("order").value === "document" ? byPlace[place] : place;
    return { start: starts[number], end: ends[number] };
  }

  #tell() {
    const all = counted(this.count, "selected value", "selected values");
    const at = this.#current === null ? all : `${spelled(this.#current + 1)} of ${spelled(this.count)} selected`;
    byId("current").textContent = this.count === 0 ? "" : at;
    this.#allow();
  }

  /** Lets users go through nodes, copy and save them where there are any. */
  #allow() {
    const isOff = this.count === 0 || this.#isOld;
    [byId("previous"), byId("next"), byId("copy"), byId("save")].forEach((it) => (it.disabled = isOff));
  }
}
