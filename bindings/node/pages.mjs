/** How the nodes of a document are asked for page by page. This file needs nothing of Node. */
import { DONE, NO_LIMIT } from "./numbers.mjs";

// More steps than any evaluation makes.
const MOST = 2n ** 64n - 1n;

/** Where someone stands among nodes, and what their pages took: the rule of bindings/c/cursor.c, which says why. */
export class Cursor {
  #most;
  #steps = 0n;
  #known = 0n;
  #page = 0n;

  constructor(limit = NO_LIMIT) {
    this.given = 0n;
    this.isLast = false;
    this.#most = limit === NO_LIMIT ? MOST : limit;
  }

  /** How many nodes the next evaluation is asked for, 0 for all, and in how many steps; null where none is left. */
  nextRun() {
    const left = smaller(2n * this.#known - this.#steps, this.#most);
    if (this.#steps === 0n) {
      return { count: this.given + 1n, limit: this.#most };
    }
    if (left > this.#page) {
      return { count: this.given + 1n, limit: left };
    }
    return this.#known < this.#most ? { count: 0n, limit: smaller(4n * this.#steps, this.#most) } : null;
  }

  /** Notes what an evaluation made, which gave a page of so many nodes or used up its steps. */
  note({ count }, { status, steps }, nodes) {
    this.#known = steps > this.#known ? steps : this.#known;
    this.#steps = smaller(this.#steps + steps, 2n * this.#known);
    if (status === DONE || count > 0n) {
      this.#page = steps;
    }
    if (status === DONE) {
      this.given += BigInt(nodes);
      // A page of all nodes, or with fewer than were asked for, is the last.
      this.isLast = count === 0n || BigInt(nodes) < count;
    }
  }
}

function smaller(one, other) {
  return one < other ? one : other;
}
