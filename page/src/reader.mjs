/** A worker of its own that reads queries: it has no document to wait for, so each is told at once. */

/** One query is read at a time, and of those that wait only the newest. */
export class QueryReader {
  #module;
  #worker;
  #show;
  #isAtWork = false;
  #asked = null;
  #waiting = null;

  /** `show` is called with what is told of a query, and with the query, the profile and the numbers it was asked by. */
  constructor(module, address, show) {
    this.#module = module;
    this.#show = show;
    this.#worker = new Worker(address);
    this.#worker.onmessage = ({ data }) => this.#answered(data);
    this.#worker.onerror = () => this.#answered({ fault: "The engine did not start." });
  }

  read({ query, profile, numbers }) {
    this.#waiting = { query, profile, numbers };
    this.#next();
  }

  /** Reads nothing in place of what waits. */
  drop() {
    this.#waiting = null;
  }

  #next() {
    if (this.#isAtWork || this.#waiting === null) {
      return;
    }
    this.#isAtWork = true;
    this.#asked = this.#waiting;
    this.#waiting = null;
    this.#worker.postMessage({ kind: "read", module: this.#module, ...this.#asked });
  }

  #answered(told) {
    this.#isAtWork = false;
    if (this.#waiting === null) {
      this.#show(told, this.#asked);
    }
    this.#next();
  }
}
