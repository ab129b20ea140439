/** The worker, which asks the engine of documents, and what it is asked. */

// In milliseconds: when what is not answered is given up for another question.
const PATIENCE = 1000;

/**
 * One thing is asked of the worker at a time. Of questions only the newest waits; what took longer than our patience is
 * given up for it, with the worker. What is asked about an answer waits for its turn, and is answered by null where a
 * new question came.
 */
export class Asker {
  #module;
  #address;
  #show;
  #worker;
  #document;
  #patience;
  #atWork = null;
  #question = null;
  #others = [];

  constructor(module, address, show) {
    this.#module = module;
    this.#address = address;
    this.#show = show;
    this.#start();
  }

  #start() {
    this.#worker = new Worker(this.#address);
    this.#document = undefined;
    this.#worker.onmessage = ({ data }) => this.#answered(data);
    this.#worker.onerror = () => this.#answered({ fault: "The engine did not start." });
  }

  /** Asks a question, whose answer is shown unless another one was asked meanwhile. */
  ask(question) {
    this.#dropOthers();
    this.#question = question;
    clearTimeout(this.#patience);
    if (this.#atWork) {
      const left = this.#atWork.since + PATIENCE - performance.now();
      this.#patience = setTimeout(() => this.#giveUp(), Math.max(0, left));
    }
    this.#next();
  }

  /** What the worker answers about the last answer, or null. */
  about(kind, words = {}) {
    return new Promise((resolve) => {
      this.#others.push({ kind, words, resolve });
      this.#next();
    });
  }

  /** Asks nothing in place of what waits, and shows no answer. */
  drop() {
    this.#dropOthers();
    this.#question = null;
    clearTimeout(this.#patience);
    if (this.#atWork?.isQuestion) {
      this.#atWork.isDropped = true;
    }
  }

  /** Gives up what is at work, and asks nothing. */
  stop() {
    this.#dropOthers();
    this.#question = null;
    this.#giveUp();
  }

  /** Gives up what is at work for what waits. */
  #giveUp() {
    clearTimeout(this.#patience);
    this.#worker.terminate();
    this.#atWork?.resolve?.(null);
    this.#atWork = null;
    this.#start();
    this.#next();
  }

  #dropOthers() {
    this.#others.splice(0).forEach(({ resolve }) => resolve(null));
  }

  #next() {
    if (this.#atWork) {
      return;
    }
    const since = performance.now();
    if (this.#question) {
      const { document: text, ...words } = this.#question;
      this.#atWork = { isQuestion: true, since };
      this.#question = null;
      const isNew = text !== this.#document;
      this.#document = text;
      this.#worker.postMessage({ kind: "ask", module: this.#module, ...words, document: isNew ? text : undefined });
    } else if (this.#others.length > 0) {
      const { kind, words, resolve } = this.#others.shift();
      this.#atWork = { resolve, since };
      this.#worker.postMessage({ kind, ...words });
    }
  }

  #answered(answer) {
    const { isDropped, resolve } = this.#atWork ?? { isDropped: true };
    clearTimeout(this.#patience);
    this.#atWork = null;
    if (resolve) {
      resolve(answer?.fault ? null : answer);
    } else if (!this.#question && !isDropped) {
      this.#show(answer);
    }
    this.#next();
  }
}
