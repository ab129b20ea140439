/** What the engine answers for a document, or for one a line, kept so that a part of it can be asked for. */
import { KeptQuery } from "../../bindings/node/engine.mjs";
import { BOTH, DOCUMENT_REFUSED, NO_MEMORY, QUERY_REFUSED } from "../../bindings/node/numbers.mjs";
import { textOf } from "../../bindings/node/texts.mjs";
import { placesOf } from "./places.mjs";

const NEWLINE = 10;
const NO_MEMORY_HERE = "The memory that this page may use did not suffice.";
// In bytes: of a number that is refused no more is told.
const LONGEST_NUMBER = 100;
const NUMBER = /^-?\d+(\.\d+)?([eE][+-]?\d+)?/;
// So many lines that are refused are told one by one.
const MOST_REFUSED = 100;

/** Why there is no text, or null: of a query with the sentence and what to try, of a document with the place too. */
export function refusal(engine, { status, kind, place, text }, query, profile, bytes) {
  // A further call writes where this one did.
  const path = status === DOCUMENT_REFUSED ? textOf(text) : "";
  switch (status) {
    case QUERY_REFUSED:
      return { query: { kind: engine.kindName(status, kind), place, ...engine.explain(query, profile) } };
    case DOCUMENT_REFUSED:
      return { document: { kind: engine.kindName(status, kind), path, ...whereRefused(engine, profile, bytes) } };
    case NO_MEMORY:
      return { fault: NO_MEMORY_HERE };
    default:
      return null;
  }
}

/** Where a document is refused and why, and the number that stands there, if any. */
function whereRefused(engine, profile, bytes) {
  const why = engine.explainDocument(bytes, profile);
  const here = String.fromCharCode(...bytes.subarray(why.offset, why.offset + LONGEST_NUMBER));
  return { ...why, number: here.match(NUMBER)?.[0] };
}

/** Where each line of bytes ends, which is before its newline. */
function endsOf(bytes) {
  const ends = [];
  for (let start = 0, end; (end = bytes.indexOf(NEWLINE, start)) >= 0; start = end + 1) {
    ends.push(end);
  }
  return ends;
}

/** The lines of nodes that the engine wrote, each with a path, a tab and a value. */
class Lines {
  constructor(bytes) {
    this.bytes = bytes;
    this.ends = endsOf(bytes);
  }

  get count() {
    return this.ends.length;
  }

  /** The path and the value of a node, by its number from 0. */
  node(number) {
    const line = textOf(this.bytes.subarray(number === 0 ? 0 : this.ends[number - 1] + 1, this.ends[number]));
    const tab = line.indexOf("\t");
    return { path: line.slice(0, tab), value: line.slice(tab + 1) };
  }
}

/** The nodes of one document. */
export class Answer {
  #text;

  constructor(bytes, text) {
    this.lines = new Lines(bytes);
    this.#text = text;
  }

  get count() {
    return this.lines.count;
  }

  node(number) {
    return this.lines.node(number);
  }

  /** Where the values of nodes stand, by their numbers. */
  places(numbers) {
    return placesOf(this.#text, numbers.map((number) => this.node(number).path));
  }
}

/** The nodes of documents of which each has a line. */
export class AnswerByLines {
  #text;
  #parts = [];
  #count = 0;
  refused = [];
  refusedCount = 0;
  /** How many lines are not blank. */
  lineCount = 0;

  constructor(text) {
    this.#text = text;
  }

  get count() {
    return this.#count;
  }

  /** Takes what the engine wrote for the document of a line, which has a number from 1 and begins at an index. */
  add(line, start, bytes) {
    const lines = new Lines(bytes);
    if (lines.count > 0) {
      this.#parts.push({ line, start, lines, first: this.#count });
      this.#count += lines.count;
    }
  }

  refuse(line, why) {
    this.refusedCount += 1;
    if (this.refused.length < MOST_REFUSED) {
      this.refused.push({ ...why, line });
    }
  }

  node(number) {
    const { line, lines, first } = this.#parts[this.#partOf(number)];
    return { line, ...lines.node(number - first) };
  }

  places(numbers) {
    const [starts, ends] = [new Uint32Array(numbers.length), new Uint32Array(numbers.length)];
    for (const [part, places] of Map.groupBy(numbers.keys(), (place) => this.#partOf(numbers[place]))) {
      const { start, lines, first } = this.#parts[part];
      const found = placesOf(this.#text, places.map((place) => lines.node(numbers[place] - first).path), start);
      places.forEach((place, index) => {
        starts[place] = found.starts[index];
        ends[place] = found.ends[index];
      });
    }
    return { starts, ends };
  }

  /** The part with a node, which is the last that begins at it or before. */
  #partOf(number) {
    let [low, high] = [0, this.#parts.length];
    while (high - low > 1) {
      const middle = (low + high) >> 1;
      [low, high] = this.#parts[middle].first <= number ? [middle, high] : [low, middle];
    }
    return low;
  }
}

/** The answer for a document, or why there is none. */
export function answerOf(engine, { bytes: query, profile }, text, bytes) {
  const outcome = engine.ask({ bytes: query, profile }, bytes, BOTH);
  const refused = refusal(engine, outcome, query, profile, bytes);
  return refused ?? { answer: new Answer(outcome.text.slice(), text) };
}

/** The answer for documents of which each has a line. Blank lines are passed over; what is refused is told. */
export function answerByLines(engine, { bytes: query, profile }, text, bytes) {
  const asked = new KeptQuery(query, profile);
  const answer = new AnswerByLines(text);
  let [from, start, line] = [0, 0, 0];
  while (from < bytes.length) {
    const newline = bytes.indexOf(NEWLINE, from);
    const own = bytes.subarray(from, newline < 0 ? bytes.length : newline);
    const end = text.indexOf("\n", start);
    line += 1;
    if (!own.every(isBlankByte)) {
      answer.lineCount += 1;
      const outcome = engine.ask(asked, own, BOTH);
      const refused = refusal(engine, outcome, query, profile, own);
      if (refused?.document) {
        answer.refuse(line, refused.document);
      } else if (refused) {
        return refused;
      } else {
        answer.add(line, start, outcome.text.slice());
      }
    }
    from += own.length + 1;
    start = end + 1;
  }
  engine.forget(asked);
  return { answer };
}

/** Whether a byte is a space, a tab or a carriage return. */
function isBlankByte(byte) {
  return byte === 32 || byte === 9 || byte === 13;
}
