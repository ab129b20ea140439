/** Asks the engine, away from the page, which so never waits for an answer. */
import { Engine } from "../../bindings/node/engine.mjs";
import { DECIMAL, EXTENDED, EXTENDED_DECIMAL, STANDARD } from "../../bindings/node/numbers.mjs";
import { bytesOf, textOf } from "../../bindings/node/texts.mjs";
import { answerByLines, answerOf, refusal } from "./answers.mjs";
import { written } from "./formats.mjs";
import { isWhole, looksLikeLines } from "./lines.mjs";
import { toldOfPatterns } from "./patterns.mjs";
import { placesOf } from "./places.mjs";

// By the numbers that queries and documents have.
const PROFILES = {
  decimal: { standard: DECIMAL, extended: EXTENDED_DECIMAL },
  whole: { standard: STANDARD, extended: EXTENDED },
};
// In characters: what is shown of a path and of a value.
const LONGEST_TEXT = 10_000;
// Of more nodes only those that are looked at are placed.
const MOST_PLACED = 300_000;
// In milliseconds: a call that took less is made again, since the first one of a kind is also compiled.
const SHORT = 100;

let engine;
let text = "";
let bytes = new Uint8Array();
// The answer that was given last, and the numbers of its nodes in the document's order once they are placed.
let answer = null;
let byPlace = null;

/** The start of a text, and how many of its characters are left out. */
function cut(whole) {
  return { text: whole.slice(0, LONGEST_TEXT), left: Math.max(0, whole.length - LONGEST_TEXT) };
}

/** What a call answers, and how many milliseconds it took. */
function timed(call) {
  const start = performance.now();
  const answered = call();
  return { answered, time: performance.now() - start };
}

/** The canonical text of a query, or why it is refused. */
function checked({ bytes: query, profile }) {
  const outcome = engine.canonical(query, profile);
  const canonical = textOf(outcome.text);
  const version = engine.version();
  return { ...(refusal(engine, outcome, query, profile) ?? { canonical }), version };
}

/** What is told of a query before it is asked of any document. */
function read({ module, query, profile: name, numbers }) {
  engine ??= new Engine(module);
  const profile = PROFILES[numbers][name];
  const told = checked({ bytes: bytesOf(query), profile });
  return told.canonical === undefined ? told : { ...told, ...toldOfPatterns(engine, query, profile) };
}

/** The canonical text, and the nodes with the time that they took, or why there are none. */
function ask({ module, document: other, byLines, query, profile: name, numbers }) {
  engine ??= new Engine(module);
  if (other !== undefined) {
    text = other;
    bytes = bytesOf(other);
  }
  answer = byPlace = null;
  const asked = { bytes: bytesOf(query), profile: PROFILES[numbers][name] };
  const told = checked(asked);
  if (told.canonical === undefined) {
    return told;
  }
  return isBlank(text) ? { ...told, isWithoutDocument: true } : { ...told, ...evaluated(asked, byLines) };
}

/** Whether a text has nothing but what JSON takes for blank. */
function isBlank(it) {
  return /^[ \t\n\r]*$/.test(it.slice(0, 1000)) && /^[ \t\n\r]*$/.test(it);
}

function evaluated(asked, byLines) {
  const evaluate = () => (byLines ? answerByLines : answerOf)(engine, asked, text, bytes);
  const first = timed(evaluate);
  const { answered, time } = first.time < SHORT ? timed(evaluate) : first;
  if (!answered.answer) {
    return { ...answered, looksLikeLines: answered.document !== undefined && looksLikeLines(text) };
  }
  answer = answered.answer;
  const { count, refused = [], refusedCount = 0, lineCount } = answer;
  return { count, time, refused, refusedCount, lineCount, isWhole: refusedCount > 0 && isWhole(text) };
}

/** The numbers of nodes in an order, from one place of it to another. */
function numbersOf(order, from, to) {
  return Array.from({ length: to - from }, (_, place) => numberAt(order, from + place));
}

function numberAt(order, place) {
  return order === "document" && byPlace ? byPlace[place] : place;
}

function nodes({ order, from, to }) {
  const numbers = numbersOf(order, from, to);
  return numbers.map((number) => {
    const { line, path, value } = answer.node(number);
    return { number, line, path: cut(path), value: cut(value) };
  });
}

/** Where all values stand, and the numbers of the nodes as their values begin, outer ones first; none of too many. */
function places() {
  if (answer.count > MOST_PLACED) {
    return {};
  }
  const found = answer.places(numbersOf("nodelist", 0, answer.count));
  const { starts, ends } = found;
  const compare = (one, other) => starts[one] - starts[other] || ends[other] - ends[one] || one - other;
  byPlace = Uint32Array.from(starts.keys()).sort(compare);
  return { ...found, byPlace };
}

/** Where the value of a node stands, by its number, or the value at a path. */
function place({ number, path }) {
  const { starts, ends } = path === undefined ? answer.places([number]) : placesOf(text, [path]);
  return { start: starts[0], end: ends[0] };
}

/** The order in which a form of copy has the nodes. */
function* numbersIn(order) {
  for (let place = 0; place < answer.count; place += 1) {
    yield numberAt(order, place);
  }
}

const CALLS = {
  read,
  ask,
  nodes,
  places,
  place,
  written: ({ order, format, form }) => written(answer, numbersIn(order), format, form),
};

/** Answers a question, or what is asked about the answer that was given last. */
onmessage = ({ data: { kind, ...words } }) => {
  try {
    postMessage(CALLS[kind](words));
  } catch (fault) {
    postMessage({ fault: `The engine did not answer: ${fault.message}` });
  }
};
