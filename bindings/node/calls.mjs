/** The calls and the classes of the package, of which jp.d.mts has the types. This file needs nothing of Node. */
import { answersOf, answersOfBytes, eachLineBy, engine, keptBy, linesBy, told } from "./asking.mjs";
import { ALL, KeptQuery } from "./engine.mjs";
import { DocumentError, INSPECTED, QueryError, StepsUsedUp, TooManyBytes, TooManyNodes, errorOf } from "./errors.mjs";
import { BOTH, PATHS, VALUES } from "./numbers.mjs";
import { LIMITS, NUMBERS, isExtended, mostOf, numbersOf, optionsRead, typeOf } from "./options.mjs";
import { pointerOf, stepsOf } from "./paths.mjs";
import { bytesOf } from "./texts.mjs";
import { bytesGiven, documentBytes, parsed } from "./values.mjs";

export { DocumentError, QueryError, StepsUsedUp, TooManyBytes, TooManyNodes, errorOf };

const FIRST = [0n, 1n];
// The limits that a call may have; one that gives nodes one after another counts steps alone.
const EACH_LIMIT = Object.keys(LIMITS);
const STEPS_ALONE = ["limit"];

export class Match {
  constructor(path, text) {
    this.path = path;
    this.text = text;
  }

  get value() {
    return parsed(this.text);
  }

  get steps() {
    return stepsOf(this.path);
  }

  get pointer() {
    return pointerOf(this.steps);
  }
}

// What the classes keep, for the functions below.
let ownQuestionOf;
let givenOf;

export class Query {
  #question;
  #given;

  static {
    ownQuestionOf = (query) => query.#question;
  }

  constructor(text, options) {
    const { profile, most } = optionsRead(options);
    const asked = new KeptQuery(queryBytes(text), profile);
    told(engine.keep(asked), text, profile);
    this.#question = { asked, text, most };
    this.#given = { ...options };
  }

  get text() {
    return this.#question.text;
  }

  get extended() {
    return isExtended(this.#question.asked.profile);
  }

  get numbers() {
    return numbersOf(this.#question.asked.profile);
  }

  get limit() {
    return this.#given.limit ?? undefined;
  }

  get maxNodes() {
    return this.#given.maxNodes ?? undefined;
  }

  get maxBytes() {
    return this.#given.maxBytes ?? undefined;
  }

  find(document, options) {
    return find(this, document, options);
  }

  findOne(document, options) {
    return findOne(this, document, options);
  }

  findIter(document, options) {
    return findIter(this, document, options);
  }

  values(document, options) {
    return values(this, document, options);
  }

  paths(document, options) {
    return paths(this, document, options);
  }

  exists(document, options) {
    return exists(this, document, options);
  }

  toString() {
    return this.text;
  }

  [INSPECTED]() {
    const given = JSON.stringify(this.#given, (_, value) => (typeof value === "bigint" ? Number(value) : value));
    return `Query(${JSON.stringify(this.text)}${given === "{}" ? "" : `, ${given}`})`;
  }
}

export class Document {
  #given;

  static {
    givenOf = (document) => document.#given;
  }

  constructor(document, options) {
    const { profile } = optionsRead(options, ["numbers"]);
    this.#given = keptBy(ownBytes(document), profile);
  }

  get numbers() {
    return numbersOf(this.#given.kept.profile);
  }

  find(query, options) {
    return find(query, this, options);
  }

  findOne(query, options) {
    return findOne(query, this, options);
  }

  findIter(query, options) {
    return findIter(query, this, options);
  }

  values(query, options) {
    return values(query, this, options);
  }

  paths(query, options) {
    return paths(query, this, options);
  }

  exists(query, options) {
    return exists(query, this, options);
  }
}

export function compile(query, options) {
  return new Query(query, options);
}

export const parse = compile;

export function find(query, document, options) {
  return linesOf(query, document, options, BOTH).map(matchOf);
}

export function findOne(query, document, options) {
  const [line] = linesOf(query, document, options, BOTH, FIRST);
  return line === undefined ? null : matchOf(line);
}

export function findIter(query, document, options) {
  const question = questionOfBoth(query, document, options, STEPS_ALONE);
  if (document instanceof Document) {
    return matchesOf(eachLineBy(givenOf(document), false, question, BOTH));
  }
  const { asked, text } = question;
  told(engine.check(asked.bytes, asked.profile), text, asked.profile);
  return matchesOf(eachLineBy(keptBy(ownBytes(document), asked.profile), true, question, BOTH));
}

export function findMany(queries, document, options) {
  if (typeof queries === "string" || typeof queries?.[Symbol.iterator] !== "function") {
    throw new TypeError(`queries are a list of them, and not of type ${typeOf(queries)}`);
  }
  optionsRead(options);
  // What is given may call on its own, so all of it is read first.
  const questions = Array.from(queries, (query) => questionOf(query, document, options));
  const answers =
    document instanceof Document
      ? answersOf(questions, BOTH, () => givenOf(document))
      : answersOfBytes(questions, BOTH, documentBytes(document));
  return answers.map((answer) => (Array.isArray(answer) ? answer.map(matchOf) : answer));
}

export function values(query, document, options) {
  return parsed(`[${linesOf(query, document, options, VALUES).join(",")}]`);
}

export function paths(query, document, options) {
  return linesOf(query, document, options, PATHS);
}

export function exists(query, document, options) {
  return linesOf(query, document, options, PATHS, FIRST).length > 0;
}

export function canonical(query, options) {
  const { profile } = optionsRead(options);
  return told(engine.canonical(queryBytes(query), profile), query, profile);
}

export function check(query, options) {
  const { profile } = optionsRead(options);
  told(engine.check(queryBytes(query), profile), query, profile);
}

export function version() {
  return engine.version();
}

function* matchesOf(lines) {
  for (const line of lines) {
    yield matchOf(line);
  }
}

function matchOf(line) {
  const tab = line.indexOf("\t");
  return new Match(line.slice(0, tab), line.slice(tab + 1));
}

// The text that was asked last, which is read once where it is asked again.
let lastAsked = { asked: { bytes: bytesOf("$"), profile: optionsRead().profile }, text: "$" };

/**
 * What is asked of a document: the query for the engine, its text, and the limits, of which these may be given. A text is
 * read with the numbers of a document that is kept, unless others are asked for.
 */
function questionOf(query, document, options, limits = EACH_LIMIT) {
  if (query instanceof Query) {
    const { most } = optionsRead(options, limits);
    const own = ownQuestionOf(query);
    return options === undefined ? own : { ...own, most: mostOf(most, own.most) };
  }
  const usual = document instanceof Document ? document.numbers : NUMBERS;
  const { profile, most } = optionsRead(options, ["extended", "numbers", ...limits], usual);
  if (query !== lastAsked.text || profile !== lastAsked.asked.profile) {
    lastAsked = { asked: { bytes: queryBytes(query), profile }, text: query };
  }
  return { ...lastAsked, most };
}

function questionOfBoth(query, document, options, limits = EACH_LIMIT) {
  if (isInWrongOrder(query, document)) {
    throw new TypeError("the query comes first, and the document after it");
  }
  return questionOf(query, document, options, limits);
}

function linesOf(query, document, options, form, span = ALL) {
  const question = questionOfBoth(query, document, options);
  const { asks, kept } =
    document instanceof Document ? givenOf(document) : { asks: engine, kept: documentBytes(document) };
  return linesBy(asks, question, kept, form, span);
}

/** Whether the document is a query, and the query is none. */
function isInWrongOrder(query, document) {
  const isQuery = (it) => it instanceof Query || (typeof it === "string" && it.startsWith("$"));
  return isQuery(document) && !isQuery(query);
}

/** The bytes of a document. Those that are given are copied, since they may change. */
function ownBytes(document) {
  return bytesGiven(document)?.slice() ?? documentBytes(document);
}

function queryBytes(query) {
  if (typeof query !== "string") {
    throw new TypeError(`a query is a string or a Query, and not of type ${typeOf(query)}`);
  }
  return bytesOf(query);
}
