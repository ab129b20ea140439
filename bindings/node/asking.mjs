/**
 * What the engines are asked, in lines of text, or the errors that outcomes stand for. This file needs nothing of
 * Node.
 */
import { ALL, Engine, KeptDocument, UNLIMITED } from "./engine.mjs";
import { BeyondLimit, DocumentError, QueryError, StepsUsedUp, TooManyBytes, TooManyNodes } from "./errors.mjs";
import { NO_MEMORY_TEXT } from "./instance.mjs";
import {
  DOCUMENT_REFUSED, DONE, NO_MEMORY, OTHER_NUMBERS, QUERY_REFUSED, STEPS_USED_UP, TOO_MANY_BYTES, TOO_MANY_NODES,
} from "./numbers.mjs";
import { numbersOf } from "./options.mjs";
import { Cursor } from "./pages.mjs";
import { bytesOf, textOf } from "./texts.mjs";

// A document of more bytes has an engine of its own, and so memory that goes with it.
const SMALL = 1 << 16;

let compiled;

/** The engine that is asked of documents that are not kept, and keeps small ones. */
export let engine;

/** Has engines be instances of this module, before anything is asked. */
export function start(module) {
  compiled = module;
  engine = new Engine(module);
}

/** What the engine `asks` keeps as `kept`, the document that these bytes are with the numbers of a profile. */
export function keptBy(bytes, profile) {
  const kept = new KeptDocument(bytes, profile);
  const asks = bytes.length > SMALL ? new Engine(compiled) : engine;
  told(asks.keep(kept), null, profile, bytes);
  return { asks, kept };
}

/** The lines of what an engine is asked of bytes, or of a document that it keeps. */
export function linesBy(asks, { asked, text, most }, document, form, span) {
  return linesOf(asks.ask(asked, document, form, span, most), { asked, text, most }, document);
}

/** The lines of a question, looked for page by page, by its limit of steps. What `isOwn` is forgotten at the end. */
export function* eachLineBy({ asks, kept }, isOwn, question, form) {
  try {
    const cursor = new Cursor(question.most.steps);
    while (!cursor.isLast) {
      yield* nextPage(cursor, asks, kept, question, form);
    }
  } finally {
    if (isOwn) {
      asks.forget(kept);
    }
  }
}

function nextPage(cursor, asks, kept, question, form) {
  for (let run = cursor.nextRun(); run !== null; run = cursor.nextRun()) {
    const most = { ...UNLIMITED, steps: run.limit };
    const outcome = asks.ask(question.asked, kept, form, [cursor.given, run.count], most);
    const lines = outcome.status === STEPS_USED_UP ? [] : linesOf(outcome, question);
    cursor.note(run, outcome, lines.length);
    if (outcome.status === DONE) {
      return lines;
    }
  }
  throw new StepsUsedUp(question.most.steps, question.text);
}

function linesOf(outcome, { asked, text, most }, document) {
  // Each line ends with a newline, which no path and no value has inside.
  return told(outcome, text, asked.profile, document, most).split("\n").slice(0, -1);
}

/** The lines of each question, or its error, where `given` tells who keeps the document for a profile. */
export function answersOf(questions, form, given) {
  return questions.map((question) => {
    try {
      const { asked, text } = question;
      // A document that only refused queries are asked of is not read.
      told(engine.check(asked.bytes, asked.profile), text, asked.profile);
      const { asks, kept } = given(asked.profile);
      return linesBy(asks, question, kept, form, ALL);
    } catch (fault) {
      if (fault instanceof QueryError || fault instanceof BeyondLimit) return fault;
      throw fault;
    }
  });
}

/** The same of a document that is read once with the numbers of each question, and not kept. */
export function answersOfBytes(questions, form, bytes) {
  const read = new Map();
  const given = (profile) => {
    const numbers = numbersOf(profile);
    if (!read.has(numbers)) {
      read.set(numbers, keptBy(bytes, profile));
    }
    return read.get(numbers);
  };
  try {
    return answersOf(questions, form, given);
  } finally {
    read.forEach(({ asks, kept }) => asks.forget(kept));
  }
}

/**
 * The text of an outcome, or the error that it stands for: of a query, of a document if one was read, and of limits if
 * there were some.
 */
export function told({ status, kind, place, steps, text: written }, query, profile, document, most = UNLIMITED) {
  // Further calls write where this one did.
  const text = textOf(written);
  switch (status) {
    case DONE:
      return text;
    case QUERY_REFUSED:
      throw new QueryError(engine.kindName(status, kind), place, query, engine.explain(bytesOf(query), profile));
    case DOCUMENT_REFUSED:
      throw new DocumentError(engine.kindName(status, kind), text || null, whyRefused(document, profile));
    case OTHER_NUMBERS:
      throw new RangeError(otherNumbers(profile));
    case NO_MEMORY:
      throw new RangeError(NO_MEMORY_TEXT);
    case STEPS_USED_UP:
      throw new StepsUsedUp(steps, query);
    case TOO_MANY_NODES:
      throw new TooManyNodes(most.nodes, query);
    case TOO_MANY_BYTES:
      throw new TooManyBytes(most.bytes, query);
    default:
      throw new Error(`the engine gives the status ${status}`);
  }
}

const BY_LINES =
  "Where each line is a document (JSON Lines), ask one after another: for await (const line of readline) query.find(line)";

/** That a query of a profile is asked of a document that is kept with other numbers, and what to do. */
function otherNumbers(profile) {
  const query = numbersOf(profile);
  const document = query === "whole" ? "decimal" : "whole";
  return `the document is kept with numbers "${document}", and the query has numbers "${query}": give both the same`;
}

/** Why the bytes are no document, where, and what to do where they look like JSON Lines. */
function whyRefused(bytes, profile) {
  const why = engine.explainDocument(bytes, profile);
  const isOfLines = why.reason === "AfterValue" && /^\s*\S[^\n]*\n[ \t\r\n]*$/.test(textOf(bytes.slice(0, why.offset)));
  return { ...why, suggestion: isOfLines ? BY_LINES : null };
}
