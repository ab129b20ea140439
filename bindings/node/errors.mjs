/**
 * What is thrown where there is no answer. Copies of errors, as structuredClone and postMessage make them, have a name,
 * a message and a cause alone: so the cause of each has all that it tells. This file needs nothing of Node.
 */
import { indexAt } from "./texts.mjs";

/** The name of the method by which Node's console.log shows an object. */
export const INSPECTED = Symbol.for("nodejs.util.inspect.custom");

class Refusal extends Error {
  constructor(message, told) {
    super(message, { cause: told });
    Object.assign(this, told);
  }

  [INSPECTED]() {
    // Without the cause, which tells the same once more.
    return this.stack;
  }
}

export class QueryError extends Refusal {
  constructor(kind, place, query, { sentence = null, suggestion = null } = {}) {
    const column = indexAt(query, place);
    const line = query.replace(/[\n\t\r]/g, " ");
    const before = " ".repeat([...query.slice(0, column)].length);
    const why = lines([sentence, suggestion && `Try: ${suggestion}`]);
    const message = `query refused: ${kind} at ${place}\n${line}\n${before}^${why}`;
    super(message, { name: "QueryError", kind, place, column, query, sentence, suggestion });
  }
}

export class DocumentError extends Refusal {
  constructor(kind, path = null, why = {}) {
    const { offset = null, line = null, column = null, reason = null, sentence = null, suggestion = null } = why;
    const at = path === null ? "" : ` at ${path}`;
    const place = line === null ? "" : `line ${line}, column ${column}: `;
    const message = `document refused: ${kind}${at}${lines([sentence && `${place}${sentence}`, suggestion])}`;
    super(message, { name: "DocumentError", kind, path, offset, line, column, reason, sentence, suggestion });
  }
}

/** The texts that there are, each in a line of its own. */
function lines(texts) {
  return texts.map((text) => (text === null ? "" : `\n${text}`)).join("");
}

/** A query that goes beyond a limit. */
export class BeyondLimit extends Refusal {
  constructor(name, message, limit, query) {
    super(message, { name, limit, query });
  }
}

export class StepsUsedUp extends BeyondLimit {
  constructor(limit, query) {
    super("StepsUsedUp", `steps used up: the query needs more than ${limit}`, limit, query);
  }
}

export class TooManyNodes extends BeyondLimit {
  constructor(limit, query) {
    super("TooManyNodes", `too many nodes: the query selects more than ${limit}`, limit, query);
  }
}

export class TooManyBytes extends BeyondLimit {
  constructor(limit, query) {
    super("TooManyBytes", `too many bytes: the answer has more than ${limit}`, limit, query);
  }
}

const LIMITS = { StepsUsedUp, TooManyNodes, TooManyBytes };

/** The error of this package that a copy was made of; anything else as it is. */
export function errorOf(copy) {
  const told = copy?.cause;
  if (copy instanceof Refusal) {
    return copy;
  }
  switch (told?.name) {
    case "QueryError":
      return new QueryError(told.kind, told.place, told.query, told);
    case "DocumentError":
      return new DocumentError(told.kind, told.path, told);
    default:
      return Object.hasOwn(LIMITS, told?.name ?? "") ? new LIMITS[told.name](told.limit, told.query) : copy;
  }
}
