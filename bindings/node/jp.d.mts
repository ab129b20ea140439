/** JSONPath queries (RFC 9535) over JSON documents, by the proved engine jp. */

/**
 * A document that is kept, JSON text, as a string or as bytes, or any other value, which `JSON.stringify` writes
 * first; a BigInt in it is a whole number, and a fraction the decimal that is written. A string is JSON text: the JSON text of the string `a` is `'"a"'`. What
 * JSON has not, as a Map, a function or NaN, is refused, and so is a Number that is whole and no safe integer, in whose
 * place a BigInt is given. What is `unknown` to TypeScript may be given: whether it is a document is seen when it is read.
 */
export type DocumentLike<T = unknown> = T extends symbol | undefined | ((...words: never) => unknown) ? never : T;

/**
 * A JSON value. A number is the Number that has its text, as 8.95 and 6.02e+23; but of whole ones without an exponent
 * only safe integers are Numbers. Any other whole one is a BigInt, and what is left, as 0.10000000000000000001 or a whole
 * number of more than 1,000 digits, is its exact text. `Match.text` always has the exact text.
 */
export type Value = string | number | bigint | boolean | null | Value[] | { [name: string]: Value };

/** The limit of what gives nodes one after another. */
export interface StepLimit {
  /**
   * The most steps that a query may make over the document, from 1 to 2^64 - 1; one that needs more throws
   * `StepsUsedUp`. Without it there is no limit. What is only parsed, checked or made canonical makes no steps.
   */
  limit?: number | bigint | null;
}

/** What a call may do and give at most, from 1 to 2^64 - 1 of each. */
export interface Limit extends StepLimit {
  /** The most nodes; where there are more `TooManyNodes` is thrown. */
  maxNodes?: number | bigint | null;
  /**
   * The most bytes of the answer, else `TooManyBytes` is thrown. It has a line for each node: the path, a tab and the
   * value, or one of these alone, in UTF-8 with a newline; of `exists` the path.
   */
  maxBytes?: number | bigint | null;
}

/**
 * Which numbers queries and documents have: exact decimals of at most 38 digits, which is what they have if nothing is
 * said, or whole numbers of 64 bits alone, where a fraction anywhere in a document is refused.
 */
export type Numbers = "decimal" | "whole";

/** What may be said beside a document that is kept. */
export interface DocumentOptions {
  numbers?: Numbers;
}

/** What may be said beside a query. Of a `Query` only limits. Another name is refused. */
export interface Options extends Limit {
  /** Which numbers the query has, and the document that it is asked of; else those of a `Document`, or decimals. */
  numbers?: Numbers;
  /** Lets a query call `distinct`, which RFC 9535 does not have. */
  extended?: boolean;
}

/** The same where nodes are given one after another. */
export type StepOptions = Omit<Options, "maxNodes" | "maxBytes">;

/** A node that a query selects. */
export class Match {
  constructor(path: string, text: string);
  /** Its normalized path (RFC 9535, section 2.7). */
  readonly path: string;
  /** The names and indexes of its path, from the document's root on, made anew each time. */
  get steps(): (string | number)[];
  /** The JSON Pointer (RFC 6901) to it, made anew each time. */
  get pointer(): string;
  /** Its value as compact JSON. */
  readonly text: string;
  /** Its value, made anew each time. */
  get value(): Value;
}

/**
 * A query that is accepted. It is read once, and asked of any number of documents. Its calls are those below; a limit
 * of theirs goes before its own of that kind.
 */
export class Query {
  constructor(text: string, options?: Options);
  readonly text: string;
  readonly extended: boolean;
  readonly numbers: Numbers;
  readonly limit: number | bigint | undefined;
  readonly maxNodes: number | bigint | undefined;
  readonly maxBytes: number | bigint | undefined;
  find<T>(document: DocumentLike<T>, options?: Limit): Match[];
  findOne<T>(document: DocumentLike<T>, options?: Limit): Match | null;
  findIter<T>(document: DocumentLike<T>, options?: StepLimit): Generator<Match, void, undefined>;
  values<T>(document: DocumentLike<T>, options?: Limit): Value[];
  paths<T>(document: DocumentLike<T>, options?: Limit): string[];
  exists<T>(document: DocumentLike<T>, options?: Limit): boolean;
  toString(): string;
}

/**
 * A document that is read once, and asked by any number of queries with its numbers. What it was made of may change
 * afterwards. Its calls are those below; a query with other numbers throws `RangeError`. Throws `DocumentError` where it is
 * refused.
 */
export class Document {
  constructor(document: unknown, options?: DocumentOptions);
  readonly numbers: Numbers;
  find(query: string | Query, options?: Options): Match[];
  findOne(query: string | Query, options?: Options): Match | null;
  findIter(query: string | Query, options?: StepOptions): Generator<Match, void, undefined>;
  values(query: string | Query, options?: Options): Value[];
  paths(query: string | Query, options?: Options): string[];
  exists(query: string | Query, options?: Options): boolean;
}

/**
 * A query that is refused. Its message shows the query with a caret, the sentence and the suggestion. All that an error
 * tells is in its `cause` too, by the same names and with its `name`, of which copies are made with it.
 */
export class QueryError extends Error {
  readonly name: "QueryError";
  readonly kind:
    | "Syntax"
    | "TooDeep"
    | "NotWhole"
    | "NumberRange"
    | "IndexRange"
    | "UnknownFunction"
    | "ArgumentCount"
    | "NotSingular"
    | "IllTyped";
  /** The byte of the query, in UTF-8, where it goes wrong, from 0. */
  readonly place: number;
  /** The same as an index of `query`. */
  readonly column: number;
  readonly query: string;
  /** Why it is refused, in words; null of a query with half of a surrogate pair. */
  readonly sentence: string | null;
  /** A query that is accepted, where it is plain what was meant. */
  readonly suggestion: string | null;
}

/** A document that is refused. Its message shows the path, the line, the column, the sentence and the suggestion. */
export class DocumentError extends Error {
  readonly name: "DocumentError";
  readonly kind:
    | "NotJson"
    | "NotWhole"
    | "ListTooLong"
    | "NumberRange"
    | "DocumentTooLarge";
  /**
   * Of `NotWhole`, where numbers are whole, the normalized path of the first number that is not a whole one of 64 bits; of
   * `NumberRange` that of the first that is too much for a decimal. Of a value with NaN, an
   * infinity or a Number that is whole and no safe integer, the path of the first of these, and of what follows the
   * sentence alone.
   */
  readonly path: string | null;
  /** The byte of the document, in UTF-8, where it goes wrong, from 0. */
  readonly offset: number | null;
  /** The number of its line, from 1. */
  readonly line: number | null;
  /** Its column in that line, in characters from 1. */
  readonly column: number | null;
  /** The name of the reason, as `TrailingComma`. */
  readonly reason: string | null;
  /** The reason in words. */
  readonly sentence: string | null;
  /** How a text is asked that looks like JSON Lines, where each line is a document. */
  readonly suggestion: string | null;
}

/** A query that needs more steps over the document than the option `limit` allows. */
export class StepsUsedUp extends Error {
  readonly name: "StepsUsedUp";
  readonly limit: bigint;
  readonly query: string;
}

/** A query that selects more nodes of the document than the option `maxNodes` allows. */
export class TooManyNodes extends Error {
  readonly name: "TooManyNodes";
  readonly limit: bigint;
  readonly query: string;
}

/** A query whose answer has more bytes than the option `maxBytes` allows. */
export class TooManyBytes extends Error {
  readonly name: "TooManyBytes";
  readonly limit: bigint;
  readonly query: string;
}

/**
 * The error of this package of which structuredClone, or postMessage from a worker, made a copy; anything else as it
 * is.
 */
export function errorOf(copy: unknown): unknown;

/** The query, read once, to be asked of documents. Throws `QueryError` where it is not accepted. */
export function compile(query: string, options?: Options): Query;

/** The same. */
export function parse(query: string, options?: Options): Query;

/**
 * The nodes that the query selects, in the order of RFC 9535; one that is selected twice stands there
 * twice. Throws `QueryError` or `DocumentError`, the query's first, `StepsUsedUp`, `TooManyNodes` or `TooManyBytes`
 * where there is a limit and the query goes beyond it, `RangeError` where memory ran out or a `Document` has other
 * numbers than the query, and `TypeError` where something else is given than belongs there.
 */
export function find<T>(query: string | Query, document: DocumentLike<T>, options?: Options): Match[];

/** The first of these nodes, with which the evaluation stops; null where there is none. */
export function findOne<T>(query: string | Query, document: DocumentLike<T>, options?: Options): Match | null;

/**
 * The nodes that `find` gives, looked for as they are asked for, in pages: the first is found without the others. The
 * query and the document are read at once, and the document is kept until the iterator ends or is left. Where all nodes
 * need more steps than the limit some of the first may be given, and then `StepsUsedUp` is thrown. There is no other
 * limit, since whoever goes through nodes can count them.
 */
export function findIter<T>(
  query: string | Query, document: DocumentLike<T>, options?: StepOptions,
): Generator<Match, void, undefined>;

/**
 * What `find` gives for each query, over one document that is read once with its numbers, each with the whole limits. A query that is
 * refused, or goes beyond a limit, has its error in the list, and ends nothing. Throws `DocumentError` where a query
 * that is accepted is asked of what is no document.
 */
export function findMany<T>(
  queries: Iterable<string | Query> & object, document: DocumentLike<T>, options?: Options,
): (Match[] | QueryError | StepsUsedUp | TooManyNodes | TooManyBytes)[];

/** The values of the nodes that `find` gives. */
export function values<T>(query: string | Query, document: DocumentLike<T>, options?: Options): Value[];

/** The normalized paths of the nodes that `find` gives. */
export function paths<T>(query: string | Query, document: DocumentLike<T>, options?: Options): string[];

/** Whether `find` gives any node. The evaluation stops with the first one. */
export function exists<T>(query: string | Query, document: DocumentLike<T>, options?: Options): boolean;

/** The canonical text of the query: equal for equal queries, however they are spelled. Throws `QueryError`. */
export function canonical(query: string, options?: Options): string;

/** Throws `QueryError` where the query is not accepted. */
export function check(query: string, options?: Options): void;

/** The version of the engine, as "0.1.0". */
export function version(): string;
