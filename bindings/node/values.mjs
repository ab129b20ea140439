/** JSON texts and the values of JavaScript that they stand for. */
import { DocumentError } from "./errors.mjs";
import { typeOf } from "./options.mjs";
import { pathOf } from "./paths.mjs";
import { bytesOf } from "./texts.mjs";

// With fewer digits, and two in an exponent, each number is a Number whose text is its own.
const LONG_NUMBER = /\d(?:\.?\d){15}|\de[-+]\d{3}/;
// A text, with a colon after it where it is a member's name, or such a number. One digit stands before an exponent's point.
const TEXT_OR_LONG_NUMBER =
  /"[^"\\]*(?:\\.[^"\\]*)*":?|-?\d(?:\.?\d){15,}(?:e[-+]\d+)?|-?\d(?:\.\d+)?e[-+]\d{3,}/g;
const DIGITS = /^-?\d+$/;
const WITH_EXPONENT = /^(-?\d)(?:\.(\d+))?e\+(\d+)$/;
// Of a whole number with more digits the text is given, which takes less memory by far.
const MOST_DIGITS = 1000;

/**
 * The value of a compact JSON text. A number is the Number of the same text, but a whole one that is written by digits
 * alone has to be a safe integer; else a whole one is a BigInt, and any other its text. Where there may be such numbers,
 * each value that is a text is marked by a letter before it is read, so that a number can be read as a text with another
 * letter.
 */
export function parsed(text) {
  if (!LONG_NUMBER.test(text)) {
    return JSON.parse(text);
  }
  const marked = text.replace(TEXT_OR_LONG_NUMBER, (token) => {
    if (token.endsWith(":")) {
      return token;
    }
    return token.startsWith('"') ? `"t${token.slice(1)}` : `"n${token}"`;
  });
  return JSON.parse(marked, (_, value) => {
    if (typeof value !== "string") {
      return value;
    }
    return value.startsWith("t") ? value.slice(1) : numberOf(value.slice(1));
  });
}

/** The value of a number's text, which is written as by Number.prototype.toString (RFC 8785 section 3.2.2.3). */
function numberOf(text) {
  const number = Number(text);
  const isHeld = DIGITS.test(text) ? Number.isSafeInteger(number) : String(number) === text;
  return isHeld ? number : (wholeOf(text) ?? text);
}

/** The BigInt of a whole number's text; null of any other, and of one with too many digits. */
function wholeOf(text) {
  if (DIGITS.test(text)) {
    return BigInt(text);
  }
  const [, first, others = "", exponent] = text.match(WITH_EXPONENT) ?? [];
  const zeros = Number(exponent) - others.length;
  return zeros >= 0 && Number(exponent) < MOST_DIGITS ? BigInt(first + others + "0".repeat(zeros)) : null;
}

/** The bytes that are given as a document, which are the caller's own; null of anything else. */
export function bytesGiven(document) {
  switch (Object.prototype.toString.call(document)) {
    case "[object Uint8Array]":
      return document;
    case "[object ArrayBuffer]":
    case "[object SharedArrayBuffer]":
      return new Uint8Array(document);
    default:
      return null;
  }
}

/** The bytes of a document. */
export function documentBytes(document) {
  return bytesGiven(document) ?? bytesOf(typeof document === "string" ? document : written(document));
}

/**
 * A value as JSON text; a BigInt is a number in it. What JSON has not is refused, and not left out, and so is a Number
 * that is whole and no safe integer, of which JSON.stringify writes other digits.
 */
function written(document) {
  const mark = crypto.randomUUID();
  let hasBigInt = false;
  const text = JSON.stringify(document, function (name, part) {
    // A program may have given BigInts a toJSON.
    if (typeof this[name] === "bigint") {
      hasBigInt = true;
      return mark + this[name];
    }
    if (!isWritten(part)) {
      throw refusal(document, part);
    }
    return part;
  });
  if (text === undefined) {
    throw refusalOf(undefined, []);
  }
  return hasBigInt ? text.replace(new RegExp(`"${mark}(-?\\d+)"`, "g"), "$1") : text;
}

/** Whether such a value is written. Members that are undefined are left out, as JSON.stringify does with them. */
function isWritten(part) {
  switch (typeof part) {
    case "number":
      return Number.isSafeInteger(part) || (Number.isFinite(part) && !Number.isInteger(part));
    case "function":
    case "symbol":
      return false;
    case "object":
      return part === null || Array.isArray(part) || isRecord(part);
    default:
      return true;
  }
}

/** Whether an object is one for its members: a plain one of any realm, or one of a class that has some. */
function isRecord(object) {
  const parent = Object.getPrototypeOf(object);
  if (parent === null || Object.getPrototypeOf(parent) === null) {
    return true;
  }
  return Object.prototype.toString.call(object) === "[object Object]" && Object.keys(object).length > 0;
}

/** The error of a document in which a part is not written, with the path of the first such part. */
function refusal(document, part) {
  const steps = new Map();
  try {
    JSON.stringify(document, function (name, it) {
      const above = steps.get(this);
      const own = above === undefined ? [] : [...above, Array.isArray(this) ? Number(name) : name];
      if (!isWritten(it)) {
        throw refusalOf(it, own);
      }
      steps.set(it, own);
      return typeof it === "bigint" ? null : it;
    });
  } catch (fault) {
    return fault;
  }
  return refusalOf(part, []);
}

function refusalOf(part, steps) {
  const path = pathOf(steps);
  if (typeof part !== "number") {
    return new TypeError(`JSON has no value of type ${typeOf(part)}, as stands at ${path}`);
  }
  return Number.isFinite(part)
    ? new DocumentError("NotWhole", path, { sentence: `${part} is no safe integer: give a BigInt, or JSON text.` })
    : new DocumentError("NotJson", path, { sentence: `${part} is no JSON number.` });
}
