/** What callers give beside documents, checked. */
import { DECIMAL, EXTENDED, EXTENDED_DECIMAL, NO_LIMIT, STANDARD } from "./numbers.mjs";

/** The type of a value, by which an error tells of it. */
export function typeOf(value) {
  if (typeof value !== "object" || value === null) {
    return value === null ? "null" : typeof value;
  }
  const name = Object.prototype.toString.call(value).slice("[object ".length, -1);
  return name === "Object" ? value.constructor?.name || name : name;
}

/** The options that are limits, each with the member of `most` that it is and what is counted. */
export const LIMITS = { limit: "steps", maxNodes: "nodes", maxBytes: "bytes" };

/** Which numbers queries and documents have, unless others are asked for. */
export const NUMBERS = "decimal";

// The profiles by the numbers that they have, the standard one and the extended one.
const PROFILES = { decimal: [DECIMAL, EXTENDED_DECIMAL], whole: [STANDARD, EXTENDED] };

const NAMES = ["extended", "numbers", ...Object.keys(LIMITS)];

/** Which numbers a profile has. */
export function numbersOf(profile) {
  return Object.keys(PROFILES).find((numbers) => PROFILES[numbers].includes(profile));
}

/** Whether a profile has `distinct` too. */
export function isExtended(profile) {
  return Object.values(PROFILES).some(([, extended]) => extended === profile);
}

/**
 * What options say, of which only some may be given: the `profile`, which has the `usual` numbers unless they name
 * others, and the `most` steps, nodes and bytes, BigInts of which 0 is any number.
 */
export function optionsRead(options, names = NAMES, usual = NUMBERS) {
  if (options !== undefined && (typeof options !== "object" || Array.isArray(options))) {
    throw new TypeError(`options are an object, and not of type ${typeOf(options)}`);
  }
  for (const name of Object.keys(options ?? {})) {
    if (!names.includes(name)) {
      throw new TypeError(`there is no option '${name}' here, only: ${names.join(", ")}`);
    }
  }
  const extended = options?.extended ?? false;
  if (typeof extended !== "boolean") {
    throw new TypeError(`the option 'extended' is true or false, and not of type ${typeOf(extended)}`);
  }
  const numbers = options?.numbers ?? usual;
  if (typeof numbers !== "string" || !Object.hasOwn(PROFILES, numbers)) {
    throw new TypeError(`the option 'numbers' is "decimal" or "whole", and not ${toldOf(numbers)}`);
  }
  const most = {};
  for (const [name, counted] of Object.entries(LIMITS)) {
    most[counted] = limitOf(options?.[name] ?? null, name, counted);
  }
  return { profile: PROFILES[numbers][Number(extended)], most };
}

/** The limits of a call, or where it has none of a kind those of the query. */
export function mostOf({ steps, nodes, bytes }, own) {
  return { steps: steps || own.steps, nodes: nodes || own.nodes, bytes: bytes || own.bytes };
}

/** A text as it is, and of another value its type. */
function toldOf(value) {
  return typeof value === "string" ? JSON.stringify(value) : `of type ${typeOf(value)}`;
}

function limitOf(limit, name, counted) {
  if (limit === null) {
    return NO_LIMIT;
  }
  if (typeof limit !== "bigint" && !Number.isSafeInteger(limit)) {
    throw new TypeError(`the option '${name}' is a whole number of ${counted}, or a BigInt`);
  }
  if (limit < 1 || limit >= 2n ** 64n) {
    throw new RangeError(`the option '${name}' is a number of ${counted}, from 1 to 2^64 - 1`);
  }
  return BigInt(limit);
}
