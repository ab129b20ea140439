/** The engine's sentences by their reasons, as bindings/rows.jsonl has them. */
import { readFileSync } from "node:fs";

const FILE = new URL("../../bindings/rows.jsonl", import.meta.url);

export const [head, ...rows] = readFileSync(FILE, "utf8").split("\n").slice(0, -1).map((line) => JSON.parse(line));

/** The sentence for a reason, as "TrailingComma", of what is refused, "Query" or "Document". */
export function sentenceOf(refused, reason) {
  const row = rows.find((it) => it.refused === refused && it.reason === reason && it.sentence);
  if (row === undefined) {
    throw new Error(`no row has the reason ${reason}`);
  }
  return row.sentence;
}
