/** What is told of an answer beside its nodes, and of what was done. */
import { byId, calmed, counted } from "./elements.mjs";

// In milliseconds: how long what was done is told.
const TELLING = 8000;
const NO_NODES = {
  query: "No answer: the query is refused.",
  document: "No answer: the document is refused.",
  isWithoutDocument: "No answer: there is no document.",
};

function whyNone(answer) {
  const why = Object.keys(NO_NODES).find((it) => answer[it]);
  return answer.fault ? `No answer: ${answer.fault}` : (NO_NODES[why] ?? "");
}

/** How many nodes an answer has and how long they took, or why there are none. */
export function countTold(answer) {
  const { count, time } = answer;
  return count === undefined
    ? whyNone(answer)
    : `${counted(count, "node", "nodes")} in ${time < 0.1 ? "less than 0.1 ms" : `${time.toFixed(1)} ms`}`;
}

const tellNoMore = calmed(() => byId("told").replaceChildren(), TELLING);

/** Tells what was done, for a while, over the page. */
export function tell(text) {
  byId("told").textContent = text;
  tellNoMore();
}
