/** What leaves the page where a user wants it: links, and nodes that are copied or saved. Each tells how it went. */
import { LONGEST_IN_LINK, fragmentOf } from "./cases.mjs";
import { counted, made } from "./elements.mjs";

const FILE_NAMES = { json: "nodes.json", lines: "nodes.txt", csv: "nodes.csv" };
// In milliseconds: how long a browser has to take what it saves.
const TO_SAVE = 60_000;

/** What a link to a case would hold. */
export function linkHolds({ document: text }) {
  return text.length <= LONGEST_IN_LINK
    ? "It holds the query and the whole document."
    : "It holds the query; the document is too long.";
}

/** Puts a case into the address, and the address where it can be pasted. */
export async function copyLink(it) {
  history.replaceState(history.state, "", fragmentOf(it));
  try {
    await navigator.clipboard.writeText(location.href);
    return "Copied.";
  } catch {
    return "Copy the page's address, which is the link now.";
  }
}

/** Puts so many nodes, written in a format, where they can be pasted. */
export async function copyNodes(blob, count) {
  try {
    await navigator.clipboard.writeText(await blob.text());
    return `Copied ${counted(count, "node", "nodes")}.`;
  } catch {
    return "The browser did not let the page copy: save the nodes instead.";
  }
}

/** Saves nodes, written in a format, as a file. */
export function saveNodes(blob, format) {
  const link = made("a", "");
  link.href = URL.createObjectURL(blob);
  link.download = FILE_NAMES[format];
  link.click();
  setTimeout(() => URL.revokeObjectURL(link.href), TO_SAVE);
  return "";
}
