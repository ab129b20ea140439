/** Cases: a query, a document and how they are asked. They stand in links, are kept in the tab, and come back. */

/** In characters: what a link may hold of a document, and what the tab keeps of one. */
export const LONGEST_IN_LINK = 20_000;
const LONGEST_KEPT = 2_000_000;
const MOST_KEPT_BACK = 20;

/** What a new page has chosen. */
export const NEW = { profile: "standard", numbers: "decimal", byLines: false };

/** A case as the fragment of an address. What a new page has is left out, and a document that is too long. */
export function fragmentOf({ query, document: text, profile, numbers, byLines }) {
  const words = new URLSearchParams({ q: query });
  if (text.length <= LONGEST_IN_LINK) {
    words.set("d", text);
  }
  if (profile === "extended") {
    words.set("p", profile);
  }
  if (numbers === "whole") {
    words.set("n", numbers);
  }
  if (byLines) {
    words.set("l", "1");
  }
  return `#${words}`;
}

/** The case in a fragment, or null if it has none; `document` is null where the link has none. */
export function caseIn(fragment) {
  const words = new URLSearchParams(fragment.slice(1));
  if (!words.has("q") && !words.has("d")) {
    return null;
  }
  const profile = words.get("p") === "extended" ? "extended" : "standard";
  const numbers = words.get("n") === "whole" ? "whole" : "decimal";
  return { query: words.get("q") ?? "$", document: words.get("d"), profile, numbers, byLines: words.get("l") === "1" };
}

/** Keeps a case with this entry of the tab's history, where a reload finds it, and takes any out of the address. */
export function keepInTab(it) {
  const text = it.document.length <= LONGEST_KEPT ? it.document : null;
  try {
    history.replaceState({ kept: { ...it, document: text } }, "", location.pathname + location.search);
  } catch {
    // A page within another may be kept from it; there a reload begins anew.
  }
}

/** The case that the tab has kept, or null. */
export function keptInTab() {
  return history.state?.kept ?? null;
}

/** Whether two cases ask the same query in the same way. */
export function isSameQuery(one, other) {
  return ["query", "profile", "numbers"].every((name) => one[name] === other[name]);
}

/** Whether two cases are the same. */
export function isSame(one, other) {
  return isSameQuery(one, other) && ["document", "byLines"].every((name) => one[name] === other[name]);
}

/** What was here before something else was put in its place: it comes back in a circle, so nothing is lost. */
export class Before {
  #cases = [];
  #put = null;

  get isEmpty() {
    return this.#cases.length === 0;
  }

  /** Remembers a case that another one replaces, unless both are as the page put them, which has these. */
  replace(old, next, isOwn) {
    if (this.#isWorthIt(old, isOwn) && !isSame(old, next)) {
      this.#cases = [...this.#cases.filter((it) => !isSame(it, old)), old].slice(-MOST_KEPT_BACK);
    }
    this.#put = isOwn ? next : null;
  }

  /** The case that was replaced last. What is here `now` is the last to come back. */
  bringBack(now) {
    const last = this.#cases.pop();
    if (this.#isWorthIt(now, true) && !this.#cases.some((it) => isSame(it, now))) {
      this.#cases.unshift(now);
    }
    this.#put = null;
    return last;
  }

  /** Whether a case is not blank, and is not one of the page's own where another of these comes. */
  #isWorthIt(it, isOwn) {
    const isBlank = it.query === "" && it.document === "";
    const isAsPut = this.#put !== null && isSame(it, this.#put);
    return !isBlank && !(isOwn && isAsPut);
  }
}
