/** What the page holds packed, and which engine this browser can run. */
import { byId, made } from "./elements.mjs";

// A module that has nothing but a memory with addresses of 64 bits.
const WIDE_MEMORY = Uint8Array.of(0, 97, 115, 109, 1, 0, 0, 0, 5, 3, 1, 4, 1);
const NEEDED = "Chrome and Edge have what it needs from version 133 on, and Firefox from 134 on.";

/** Which engine runs here, by the id of its element: "engine", or "engine-32" with addresses of 32 bits; or null. */
export function engineHere() {
  if (typeof WebAssembly === "undefined" || typeof DecompressionStream === "undefined") {
    return null;
  }
  const isNarrowHere = byId("engine-32").textContent !== "";
  return WebAssembly.validate(WIDE_MEMORY) ? "engine" : isNarrowHere ? "engine-32" : null;
}

/** Why the engine can't run, and which browsers run it. */
export function lackHere() {
  if (typeof WebAssembly === "undefined") {
    return `This browser has no WebAssembly, in which the engine is written. ${NEEDED}`;
  }
  const lack =
    typeof DecompressionStream === "undefined"
      ? "This browser cannot unpack what the page holds (DecompressionStream)."
      : "This browser's WebAssembly has no memory with addresses of 64 bits (Memory64), in which the engine works.";
  return `${lack} ${NEEDED}`;
}

/** What the element of an id holds packed. */
export async function unpacked(id) {
  const bytes = Uint8Array.from(atob(byId(id).textContent), (character) => character.charCodeAt(0));
  return new Response(new Blob([bytes]).stream().pipeThrough(new DecompressionStream("gzip")));
}

/** Runs the script of the editor, which the page's policy names by its sum. */
export async function loadEditor() {
  const script = made("script", "");
  script.textContent = await (await unpacked("editor")).text();
  document.head.append(script);
}

export async function loadEngine(id) {
  return WebAssembly.compile(await (await unpacked(id)).arrayBuffer());
}
