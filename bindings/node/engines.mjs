/** Where the two engines stand, and which of them runs here. This file needs nothing of Node. */

/** The engine whose memory has addresses of 64 bits. */
export const WIDE = new URL("jp.wasm", import.meta.url);

/** The same with addresses of 32 bits, which runs everywhere. */
export const NARROW = new URL("jp32.wasm", import.meta.url);

// A module with nothing but a memory of one page, whose addresses have 64 bits.
const WIDE_MEMORY = Uint8Array.of(0, 0x61, 0x73, 0x6d, 1, 0, 0, 0, 5, 3, 1, 4, 1);

/** Whether a memory may have addresses of 64 bits here. */
export function hasWideMemory() {
  return WebAssembly.validate(WIDE_MEMORY);
}
