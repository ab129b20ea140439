/** Texts and their UTF-8. This file needs nothing of Node, so that a page can take it as it is. */

const encoder = new TextEncoder();
const decoder = new TextDecoder("utf-8", { ignoreBOM: true });

/** The UTF-8 of a text. Half of a surrogate pair becomes bytes that are none, and so is refused. */
export function bytesOf(text) {
  if (text.isWellFormed()) {
    return encoder.encode(text);
  }
  const parts = text.split(/(\p{Surrogate})/u).map((part) => {
    const code = part.length === 1 ? part.charCodeAt(0) : 0;
    const isHalf = code >= 0xd800 && code <= 0xdfff;
    return isHalf ? [0xed, 0x80 | ((code >> 6) & 0x3f), 0x80 | (code & 0x3f)] : [...encoder.encode(part)];
  });
  return Uint8Array.from(parts.flat());
}

/** The text of bytes that the module wrote. */
export function textOf(bytes) {
  return decoder.decode(bytes);
}

/** The index, in a text, of the character that begins at a byte of the text's UTF-8. */
export function indexAt(text, place) {
  let index = 0;
  let bytes = 0;
  for (const character of text) {
    if (bytes >= place) {
      break;
    }
    bytes += lengthInUtf8(character.codePointAt(0));
    index += character.length;
  }
  return index;
}

function lengthInUtf8(code) {
  if (code < 0x80) {
    return 1;
  }
  if (code < 0x800) {
    return 2;
  }
  return code < 0x10000 ? 3 : 4;
}
