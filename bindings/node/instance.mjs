/**
 * An instance of jp.wasm with its memory, of whose calls bindings/c/jp.h says what a caller owes.
 *
 * An address and a length are BigInts, since the memory has addresses of 64 bits. Views of the memory are made
 * anew after each call, since it moves when it grows. This file needs nothing of Node, so that a page can take it
 * as it is.
 */

export const NO_MEMORY_TEXT = "jp ran out of memory";

const REPORT_LENGTH = 32;
const PLACE_LENGTH = 24;
const LIMIT_LENGTH = 24;
const TEXT_LENGTH = 16;
const HANDLE_LENGTH = 16;
const FIRST_ROOM = 1 << 12;
// Where a report tells how long the text is.
const LENGTH_AT = 16;
const NOTHING = new Uint8Array();

/**
 * An outcome has `status`, `kind`, `place` and `steps` as in jp.h, `steps` as a BigInt, and `text`, the bytes that
 * were written, which are the instance's own memory and so good until its next call.
 */
export class Instance {
  #report;
  #place;
  #limit;
  #lent;
  #room;
  #roomLength = FIRST_ROOM;
  #seen = new DataView(new ArrayBuffer());

  constructor(module) {
    this.exports = new WebAssembly.Instance(module).exports;
    this.#report = this.#allocate(REPORT_LENGTH);
    this.#place = this.#allocate(PLACE_LENGTH);
    this.#limit = this.#allocate(LIMIT_LENGTH);
    this.#lent = this.#allocate(TEXT_LENGTH);
    this.#room = this.#allocate(FIRST_ROOM);
  }

  /** How many bytes its memory has. It never has fewer. */
  get size() {
    return this.exports.memory.buffer.byteLength;
  }

  /** The address of a handle that keeps nothing. */
  newHandle() {
    const at = this.#allocate(HANDLE_LENGTH);
    this.#view(at, HANDLE_LENGTH).fill(0);
    return at;
  }

  /** Frees a handle, and what it keeps. */
  freeHandle(at) {
    this.exports.jp_clear(at);
    this.exports.jp_free(at);
  }

  /**
   * The outcome of a call that writes into a room, made again where the room is too small for its text. The call
   * is given the texts, each as an address and a length, and then the room and the report.
   */
  write(texts, call) {
    return this.#with(texts, (copies) => {
      call(copies, [this.#room, BigInt(this.#roomLength), this.#report]);
      if (this.#number(this.#report, LENGTH_AT) > this.#roomLength) {
        this.#enlarge(this.#number(this.#report, LENGTH_AT));
        call(copies, [this.#room, BigInt(this.#roomLength), this.#report]);
      }
      return this.#told(this.#room, Math.min(this.#number(this.#report, LENGTH_AT), this.#roomLength));
    });
  }

  /** The outcome of a call that lends its text: it is given the texts, and then where to lend it and the report. */
  lend(texts, call) {
    return this.#with(texts, (copies) => {
      call(copies, [this.#lent, this.#report]);
      return this.#told(this.#number(this.#lent, 0), this.#number(this.#lent, 8));
    });
  }

  /** Where a call of `jp_explain_document` writes the place. */
  get placeAddress() {
    return this.#place;
  }

  /** What it wrote there: `offset`, the byte; `line` and `column`, from 1. */
  placeTold() {
    const [offset, line, column] = [0, 8, 16].map((at) => this.#number(this.#place, at));
    return { offset, line, column };
  }

  /** The address of a limit of so many steps, nodes and bytes, BigInts of which 0 is any number. */
  limitAddress({ steps, nodes, bytes }) {
    const words = this.#words();
    for (const [position, number] of [steps, nodes, bytes].entries()) {
      words.setBigUint64(Number(this.#limit) + 8 * position, number, true);
    }
    return this.#limit;
  }

  #allocate(length) {
    const at = this.exports.jp_alloc(BigInt(length));
    if (at === 0n) {
      throw new RangeError(NO_MEMORY_TEXT);
    }
    return at;
  }

  #view(at, length) {
    return new Uint8Array(this.exports.memory.buffer, Number(at), length);
  }

  /** The memory, for numbers of it. */
  #words() {
    const { buffer } = this.exports.memory;
    if (this.#seen.buffer !== buffer) {
      this.#seen = new DataView(buffer);
    }
    return this.#seen;
  }

  /** The number of 64 bits so many bytes behind an address. */
  #number(address, place) {
    return Number(this.#words().getBigUint64(Number(address) + place, true));
  }

  /** What a call gives that gets copies of the texts, which are freed. */
  #with(texts, call) {
    const copies = [];
    for (const bytes of texts) {
      const at = this.#allocate(bytes.length);
      this.#view(at, bytes.length).set(bytes);
      copies.push(at, BigInt(bytes.length));
    }
    const given = call(copies);
    for (let position = 0; position < copies.length; position += 2) {
      this.exports.jp_free(copies[position]);
    }
    return given;
  }

  #enlarge(length) {
    this.exports.jp_free(this.#room);
    this.#room = this.#allocate(length);
    this.#roomLength = length;
  }

  /** The outcome that the report tells, with the text of so many bytes at an address. */
  #told(start, length) {
    const words = this.#words();
    const at = Number(this.#report);
    return {
      status: words.getUint32(at, true),
      kind: words.getUint32(at + 4, true),
      place: this.#number(this.#report, 8),
      steps: words.getBigUint64(at + 24, true),
      text: length === 0 ? NOTHING : this.#view(start, length),
    };
  }
}
