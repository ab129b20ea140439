/**
 * What is asked of jp.wasm: queries that are kept, of bytes or of a document that is kept. This file needs nothing
 * of Node, so that a page can take it as it is.
 */

import { Instance, NO_MEMORY_TEXT } from "./instance.mjs";
import {
  DOCUMENT_REASON, DOCUMENT_SENTENCE, DONE, NO_LIMIT, NO_MEMORY, SENTENCE, SUGGESTION,
} from "./numbers.mjs";
import { textOf } from "./texts.mjs";

/** Which nodes are asked for: how many are passed over, and how many of the others are given, where 0 is all. */
export const ALL = [0n, 0n];

/** As many steps, nodes and bytes as there may be. */
export const UNLIMITED = { steps: NO_LIMIT, nodes: NO_LIMIT, bytes: NO_LIMIT };

// The sentences of the reasons why documents were refused.
const sentencesOf = new Map();

// An instance that took so many bytes more than it needs for what it keeps is let go, since its memory never shrinks.
const SPARE = 1 << 26;

/** A query's bytes and profile, which engines that are asked it read once and keep as long as this is. */
export class KeptQuery {
  constructor(bytes, profile) {
    this.bytes = bytes;
    this.profile = profile;
  }
}

/**
 * A document's bytes, which are not to change, and a profile with whose numbers it is read. An engine that is asked of it
 * reads it once and keeps it likewise.
 */
export class KeptDocument {
  constructor(bytes, profile) {
    this.bytes = bytes;
    this.profile = profile;
  }
}

/**
 * An instance of the module, with the queries and the documents that it keeps.
 *
 * The instance is made by the first call that needs one. It is let go where it took much memory or ran out of it,
 * and where a call ended without an outcome; what it kept is then read anew when it is asked for. Calls give the
 * outcomes of instance.mjs, whose texts are good until the next call.
 */
export class Engine {
  #module;
  #instance = null;
  #first = 0;
  #most = 0;
  #documents = 0;
  #handles;
  #registry;
  #passing;
  #passed;

  constructor(module) {
    this.#module = module;
  }

  /** How many bytes of memory its instance has; 0 without one. */
  get size() {
    return this.#instance?.size ?? 0;
  }

  /** The version, as "0.1.0". */
  version() {
    const number = this.#running().exports.jp_version();
    return `${number >> 16}.${(number >> 8) & 255}.${number & 255}`;
  }

  /** Reads a `KeptQuery` or a `KeptDocument`, and keeps it from then on, unless it is refused. */
  keep(kept) {
    return this.#run((instance) => this.#handleOf(instance, kept).outcome);
  }

  /** Frees what is kept of it. */
  forget(kept) {
    const handle = this.#instance === null ? undefined : this.#handles.get(kept);
    if (handle !== undefined) {
      this.#handles.delete(kept);
      this.#registry.unregister(kept);
      this.#run((instance) => this.#free(instance, handle, kept instanceof KeptDocument));
    }
  }

  /**
   * The lines of the nodes asked for that the query selects in the document, a `KeptDocument` or bytes, of at most so
   * many `steps`, `nodes` and `bytes`, all BigInts. The query is a `KeptQuery`, or has the same members and is kept
   * until another such is asked.
   */
  ask(query, document, form, span = ALL, most = UNLIMITED) {
    return this.#run((instance) => {
      const { jp_ask, jp_ask_document } = instance.exports;
      const asked = this.#handleOf(instance, query);
      if (asked.handle === null) {
        return asked.outcome;
      }
      const words = [form, ...span, instance.limitAddress(most)];
      if (!(document instanceof KeptDocument)) {
        return instance.lend([document], (bytes, told) => jp_ask(asked.handle, ...bytes, ...words, ...told));
      }
      const read = this.#handleOf(instance, document);
      return read.handle === null
        ? read.outcome
        : instance.lend([], (_, told) => jp_ask_document(asked.handle, read.handle, ...words, ...told));
    });
  }

  /** The canonical text of the query. */
  canonical(query, profile) {
    return this.#run((instance) =>
      instance.write([query], (bytes, told) => instance.exports.jp_canon(...bytes, profile, ...told)),
    );
  }

  /** Whether the query is accepted. */
  check(query, profile) {
    return this.#run((instance) =>
      instance.write([query], (bytes, [, , report]) => instance.exports.jp_check(...bytes, profile, report)),
    );
  }

  /**
   * Why the query is refused, each part of it null where there is none: `sentence`, and `suggestion`, a query
   * that is accepted.
   */
  explain(query, profile) {
    const [sentence, suggestion] = [SENTENCE, SUGGESTION].map((part) => {
      const { text } = this.#run((instance) =>
        instance.write([query], (bytes, told) => instance.exports.jp_explain(...bytes, profile, part, ...told)),
      );
      return textOf(text) || null;
    });
    return { sentence, suggestion };
  }

  /**
   * Why a document is refused where it is read with the numbers of a profile, and where: `offset`, the byte; `line` and
   * `column`, from 1; `reason`, the name of the reason; and `sentence`.
   */
  explainDocument(document, profile) {
    const { place, text: reason } = this.#partOfMisreading(document, profile, DOCUMENT_REASON);
    // The sentence goes by the reason alone, so it is asked for once.
    if (!sentencesOf.has(reason)) {
      sentencesOf.set(reason, this.#partOfMisreading(document, profile, DOCUMENT_SENTENCE).text);
    }
    return { ...place, reason, sentence: sentencesOf.get(reason) };
  }

  #partOfMisreading(document, profile, part) {
    let place;
    const { status, text } = this.#run((instance) => {
      const call = (bytes, told) =>
        instance.exports.jp_explain_document(...bytes, profile, part, instance.placeAddress, ...told);
      const outcome = instance.write([document], call);
      place = instance.placeTold();
      return outcome;
    });
    if (status === NO_MEMORY) {
      throw new RangeError(NO_MEMORY_TEXT);
    }
    return { place, text: textOf(text) };
  }

  /** The name of a kind that an outcome of that status has. */
  kindName(status, kind) {
    const { text } = this.#run((instance) =>
      instance.write([], (_, told) => instance.exports.jp_kind_name(status, kind, ...told)),
    );
    return textOf(text);
  }

  #running() {
    return this.#instance ?? this.#start();
  }

  #start() {
    const instance = new Instance(this.#module);
    this.#handles = new WeakMap();
    this.#registry = new FinalizationRegistry(({ handle, isDocument }) => {
      // What was let go may hold nothing that can be freed.
      if (this.#instance === instance) {
        this.#run(() => this.#free(instance, handle, isDocument));
      }
    });
    this.#passing = instance.newHandle();
    this.#passed = null;
    this.#first = instance.size;
    this.#most = this.#first + SPARE;
    this.#documents = 0;
    this.#instance = instance;
    return instance;
  }

  /** The outcome of a call, after which the instance is let go if it may not be used any further. */
  #run(call) {
    let outcome;
    try {
      outcome = call(this.#running());
    } catch (fault) {
      // Where the host's own stack or memory ran out, what the instance holds means nothing. No call is made here,
      // for which there may be no stack.
      this.#instance = this.#registry = null;
      throw fault;
    }
    if (outcome.status === NO_MEMORY || this.size > this.#most) {
      this.#instance = this.#registry = null;
    }
    return outcome;
  }

  /** The handle that keeps it, null if it is refused, and the outcome of reading it where it was read. */
  #handleOf(instance, kept) {
    const known = kept === this.#passed ? this.#passing : this.#handles.get(kept);
    if (known !== undefined) {
      return { handle: known, outcome: null };
    }
    const isDocument = kept instanceof KeptDocument;
    const isPassing = !isDocument && !(kept instanceof KeptQuery);
    const handle = isPassing ? this.#passing : instance.newHandle();
    const before = instance.size;
    const outcome = isDocument ? readDocument(instance, kept, handle) : readQuery(instance, kept, handle);
    const isAccepted = outcome.status === DONE;
    if (isPassing) {
      this.#passed = isAccepted ? kept : null;
    } else if (isAccepted) {
      this.#handles.set(kept, handle);
      this.#registry.register(kept, { handle, isDocument }, kept);
    } else {
      instance.freeHandle(handle);
    }
    if (isDocument && isAccepted) {
      this.#documents += 1;
      this.#most += instance.size - before;
    }
    return { handle: isAccepted ? handle : null, outcome };
  }

  /** Frees a handle; where no document is kept any more, no memory is needed for one. */
  #free(instance, handle, isDocument) {
    instance.freeHandle(handle);
    this.#documents -= isDocument ? 1 : 0;
    if (this.#documents === 0) {
      this.#most = this.#first + SPARE;
    }
    return { status: DONE };
  }
}

function readQuery(instance, { bytes, profile }, handle) {
  return instance.write([bytes], (query, [, , report]) =>
    instance.exports.jp_query_new(...query, profile, handle, report),
  );
}

function readDocument(instance, { bytes, profile }, handle) {
  return instance.write([bytes], (document, told) =>
    instance.exports.jp_document_new(...document, profile, handle, ...told),
  );
}
