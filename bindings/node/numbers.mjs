/** Numbers of the module's calls. Made from bindings/numbers.json by `.ci/numbers --write`. */

export const DONE = 0;
export const QUERY_REFUSED = 1;
export const USAGE = 2;
export const DOCUMENT_REFUSED = 3;
export const NO_MEMORY = 4;
export const NO_STACK = 7;
export const TOO_MANY_NODES = 8;
export const TOO_MANY_BYTES = 9;
export const STEPS_USED_UP = 10;
export const OTHER_NUMBERS = 11;

export const VALUES = 0;
export const PATHS = 1;
export const BOTH = 2;

export const STANDARD = 0;
export const EXTENDED = 1;
export const DECIMAL = 2;
export const EXTENDED_DECIMAL = 3;

export const EXPLANATION = 0;
export const SENTENCE = 1;
export const SUGGESTION = 2;

export const DOCUMENT_LINE = 0;
export const DOCUMENT_SENTENCE = 1;
export const DOCUMENT_REASON = 2;

export const NO_LIMIT = 0n;
