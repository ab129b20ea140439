package jsonpath.jp;

/** Numbers of the calls of libjp.a. Made from bindings/numbers.json by `.ci/numbers --write`. */
final class Codes {
    static final int DONE = 0;
    static final int QUERY_REFUSED = 1;
    static final int USAGE = 2;
    static final int DOCUMENT_REFUSED = 3;
    static final int NO_MEMORY = 4;
    static final int NO_STACK = 7;
    static final int TOO_MANY_NODES = 8;
    static final int TOO_MANY_BYTES = 9;
    static final int STEPS_USED_UP = 10;
    static final int OTHER_NUMBERS = 11;
    static final int VALUES = 0;
    static final int PATHS = 1;
    static final int BOTH = 2;
    static final int STANDARD = 0;
    static final int EXTENDED = 1;
    static final int DECIMAL = 2;
    static final int EXTENDED_DECIMAL = 3;
    static final int EXPLANATION = 0;
    static final int SENTENCE = 1;
    static final int SUGGESTION = 2;
    static final int DOCUMENT_LINE = 0;
    static final int DOCUMENT_SENTENCE = 1;
    static final int DOCUMENT_REASON = 2;

    private Codes() {}
}
