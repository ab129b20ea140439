package jsonpath.jp;

import java.nio.charset.StandardCharsets;

/**
 * What one run of a call tells and gives. Why something is refused is looked for where the call was made, since that
 * reads it once more.
 *
 * @param status one of {@link Codes}
 * @param kind of a refusal
 * @param place the byte of a query at which it is refused
 * @param text lines, or the path of a number that is refused; never null
 * @param why of a refusal, else null
 */
record Outcome(int status, int kind, long place, byte[] text, Why why) {
    private static final byte[] NONE = {};
    private static final String NO_MEMORY = "jp ran out of memory";
    private static final String BY_LINES =
            "Where each line is a document (JSON Lines), ask one after another: reader.lines().map(query::find)";

    /** Why a query or a document is refused, and of a document where. */
    record Why(String sentence, String suggestion, String explanation, String reason, long[] place) {}

    /** The outcome of a call that refuses neither. */
    static Outcome of(long[] told, byte[] text) {
        return of(told, text, null);
    }

    /** The same, with why something is refused, if it is. */
    static Outcome of(long[] told, byte[] text, Why why) {
        return new Outcome((int) told[0], (int) told[1], told[2], text == null ? NONE : text, why);
    }

    /** The outcome of reading a query. */
    static Outcome ofQuery(long[] told, byte[] query, int profile) {
        return told[0] == Codes.QUERY_REFUSED ? of(told, NONE, whyOfQuery(query, profile)) : of(told, NONE);
    }

    /** The outcome of a call that reads the document. */
    static Outcome ofDocument(long[] told, byte[] text, byte[] document, int profile) {
        return told[0] == Codes.DOCUMENT_REFUSED ? of(told, text, whyOfDocument(document, profile)) : of(told, text);
    }

    private static Why whyOfQuery(byte[] query, int profile) {
        String suggestion = part(query, profile, Codes.SUGGESTION);
        String explanation = part(query, profile, Codes.EXPLANATION);
        String sentence = part(query, profile, Codes.SENTENCE);
        return new Why(sentence, suggestion.isEmpty() ? null : suggestion, explanation, "", null);
    }

    private static String part(byte[] query, int profile, int part) {
        return Texts.decoded(Engine.explain(query, profile, part, new long[Engine.TOLD]));
    }

    /** Why the text is no document. */
    static Why whyOfDocument(byte[] document, int profile) {
        long[] place = new long[3];
        String reason = part(document, profile, Codes.DOCUMENT_REASON, place);
        boolean isOfLines = reason.equals("AfterValue") && isLine(document, (int) place[0]);
        String sentence = part(document, profile, Codes.DOCUMENT_SENTENCE, place);
        return new Why(sentence, isOfLines ? BY_LINES : null, "", reason, place);
    }

    /** Whether the first bytes are a value on one line, and the end of that line. */
    private static boolean isLine(byte[] document, int length) {
        String before = new String(document, 0, length, StandardCharsets.ISO_8859_1);
        String value = before.strip();
        return before.stripTrailing().length() < before.lastIndexOf('\n') + 1 && value.indexOf('\n') < 0;
    }

    private static String part(byte[] document, int profile, int part, long[] place) {
        return Texts.decoded(Engine.explainDocument(document, profile, part, place, new long[Engine.TOLD]));
    }

    /** The text, or throws why there is none. */
    byte[] textOrThrow(String query, Limits limits) {
        if (status == Codes.DONE) {
            return text;
        }
        if (status == Codes.NO_MEMORY) {
            throw noMemory();
        }
        throw switch (status) {
            case Codes.QUERY_REFUSED -> new QueryException(QueryKind.of(kind), place, query, why);
            case Codes.DOCUMENT_REFUSED -> new DocumentException(DocumentKind.of(kind), Texts.decoded(text), why);
            case Codes.STEPS_USED_UP -> new LimitException(LimitException.Kind.STEPS, limits.steps(), query);
            case Codes.TOO_MANY_NODES -> new LimitException(LimitException.Kind.NODES, limits.nodes(), query);
            case Codes.TOO_MANY_BYTES -> new LimitException(LimitException.Kind.BYTES, limits.bytes(), query);
            default -> throw new AssertionError("the status " + status + " of jp.h");
        };
    }

    static OutOfMemoryError noMemory() {
        return new OutOfMemoryError(NO_MEMORY);
    }
}
