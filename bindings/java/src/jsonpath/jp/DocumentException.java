package jsonpath.jp;

import java.util.Optional;

/** A text that is no document. The message has the place, and why. */
public final class DocumentException extends JsonPathException {
    private static final long serialVersionUID = 1;

    private final DocumentKind kind;
    private final String path;
    private final long offset;
    private final long line;
    private final long column;
    private final String reason;
    private final String sentence;
    private final String suggestion;

    DocumentException(DocumentKind kind, String path, Outcome.Why why) {
        super(message(kind, path, why));
        this.kind = kind;
        this.path = path.isEmpty() ? null : path;
        offset = why.place()[0];
        line = why.place()[1];
        column = why.place()[2];
        reason = why.reason();
        sentence = why.sentence();
        suggestion = why.suggestion();
    }

    private static String message(DocumentKind kind, String path, Outcome.Why why) {
        String at = path.isEmpty() ? "" : " at " + path;
        long[] place = why.place();
        String told = place[1] == 0 ? "" : "\nline " + place[1] + ", column " + place[2] + ": " + why.sentence();
        return "document refused: " + kind + at + told + (why.suggestion() == null ? "" : "\n" + why.suggestion());
    }

    /**
     * What is wrong with it.
     *
     * @return the kind
     */
    public DocumentKind kind() {
        return kind;
    }

    /**
     * Of {@link DocumentKind#NUMBER_NOT_WHOLE} the normalized path of the first number that is not a whole one of 64
     * bits, and of {@link DocumentKind#NUMBER_BEYOND_DECIMAL} that of the first one that is too much for a decimal.
     *
     * @return the path, if there is one
     */
    public Optional<String> path() {
        return Optional.ofNullable(path);
    }

    /**
     * The byte of the text, in UTF-8, at which it goes wrong.
     *
     * @return the byte, from 0; the length in bytes where it ends too soon
     */
    public long offset() {
        return offset;
    }

    /**
     * The number of that byte's line.
     *
     * @return the number, from 1; 0 where memory ran out
     */
    public long line() {
        return line;
    }

    /**
     * Its column in that line, in characters, each of which counts once, also beyond U+FFFF.
     *
     * @return the column, from 1; 0 where the line is
     */
    public long column() {
        return column;
    }

    /**
     * The name of the reason, as {@code TrailingComma}. Names stay, and new ones may come.
     *
     * @return the name; empty where the line is 0
     */
    public String reason() {
        return reason;
    }

    /**
     * Why it is refused, told to whoever wrote it. The wording may change.
     *
     * @return the sentence; empty where the line is 0
     */
    public String sentence() {
        return sentence;
    }

    /**
     * How a text is asked that looks like JSON Lines, where each line is a document.
     *
     * @return the suggestion, if there is one
     */
    public Optional<String> suggestion() {
        return Optional.ofNullable(suggestion);
    }
}
