package jsonpath.jp;

/** What is wrong with a document. Made from bindings/numbers.json by .ci/numbers --write. */
public enum DocumentKind {
    /** No JSON, no UTF-8, or deeper than 127 levels. */
    NOT_JSON(1, "NotJson"),
    /** The text is the normalized path of the first number that is not. */
    NUMBER_NOT_WHOLE(2, "NotWhole"),
    /** More than (2^53)-1 items. */
    LIST_TOO_LONG(3, "ListTooLong"),
    /** The text is the normalized path of the first number that is too much for a decimal. */
    NUMBER_BEYOND_DECIMAL(5, "NumberRange"),
    /** 2^32 bytes or more. */
    DOCUMENT_TOO_LARGE(6, "DocumentTooLarge");

    private final int number;
    private final String told;

    DocumentKind(int number, String told) {
        this.number = number;
        this.told = told;
    }

    static DocumentKind of(int number) {
        for (DocumentKind kind : values()) {
            if (kind.number == number) {
                return kind;
            }
        }
        throw new AssertionError("no kind of jp.h: " + number);
    }

    /** Its name, as the program jp tells it. */
    @Override
    public String toString() {
        return told;
    }
}
