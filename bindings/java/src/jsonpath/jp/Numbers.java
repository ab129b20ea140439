package jsonpath.jp;

/** Which numbers a query has, and the documents that it is asked of. None is rounded. */
public enum Numbers {
    /** Exact decimals: at most 38 digits, times a power of ten from -1,000,000 to 1,000,000. */
    DECIMAL("decimals"),
    /** Whole numbers from -(2^63) to (2^64)-1. A document with any other is refused, and so is a query. */
    WHOLE("whole numbers");

    private final String told;

    Numbers(String told) {
        this.told = told;
    }

    /** Their name in a sentence. */
    String told() {
        return told;
    }
}
