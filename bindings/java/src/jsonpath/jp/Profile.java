package jsonpath.jp;

/** Which functions a query may call. */
public enum Profile {
    /** Those of RFC 9535. */
    STANDARD(Codes.STANDARD, Codes.DECIMAL),
    /** Also {@code distinct}, which gives each node of a nodelist once. */
    EXTENDED(Codes.EXTENDED, Codes.EXTENDED_DECIMAL);

    private final int whole;
    private final int decimal;

    Profile(int whole, int decimal) {
        this.whole = whole;
        this.decimal = decimal;
    }

    /** The number that the engine has for these functions with these numbers. */
    int number(Numbers numbers) {
        return numbers == Numbers.WHOLE ? whole : decimal;
    }
}
