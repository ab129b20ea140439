package jsonpath.jp;

/** A query that has other {@link Numbers} than the document was read with which it is asked of. */
public final class OtherNumbersException extends JsonPathException {
    private static final long serialVersionUID = 1;

    private final Numbers numbers;
    private final String query;

    OtherNumbersException(Numbers numbers, String query) {
        super("other numbers: the document was read with " + numbers.told() + ", which the query has not: read one of "
                + "them with the numbers of the other, by Document.parse or Query.compile");
        this.numbers = numbers;
        this.query = query;
    }

    /**
     * The numbers with which the document was read.
     *
     * @return the numbers, which the query has not
     */
    public Numbers numbers() {
        return numbers;
    }

    /**
     * The query.
     *
     * @return its text
     */
    public String query() {
        return query;
    }
}
