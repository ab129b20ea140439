package jsonpath.jp;

/** A query that does or gives more than one of its {@link Limits} allows. Nothing is given in part. */
public final class LimitException extends JsonPathException {
    private static final long serialVersionUID = 1;

    private final Kind kind;
    private final long limit;
    private final String query;

    /** Which limit it is. */
    public enum Kind {
        /** The evaluation needs more steps. */
        STEPS("steps used up: the query needs more than "),
        /** The query selects more nodes. */
        NODES("too many nodes: the query selects more than "),
        /** The answer has more bytes. */
        BYTES("too many bytes: the answer has more than ");

        private final String told;

        Kind(String told) {
            this.told = told;
        }
    }

    LimitException(Kind kind, long limit, String query) {
        super(kind.told + limit);
        this.kind = kind;
        this.limit = limit;
        this.query = query;
    }

    /**
     * Which limit it is.
     *
     * @return the kind
     */
    public Kind kind() {
        return kind;
    }

    /**
     * The limit.
     *
     * @return the number that was allowed
     */
    public long limit() {
        return limit;
    }

    /**
     * The query.
     *
     * @return its text
     */
    public String query() {
        return query;
    }
}
