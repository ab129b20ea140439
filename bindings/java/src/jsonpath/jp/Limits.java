package jsonpath.jp;

/**
 * The most that a query may do with a document and give of it. Of each 0 is no limit.
 *
 * <pre>{@code
 * Limits limits = Limits.NONE.withSteps(1_000_000).withNodes(10_000).withBytes(1 << 20);
 * }</pre>
 *
 * @param steps of the evaluation, about one for each value that is looked at and each byte that is compared
 * @param nodes of the answer
 * @param bytes of the answer, which is a line for each node: the path, a tab, the value and a newline, in UTF-8
 */
public record Limits(long steps, long nodes, long bytes) {
    /** No limit at all. */
    public static final Limits NONE = new Limits(0, 0, 0);

    /**
     * Limits of all three.
     *
     * @param steps of the evaluation
     * @param nodes of the answer
     * @param bytes of the answer
     * @throws IllegalArgumentException where one is negative
     */
    public Limits {
        if (steps < 0 || nodes < 0 || bytes < 0) {
            throw new IllegalArgumentException("a limit is not negative: " + Math.min(steps, Math.min(nodes, bytes)));
        }
    }

    /**
     * These with another limit of steps.
     *
     * @param steps the limit
     * @return the limits
     */
    public Limits withSteps(long steps) {
        return new Limits(steps, nodes, bytes);
    }

    /**
     * These with another limit of nodes.
     *
     * @param nodes the limit
     * @return the limits
     */
    public Limits withNodes(long nodes) {
        return new Limits(steps, nodes, bytes);
    }

    /**
     * These with another limit of bytes.
     *
     * @param bytes the limit
     * @return the limits
     */
    public Limits withBytes(long bytes) {
        return new Limits(steps, nodes, bytes);
    }
}
