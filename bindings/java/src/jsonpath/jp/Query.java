package jsonpath.jp;

import java.util.List;
import java.util.Objects;
import java.util.Optional;

/**
 * A query that is accepted, read once and kept by the engine. It can be asked of any number of documents, from any
 * threads at once.
 *
 * <pre>{@code
 * try (Query query = Query.compile("$.book[?@.price < 10].title")) {
 *     for (Node node : query.find("{\"book\":[{\"title\":\"Moby Dick\",\"price\":8.99}]}")) {
 *         System.out.println(node.path() + " " + node.value()); // $['book'][0]['title'] "Moby Dick"
 *     }
 * }
 * }</pre>
 *
 * <p>Nodes come in the order of RFC 9535, and one that is selected twice stands there twice. A document is a JSON text,
 * as characters or as bytes in UTF-8, or one that is kept. Each call that asks throws {@link DocumentException} where a
 * text is no document, {@link LimitException} where the query goes beyond one of its limits,
 * {@link OtherNumbersException} where a document that is kept was read with other {@link Numbers} than the query has,
 * {@link InterruptedQueryException} where its thread is interrupted while it waits, {@link IllegalStateException} where
 * the query or the document is closed, and {@link OutOfMemoryError}.
 *
 * <p>A query that is not closed gives its memory back when nothing refers to it.
 */
public final class Query implements AutoCloseable {
    private final String text;
    private final Profile profile;
    private final Numbers numbers;
    private final Limits limits;
    private final SpareHandles handles;

    private Query(String text, Profile profile, Numbers numbers, Limits limits) {
        this.text = text;
        this.profile = Objects.requireNonNull(profile, "profile");
        this.numbers = Objects.requireNonNull(numbers, "numbers");
        this.limits = Objects.requireNonNull(limits, "limits");
        handles = new SpareHandles(text, number());
    }

    /** The number that the engine has for the functions and the numbers. */
    private int number() {
        return profile.number(numbers);
    }

    /**
     * Reads a query with the functions of RFC 9535 and decimals, and without a limit.
     *
     * @param text the query
     * @return the query
     * @throws QueryException where it is refused
     */
    public static Query compile(String text) {
        return compile(text, Profile.STANDARD, Limits.NONE);
    }

    /**
     * Reads a query with the functions of RFC 9535 and decimals.
     *
     * @param text the query
     * @param limits the most that each call may do and give
     * @return the query
     * @throws QueryException where it is refused
     */
    public static Query compile(String text, Limits limits) {
        return compile(text, Profile.STANDARD, limits);
    }

    /**
     * Reads a query with decimals.
     *
     * @param text the query
     * @param profile the functions that it may call
     * @param limits the most that each call may do and give
     * @return the query
     * @throws QueryException where it is refused
     */
    public static Query compile(String text, Profile profile, Limits limits) {
        return compile(text, profile, Numbers.DECIMAL, limits);
    }

    /**
     * Reads a query.
     *
     * @param text the query
     * @param profile the functions that it may call
     * @param numbers those of the query and of the documents that it is asked of
     * @param limits the most that each call may do and give
     * @return the query
     * @throws QueryException where it is refused
     */
    public static Query compile(String text, Profile profile, Numbers numbers, Limits limits) {
        return new Query(text, profile, numbers, limits);
    }

    /**
     * The query as it was given.
     *
     * @return its text
     */
    public String text() {
        return text;
    }

    /**
     * The functions with which it was read.
     *
     * @return the profile
     */
    public Profile profile() {
        return profile;
    }

    /**
     * The numbers with which it was read, which its documents have too.
     *
     * @return the numbers
     */
    public Numbers numbers() {
        return numbers;
    }

    /**
     * The most that each call may do and give.
     *
     * @return the limits
     */
    public Limits limits() {
        return limits;
    }

    /**
     * The one canonical text of the query: equal for equal queries, however they are spelled.
     *
     * @return the text
     */
    public String canonical() {
        handles.requireOpen();
        byte[] query = Texts.encoded(text);
        Outcome outcome = Runs.reading(query.length, () -> {
            long[] told = new long[Engine.TOLD];
            return Outcome.of(told, Engine.canonical(query, number(), told));
        });
        return Texts.decoded(outcome.textOrThrow(text, limits));
    }

    /**
     * The nodes that it selects.
     *
     * @param document a JSON text
     * @return the nodes, in a list that can't be changed
     */
    public List<Node> find(String document) {
        return find(Texts.encoded(document));
    }

    /**
     * The nodes that it selects.
     *
     * @param document a JSON text in UTF-8
     * @return the nodes, in a list that can't be changed
     */
    public List<Node> find(byte[] document) {
        return Lines.nodes(lines(document, Wanted.ALL));
    }

    /**
     * The nodes that it selects.
     *
     * @param document a document that is kept
     * @return the nodes, in a list that can't be changed
     */
    public List<Node> find(Document document) {
        return Lines.nodes(lines(document, Wanted.ALL));
    }

    /**
     * The first of the nodes that it selects, with which the evaluation stops.
     *
     * @param document a JSON text
     * @return the node, if there is any
     */
    public Optional<Node> findFirst(String document) {
        return findFirst(Texts.encoded(document));
    }

    /**
     * The first of the nodes that it selects, with which the evaluation stops.
     *
     * @param document a JSON text in UTF-8
     * @return the node, if there is any
     */
    public Optional<Node> findFirst(byte[] document) {
        return Lines.first(lines(document, Wanted.FIRST));
    }

    /**
     * The first of the nodes that it selects, with which the evaluation stops.
     *
     * @param document a document that is kept
     * @return the node, if there is any
     */
    public Optional<Node> findFirst(Document document) {
        return Lines.first(lines(document, Wanted.FIRST));
    }

    /**
     * Whether it selects any node. The evaluation stops at the first.
     *
     * @param document a JSON text
     * @return whether there is one
     */
    public boolean exists(String document) {
        return exists(Texts.encoded(document));
    }

    /**
     * Whether it selects any node. The evaluation stops at the first.
     *
     * @param document a JSON text in UTF-8
     * @return whether there is one
     */
    public boolean exists(byte[] document) {
        return lines(document, Wanted.ANY).length > 0;
    }

    /**
     * Whether it selects any node. The evaluation stops at the first.
     *
     * @param document a document that is kept
     * @return whether there is one
     */
    public boolean exists(Document document) {
        return lines(document, Wanted.ANY).length > 0;
    }

    /**
     * The nodes that it selects, looked for as they are asked for: the first is found without the others. An iterator
     * keeps nothing that has to be closed, and has no more nodes after an exception. Of the limits that of steps alone
     * holds: where all nodes need more, some of the first may be given before the exception.
     *
     * @param document a document that is kept
     * @return the nodes, which may be gone through any number of times
     */
    public Iterable<Node> findEach(Document document) {
        handles.requireOpen();
        document.requireOpen();
        return () -> new Pages(this, document);
    }

    /** An iterator's next page, behind which the cursor then stands. */
    byte[] nextPage(Document document, long[] cursor) {
        // A run that nobody waits for moves no cursor that somebody has.
        long[] moved = cursor.clone();
        Limits steps = Limits.NONE.withSteps(limits.steps());
        Outcome outcome = asked(document, steps, (query, kept, run) -> query.nextPage(moved, kept, run));
        System.arraycopy(moved, 0, cursor, 0, cursor.length);
        return outcome.textOrThrow(text, limits);
    }

    private byte[] lines(byte[] document, Wanted wanted) {
        Outcome outcome = Runs.of(limits, document.length, run -> handles.lent(
                document.length, query -> query.ask(document, number(), wanted, run)));
        return outcome.textOrThrow(text, limits);
    }

    private byte[] lines(Document document, Wanted wanted) {
        Outcome outcome = asked(document, limits, (query, kept, run) -> query.askDocument(kept, wanted, run));
        return outcome.textOrThrow(text, limits);
    }

    private interface Asked {
        Outcome of(Handle query, Handle document, Limits run);
    }

    private Outcome asked(Document document, Limits limits, Asked asked) {
        Outcome outcome = document.leftWhereInterrupted(() -> Runs.of(limits, 0, run -> handles.lent(
                0, query -> document.lent(kept -> asked.of(query, kept, run)))));
        if (outcome.status() == Codes.OTHER_NUMBERS) {
            throw new OtherNumbersException(document.numbers(), text);
        }
        return outcome;
    }

    /** Gives the memory back, as soon as no call uses it. Further calls throw {@link IllegalStateException}. */
    @Override
    public void close() {
        handles.close();
    }

    /**
     * The query as it was given.
     *
     * @return its text
     */
    @Override
    public String toString() {
        return text;
    }
}
