package jsonpath.jp;

import java.util.Objects;
import java.util.function.Function;
import java.util.function.Predicate;
import java.util.function.Supplier;

/**
 * A document that is read once and asked many queries, which take turns from whichever threads they come. It keeps the
 * text, and one to three times its bytes besides.
 *
 * <pre>{@code
 * try (Document document = Document.parse("{\"a\":[1,2]}"); Query query = Query.compile("$.a[*]")) {
 *     for (Node node : query.findEach(document)) {
 *         System.out.println(node);
 *     }
 * }
 * }</pre>
 *
 * <p>A document that is not closed gives its memory back when nothing refers to it.
 */
public final class Document implements AutoCloseable {
    /** The text, from which it is read again where a call that nobody waits for has it still. */
    private final byte[] text;
    private final Numbers numbers;
    private Reading reading;
    private volatile boolean isClosed;

    private Document(byte[] text, Numbers numbers) {
        this.text = text;
        this.numbers = Objects.requireNonNull(numbers, "numbers");
        reading = read();
    }

    private Reading read() {
        return new Reading(text, Profile.STANDARD.number(numbers));
    }

    /**
     * Reads a document, whose numbers are decimals.
     *
     * @param text a JSON text
     * @return the document
     * @throws DocumentException where the text is none
     * @throws InterruptedQueryException where the text is long, and the thread is interrupted meanwhile
     */
    public static Document parse(String text) {
        return parse(text, Numbers.DECIMAL);
    }

    /**
     * Reads a document, whose numbers are decimals.
     *
     * @param text a JSON text in UTF-8, which is copied
     * @return the document
     * @throws DocumentException where the text is none
     * @throws InterruptedQueryException where the text is long, and the thread is interrupted meanwhile
     */
    public static Document parse(byte[] text) {
        return parse(text, Numbers.DECIMAL);
    }

    /**
     * Reads a document.
     *
     * @param text a JSON text
     * @param numbers those of the document, and of the queries that it is asked
     * @return the document
     * @throws DocumentException where the text is none
     * @throws InterruptedQueryException where the text is long, and the thread is interrupted meanwhile
     */
    public static Document parse(String text, Numbers numbers) {
        return new Document(Texts.encoded(text), numbers);
    }

    /**
     * Reads a document.
     *
     * @param text a JSON text in UTF-8, which is copied
     * @param numbers those of the document, and of the queries that it is asked
     * @return the document
     * @throws DocumentException where the text is none
     * @throws InterruptedQueryException where the text is long, and the thread is interrupted meanwhile
     */
    public static Document parse(byte[] text, Numbers numbers) {
        return new Document(text.clone(), numbers);
    }

    /**
     * The numbers with which it was read.
     *
     * @return the numbers
     */
    public Numbers numbers() {
        return numbers;
    }

    /** What a call gives with the handle that keeps the document. */
    Outcome lent(Function<Handle, Outcome> call) {
        Outcome outcome = reading().lent(call);
        while (outcome == null) {
            if (Roomy.isLeft(Thread.currentThread())) {
                throw new InterruptedQueryException();
            }
            outcome = reading().lent(call);
        }
        return outcome;
    }

    private synchronized Reading reading() {
        requireOpen();
        if (reading == null) {
            reading = read();
        }
        return reading;
    }

    void requireOpen() {
        if (isClosed) {
            throw new IllegalStateException("the document is closed");
        }
    }

    /** What a call gives. Where it is interrupted the handle is left to it, so that others don't wait for it. */
    Outcome leftWhereInterrupted(Supplier<Outcome> call) {
        try {
            return call.get();
        } catch (InterruptedQueryException fault) {
            drop(Reading::isLeft);
            throw fault;
        }
    }

    private synchronized void drop(Predicate<Reading> which) {
        if (reading != null && which.test(reading)) {
            reading.drop();
            reading = null;
        }
    }

    /** Gives the memory back, as soon as no call uses it. Further calls throw {@link IllegalStateException}. */
    @Override
    public void close() {
        isClosed = true;
        drop(reading -> true);
    }
}
