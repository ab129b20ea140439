package jsonpath.jp;

import java.io.ByteArrayOutputStream;
import java.util.ArrayList;
import java.util.Arrays;
import java.util.Collections;
import java.util.List;
import java.util.Objects;
import java.util.stream.IntStream;

/**
 * Many queries, to be asked of a document that is read once for all of them, and once more where what they select takes
 * more than 4 KiB or one of them takes long. One that is refused stops no other.
 *
 * <pre>{@code
 * List<Answer> answers = new Queries(List.of("$.a[0]", "$.a[01]")).find("{\"a\":[1,2]}");
 * answers.get(0).nodes();   // [Node[path=$['a'][0], value=1]]
 * answers.get(1).refusal(); // Optional[jsonpath.jp.QueryException: query refused: Syntax at 5 ..]
 * }</pre>
 */
public final class Queries {
    /** The least steps of the first runs, which have as many together as that of one query. */
    private static final long LEAST_RUN = 1 << 10;
    /** Of bytes each has so many times these. */
    private static final long BYTES_A_STEP = 64;

    private final List<String> texts;
    private final Profile profile;
    private final Numbers numbers;
    private final Limits limits;
    private final byte[] joined;
    /** Where each ends in the text of all. */
    private final long[] ends;

    /**
     * Queries with the functions of RFC 9535 and decimals, and without a limit. They are not read yet.
     *
     * @param texts the queries
     */
    public Queries(List<String> texts) {
        this(texts, Profile.STANDARD, Limits.NONE);
    }

    /**
     * Queries with decimals, which are not read yet.
     *
     * @param texts the queries
     * @param profile the functions that they may call
     * @param limits the most that each may do and give
     */
    public Queries(List<String> texts, Profile profile, Limits limits) {
        this(texts, profile, Numbers.DECIMAL, limits);
    }

    /**
     * Queries, which are not read yet.
     *
     * @param texts the queries
     * @param profile the functions that they may call
     * @param numbers those of the queries and of the document
     * @param limits the most that each may do and give
     */
    public Queries(List<String> texts, Profile profile, Numbers numbers, Limits limits) {
        this.texts = List.copyOf(texts);
        this.profile = Objects.requireNonNull(profile, "profile");
        this.numbers = Objects.requireNonNull(numbers, "numbers");
        this.limits = Objects.requireNonNull(limits, "limits");
        ByteArrayOutputStream bytes = new ByteArrayOutputStream();
        ends = new long[this.texts.size()];
        for (int at = 0; at < ends.length; at += 1) {
            bytes.writeBytes(Texts.encoded(this.texts.get(at)));
            ends[at] = bytes.size();
        }
        joined = bytes.toByteArray();
    }

    /**
     * What each selects, or why it does not, in the order of the queries.
     *
     * @param document a JSON text
     * @return an answer for each query
     */
    public List<Answer> find(String document) {
        return find(Texts.encoded(document));
    }

    /**
     * What each selects, or why it does not, in the order of the queries.
     *
     * @param document a JSON text in UTF-8
     * @return an answer for each query
     */
    public List<Answer> find(byte[] document) {
        long steps = Math.max(Runs.FIRST_STEPS / Math.max(ends.length, 1), LEAST_RUN);
        Limits run = new Limits(
                Runs.less(steps, limits.steps()), limits.nodes(), Runs.less(BYTES_A_STEP * steps, limits.bytes()));
        // Steps count as bytes here: of either a call has as many on its caller's thread.
        long size = document.length + joined.length + LEAST_RUN * ends.length;
        List<Outcome> outcomes = Runs.reading(size, () -> outcomes(document, run));
        List<Answer> answers = new ArrayList<>(ends.length);
        try (Later later = new Later(document)) {
            for (int at = 0; at < ends.length; at += 1) {
                boolean isShort = Runs.isShort(outcomes.get(at), run, limits);
                answers.add(isShort ? later.answer(texts.get(at)) : answer(texts.get(at), outcomes.get(at)));
            }
        }
        return Collections.unmodifiableList(answers);
    }

    private Answer answer(String query, Outcome outcome) {
        return Answer.of(() -> Lines.nodes(outcome.textOrThrow(query, limits)));
    }

    /** Answers of queries that need longer runs, over a document that is read for the first of them. */
    private final class Later implements AutoCloseable {
        private final byte[] text;
        private Document document;

        Later(byte[] text) {
            this.text = text;
        }

        Answer answer(String query) {
            if (document == null) {
                document = Document.parse(text, numbers);
            }
            try (Query kept = Query.compile(query, profile, numbers, limits)) {
                return Answer.of(() -> kept.find(document));
            }
        }

        @Override
        public void close() {
            if (document != null) {
                document.close();
            }
        }
    }

    /** The outcomes of one run for each query. Why the document is refused is looked for once. */
    private List<Outcome> outcomes(byte[] document, Limits run) {
        int number = profile.number(numbers);
        long[] told = new long[Engine.TOLD * ends.length];
        byte[] lines = Engine.askMany(
                joined, ends, document, number, run.steps(), run.nodes(), run.bytes(), told);
        if (lines == null) {
            throw Outcome.noMemory();
        }
        boolean isRefused = anyIs(Codes.DOCUMENT_REFUSED, told);
        Outcome.Why why = isRefused ? Outcome.whyOfDocument(document, number) : null;
        List<Outcome> outcomes = new ArrayList<>(ends.length);
        int start = 0;
        for (int at = 0; at < ends.length; at += 1) {
            long[] one = Arrays.copyOfRange(told, Engine.TOLD * at, Engine.TOLD * (at + 1));
            int end = start + (int) one[Engine.TOLD - 1];
            if (one[0] == Codes.QUERY_REFUSED) {
                outcomes.add(Outcome.ofQuery(one, Texts.encoded(texts.get(at)), number));
            } else {
                outcomes.add(Outcome.of(one, Arrays.copyOfRange(lines, start, end), why));
            }
            start = end;
        }
        return outcomes;
    }

    private static boolean anyIs(int status, long[] told) {
        return IntStream.range(0, told.length / Engine.TOLD).anyMatch(at -> told[Engine.TOLD * at] == status);
    }
}
