import java.nio.charset.StandardCharsets;
import java.util.List;
import java.util.concurrent.FutureTask;
import jsonpath.jp.Document;
import jsonpath.jp.InterruptedQueryException;
import jsonpath.jp.Node;
import jsonpath.jp.Queries;
import jsonpath.jp.Query;

/** Calls that would take long, and whose threads are interrupted. */
final class Interrupts {
    /** A call ends within this time of the interrupt, on a machine that does other work besides. */
    private static final long MOST_NANOSECONDS = 5_000_000_000L;
    private static final int SOON = 50;
    private static final int LATE = 1000;
    private static final int VERY_LATE = 6000;

    private static final String NESTED = "[".repeat(100) + "]".repeat(100);
    private static final String YEARS = "$" + "..*".repeat(20) + ".x";

    private Interrupts() {}

    /** How long the call, which is made again and again, takes to end after an interrupt, in nanoseconds. */
    private static long interrupted(Runnable call, int wait) throws Exception {
        FutureTask<Long> task = new FutureTask<>(() -> {
            Check.thrown(InterruptedQueryException.class, () -> {
                while (true) {
                    call.run();
                }
            });
            long end = System.nanoTime();
            Check.that(Thread.interrupted(), "the thread is interrupted no more");
            return end;
        });
        Thread thread = new Thread(task);
        thread.start();
        Thread.sleep(wait);
        long start = System.nanoTime();
        thread.interrupt();
        return task.get() - start;
    }

    private static void check(Runnable call) throws Exception {
        for (int wait : new int[] {SOON, LATE}) {
            long took = interrupted(call, wait);
            Check.that(took < MOST_NANOSECONDS, "it took " + took + " ns");
        }
    }

    public static void whatTakesYears() throws Exception {
        Query query = Query.compile(YEARS);
        Document document = Document.parse(NESTED);
        check(() -> query.find(NESTED));
        check(() -> query.exists(document));
        check(() -> query.findEach(document).iterator().next());
        check(() -> new Queries(List.of("$", YEARS)).find(NESTED));
    }

    /** After so long a run goes on for longer than a call that follows may take. */
    public static void whatFollowsDoesNotWaitForWhatIsLeft() throws Exception {
        Query query = Query.compile(YEARS);
        Document document = Document.parse(NESTED);
        Check.that(interrupted(() -> query.find(document), VERY_LATE) < MOST_NANOSECONDS, "the interrupt is late");
        long start = System.nanoTime();
        Check.equal(1, Query.compile("$").find(document).size());
        Check.equal(List.of(), query.find("[]"));
        Check.that(System.nanoTime() - start < MOST_NANOSECONDS / 2, "the calls that follow wait");
    }

    public static void aLongPatternAndALongAnswer() throws Exception {
        Document letters = Document.parse("[\"" + "a".repeat(100_000) + "\"]");
        Query pattern = Query.compile("$[?match(@,\"a{99999}\")]");
        check(() -> pattern.find(letters));
        Query answer = Query.compile("$[" + "0,".repeat(5000) + "0]");
        Document text = Document.parse("[\"" + "a".repeat(20_000) + "\"]");
        check(() -> answer.find(text));
    }

    public static void whatIsLong() throws Exception {
        Query query = Query.compile("$.x");
        byte[] document = ("[" + "1,".repeat(20_000_000) + "1]").getBytes(StandardCharsets.UTF_8);
        check(() -> query.find(document));
        check(() -> Document.parse(document));
        String text = "$" + ".a".repeat(4_000_000);
        check(() -> Query.compile(text));
    }

    /** One call that waits for another's turn over a document. */
    public static void oneThatWaitsForItsTurn() throws Exception {
        Document document = Document.parse(NESTED);
        Query years = Query.compile(YEARS);
        Thread other = new Thread(() -> Check.thrown(InterruptedQueryException.class, () -> years.find(document)));
        other.start();
        Thread.sleep(LATE);
        Query query = Query.compile("$");
        check(() -> query.find(document));
        other.interrupt();
        other.join();
    }

    /** What is answered at once is answered, and the thread stays interrupted. */
    public static void beforeAShortCall() {
        Thread.currentThread().interrupt();
        List<Node> nodes = Check.find("$[*]", "[1,2]");
        Check.that(Thread.interrupted(), "the thread is interrupted no more");
        Check.equal(2, nodes.size());
    }
}
