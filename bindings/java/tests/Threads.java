import java.nio.charset.StandardCharsets;
import java.util.ArrayList;
import java.util.List;
import java.util.concurrent.ExecutorService;
import java.util.concurrent.Executors;
import java.util.concurrent.Future;
import java.util.concurrent.FutureTask;
import java.util.function.Supplier;
import jsonpath.jp.Document;
import jsonpath.jp.JsonPathException;
import jsonpath.jp.Node;
import jsonpath.jp.Queries;
import jsonpath.jp.Query;

/** Calls of many threads, and of threads with little stack. */
final class Threads {
    private Threads() {}

    public static void manyOverOneQueryAndOneDocument() throws Exception {
        ExecutorService threads = Executors.newFixedThreadPool(8);
        Query query = Query.compile("$[*]");
        Document document = Document.parse("[1,2,3]");
        List<Future<?>> calls = new ArrayList<>();
        for (int it = 0; it < 8; it += 1) {
            calls.add(threads.submit(() -> {
                for (int call = 0; call < 2000; call += 1) {
                    Check.equal(List.of("1", "2", "3"), Check.values(query.find(document)));
                    Check.equal(List.of("1", "2"), Check.values(query.find("[1,2]")));
                    int[] count = {0};
                    query.findEach(document).forEach(node -> count[0] += 1);
                    Check.equal(3, count[0]);
                }
            }));
        }
        for (Future<?> call : calls) {
            call.get();
        }
        threads.shutdown();
    }

    /** What is asked on a thread with so much stack. */
    private static <T> T onLittleStack(long size, Supplier<T> ask) throws Exception {
        FutureTask<T> task = new FutureTask<>(ask::get);
        new Thread(null, task, "little", size).start();
        return task.get();
    }

    private static String told(Supplier<List<Node>> call) {
        try {
            return call.get().toString();
        } catch (JsonPathException fault) {
            return fault.getMessage();
        }
    }

    private static List<String> answers(String query, String document) {
        return List.of(
                told(() -> Check.find(query, document)),
                told(() -> Check.kept(query, document)),
                told(() -> new Queries(List.of(query)).find(document.getBytes(StandardCharsets.UTF_8)).get(0).nodes()));
    }

    public static void withLittleStack() throws Exception {
        String deep = "$" + "[?@.a||@&&!@".repeat(128) + "]".repeat(128);
        String nested = "[".repeat(126) + "]".repeat(126);
        for (List<String> row : List.of(
                List.of("$.a", "{\"a\":1}"),
                List.of("$[?@<8.95]", "[8.94,1e-7,1e400]"),
                List.of(deep, nested),
                List.of("$[?@".repeat(200), "[1]"),
                List.of("$", nested))) {
            List<String> expected = answers(row.get(0), row.get(1));
            for (long size : new long[] {160 << 10, 256 << 10, 512 << 10, 1 << 20, 4 << 20}) {
                Check.equal(expected, onLittleStack(size, () -> answers(row.get(0), row.get(1))));
            }
        }
        // What a thread with room keeps is freed by one with little.
        Query query = Query.compile(deep);
        onLittleStack(160 << 10, () -> {
            query.close();
            return 0;
        });
    }

    private static int deepest(Query query, Document document, int level) {
        Check.equal(3, query.find(document).size());
        Check.equal(3, query.find("[1,2,3]").size());
        try {
            return deepest(query, document, level + 1);
        } catch (StackOverflowError fault) {
            return level;
        }
    }

    /** Near the end of a stack a call gives its answer, or overflows as Java's own do. */
    public static void whereLittleStackIsLeft() throws Exception {
        Query query = Query.compile("$[*]");
        Document document = Document.parse("[1,2,3]");
        for (long size : new long[] {256 << 10, 1 << 20}) {
            Check.that(onLittleStack(size, () -> deepest(query, document, 0)) > 10, "it overflows at once");
        }
        Check.equal(3, query.find(document).size());
    }
}
