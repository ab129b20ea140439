import java.util.ArrayList;
import java.util.Iterator;
import java.util.List;
import java.util.concurrent.Callable;
import java.util.concurrent.ExecutionException;
import java.util.concurrent.ExecutorService;
import java.util.concurrent.Executors;
import java.util.concurrent.Future;
import jsonpath.jp.Document;
import jsonpath.jp.LimitException;
import jsonpath.jp.Node;
import jsonpath.jp.Query;

/** Queries and documents that are closed, also while others use them. */
final class Closed {
    private static final long SECOND = 1_000_000_000;

    private Closed() {}

    private static void checkClosed(List<Runnable> calls) {
        for (Runnable call : calls) {
            Check.thrown(IllegalStateException.class, call);
        }
    }

    public static void aQuery() {
        Query query = Query.compile("$[*]");
        Document document = Document.parse("[1,2,3]");
        Iterator<Node> nodes = query.findEach(document).iterator();
        Check.equal("1", nodes.next().value());
        query.close();
        query.close();
        checkClosed(List.of(
                () -> query.find("[1]"),
                () -> query.find(document),
                () -> query.findFirst("[1]"),
                () -> query.exists(document),
                () -> query.findEach(document),
                query::canonical,
                () -> nodes.forEachRemaining(node -> {})));
        Check.equal("$[*]", query.text());
    }

    public static void aDocument() {
        Query query = Query.compile("$[*]");
        Document document = Document.parse("[1,2,3]");
        Iterator<Node> nodes = query.findEach(document).iterator();
        Check.equal("1", nodes.next().value());
        document.close();
        document.close();
        checkClosed(List.of(
                () -> query.find(document),
                () -> query.findFirst(document),
                () -> query.exists(document),
                () -> query.findEach(document),
                () -> nodes.forEachRemaining(node -> {})));
        Check.equal(1, query.find("[1]").size());
    }

    /** What a call gives, or "closed". */
    private static Object told(Callable<Object> call) throws Exception {
        try {
            return call.call();
        } catch (IllegalStateException fault) {
            return "closed";
        }
    }

    /** Closing does not wait for a call that takes long, which ends at the latest for its limit. */
    public static void whileALongCallUsesThem() throws Exception {
        ExecutorService threads = Executors.newCachedThreadPool();
        Query query = Check.within("$" + "..*".repeat(20) + ".x", 30_000_000);
        String nested = "[".repeat(100) + "]".repeat(100);
        Document document = Document.parse(nested);
        List<Future<Object>> calls = List.of(
                threads.submit(() -> told(() -> query.find(document))),
                threads.submit(() -> told(() -> query.find(nested))));
        Thread.sleep(50);
        long start = System.nanoTime();
        document.close();
        query.close();
        Check.that(System.nanoTime() - start < 5 * SECOND, "closing waits for the calls");
        for (Future<Object> call : calls) {
            try {
                Check.equal("closed", call.get());
            } catch (ExecutionException fault) {
                Check.that(fault.getCause() instanceof LimitException, "no limit: " + fault.getCause());
            }
        }
        threads.shutdown();
    }

    /** Threads ask until they are told that what they ask is closed, and until then each answer is right. */
    public static void whileManyUseThem() throws Exception {
        ExecutorService threads = Executors.newFixedThreadPool(4);
        String text = "[" + "1,".repeat(99) + "1]";
        for (int round = 0; round < 300; round += 1) {
            Query query = Query.compile("$[?@==1]");
            Document document = Document.parse(text);
            List<Future<Object>> calls = new ArrayList<>();
            for (int it = 0; it < 4; it += 1) {
                boolean isKept = it % 2 == 0;
                calls.add(threads.submit(() -> untilClosed(query, isKept ? document : null, text)));
            }
            Thread.sleep(round % 3);
            (round % 2 == 0 ? document : query).close();
            (round % 2 == 0 ? query : document).close();
            for (Future<Object> call : calls) {
                Check.equal("closed", call.get());
            }
        }
        threads.shutdown();
    }

    private static Object untilClosed(Query query, Document document, String text) throws Exception {
        Object size = 100;
        while (size.equals(100)) {
            size = told(() -> (document == null ? query.find(text) : query.find(document)).size());
        }
        return size;
    }
}
