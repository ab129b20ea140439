import java.io.IOException;
import java.nio.file.Files;
import java.nio.file.Path;
import jsonpath.jp.Document;
import jsonpath.jp.LimitException;
import jsonpath.jp.Query;

/** That calls give back what they take. It runs alone, on a heap of which all pages were touched. */
final class Growth {
    private static final long PAGE = 4096;
    private static final long MOST = 8 << 20;

    private Growth() {}

    /** How many bytes of memory the process has. */
    private static long resident() throws IOException {
        return PAGE * Long.parseLong(Files.readString(Path.of("/proc/self/statm")).split(" ")[1]);
    }

    private static void check(int count, Runnable call) throws IOException {
        for (int it = 0; it < count / 10; it += 1) {
            call.run();
        }
        long before = resident();
        for (int it = 0; it < count; it += 1) {
            call.run();
        }
        long more = resident() - before;
        Check.that(more < MOST, more + " bytes are left behind");
    }

    public static void aMillionCalls() throws IOException {
        Query query = Query.compile("$.a[*]");
        Query few = Check.within("$.a[*]", 1);
        Document document = Document.parse("{\"a\":[7" + ",8.95".repeat(1000) + "]}");
        check(850_000, () -> Check.that(query.exists(document), "there is one"));
        check(100_000, () -> Check.that(query.exists("{\"a\":[7]}"), "there is one"));
        check(20_000, () -> Check.thrown(LimitException.class, () -> few.exists("{\"a\":[7]}")));
        check(20_000, () -> Check.equal("7", query.findEach(document).iterator().next().value()));
        check(10_000, () -> Check.find("$..*", "{\"a\":[7]}"));
    }

    /** Each takes 200 kB of memory that Java does not count, and is freed by the cleaner. */
    public static void whatNobodyCloses() throws IOException {
        String text = "[" + "10,".repeat(20_000) + "1]";
        long before = resident();
        for (int it = 0; it < 2000; it += 1) {
            Query.compile("$[0]").exists(Document.parse(text));
        }
        long more = resident() - before;
        Check.that(more < 200_000L * 2000 / 2, more + " bytes are left behind");
    }
}
