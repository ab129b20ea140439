import java.util.ArrayList;
import java.util.Iterator;
import java.util.List;
import jsonpath.jp.Document;
import jsonpath.jp.LimitException;
import jsonpath.jp.Limits;
import jsonpath.jp.Node;
import jsonpath.jp.Profile;
import jsonpath.jp.Queries;
import jsonpath.jp.Query;

/**
 * Limits. How many steps a query needs: one for each value that is offered and for the end, a segment's selectors and
 * two more at each value that is gone into, and each comparison. The first node comes before the end.
 */
final class Bounds {
    private Bounds() {}

    private static void checkRefused(LimitException.Kind kind, long limit, Runnable call) {
        LimitException fault = Check.thrown(LimitException.class, call);
        Check.equal(kind, fault.kind());
        Check.equal(limit, fault.limit());
    }

    private static void checkSteps(String text, long needed, long forTheFirst) {
        Document document = Document.parse("[1,2]");
        Check.equal(Check.find(text, "[1,2]"), Check.within(text, needed).find("[1,2]"));
        Check.equal(Check.find(text, "[1,2]"), Check.within(text, needed).find(document));
        Query less = Check.within(text, needed - 1);
        checkRefused(LimitException.Kind.STEPS, needed - 1, () -> less.find("[1,2]"));
        checkRefused(LimitException.Kind.STEPS, needed - 1, () -> less.find(document));
        Query first = Check.within(text, forTheFirst);
        Check.that(first.exists("[1,2]") && first.findFirst(document).isPresent(), "the first is found");
        Query none = Check.within(text, forTheFirst - 1);
        checkRefused(LimitException.Kind.STEPS, forTheFirst - 1, () -> none.exists("[1,2]"));
        checkRefused(LimitException.Kind.STEPS, forTheFirst - 1, () -> none.exists(document));
        checkRefused(LimitException.Kind.STEPS, forTheFirst - 1, () -> none.findEach(document).iterator().next());
    }

    public static void stepsThatSufficeAndOneLess() {
        checkSteps("$[*]", 7, 5);
        checkSteps("$..*", 9, 5);
        checkSteps("$[?@==2]", 9, 8);
    }

    private record Row(String query, long nodes, long bytes, LimitException.Kind refusal) {}

    /** {@code $[0]}, a tab, 1 and a newline are seven bytes, and a path alone with its newline five. */
    public static void nodesAndBytesThatSufficeAndOneLess() {
        Document document = Document.parse("[1,2,3]");
        for (Row row : List.of(
                new Row("$[*]", 3, 21, null),
                new Row("$[*]", 3, 20, LimitException.Kind.BYTES),
                new Row("$[*]", 2, 21, LimitException.Kind.NODES),
                new Row("$..[?@>1]", 2, 14, null),
                new Row("$..[?@>1]", 2, 13, LimitException.Kind.BYTES),
                new Row("$..[?@>1]", 1, 14, LimitException.Kind.NODES),
                new Row("$[2]", 1, 7, null),
                new Row("$[2]", 1, 6, LimitException.Kind.BYTES))) {
            Limits limits = new Limits(0, row.nodes(), row.bytes());
            Query query = Query.compile(row.query(), limits);
            Queries many = new Queries(List.of("$[1]", row.query()), Profile.STANDARD, limits);
            List<Runnable> calls = List.of(
                    () -> query.find("[1,2,3]"), () -> query.find(document), () -> many.find("[1,2,3]").get(1).nodes());
            long limit = row.refusal() == LimitException.Kind.NODES ? row.nodes() : row.bytes();
            for (Runnable call : calls) {
                if (row.refusal() == null) {
                    call.run();
                } else {
                    checkRefused(row.refusal(), limit, call);
                }
            }
        }
    }

    public static void ofOneNodeAndOfWhetherThereIsOne() {
        Query query = Query.compile("$[*]", new Limits(0, 1, 7));
        Check.equal(new Node("$[0]", "1"), query.findFirst("[1,2,3]").get());
        Query any = Query.compile("$[*]", new Limits(0, 1, 5));
        Check.that(any.exists("[1,2,3]"), "there is one");
        checkRefused(LimitException.Kind.BYTES, 5, () -> any.findFirst("[1,2,3]"));
        Query less = Query.compile("$[*]", new Limits(0, 1, 4));
        checkRefused(LimitException.Kind.BYTES, 4, () -> less.exists("[1,2,3]"));
    }

    public static void messages() {
        Query none = Query.compile("$..*", new Limits(1, 1, 1));
        Check.equal(
                "steps used up: the query needs more than 1",
                Check.thrown(LimitException.class, () -> none.find("[1,2,3]")).getMessage());
        Check.equal(
                "too many nodes: the query selects more than 2",
                Check.thrown(LimitException.class, () -> Query.compile("$[*]", new Limits(0, 2, 0)).find("[1,2,3]"))
                        .getMessage());
        Check.equal(
                "too many bytes: the answer has more than 9",
                Check.thrown(LimitException.class, () -> Query.compile("$[*]", new Limits(0, 0, 9)).find("[1,2,3]"))
                        .getMessage());
    }

    /** The pages get longer, and each has the whole limit. After an exception there is no more. */
    public static void theFirstOfAMillionNodes() {
        Document document = Document.parse("[" + "0,".repeat(999_999) + "0]");
        Iterator<Node> nodes = Check.within("$[*]", 100).findEach(document).iterator();
        for (int at = 0; at < 15; at += 1) {
            Check.equal("$[" + at + "]", nodes.next().path());
        }
        checkRefused(LimitException.Kind.STEPS, 100, () -> nodes.forEachRemaining(node -> {}));
        Check.that(!nodes.hasNext(), "there are more nodes after an exception");
        checkRefused(LimitException.Kind.STEPS, 1_000_000, () -> Check.within("$[*]", 1_000_000).find(document));
    }

    /** 99 values stand below the root of 100 lists in one another, and each three of these are one path. */
    private static final int THREE_OF_99 = 99 * 98 * 97 / 6;
    private static final String NESTED = "[".repeat(100) + "]".repeat(100);

    /** What needs more steps than a first run makes, and has more bytes than its answer may. */
    public static void whatIsRunAgain() {
        String text = "$..*..*..*";
        Document document = Document.parse(NESTED);
        Query query = Query.compile(text);
        List<Node> nodes = query.find(NESTED);
        Check.equal(THREE_OF_99, nodes.size());
        Check.equal(nodes, query.find(document));
        List<Node> each = new ArrayList<>();
        query.findEach(document).forEach(each::add);
        Check.equal(nodes, each);
        Check.equal(nodes, new Queries(List.of("$.a", text)).find(NESTED).get(1).nodes());
    }

    public static void limitsOfWhatIsRunAgain() {
        Document document = Document.parse(NESTED);
        Limits most = new Limits(100_000_000, THREE_OF_99, 1L << 30);
        Check.equal(THREE_OF_99, Query.compile("$..*..*..*", most).find(document).size());
        List<Limits> less = List.of(most.withNodes(THREE_OF_99 - 1), most.withBytes(1 << 25), most.withSteps(300_000));
        for (Limits limits : less) {
            LimitException fault = Check.thrown(
                    LimitException.class, () -> Query.compile("$..*..*..*", limits).find(document));
            LimitException again = Check.thrown(
                    LimitException.class, () -> Query.compile("$..*..*..*", limits).find(NESTED));
            Check.equal(fault.getMessage(), again.getMessage());
        }
    }
}
