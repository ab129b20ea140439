import java.math.BigDecimal;
import java.math.BigInteger;
import java.util.ArrayList;
import java.util.List;
import java.util.concurrent.ExecutorService;
import java.util.concurrent.Executors;
import java.util.concurrent.Future;
import jsonpath.jp.Document;
import jsonpath.jp.DocumentException;
import jsonpath.jp.DocumentKind;
import jsonpath.jp.LimitException;
import jsonpath.jp.Limits;
import jsonpath.jp.Node;
import jsonpath.jp.Numbers;
import jsonpath.jp.OtherNumbersException;
import jsonpath.jp.Profile;
import jsonpath.jp.Queries;
import jsonpath.jp.Query;
import jsonpath.jp.QueryException;
import jsonpath.jp.QueryKind;

/**
 * Numbers: which a query and a document have, what values they give, and what is refused. Expected values are by hand:
 * texts by RFC 8785, section 3.2.2.3, and others by arithmetic.
 */
final class Decimals {
    /** A number of 39 digits, which is no decimal, and no whole number of 64 bits. */
    static final String TOO_MUCH = "123456789012345678901234567890123456789";

    /** RFC 9535, Figure 1. */
    private static final String STORE = """
            {"store": {
                "book": [
                    {"category": "reference", "author": "Nigel Rees", "title": "Sayings of the Century", "price": 8.95},
                    {"category": "fiction", "author": "Evelyn Waugh", "title": "Sword of Honour", "price": 12.99},
                    {"category": "fiction", "author": "Herman Melville", "title": "Moby Dick",
                     "isbn": "0-553-21311-3", "price": 8.99},
                    {"category": "fiction", "author": "J. R. R. Tolkien", "title": "The Lord of the Rings",
                     "isbn": "0-395-19395-8", "price": 22.99}
                ],
                "bicycle": {"color": "red", "price": 399}
            }}""";
    private static final String CHEAP = "$..book[?@.price<10].title";

    private Decimals() {}

    private static List<Node> each(Query query, Document document) {
        List<Node> nodes = new ArrayList<>();
        query.findEach(document).forEach(nodes::add);
        return nodes;
    }

    public static void theDefault() {
        Query query = Query.compile(CHEAP);
        Document document = Document.parse(STORE);
        Check.equal(Numbers.DECIMAL, document.numbers());
        for (List<Node> nodes : List.of(
                query.find(STORE), query.find(document), each(query, document),
                new Queries(List.of(CHEAP)).find(STORE).get(0).nodes())) {
            Check.equal(List.of("Sayings of the Century", "Moby Dick"), nodes.stream().map(Node::asString).toList());
        }
        Check.equal("Sayings of the Century", query.findFirst(STORE).get().asString());
        Check.that(query.exists(STORE) && query.exists(document), "there is one");
    }

    public static void wholeNumbersWhereTheyAreAskedFor() {
        Query query = Check.with(Numbers.WHOLE, CHEAP);
        Check.equal(Numbers.WHOLE, query.numbers());
        Queries many = new Queries(List.of(CHEAP), Profile.STANDARD, Numbers.WHOLE, Limits.NONE);
        for (Runnable call : List.<Runnable>of(
                () -> query.find(STORE),
                () -> query.findFirst(STORE),
                () -> query.exists(STORE),
                () -> Document.parse(STORE, Numbers.WHOLE),
                () -> many.find(STORE).get(0).nodes())) {
            DocumentException fault = Check.thrown(DocumentException.class, call);
            Check.equal(DocumentKind.NUMBER_NOT_WHOLE, fault.kind());
            Check.equal("$['store']['book'][0]['price']", fault.path().get());
        }
    }

    private record Refused(String query, Profile profile, Numbers numbers, QueryKind kind, String at) {}

    public static void functionsAndNumbersAreChosenApart() {
        String text = "$[?count(distinct(@['a','a']))==1 && @.a<8.95]";
        Query query = Query.compile(text, Profile.EXTENDED, Limits.NONE);
        Check.equal(List.of("$[0]"), Check.paths(query.find("[{\"a\":8.94},{\"a\":8.95}]")));
        String large = "$[?@<" + TOO_MUCH + "]";
        for (Refused row : List.of(
                new Refused(text, Profile.STANDARD, Numbers.DECIMAL, QueryKind.UNKNOWN_FUNCTION, "distinct"),
                new Refused(text, Profile.STANDARD, Numbers.WHOLE, QueryKind.UNKNOWN_FUNCTION, "distinct"),
                new Refused(text, Profile.EXTENDED, Numbers.WHOLE, QueryKind.NOT_WHOLE, "8.95"),
                new Refused(large, Profile.STANDARD, Numbers.DECIMAL, QueryKind.NUMBER_RANGE, TOO_MUCH))) {
            QueryException fault = Check.thrown(
                    QueryException.class,
                    () -> Query.compile(row.query(), row.profile(), row.numbers(), Limits.NONE));
            Check.equal(row.kind(), fault.kind());
            Check.equal((long) row.query().indexOf(row.at()), fault.place());
            Check.that(!fault.sentence().isEmpty(), "no sentence");
        }
        Check.equal("$[?@==8.95]", Query.compile("$[?@==8.950]").canonical());
    }

    private static void checkOther(Query query, Document document, String told) {
        for (Runnable call : List.<Runnable>of(
                () -> query.find(document),
                () -> query.findFirst(document),
                () -> query.exists(document),
                () -> query.findEach(document).iterator().next())) {
            OtherNumbersException fault = Check.thrown(OtherNumbersException.class, call);
            Check.equal(document.numbers(), fault.numbers());
            Check.equal("$[*]", fault.query());
            Check.equal(
                    "other numbers: the document was read with " + told + ", which the query has not: read one of them "
                            + "with the numbers of the other, by Document.parse or Query.compile",
                    fault.getMessage());
        }
    }

    public static void aDocumentOfOtherNumbers() {
        for (Numbers read : Numbers.values()) {
            boolean isWhole = read == Numbers.WHOLE;
            Document document = Document.parse("[1,2]", read);
            Check.equal(read, document.numbers());
            for (Profile profile : Profile.values()) {
                Numbers asked = isWhole ? Numbers.DECIMAL : Numbers.WHOLE;
                Query query = Query.compile("$[*]", profile, asked, Limits.NONE);
                checkOther(query, document, isWhole ? "whole numbers" : "decimals");
                // Both are kept, and asked of what has the same numbers.
                Check.equal(2, Query.compile("$[*]", profile, read, Limits.NONE).find(document).size());
                Check.equal(2, query.find("[1,2]").size());
            }
        }
    }

    public static void texts() {
        for (List<String> row : List.of(
                List.of("8.950", "8.95"), List.of("-0.10", "-0.1"), List.of("1.0", "1"), List.of("-0.0", "0"),
                List.of("0e7", "0"), List.of("1e2", "100"), List.of("-25e-1", "-2.5"),
                List.of("1e20", "100000000000000000000"), List.of("1e21", "1e+21"), List.of("1e400", "1e+400"),
                List.of("-1e-400", "-1e-400"), List.of("0.0000001", "1e-7"), List.of("0.000001", "0.000001"),
                List.of("9007199254740993.5", "9007199254740993.5"),
                List.of("12345678901234567890123456789012345678", "1.2345678901234567890123456789012345678e+37"))) {
            for (List<Node> nodes : List.of(
                    Check.find("$[0]", "[" + row.get(0) + "]"), Check.kept("$[*]", "[" + row.get(0) + "]"))) {
                Check.equal(row.get(1), nodes.get(0).value());
                Check.equal(0, new BigDecimal(row.get(0)).compareTo(nodes.get(0).asBigDecimal()));
            }
        }
    }

    public static void numbersOfJava() {
        Node large = Check.find("$[0]", "[12e36]").get(0);
        Check.equal(new BigInteger("12" + "0".repeat(36)), large.asBigInteger());
        Check.thrown(NumberFormatException.class, large::asLong);
        Node price = Check.find("$[0]", "[8.95]").get(0);
        Check.equal(8.95, price.asBigDecimal().doubleValue());
        Check.thrown(NumberFormatException.class, price::asBigInteger);
        Check.thrown(NumberFormatException.class, price::asLong);
        Check.equal(100L, Check.find("$[0]", "[1e2]").get(0).asLong());
        for (Node none : Check.find("$[*]", "[\"8.95\",null,true,[1],{}]")) {
            Check.thrown(NumberFormatException.class, none::asBigDecimal);
            Check.thrown(NumberFormatException.class, none::asBigInteger);
        }
    }

    public static void numbersThatAreNoJson() {
        for (String text : List.of("NaN", "Infinity", "-Infinity", ".5", "1.", "+1", "01", "0x1", "1e", "-")) {
            for (Numbers numbers : Numbers.values()) {
                DocumentException fault = Check.thrown(
                        DocumentException.class, () -> Document.parse("[" + text + "]", numbers));
                Check.equal(DocumentKind.NOT_JSON, fault.kind());
                Check.that(!fault.sentence().isEmpty(), "no sentence of " + text);
            }
        }
    }

    private static void checkLimit(LimitException.Kind kind, String text, Limits limits) {
        Document document = Document.parse("[1.5,2.5,3.5]");
        Query query = Query.compile(text, limits);
        Queries many = new Queries(List.of(text), Profile.STANDARD, limits);
        for (Runnable call : List.<Runnable>of(
                () -> query.find("[1.5,2.5,3.5]"),
                () -> query.find(document),
                () -> many.find("[1.5,2.5,3.5]").get(0).nodes())) {
            if (kind == null) {
                call.run();
            } else {
                Check.equal(kind, Check.thrown(LimitException.class, call).kind());
            }
        }
    }

    /** {@code $[0]}, a tab, 1.5 and a newline are nine bytes, and steps are those of whole numbers. */
    public static void limits() {
        checkLimit(null, "$[*]", new Limits(0, 3, 27));
        checkLimit(LimitException.Kind.BYTES, "$[*]", new Limits(0, 3, 26));
        checkLimit(LimitException.Kind.NODES, "$[*]", new Limits(0, 2, 27));
        checkLimit(null, "$[?@==2.5]", new Limits(11, 0, 0));
        checkLimit(LimitException.Kind.STEPS, "$[?@==2.5]", new Limits(10, 0, 0));
    }

    /** What needs more steps than a first run makes is run again with the same numbers. */
    public static void whatIsRunAgain() {
        String text = "[" + "8.94,8.95,".repeat(100_000) + "1]";
        Query query = Query.compile("$[?@<8.95]");
        Check.equal(100_001, query.find(text).size());
        Check.equal(100_001, query.find(Document.parse(text)).size());
        Check.equal(100_001, new Queries(List.of("$[?@<8.95]")).find(text).get(0).nodes().size());
    }

    public static void fromManyThreads() throws Exception {
        ExecutorService threads = Executors.newFixedThreadPool(8);
        Query query = Query.compile("$[?@<8.95]");
        String text = "[8.94,1e-7,-8.95,8.95,1e400]";
        Document document = Document.parse(text);
        List<Future<?>> calls = new ArrayList<>();
        for (int it = 0; it < 8; it += 1) {
            calls.add(threads.submit(() -> {
                for (int call = 0; call < 500; call += 1) {
                    Check.equal(List.of("8.94", "1e-7", "-8.95"), Check.values(query.find(document)));
                    Check.equal(List.of("8.94", "1e-7", "-8.95"), Check.values(query.find(text)));
                }
            }));
        }
        for (Future<?> call : calls) {
            call.get();
        }
        threads.shutdown();
    }
}
