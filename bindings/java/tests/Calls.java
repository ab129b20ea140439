import java.math.BigInteger;
import java.util.ArrayList;
import java.util.Iterator;
import java.util.List;
import java.util.NoSuchElementException;
import java.util.Optional;
import jsonpath.jp.Answer;
import jsonpath.jp.Document;
import jsonpath.jp.DocumentException;
import jsonpath.jp.Limits;
import jsonpath.jp.Node;
import jsonpath.jp.Numbers;
import jsonpath.jp.Profile;
import jsonpath.jp.Queries;
import jsonpath.jp.Query;
import jsonpath.jp.QueryException;
import jsonpath.jp.Step;
import jsonpath.jp.Version;

/** What calls give besides what bindings/rows.jsonl has. Expected values are by hand. */
final class Calls {
    private Calls() {}

    public static void nodesAreNotChanged() {
        List<Node> nodes = Check.find("$[0]", "[1]");
        Check.thrown(UnsupportedOperationException.class, () -> nodes.add(nodes.get(0)));
    }

    public static void textsWithTabsAndNewlines() {
        List<Node> nodes = Check.find("$.*", "{\"a\\tb\\n\\u0000\":\"c\\td\\n\"}");
        Check.equal(List.of(new Step.Name("a\tb\n\0")), nodes.get(0).steps());
        Check.equal("c\td\n", nodes.get(0).asString());
    }

    public static void aTextLongerThanTheFirstBuffer() {
        String document = "[" + "1234567,".repeat(9_999) + "1234567]";
        Check.equal(10_000, Check.find("$[*]", document).size());
        Check.equal(10_000, Check.kept("$[*]", document).size());
        String query = "$['" + "a".repeat(5000) + "']";
        Check.equal(query, Query.compile(query).canonical());
        for (String number : List.of("1.5", Decimals.TOO_MUCH)) {
            Numbers numbers = number.equals("1.5") ? Numbers.WHOLE : Numbers.DECIMAL;
            String text = "{\"" + "a".repeat(5000) + "\":" + number + "}";
            Check.equal(query, Check.thrown(
                    DocumentException.class, () -> Check.with(numbers, "$").find(text)).path().get());
        }
    }

    public static void wholeNumbersOfJava() {
        List<String> whole = List.of(
                "9007199254740991", "9007199254740992", "9007199254740993", "-9007199254740993", "1152921504606846976",
                "9223372036854775807", "9223372036854775808", "-9223372036854775808", "18446744073709551615");
        for (String number : whole) {
            Check.equal(new BigInteger(number), Check.find("$[0]", "[" + number + "]").get(0).asBigInteger());
        }
        Check.equal(Long.MIN_VALUE, Check.find("$[0]", "[-9223372036854775808]").get(0).asLong());
        Node beyond = Check.find("$[0]", "[9223372036854775808]").get(0);
        Check.thrown(NumberFormatException.class, beyond::asLong);
    }

    /** Those of RFC 6901, section 5, and others by its section 3, each behind the normalized path. */
    private static final List<List<String>> POINTERS = List.of(
            List.of("$", ""), List.of("$['foo']", "/foo"), List.of("$['foo'][0]", "/foo/0"), List.of("$['']", "/"),
            List.of("$['a/b']", "/a~1b"), List.of("$['c%d']", "/c%d"), List.of("$['e^f']", "/e^f"),
            List.of("$['g|h']", "/g|h"), List.of("$['i\\\\j']", "/i\\j"), List.of("$['k\"l']", "/k\"l"),
            List.of("$[' ']", "/ "), List.of("$['m~n']", "/m~0n"), List.of("$['~1']['/0']", "/~01/~10"),
            List.of("$['\\'']['\\n\\u0000']", "/'/\n\0"), List.of("$['é😀']['0'][10]", "/é😀/0/10"));

    public static void pointers() {
        for (List<String> row : POINTERS) {
            Check.equal(row.get(1), new Node(row.get(0), "0").pointer());
        }
        Check.equal("/a~1b/0/b", Check.find("$..b", "{\"a/b\":[{\"b\":1}]}").get(0).pointer());
    }

    public static void stepsOfPaths() {
        List<Step> steps = Check.find("$..['it''s']".replace("''", "\\'"), "[{\"a\":[0,{\"it's\":1}]}]").get(0).steps();
        Check.equal(
                List.of(new Step.Index(0), new Step.Name("a"), new Step.Index(1), new Step.Name("it's")), steps);
        Check.equal(List.of(), Check.find("$", "[]").get(0).steps());
        for (String path : List.of("", "$.a", "$['a'", "$[01]", "$['\\x']", "$['a']b")) {
            Check.thrown(IllegalArgumentException.class, () -> new Node(path, "0").steps());
        }
        Check.thrown(IllegalArgumentException.class, () -> new Node("$", "[\"a\"]").asString());
    }

    public static void aLongNameHasNoDeepStack() {
        String name = "a".repeat(1_000_000);
        Check.equal(List.of(new Step.Name(name)), Check.find("$.*", "{\"" + name + "\":0}").get(0).steps());
    }

    public static void whatAQueryTellsOfItself() {
        Query query = Query.compile("$ .a");
        Check.equal("$ .a", query.text());
        Check.equal("$ .a", query.toString());
        Check.equal("$['a']", query.canonical());
        Check.equal(Profile.STANDARD, query.profile());
        Check.equal(Numbers.DECIMAL, query.numbers());
        Check.equal(Limits.NONE, query.limits());
        Limits limits = Limits.NONE.withSteps(100).withNodes(2).withBytes(3);
        Query extended = Query.compile("$[?distinct(@.*)]", Profile.EXTENDED, limits.withBytes(0));
        Check.equal(new Limits(100, 2, 0), extended.limits());
        Check.equal(List.of("$[0]"), Check.paths(extended.find("[{\"a\":0},{}]")));
        Check.thrown(IllegalArgumentException.class, () -> limits.withNodes(-1));
    }

    public static void oneNodeAfterAnother() {
        Query query = Query.compile("$[*]");
        for (int size : new int[] {0, 1, 2, 3, 4, 6, 7, 8, 100}) {
            List<String> numbers = new ArrayList<>();
            for (int number = 0; number < size; number += 1) {
                numbers.add(Integer.toString(number));
            }
            Document document = Document.parse(numbers.toString());
            Iterable<Node> nodes = query.findEach(document);
            for (int round = 0; round < 2; round += 1) {
                List<String> found = new ArrayList<>();
                nodes.forEach(node -> found.add(node.value()));
                Check.equal(numbers, found);
            }
        }
        Iterator<Node> none = query.findEach(Document.parse("[]")).iterator();
        Check.thrown(NoSuchElementException.class, none::next);
    }

    public static void manyQueries() {
        List<String> texts = List.of("$.a[*]", "$.a[01]", "$.é", "", "$.b", "$.a");
        String document = "{\"a\":[1,\"" + "é".repeat(5000) + "\"]}";
        List<Answer> answers = new Queries(texts).find(document);
        Check.equal(texts.size(), answers.size());
        for (int at : new int[] {0, 2, 4, 5}) {
            Check.equal(Check.find(texts.get(at), document), answers.get(at).nodes());
            Check.equal(Optional.empty(), answers.get(at).refusal());
        }
        for (int at : new int[] {1, 3}) {
            String message = Check.thrown(QueryException.class, () -> Query.compile(texts.get(at))).getMessage();
            Check.equal(message, Check.thrown(QueryException.class, () -> answers.get(at).nodes()).getMessage());
            Check.equal(message, answers.get(at).refusal().get().getMessage());
        }
        Check.equal(List.of(), new Queries(List.of()).find("["));
    }

    public static void theVersion() {
        Check.that(Version.text().matches("\\d+\\.\\d+\\.\\d+"), Version.text());
    }
}
