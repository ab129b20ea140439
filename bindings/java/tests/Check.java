import java.util.List;
import java.util.Objects;
import jsonpath.jp.Document;
import jsonpath.jp.Limits;
import jsonpath.jp.Node;
import jsonpath.jp.Numbers;
import jsonpath.jp.Profile;
import jsonpath.jp.Query;

/** What tests expect, and short words for what they ask. */
final class Check {
    private Check() {}

    static void that(boolean holds, String told) {
        if (!holds) {
            throw new AssertionError(told);
        }
    }

    static void equal(Object expected, Object found) {
        that(Objects.equals(expected, found), "expected " + expected + ", and found " + found);
    }

    /** What the work throws, which has to be of that type. */
    static <T extends Throwable> T thrown(Class<T> type, Runnable work) {
        try {
            work.run();
        } catch (Throwable fault) {
            if (type.isInstance(fault)) {
                return type.cast(fault);
            }
            throw new AssertionError("expected " + type.getName(), fault);
        }
        throw new AssertionError("expected " + type.getName() + ", and nothing was thrown");
    }

    static List<Node> find(String query, String document) {
        try (Query kept = Query.compile(query)) {
            return kept.find(document);
        }
    }

    static List<Node> kept(String query, String document) {
        try (Query kept = Query.compile(query); Document read = Document.parse(document)) {
            return kept.find(read);
        }
    }

    /** A query with these numbers. */
    static Query with(Numbers numbers, String query) {
        return Query.compile(query, Profile.STANDARD, numbers, Limits.NONE);
    }

    static List<String> paths(List<Node> nodes) {
        return nodes.stream().map(Node::path).toList();
    }

    static List<String> values(List<Node> nodes) {
        return nodes.stream().map(Node::value).toList();
    }

    static Query within(String query, long steps) {
        return Query.compile(query, Limits.NONE.withSteps(steps));
    }
}
