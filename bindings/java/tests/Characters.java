import java.util.List;
import jsonpath.jp.Document;
import jsonpath.jp.DocumentException;
import jsonpath.jp.DocumentKind;
import jsonpath.jp.Node;
import jsonpath.jp.Query;
import jsonpath.jp.QueryException;
import jsonpath.jp.QueryKind;
import jsonpath.jp.Step;

/** Texts that differ between Java and UTF-8. The character 😀 has four bytes in UTF-8 and two units in Java. */
final class Characters {
    private static final String HIGH = "\ud83d";
    private static final String LOW = "\ude00";

    private Characters() {}

    public static void beyondTheFirstPlane() {
        Node node = new Node("$['😀']", "\"é😀\"");
        Check.equal(List.of(node), Check.find("$['😀']", "{\"😀\":\"é😀\"}"));
        Check.equal(List.of(node), Check.kept("$.😀", "{\"\\ud83d\\ude00\":\"é\\uD83D\\uDE00\"}"));
        Check.equal(List.of(new Step.Name(HIGH + LOW)), node.steps());
        Check.equal("é" + HIGH + LOW, node.asString());
    }

    public static void placesBehindThem() {
        QueryException fault = Check.thrown(QueryException.class, () -> Query.compile("$[?@['😀'] = 1]"));
        // Some query has another sign of equality there, and none a blank.
        Check.equal(14L, fault.place());
        Check.equal(12, fault.index());
        Check.equal(" 1]", fault.query().substring(fault.index()));
        DocumentException refused = Check.thrown(DocumentException.class, () -> Document.parse("[\"😀\",]"));
        Check.equal(List.of(8L, 1L, 6L), List.of(refused.offset(), refused.line(), refused.column()));
    }

    /** Half of a pair is no character: it is refused where it stands, and never replaced. */
    public static void halvesOfPairs() {
        for (String half : List.of(HIGH, LOW, LOW + HIGH, HIGH + HIGH + LOW, HIGH + "a")) {
            QueryException fault = Check.thrown(QueryException.class, () -> Query.compile("$['é" + half + "']"));
            Check.equal(QueryKind.SYNTAX, fault.kind());
            Check.equal(5L, fault.place());
            Check.equal(4, fault.index());
            Check.equal("", fault.sentence());
            Check.equal("query refused: Syntax at 5", fault.getMessage());
            DocumentException refused = Check.thrown(
                    DocumentException.class, () -> Document.parse("[\"é" + half + "\"]"));
            Check.equal(DocumentKind.NOT_JSON, refused.kind());
            Check.equal(4L, refused.offset());
            Check.equal(4L, refused.column());
        }
    }

    public static void theCharacterOfNumberZero() {
        QueryException fault = Check.thrown(QueryException.class, () -> Query.compile("$\0.a"));
        Check.equal(1L, fault.place());
        Check.equal(1L, Check.thrown(DocumentException.class, () -> Document.parse("[\0]")).offset());
        List<Node> nodes = Check.find("$['\\u0000']", "{\"\\u0000\":\"a\\u0000b\"}");
        Check.equal(List.of(new Node("$['\\u0000']", "\"a\\u0000b\"")), nodes);
        Check.equal("a\0b", nodes.get(0).asString());
        Check.equal(List.of(new Step.Name("\0")), nodes.get(0).steps());
    }

    /** Each escape of JSON, and the same characters in a path. */
    public static void escapes() {
        String characters = "\b\t\n\f\r\"\\/'\u001f\u007f";
        String spelled = "\"\\b\\t\\n\\f\\r\\\"\\\\\\/'\\u001F\\u007f\"";
        Node node = Check.find("$.*", "{" + spelled + ":" + spelled + "}").get(0);
        Check.equal(characters, node.asString());
        Check.equal(List.of(new Step.Name(characters)), node.steps());
        Check.equal("", Check.find("$", "\"\"").get(0).asString());
    }
}
