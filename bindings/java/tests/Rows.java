import java.io.IOException;
import java.nio.charset.StandardCharsets;
import java.nio.file.Files;
import java.nio.file.Path;
import java.util.ArrayList;
import java.util.HexFormat;
import java.util.LinkedHashMap;
import java.util.List;
import java.util.Map;
import java.util.Optional;
import java.util.Set;
import java.util.function.Supplier;
import java.util.stream.Collectors;
import jsonpath.jp.Answer;
import jsonpath.jp.Document;
import jsonpath.jp.DocumentException;
import jsonpath.jp.Limits;
import jsonpath.jp.Node;
import jsonpath.jp.Numbers;
import jsonpath.jp.Profile;
import jsonpath.jp.Queries;
import jsonpath.jp.Query;
import jsonpath.jp.QueryException;
import jsonpath.jp.Step;

/**
 * The rows of bindings/rows.jsonl by each way to ask, or those of the file that JP_ROWS names. They come in the plain
 * form of bindings/rows.py, since the JDK reads no JSON.
 */
final class Rows {
    private static final Set<String> ASKED = Set.of("query", "profile", "document", "not");

    private Rows() {}

    /** The texts of each field. */
    private record Row(Map<String, List<byte[]>> fields) {
        static Row of(String line) {
            Map<String, List<byte[]>> fields = new LinkedHashMap<>();
            for (String word : line.split(" ")) {
                int end = word.indexOf('=');
                byte[] text = HexFormat.of().parseHex(word, end + 1, word.length());
                fields.computeIfAbsent(word.substring(0, end), name -> new ArrayList<>()).add(text);
            }
            return new Row(fields);
        }

        boolean has(String name) {
            return fields.containsKey(name);
        }

        List<String> texts(String name) {
            List<byte[]> found = fields.getOrDefault(name, List.of());
            return found.stream().map(it -> new String(it, StandardCharsets.UTF_8)).toList();
        }

        String text(String name) {
            return texts(name).get(0);
        }

        byte[] document() {
            return fields.get("document").get(0);
        }

        /** The functions of its profile, which is one of four. */
        Profile profile() {
            return switch (text("profile")) {
                case "Standard", "Decimal" -> Profile.STANDARD;
                case "Extended", "ExtendedDecimal" -> Profile.EXTENDED;
                default -> throw new AssertionError("no profile: " + text("profile"));
            };
        }

        Numbers numbers() {
            return text("profile").endsWith("Decimal") ? Numbers.DECIMAL : Numbers.WHOLE;
        }

        Query query() {
            return Query.compile(text("query"), profile(), numbers(), Limits.NONE);
        }

        Document kept() {
            return Document.parse(document(), numbers());
        }

        /** What the row expects: not the name of a query's reason, which its exception does not tell. */
        Map<String, List<String>> expected() {
            boolean isOfQuery = texts("refused").equals(List.of("Query"));
            Map<String, List<String>> expected = new LinkedHashMap<>();
            for (String name : fields.keySet()) {
                if (!ASKED.contains(name) && !(isOfQuery && name.equals("reason"))) {
                    expected.put(name, texts(name));
                }
            }
            return expected;
        }
    }

    /** The rows behind the head, which tells how many there are. */
    private static List<Row> rows() throws IOException {
        String file = System.getenv("JP_ROWS");
        String text = file == null ? rowsOfFile() : Files.readString(Path.of(file));
        List<Row> rows = text.lines().map(Row::of).toList();
        Check.equal(rows.get(0).text("rows"), Integer.toString(rows.size() - 1));
        return rows.subList(1, rows.size());
    }

    private static String rowsOfFile() throws IOException {
        Process printer = new ProcessBuilder("python3", "bindings/rows.py")
                .redirectError(ProcessBuilder.Redirect.INHERIT).start();
        return new String(printer.getInputStream().readAllBytes(), StandardCharsets.UTF_8);
    }

    private static List<String> field(Object text) {
        return List.of(text.toString());
    }

    /** What a way to ask gives, in the fields of a row. */
    private static Map<String, List<String>> told(Supplier<Iterable<Node>> ask) {
        List<Node> nodes = new ArrayList<>();
        try {
            ask.get().forEach(nodes::add);
        } catch (QueryException fault) {
            return toldOfQuery(fault);
        } catch (DocumentException fault) {
            return Map.of(
                    "refused", field("Document"), "kind", field(fault.kind()), "place", field(fault.offset()),
                    "line", field(fault.line()), "column", field(fault.column()), "at", field(fault.path().orElse("")),
                    "reason", field(fault.reason()), "sentence", field(fault.sentence()));
        }
        return Map.of("nodes", field(nodes.size()), "path", Check.paths(nodes), "value", Check.values(nodes));
    }

    private static Map<String, List<String>> toldOfQuery(QueryException fault) {
        return Map.of(
                "refused", field("Query"), "kind", field(fault.kind()), "place", field(fault.place()),
                "sentence", field(fault.sentence()), "suggestion", field(fault.suggestion().orElse("")));
    }

    /** What is told of a query alone. */
    private static Map<String, List<String>> toldOfCanonical(Row row) {
        try (Query query = row.query()) {
            return Map.of("canonical", field(query.canonical()));
        } catch (QueryException fault) {
            return toldOfQuery(fault);
        }
    }

    private static List<Map<String, List<String>>> answers(Row row) {
        if (!row.has("document")) {
            return List.of(toldOfCanonical(row));
        }
        byte[] document = row.document();
        String text = row.text("document");
        List<String> twice = List.of(row.text("query"), row.text("query"));
        Queries many = new Queries(twice, row.profile(), row.numbers(), Limits.NONE);
        List<Map<String, List<String>>> answers = new ArrayList<>();
        for (Answer answer : many.find(document)) {
            answers.add(told(answer::nodes));
        }
        try (Query query = row.query()) {
            answers.add(told(() -> query.find(document)));
            answers.add(told(() -> query.find(row.kept())));
            answers.add(told(() -> query.findEach(row.kept())));
            answers.addAll(refusals(row, query));
            if (!text.contains("\ufffd")) {
                answers.add(told(() -> query.find(text)));
            }
        } catch (QueryException fault) {
            answers.add(toldOfQuery(fault));
        }
        return answers;
    }

    /** What else a document that is refused is told by. */
    private static List<Map<String, List<String>>> refusals(Row row, Query query) {
        byte[] document = row.document();
        return !row.has("refused") ? List.of() : List.of(
                told(() -> query.findFirst(document).stream().toList()),
                told(() -> query.exists(document) ? List.of() : null));
    }

    /** The path of the steps, as RFC 9535 section 2.7 spells it. */
    private static String path(List<Step> steps) {
        return "$" + steps.stream().map(Rows::spelled).collect(Collectors.joining());
    }

    private static String spelled(Step step) {
        if (step instanceof Step.Name name) {
            return "['" + name.name().chars().mapToObj(Rows::spelled).collect(Collectors.joining()) + "']";
        }
        return "[" + ((Step.Index) step).index() + "]";
    }

    private static String spelled(int unit) {
        int letter = "\b\t\n\f\r'\\".indexOf(unit);
        if (letter >= 0) {
            return "\\" + "btnfr'\\".charAt(letter);
        }
        return unit < ' ' ? String.format("\\u%04x", unit) : Character.toString((char) unit);
    }

    private static void checkFirst(Row row) {
        byte[] document = row.document();
        try (Query query = row.query()) {
            List<Node> nodes = query.find(document);
            Optional<Node> first = nodes.stream().findFirst();
            Check.equal(first, query.findFirst(document));
            Check.equal(first, query.findFirst(row.kept()));
            Check.equal(first.isPresent(), query.exists(document));
            Check.equal(first.isPresent(), query.exists(row.kept()));
            checkFirstOfText(query, row.text("document"), first);
            for (Node node : nodes) {
                Check.equal(node.path(), path(node.steps()));
            }
        }
    }

    private static void checkFirstOfText(Query query, String text, Optional<Node> first) {
        Check.equal(first, query.findFirst(text));
        Check.equal(first.isPresent(), query.exists(text));
    }

    private static void check(Row row) {
        for (Map<String, List<String>> answer : answers(row)) {
            row.expected().forEach((name, texts) -> Check.that(
                    texts.equals(answer.getOrDefault(name, List.of())),
                    name + " of " + row.text("query") + " is " + answer + ", and not " + texts));
        }
        if (row.has("nodes")) {
            checkFirst(row);
        }
    }

    public static void eachRow() throws IOException {
        List<Row> rows = rows();
        List<Row> run = rows.stream().filter(row -> !row.texts("not").contains("java")).toList();
        run.forEach(Rows::check);
        System.out.println(run.size() + " rows by Java, " + (rows.size() - run.size()) + " not");
    }
}
