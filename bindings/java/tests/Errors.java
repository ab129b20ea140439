import java.util.Arrays;
import java.util.List;
import java.util.Optional;
import jsonpath.jp.Answer;
import jsonpath.jp.Document;
import jsonpath.jp.DocumentException;
import jsonpath.jp.DocumentKind;
import jsonpath.jp.JsonPathException;
import jsonpath.jp.Limits;
import jsonpath.jp.Numbers;
import jsonpath.jp.Profile;
import jsonpath.jp.Queries;
import jsonpath.jp.Query;
import jsonpath.jp.QueryException;
import jsonpath.jp.QueryKind;

/** What is told of queries and documents that are refused. */
final class Errors {
    private Errors() {}

    private static QueryException refused(String query) {
        return Check.thrown(QueryException.class, () -> Query.compile(query));
    }

    public static void aRefusedQuery() {
        QueryException fault = refused("$[?@.é = 1]");
        Check.equal(QueryKind.SYNTAX, fault.kind());
        Check.equal("Syntax", fault.kind().toString());
        Check.equal(9L, fault.place());
        Check.equal(8, fault.index());
        Check.equal("$[?@.é = 1]", fault.query());
        Check.equal(Optional.of("$[?@.é == 1]"), fault.suggestion());
        String lines = "  $[?@.é = 1]\n          ^\n" + fault.sentence() + "\nTry: $[?@.é == 1]";
        Check.equal(lines + "\n", fault.explanation());
        Check.equal("query refused: Syntax at 9\n" + lines, fault.getMessage());
        Check.equal(Optional.empty(), refused("$[?@.*==1]").suggestion());
    }

    private record Lines(String text, boolean isTold) {}

    public static void linesThatAreDocuments() {
        for (Lines row : List.of(
                new Lines("{\"a\":1}\n{\"a\":2}\n", true),
                new Lines("1\r\n\r\n 2", true),
                new Lines("\n[1, 2] \n[3]", true),
                new Lines("1\n]", true),
                new Lines("1 2", false),
                new Lines("[1,\n2]\n3", false))) {
            DocumentException fault = Check.thrown(DocumentException.class, () -> Document.parse(row.text()));
            Check.equal("AfterValue", fault.reason());
            Check.equal(row, new Lines(row.text(), fault.suggestion().isPresent()));
            Check.equal(row, new Lines(row.text(), fault.getMessage().contains("(JSON Lines)")));
        }
    }

    private record Refused(String text, Numbers numbers, DocumentKind kind, String told) {}

    public static void whatADocumentsMessageTells() {
        String wrong = "{\"ä\":[1,\n2,]}";
        String large = "[\n 0.5, " + Decimals.TOO_MUCH + "]";
        for (Refused row : List.of(
                new Refused(wrong, Numbers.DECIMAL, DocumentKind.NOT_JSON, "NotJson\nline 2, column 3: "),
                new Refused(wrong, Numbers.WHOLE, DocumentKind.NOT_JSON, "NotJson\nline 2, column 3: "),
                new Refused(
                        "[2.5]", Numbers.WHOLE, DocumentKind.NUMBER_NOT_WHOLE,
                        "NotWhole at $[0]\nline 1, column 2: "),
                new Refused(
                        large, Numbers.DECIMAL, DocumentKind.NUMBER_BEYOND_DECIMAL,
                        "NumberRange at $[1]\nline 2, column 7: "))) {
            Queries many = new Queries(List.of("$"), Profile.STANDARD, row.numbers(), Limits.NONE);
            for (Runnable call : List.<Runnable>of(
                    () -> Check.with(row.numbers(), "$").find(row.text()),
                    () -> Document.parse(row.text(), row.numbers()),
                    () -> many.find(row.text()).get(0).nodes())) {
                DocumentException fault = Check.thrown(DocumentException.class, call);
                Check.equal(row.kind(), fault.kind());
                Check.equal("document refused: " + row.told() + fault.sentence(), fault.getMessage());
                Check.thrown(JsonPathException.class, call);
            }
        }
    }

    public static void nullIsNoArgument() {
        Query query = Query.compile("$");
        for (Runnable call : List.<Runnable>of(
                () -> Query.compile(null),
                () -> Query.compile("$", (Limits) null),
                () -> Query.compile("$", null, Limits.NONE),
                () -> Query.compile("$", Profile.STANDARD, null, Limits.NONE),
                () -> Document.parse("[]", null),
                () -> new Queries(List.of("$"), Profile.STANDARD, null, Limits.NONE),
                () -> query.find((String) null),
                () -> query.findFirst((byte[]) null),
                () -> query.exists((Document) null),
                () -> query.findEach(null),
                () -> Document.parse((byte[]) null),
                () -> new Queries(null),
                () -> new Queries(List.of("$"), null, Limits.NONE),
                () -> new Queries(List.of("$")).find((String) null))) {
            Check.thrown(NullPointerException.class, call);
        }
    }

    public static void theQueryIsReadBeforeTheDocument() {
        List<Answer> answers = new Queries(List.of("$[01]", "$")).find("[1,]");
        Check.that(answers.get(0).refusal().get() instanceof QueryException, "the query is refused");
        Check.that(answers.get(1).refusal().get() instanceof DocumentException, "the document is refused");
    }

    /** Why a long document is refused is looked for on the thread that reads it, and thrown on the caller's. */
    public static void aLongDocumentThatIsRefused() {
        String text = "[" + "0,".repeat(200_000) + "]";
        DocumentException fault = Check.thrown(DocumentException.class, () -> Check.find("$", text));
        Check.equal(400_002L, fault.column());
        boolean isCallers = Arrays.stream(fault.getStackTrace()).anyMatch(it -> it.getClassName().equals("Errors"));
        Check.that(isCallers, "the trace is not the caller's");
    }
}
