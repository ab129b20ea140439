import java.io.IOException;
import java.nio.charset.StandardCharsets;
import java.util.List;
import jsonpath.jp.DocumentException;
import jsonpath.jp.JsonPathException;
import jsonpath.jp.Limits;
import jsonpath.jp.Node;
import jsonpath.jp.Numbers;
import jsonpath.jp.Profile;
import jsonpath.jp.Query;
import jsonpath.jp.QueryException;

/**
 * A query over a document, as the program jp does it.
 *
 * <pre>java Jp FORM QUERY [--extended] [--decimals] &lt; document</pre>
 *
 * <p>FORM is eval, paths, both, canon or check. What is written, on both outputs, and the status are the ones of
 * {@code jp FORM QUERY}, but for its limits of lengths, its help, and the path of a number that is refused.
 */
public final class Jp {
    private static final List<String> FLAGS = List.of("--extended", "--decimals");
    private static final int USAGE = 2;
    private static final int QUERY_REFUSED = 1;
    private static final int DOCUMENT_REFUSED = 3;
    private static final int NO_MEMORY = 4;

    private Jp() {}

    private static String line(String form, Node node) {
        return switch (form) {
            case "eval" -> node.value() + "\n";
            case "paths" -> node.path() + "\n";
            default -> node.path() + "\t" + node.value() + "\n";
        };
    }

    private static String asked(String form, String text, Profile profile, Numbers numbers) throws IOException {
        try (Query query = Query.compile(text, profile, numbers, Limits.NONE)) {
            if (form.equals("canon")) {
                return query.canonical() + "\n";
            }
            if (form.equals("check")) {
                return "accepted\n";
            }
            StringBuilder lines = new StringBuilder();
            query.find(System.in.readAllBytes()).forEach(node -> lines.append(line(form, node)));
            return lines.toString();
        }
    }

    /** Says why there is no answer, in the words of the program, and gives its status. */
    private static int said(JsonPathException fault) {
        if (fault instanceof QueryException query) {
            System.err.println("query refused: " + query.kind() + " at " + query.place());
            return QUERY_REFUSED;
        }
        System.err.println("document refused: " + ((DocumentException) fault).kind());
        return DOCUMENT_REFUSED;
    }

    private static int run(List<String> words) throws IOException {
        Profile profile = words.contains("--extended") ? Profile.EXTENDED : Profile.STANDARD;
        Numbers numbers = words.contains("--decimals") ? Numbers.DECIMAL : Numbers.WHOLE;
        List<String> others = words.stream().filter(word -> !FLAGS.contains(word)).toList();
        if (others.size() != 2) {
            System.err.println("usage: java Jp FORM QUERY [--extended] [--decimals] < document");
            return USAGE;
        }
        try {
            String text = asked(others.get(0), others.get(1), profile, numbers);
            System.out.writeBytes(text.getBytes(StandardCharsets.UTF_8));
            System.out.flush();
            return 0;
        } catch (JsonPathException fault) {
            return said(fault);
        } catch (OutOfMemoryError fault) {
            System.err.println("want of memory");
            return NO_MEMORY;
        }
    }

    /**
     * Runs it.
     *
     * @param words the form, the query, and maybe flags
     * @throws IOException where standard input can't be read
     */
    public static void main(String[] words) throws IOException {
        System.exit(run(List.of(words)));
    }
}
