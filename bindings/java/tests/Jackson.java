import com.fasterxml.jackson.databind.JsonNode;
import com.fasterxml.jackson.databind.node.ArrayNode;
import com.fasterxml.jackson.databind.node.JsonNodeFactory;
import com.fasterxml.jackson.databind.node.ObjectNode;
import java.math.BigDecimal;
import java.math.BigInteger;
import java.util.List;
import jsonpath.jp.DocumentException;
import jsonpath.jp.DocumentKind;
import jsonpath.jp.JacksonValues;
import jsonpath.jp.Node;
import jsonpath.jp.Numbers;
import jsonpath.jp.Query;

/** Values and documents of Jackson. */
final class Jackson {
    private Jackson() {}

    public static void values() {
        String numbers = "9007199254740993,18446744073709551615,-9223372036854775808";
        List<Node> nodes = Check.find("$[*]", "[" + numbers + ",\"é😀\\u0000\",null,true,{\"a\":[]}]");
        List<JsonNode> values = JacksonValues.of(nodes);
        Check.equal(9007199254740993L, values.get(0).longValue());
        Check.equal(new BigInteger("18446744073709551615"), values.get(1).bigIntegerValue());
        Check.equal(Long.MIN_VALUE, values.get(2).longValue());
        Check.equal("é😀\0", values.get(3).textValue());
        Check.that(values.get(4).isNull() && values.get(5).booleanValue(), "null and true");
        Check.that(values.get(6).get("a").isArray(), "an object with a list");
    }

    public static void documents() {
        ObjectNode document = JsonNodeFactory.instance.objectNode();
        document.putArray("a").add(9007199254740993L).add(new BigInteger("18446744073709551615")).add("😀");
        List<Node> nodes = Query.compile("$.a[*]").find(JacksonValues.text(document));
        Check.equal(List.of("9007199254740993", "18446744073709551615", "\"😀\""), Check.values(nodes));
        Check.equal(document.get("a"), JacksonValues.of(Check.find("$.a", document.toString()).get(0)));
        document.put("b", 1.0);
        Check.equal(1, Query.compile("$.b").find(JacksonValues.text(document)).size());
        DocumentException fault = Check.thrown(
                DocumentException.class, () -> Check.with(Numbers.WHOLE, "$").find(JacksonValues.text(document)));
        Check.equal("$['b']", fault.path().get());
    }

    /** Decimals stay exact both ways, however they are written. */
    public static void decimals() {
        String numbers = "8.950,-0.10,1e-7,1e400,0.10000000000000000555,12345678901234567890.12345678901234567";
        List<JsonNode> values = JacksonValues.of(Check.find("$[*]", "[" + numbers + "]"));
        String[] written = numbers.split(",");
        ArrayNode again = JsonNodeFactory.instance.arrayNode();
        for (int at = 0; at < written.length; at += 1) {
            BigDecimal meant = new BigDecimal(written[at]);
            Check.that(values.get(at).isBigDecimal(), written[at] + " is no BigDecimal");
            Check.equal(0, meant.compareTo(values.get(at).decimalValue()));
            again.add(meant);
        }
        Check.equal(
                List.of("8.95", "-0.1", "1e-7", "1e+400", "0.10000000000000000555",
                        "12345678901234567890.12345678901234567"),
                Check.values(Query.compile("$[*]").find(JacksonValues.text(again))));
        JsonNode inside = JacksonValues.of(Check.find("$", "[{\"a\":-1e400}]").get(0)).get(0).get("a");
        Check.equal(0, new BigDecimal("-1e400").compareTo(inside.decimalValue()));
        JsonNode whole = JacksonValues.of(Check.find("$[0]", "[1e2]").get(0));
        Check.that(whole.isInt() && whole.intValue() == 100, "1e2 is 100");
    }

    /** What is no number of JSON is refused where it stands: behind the five bytes of a brace, a name and a colon. */
    public static void numbersThatAreNoJson() {
        for (double none : new double[] {Double.NaN, Double.POSITIVE_INFINITY, Double.NEGATIVE_INFINITY}) {
            byte[] text = JacksonValues.text(JsonNodeFactory.instance.objectNode().put("a", none));
            DocumentException fault = Check.thrown(DocumentException.class, () -> Query.compile("$").find(text));
            Check.equal(DocumentKind.NOT_JSON, fault.kind());
            Check.that(fault.offset() >= 5, "it is refused at " + fault.offset());
        }
    }
}
