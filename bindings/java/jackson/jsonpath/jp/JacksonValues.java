package jsonpath.jp;

import com.fasterxml.jackson.core.JsonParser;
import com.fasterxml.jackson.core.JsonProcessingException;
import com.fasterxml.jackson.core.JsonToken;
import com.fasterxml.jackson.core.json.JsonWriteFeature;
import com.fasterxml.jackson.core.util.JsonParserDelegate;
import com.fasterxml.jackson.databind.DeserializationFeature;
import com.fasterxml.jackson.databind.JsonNode;
import com.fasterxml.jackson.databind.json.JsonMapper;
import java.io.IOException;
import java.util.List;

/**
 * Values and documents as Jackson has them. Numbers stay exact: one with a fraction or an exponent is a
 * {@link java.math.BigDecimal}. It asks for Jackson on the class path.
 */
public final class JacksonValues {
    private static final JsonMapper MAPPER = JsonMapper.builder()
            .enable(DeserializationFeature.USE_BIG_DECIMAL_FOR_FLOATS)
            .disable(JsonWriteFeature.WRITE_NAN_AS_STRINGS)
            .build();

    private JacksonValues() {}

    /** A parser that makes a decimal of each fraction: Jackson's own takes one beyond all doubles for an infinity. */
    private static final class Exact extends JsonParserDelegate {
        Exact(JsonParser parser) {
            super(parser);
        }

        @Override
        public NumberType getNumberType() throws IOException {
            return currentToken() == JsonToken.VALUE_NUMBER_FLOAT ? NumberType.BIG_DECIMAL : super.getNumberType();
        }

        @Override
        public boolean isNaN() {
            return false;
        }
    }

    /**
     * The value of a node.
     *
     * @param node the node
     * @return its value
     */
    public static JsonNode of(Node node) {
        try (JsonParser parser = new Exact(MAPPER.createParser(node.value()))) {
            return MAPPER.readTree(parser);
        } catch (IOException fault) {
            throw new IllegalArgumentException("no JSON: " + node.value(), fault);
        }
    }

    /**
     * The values of nodes.
     *
     * @param nodes the nodes
     * @return their values, in the same order
     */
    public static List<JsonNode> of(List<Node> nodes) {
        return nodes.stream().map(JacksonValues::of).toList();
    }

    /**
     * A value as a document, which a query can be asked of. NaN and infinities are written as such, and so are refused
     * at their place.
     *
     * @param value the value
     * @return its text in UTF-8
     */
    public static byte[] text(JsonNode value) {
        try {
            return MAPPER.writeValueAsBytes(value);
        } catch (JsonProcessingException fault) {
            throw new IllegalArgumentException("no JSON is made of the value", fault);
        }
    }
}
