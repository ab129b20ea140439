package jsonpath.jp;

import java.math.BigDecimal;
import java.math.BigInteger;
import java.util.List;
import java.util.stream.Collectors;

/**
 * A node that a query selects: a place in the document with the value there.
 *
 * @param path its normalized path (RFC 9535, section 2.7)
 * @param value its value as a compact JSON text, with the members of objects sorted by name; numbers have all their
 *     digits, in one spelling for each number (RFC 8785, section 3.2.2.3): 8.950 is {@code 8.95}, 1.0 is {@code 1}, and
 *     1e400 is {@code 1e+400}
 */
public record Node(String path, String value) {
    /**
     * The names and indexes of the path, from the root on.
     *
     * @return the steps, in a list that can't be changed
     * @throws IllegalArgumentException where the path is no normalized one
     */
    public List<Step> steps() {
        return new Steps(path).all();
    }

    /**
     * The JSON Pointer (RFC 6901) to it.
     *
     * @return the pointer, which is empty for the root
     * @throws IllegalArgumentException where the path is no normalized one
     */
    public String pointer() {
        return steps().stream().map(step -> "/" + token(step)).collect(Collectors.joining());
    }

    private static String token(Step step) {
        String text = step instanceof Step.Name name ? name.name() : Long.toString(((Step.Index) step).index());
        return text.replace("~", "~0").replace("/", "~1");
    }

    /**
     * The value, where it is a whole number that a long holds. {@link #asBigInteger} has those that it does not, and
     * {@link #asBigDecimal} each number.
     *
     * @return the number, which is never rounded
     * @throws NumberFormatException where it is none
     */
    public long asLong() {
        return Long.parseLong(value);
    }

    /**
     * The value, where it is a whole number, however it is written: 1e30 is one.
     *
     * @return the number, which is never rounded
     * @throws NumberFormatException where it is none
     */
    public BigInteger asBigInteger() {
        try {
            return asBigDecimal().toBigIntegerExact();
        } catch (ArithmeticException fault) {
            throw new NumberFormatException("no whole number: " + value);
        }
    }

    /**
     * The value, where it is a number.
     *
     * @return the number, which is never rounded
     * @throws NumberFormatException where it is none
     */
    public BigDecimal asBigDecimal() {
        return new BigDecimal(value);
    }

    /**
     * The characters of the value, where it is a string.
     *
     * @return the characters, without quotation marks and escapes
     * @throws IllegalArgumentException where it is none
     */
    public String asString() {
        if (value.length() < 2 || value.charAt(0) != '"') {
            throw new IllegalArgumentException("no string: " + value);
        }
        return Escapes.meant(value.substring(1, value.length() - 1));
    }
}
