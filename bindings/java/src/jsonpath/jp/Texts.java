package jsonpath.jp;

import java.io.ByteArrayOutputStream;
import java.nio.charset.StandardCharsets;

/** Texts of Java in UTF-8, and back. */
final class Texts {
    private Texts() {}

    /** The bytes of a text. Half of a surrogate pair becomes three bytes that are no UTF-8, and so is refused there. */
    static byte[] encoded(String text) {
        byte[] bytes = text.getBytes(StandardCharsets.UTF_8);
        // Java writes a `?` for a half. To look at each character before takes twice as long as this.
        return text.equals(decoded(bytes)) ? bytes : withHalves(text);
    }

    /** The text of these bytes, which are UTF-8; empty where there are none. */
    static String decoded(byte[] bytes) {
        return bytes == null ? "" : new String(bytes, StandardCharsets.UTF_8);
    }

    /** Where the character at a byte of the encoded text stands in the text, in units of UTF-16. */
    static int index(String text, long place) {
        int at = 0;
        long bytes = 0;
        while (at < text.length() && bytes < place) {
            int character = text.codePointAt(at);
            bytes += length(character);
            at += Character.charCount(character);
        }
        return at;
    }

    private static boolean isHalf(int character) {
        return character >= Character.MIN_SURROGATE && character <= Character.MAX_SURROGATE;
    }

    /** How many bytes a character has in UTF-8. */
    private static int length(int character) {
        if (character < 0x80) {
            return 1;
        }
        if (character < 0x800) {
            return 2;
        }
        return character < 0x10000 ? 3 : 4;
    }

    private static byte[] withHalves(String text) {
        ByteArrayOutputStream bytes = new ByteArrayOutputStream(text.length() + 2);
        text.codePoints().forEach(character -> {
            if (isHalf(character)) {
                bytes.write(0xe0 | character >> 12);
                bytes.write(0x80 | character >> 6 & 0x3f);
                bytes.write(0x80 | character & 0x3f);
            } else {
                bytes.writeBytes(Character.toString(character).getBytes(StandardCharsets.UTF_8));
            }
        });
        return bytes.toByteArray();
    }
}
