package jsonpath.jp;

/** The escapes of JSON, which normalized paths have too. */
final class Escapes {
    private static final String LETTERS = "btnfr";
    private static final String CHARACTERS = "\b\t\n\f\r";
    private static final int DIGITS = 4;

    private Escapes() {}

    /** What a text with escapes means. */
    static String meant(String text) {
        StringBuilder meant = new StringBuilder(text.length());
        int at = 0;
        while (at < text.length()) {
            boolean isEscape = text.charAt(at) == '\\';
            boolean isCode = isEscape && text.charAt(at + 1) == 'u';
            meant.append(isCode ? code(text, at + 2) : isEscape ? letter(text.charAt(at + 1)) : text.charAt(at));
            at += isCode ? 2 + DIGITS : isEscape ? 2 : 1;
        }
        return meant.toString();
    }

    private static char code(String text, int at) {
        return (char) Integer.parseInt(text, at, at + DIGITS, 16);
    }

    private static char letter(char letter) {
        int at = LETTERS.indexOf(letter);
        return at < 0 ? letter : CHARACTERS.charAt(at);
    }
}
