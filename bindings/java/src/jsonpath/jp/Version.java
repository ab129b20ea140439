package jsonpath.jp;

/** The version of the engine. */
public final class Version {
    private Version() {}

    /**
     * The version.
     *
     * @return as {@code 0.1.0}
     */
    public static String text() {
        int number = Engine.version();
        return (number >> 16) + "." + (number >> 8 & 255) + "." + (number & 255);
    }
}
