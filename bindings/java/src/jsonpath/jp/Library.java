package jsonpath.jp;

import java.io.IOException;
import java.io.InputStream;
import java.io.UncheckedIOException;
import java.nio.file.Files;
import java.nio.file.Path;
import java.nio.file.StandardCopyOption;

/** Loads libjpjni.so: the file that the property jsonpath.jp.library names, or a copy of the one in the archive. */
final class Library {
    private static final String PROPERTY = "jsonpath.jp.library";
    private static final String NAME = "libjpjni.so";

    private Library() {}

    static void load() {
        String named = System.getProperty(PROPERTY);
        if (named != null) {
            System.load(Path.of(named).toAbsolutePath().toString());
            return;
        }
        try {
            loadCopy();
        } catch (IOException fault) {
            throw new UncheckedIOException(NAME + " can't be copied out of the archive: set " + PROPERTY, fault);
        }
    }

    private static void loadCopy() throws IOException {
        try (InputStream inside = Library.class.getResourceAsStream(NAME)) {
            if (inside == null) {
                throw new UnsatisfiedLinkError(NAME + " is not there: run bindings/java/build, or set " + PROPERTY);
            }
            Path copy = Files.createTempFile("libjpjni", ".so");
            try {
                Files.copy(inside, copy, StandardCopyOption.REPLACE_EXISTING);
                System.load(copy.toString());
            } finally {
                // What is loaded stays where the file has no name any more.
                Files.delete(copy);
            }
        }
    }
}
