package jsonpath.jp;

import java.nio.charset.StandardCharsets;
import java.util.ArrayList;
import java.util.Collections;
import java.util.List;
import java.util.Optional;

/** Lines of nodes, each of a path, a tab, a value and a newline, of which neither text has a tab or a newline. */
final class Lines {
    private final byte[] lines;
    private int at;

    Lines(byte[] lines) {
        this.lines = lines;
    }

    boolean hasNext() {
        return at < lines.length;
    }

    Node next() {
        String path = until('\t');
        return new Node(path, until('\n'));
    }

    private String until(char mark) {
        int start = at;
        while (lines[at] != mark) {
            at += 1;
        }
        at += 1;
        return new String(lines, start, at - 1 - start, StandardCharsets.UTF_8);
    }

    static List<Node> nodes(byte[] lines) {
        List<Node> nodes = new ArrayList<>();
        for (Lines rest = new Lines(lines); rest.hasNext(); ) {
            nodes.add(rest.next());
        }
        return Collections.unmodifiableList(nodes);
    }

    static Optional<Node> first(byte[] lines) {
        return lines.length == 0 ? Optional.empty() : Optional.of(new Lines(lines).next());
    }
}
