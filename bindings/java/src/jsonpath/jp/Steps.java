package jsonpath.jp;

import java.util.ArrayList;
import java.util.Collections;
import java.util.List;
import java.util.regex.Matcher;
import java.util.regex.Pattern;

/** The names and indexes that a normalized path is made of (RFC 9535, section 2.7). */
final class Steps {
    /** A name between quotation marks, or an index. */
    private static final Pattern STEP = Pattern.compile(
            "\\[(?:'((?:[^\\x00-\\x1f'\\\\]|\\\\(?:[btnfr'\\\\]|u00[01][0-9a-f]))*+)'|(0|[1-9][0-9]*))\\]");

    private final String path;

    Steps(String path) {
        this.path = path;
    }

    List<Step> all() {
        List<Step> steps = new ArrayList<>();
        Matcher step = STEP.matcher(path);
        int at = path.startsWith("$") ? 1 : -1;
        while (at >= 0 && at < path.length()) {
            step.region(at, path.length());
            at = step.lookingAt() ? step.end() : -1;
            if (at >= 0) {
                steps.add(step.group(1) == null ? new Step.Index(Long.parseLong(step.group(2))) : name(step.group(1)));
            }
        }
        if (at < 0) {
            throw new IllegalArgumentException("no normalized path: " + path);
        }
        return Collections.unmodifiableList(steps);
    }

    private static Step name(String spelled) {
        return new Step.Name(Escapes.meant(spelled));
    }
}
