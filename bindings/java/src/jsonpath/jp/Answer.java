package jsonpath.jp;

import java.util.List;
import java.util.Optional;
import java.util.function.Supplier;

/** What one of many queries selects, or why it does not. */
public final class Answer {
    private final List<Node> nodes;
    private final JsonPathException refusal;

    private Answer(List<Node> nodes, JsonPathException refusal) {
        this.nodes = nodes;
        this.refusal = refusal;
    }

    /** The answer that a call gives or throws. An interrupt is no answer. */
    static Answer of(Supplier<List<Node>> call) {
        try {
            return new Answer(call.get(), null);
        } catch (InterruptedQueryException fault) {
            throw fault;
        } catch (JsonPathException fault) {
            return new Answer(null, fault);
        }
    }

    /**
     * The nodes that the query selects.
     *
     * @return the nodes, in a list that can't be changed
     * @throws JsonPathException where there is no answer
     */
    public List<Node> nodes() {
        if (refusal != null) {
            throw refusal;
        }
        return nodes;
    }

    /**
     * Why there is no answer.
     *
     * @return what {@link #nodes} throws, if it does
     */
    public Optional<JsonPathException> refusal() {
        return Optional.ofNullable(refusal);
    }
}
