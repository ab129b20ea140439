package jsonpath.jp;

/**
 * A call whose thread was interrupted while it waited for the answer. The thread is interrupted still, as
 * {@link Thread#isInterrupted} tells.
 */
public final class InterruptedQueryException extends JsonPathException {
    private static final long serialVersionUID = 1;

    InterruptedQueryException() {
        super("the thread was interrupted while it waited for an answer");
    }
}
