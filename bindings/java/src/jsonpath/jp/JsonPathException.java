package jsonpath.jp;

/** What is thrown where there is no answer for a query, a document or a limit. */
public abstract sealed class JsonPathException extends RuntimeException
        permits QueryException, DocumentException, LimitException, OtherNumbersException, InterruptedQueryException {
    private static final long serialVersionUID = 1;

    JsonPathException(String message) {
        super(message);
    }
}
