package jsonpath.jp;

import java.util.Optional;

/** A query that is refused. The message has its line with a caret, why it is refused, and a query to try. */
public final class QueryException extends JsonPathException {
    private static final long serialVersionUID = 1;

    private final QueryKind kind;
    private final long place;
    private final String query;
    private final String sentence;
    private final String suggestion;
    private final String explanation;

    QueryException(QueryKind kind, long place, String query, Outcome.Why why) {
        super(("query refused: " + kind + " at " + place + "\n" + why.explanation()).stripTrailing());
        this.kind = kind;
        this.place = place;
        this.query = query;
        sentence = why.sentence();
        suggestion = why.suggestion();
        explanation = why.explanation();
    }

    /**
     * The kind of refusal.
     *
     * @return the kind
     */
    public QueryKind kind() {
        return kind;
    }

    /**
     * The byte of the query, in UTF-8, at which it is refused, as all languages tell it.
     *
     * @return the byte, from 0; the length of the query in UTF-8 where it ends too soon
     */
    public long place() {
        return place;
    }

    /**
     * The same place as an index of {@link #query}, as {@link String#charAt} takes it.
     *
     * @return the index; the length of the query where it ends too soon
     */
    public int index() {
        return Texts.index(query, place);
    }

    /**
     * The query.
     *
     * @return its text
     */
    public String query() {
        return query;
    }

    /**
     * Why it is refused, told to whoever typed it. The wording may change.
     *
     * @return the sentence; empty of a query with half of a surrogate pair, or where memory ran out
     */
    public String sentence() {
        return sentence;
    }

    /**
     * A query that is accepted, where it is plain what was meant.
     *
     * @return the query, if there is one
     */
    public Optional<String> suggestion() {
        return Optional.ofNullable(suggestion);
    }

    /**
     * All of it for a terminal, in lines: the line of the query that holds the place, a caret below the place, the
     * sentence, and the suggestion.
     *
     * @return the lines; empty where the sentence is
     */
    public String explanation() {
        return explanation;
    }
}
